//! What the reference has for each call of the library.

use gurvazze_reference::channel_file;
use gurvazze_reference::generate::RawTable;
use gurvazze_reference::table::{Entry, Table};
use gurvazze_reference::tool::{Reading, Tool, MAX_TOTAL};
use gurvazze_reference::trial::{failing_word, WORD_BYTES};
use gurvazze_reference::values::{Kind, SetUp, Value};
use gurvazze_reference::Refusal;

/// The table of a channel file.
pub fn table(text: &[u8], to: &mut [u8]) -> Result<usize, Refusal> {
    table_of(Kind::Numbers, text, to)
}

/// The same of a file for values of this kind.
pub fn table_of(kind: Kind, text: &[u8], to: &mut [u8]) -> Result<usize, Refusal> {
    let file = channel_file::read_of(kind, text)?;
    Table::of_rule(&file.set_up, &file.rule)?.write_bytes(to)
}

/// Trial against a file, which is read once.
pub fn trial(text: &[u8], device: &RawTable, word: &mut [u8]) -> Result<usize, Refusal> {
    let file = channel_file::read(text)?;
    let table = Table::of_rule(&file.set_up, &file.rule)?;
    search(&file.set_up, &table, device, word)
}

/// Trial against a table with the library's checks, 1 to 3, 11 and 13.
pub fn trial_of_table(set_up: &SetUp, table: &RawTable, device: &RawTable, word: &mut [u8]) -> Result<usize, Refusal> {
    let set_up = SetUp::new(set_up.raw().clone())?;
    let table = table.lent().table(&set_up)?;
    search(&set_up, &table, device, word)
}

/// One search, as the library's; the reference itself makes a second one for the grade of a pass.
fn search(set_up: &SetUp, table: &Table, device: &RawTable, word: &mut [u8]) -> Result<usize, Refusal> {
    let of_device = device.lent().table(set_up)?;
    if word.len() < WORD_BYTES {
        return Err(Refusal::new(13));
    }
    let failing = failing_word(set_up, (&of_device, device.start), (table, 0)).unwrap_or_default();
    word[..failing.len()].copy_from_slice(&failing);
    Ok(failing.len())
}

/// Replay with the library's checks: the file's, 16 and 13.
pub fn replay(text: &[u8], events: &[u8], to: &mut [u8]) -> Result<(), Refusal> {
    replay_of(Kind::Numbers, text, events, to, |value| [value as u8])
}

/// The same of a file for values of this kind, each stored in so many bytes.
pub fn replay_of<const N: usize>(
    kind: Kind,
    text: &[u8],
    events: &[u8],
    to: &mut [u8],
    bytes: impl Fn(Value) -> [u8; N],
) -> Result<(), Refusal> {
    let file = channel_file::read_of(kind, text)?;
    let table = Table::of_rule(&file.set_up, &file.rule)?;
    if events.iter().any(|&event| usize::from(event) >= file.set_up.events()) {
        return Err(Refusal::new(16));
    }
    if to.len() < events.len() * N {
        return Err(Refusal::new(13));
    }
    let mut state = 0;
    for (to, &event) in to.chunks_exact_mut(N).zip(events) {
        let Entry { value, next } = table.entry(state, event.into());
        to.copy_from_slice(&bytes(value));
        state = next.into();
    }
    Ok(())
}

/// Replay on a tool with the library's checks: 17, 14 to 16, 19 and 13. Events for which there are no more pulses have
/// none. The values are stored as one asks. What the last event returns.
pub fn replay_on_tool<V>(
    tool: &mut Tool,
    channel: usize,
    events: &[u8],
    pulses: &[u32],
    to: &mut [V],
    stored: impl Fn(Value) -> V,
) -> Result<Option<Reading>, Refusal> {
    // 17, 14 and 15 are tested before 16, which refuses this event.
    let refused = tool.event(channel, usize::MAX, 0);
    if refused != Err(Refusal::new(16)) {
        return refused.map(Some);
    }
    let (width, wheel) = (tool.set_up.events, tool.wheel);
    if events.iter().any(|&event| usize::from(event) >= width) {
        return Err(Refusal::new(16));
    }
    let channel = &mut tool.channels[channel];
    let total = channel.total + pulses.iter().take(events.len()).map(|&pulses| u64::from(pulses)).sum::<u64>();
    if total > MAX_TOTAL {
        return Err(Refusal::new(19));
    }
    if to.len() < events.len() {
        return Err(Refusal::new(13));
    }
    let mut last = None;
    for (to, &event) in to.iter_mut().zip(events) {
        let Entry { value, next } = channel.entries[channel.current * width + usize::from(event)];
        *to = stored(value);
        last = Some(value);
        channel.current = next.into();
    }
    channel.total = total;
    Ok(last.map(|value| Reading { value, distance: wheel.distance(total) }))
}

/// The loop alone, with no check at all.
///
/// # Safety
/// Events and next states are those of the table, and `to` is as long as `events`.
pub unsafe fn unchecked_loop(table: &[Entry], width: usize, events: &[u8], to: &mut [u8]) {
    let mut state = 0;
    for i in 0..events.len() {
        // SAFETY: the caller's.
        unsafe {
            let entry = *table.get_unchecked(state * width + usize::from(*events.get_unchecked(i)));
            *to.get_unchecked_mut(i) = entry.value as u8;
            state = usize::from(entry.next);
        }
    }
}
