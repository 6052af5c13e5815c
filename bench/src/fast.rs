//! The table of a channel file once more, written for speed: one pass over the text, which also judges the rule and
//! gathers demands, then a walk over the states. Arrays of fixed size on the stack; sets of nodes are four words. The
//! answers, places and bytes are those of the reference.

use gurvazze_reference::Refusal;

const TEXT_LIMIT: usize = 4096;
const NODE_LIMIT: usize = 256;
const BINDER_LIMIT: usize = 12;
const EVENT_LIMIT: usize = 16;
const VALUE_LIMIT: usize = 16;
/// States that most tables have room for, and those that a table may have; for each as many buckets, a power of two.
const FEW_STATES: usize = 64;
const FEW_BUCKETS: usize = 128;
const STATE_LIMIT: usize = 256;
const BUCKETS: usize = 512;

/// No such place.
const NONE: usize = usize::MAX;

/// Node numbers, one bit each.
type Set = [u64; 4];
const EMPTY: Set = [0; 4];

/// Values, one bit each.
type Values = u16;

/// Numbers of states, by state and then event.
type Nexts<const S: usize> = [[u8; EVENT_LIMIT]; S];

/// The table of a channel file's rule goes into `to`; returns its number of states. Refusals 4, 1 to 3, 5 to 8, 23, 9,
/// 10, 13.
#[inline(never)]
pub fn table(text: &[u8], to: &mut [u8]) -> Result<usize, Refusal> {
    if text.len() > TEXT_LIMIT {
        return Err(Refusal::at(4, TEXT_LIMIT));
    }
    let mut reader = Reader { text, at: 0 };
    let mut set_up = SetUp::NONE;
    if reader.set_up(&mut set_up).is_none() {
        return Err(Refusal::at(4, reader.at));
    }
    // Smaller arrays serve a short rule: an item and what stands behind it are at least two bytes.
    let items = text.len().saturating_sub(reader.at + b"rule=".len()).div_ceil(2);
    match items {
        0..=16 => table_within::<16>(reader, &set_up, to),
        17..=64 => table_within::<64>(reader, &set_up, to),
        _ => table_within::<NODE_LIMIT>(reader, &set_up, to),
    }
}

#[inline(never)]
fn table_within<const N: usize>(reader: Reader<'_>, set_up: &SetUp, to: &mut [u8]) -> Result<usize, Refusal> {
    let mut rule = Rule::<N>::NONE;
    read(reader, set_up, &mut rule)?;
    let mut nexts = [[0; EVENT_LIMIT]; FEW_STATES];
    let mut states = States::<FEW_STATES, FEW_BUCKETS>::NONE;
    states.number(&rule.demands[0]).expect("there is room for one");
    match explore(&rule, set_up.events, &mut states, &mut nexts, 0) {
        Ok(()) => finish(&rule, set_up, &states, &nexts, to),
        Err(Full(done)) => table_of_many(&rule, set_up, &states, &nexts, done, to),
    }
}

/// Goes on from a state, of a table of more than a few.
#[inline(never)]
fn table_of_many<const N: usize>(
    rule: &Rule<N>,
    set_up: &SetUp,
    few: &States<FEW_STATES, FEW_BUCKETS>,
    few_nexts: &Nexts<FEW_STATES>,
    done: usize,
    to: &mut [u8],
) -> Result<usize, Refusal> {
    let mut nexts = [[0; EVENT_LIMIT]; STATE_LIMIT];
    nexts[..FEW_STATES].copy_from_slice(few_nexts);
    let mut states = few.grown();
    explore(rule, set_up.events, &mut states, &mut nexts, done).map_err(|_| Refusal::new(10))?;
    finish(rule, set_up, &states, &nexts, to)
}

#[inline(always)]
fn finish<const N: usize, const S: usize, const B: usize>(
    rule: &Rule<N>,
    set_up: &SetUp,
    states: &States<S, B>,
    nexts: &Nexts<S>,
    to: &mut [u8],
) -> Result<usize, Refusal> {
    let needed = 2 * states.count * set_up.events;
    if to.len() < needed {
        return Err(Refusal::new(13));
    }
    store(rule, set_up, states, nexts, &mut to[..needed]);
    Ok(states.count)
}

/// How many states a channel file's rule has, and how many nodes these have all together.
pub fn sizes(text: &[u8]) -> Result<(usize, usize), Refusal> {
    let mut reader = Reader { text, at: 0 };
    let mut set_up = SetUp::NONE;
    if reader.set_up(&mut set_up).is_none() {
        return Err(Refusal::at(4, reader.at));
    }
    let mut rule = Rule::<NODE_LIMIT>::NONE;
    read(reader, &set_up, &mut rule)?;
    let mut states = States::<STATE_LIMIT, BUCKETS>::NONE;
    states.number(&rule.demands[0]).expect("there is room for one");
    let mut nexts = [[0; EVENT_LIMIT]; STATE_LIMIT];
    explore(&rule, set_up.events, &mut states, &mut nexts, 0).map_err(|_| Refusal::new(10))?;
    let nodes = states.sets[..states.count].iter().flatten().map(|word| word.count_ones() as usize).sum();
    Ok((states.count, nodes))
}

// Reading.

/// Reads the rule's line and judges the file: 4, 1 to 3, 5 to 8, 23, 9.
#[inline(always)]
fn read<const N: usize>(mut reader: Reader<'_>, set_up: &SetUp, rule: &mut Rule<N>) -> Result<(), Refusal> {
    let Some(shape) = reader.rule(set_up, rule) else {
        return Err(Refusal::at(4, reader.at));
    };
    set_up.judge()?;
    shape.judge()?;
    rule.settle(shape.variables);
    Ok(())
}

/// Goes through a text. Where it answers nothing it stands at the first byte that does not fit, the place of 4.
struct Reader<'a> {
    text: &'a [u8],
    at: usize,
}

impl Reader<'_> {
    /// The byte here; behind the end one that fits nowhere.
    #[inline(always)]
    fn peek(&self) -> u8 {
        self.text.get(self.at).copied().unwrap_or(0)
    }

    #[inline(always)]
    fn byte(&mut self, wanted: u8) -> Option<()> {
        if self.peek() != wanted {
            return None;
        }
        self.at += 1;
        Some(())
    }

    #[inline(always)]
    fn name(&mut self, name: &[u8]) -> Option<()> {
        let rest = self.text.get(self.at..).unwrap_or_default();
        if rest.starts_with(name) {
            self.at += name.len();
            return Some(());
        }
        self.at += rest.iter().zip(name).take_while(|(byte, wanted)| byte == wanted).count();
        None
    }

    #[inline(always)]
    fn digit(&mut self) -> Option<usize> {
        let digit = self.peek().wrapping_sub(b'0');
        if digit > 9 {
            return None;
        }
        self.at += 1;
        Some(usize::from(digit))
    }

    /// One to three digits, no leading zero.
    #[inline(always)]
    fn number(&mut self) -> Option<usize> {
        let first = self.digit()?;
        if first == 0 {
            return Some(0);
        }
        let Some(second) = self.digit() else {
            return Some(first);
        };
        let Some(third) = self.digit() else {
            return Some(10 * first + second);
        };
        Some(100 * first + 10 * second + third)
    }

    #[inline(always)]
    fn number_line(&mut self, name: &[u8]) -> Option<usize> {
        self.name(name)?;
        let number = self.number()?;
        self.byte(b'\n')?;
        Some(number)
    }

    /// After an item: whether another one follows on the line.
    #[inline(always)]
    fn another(&mut self) -> Option<bool> {
        let byte = self.peek();
        if byte != b' ' && byte != b'\n' {
            return None;
        }
        self.at += 1;
        Some(byte == b' ')
    }

    /// The first four lines.
    #[inline(always)]
    fn set_up(&mut self, set_up: &mut SetUp) -> Option<()> {
        set_up.events = self.number_line(b"events=")?;
        let values = self.number_line(b"values=")?;
        set_up.top = self.number_line(b"top=")?;
        self.name(b"meet=")?;
        let (mut entries, mut largest) = (0, 0);
        let (mut row, mut column) = (0, 0);
        loop {
            let entry = self.number()?;
            entries += 1;
            largest = largest.max(entry);
            // Where there are too many they are stored anywhere, since 3 refuses them.
            set_up.meet[row % VALUE_LIMIT][column % VALUE_LIMIT] = entry as u8;
            column += 1;
            if column == values {
                (row, column) = (row + 1, 0);
            }
            if !self.another()? {
                break;
            }
        }
        (set_up.values, set_up.entries, set_up.largest) = (values, entries, largest);
        Some(())
    }

    /// The rule's line. What is found of 8, 9 and 23 counts only where 5 to 7 do not refuse the rule, so nodes that are
    /// too many may be stored anywhere.
    #[inline(always)]
    fn rule<const N: usize>(&mut self, set_up: &SetUp, rule: &mut Rule<N>) -> Option<Shape> {
        self.name(b"rule=")?;
        let mut shape = Shape::NONE;
        // Where the next node stands, and where the second parts of the open A nodes do.
        let mut here = Position { set: 0, binders: 0, near: 0 };
        let mut waiting = [here; N];
        let mut open = 0;
        // The V nodes on the path.
        let mut path = [0; N];
        loop {
            let node = shape.count;
            let mut is_leaf = true;
            let letter = self.peek();
            self.at += 1;
            match letter {
                b'T' => {}
                b'A' => {
                    waiting[open % N] = here;
                    open += 1;
                    is_leaf = false;
                }
                b'O' => {
                    let event = self.number()?;
                    self.byte(b'.')?;
                    let value = self.number()?;
                    if event >= set_up.events || value >= set_up.values {
                        shape.unknown = shape.unknown.min(node);
                    }
                    rule.fields[node % N] = (event << 4 | value) as u8;
                    add(&mut rule.outputs, node);
                    add(&mut rule.demands[usize::from(here.set) % N], node);
                }
                b'G' => {
                    let event = self.number()?;
                    if event >= set_up.events {
                        shape.unknown = shape.unknown.min(node);
                    }
                    rule.fields[node % N] = event as u8;
                    add(&mut rule.after, node);
                    add(&mut rule.demands[usize::from(here.set) % N], node);
                    here.set = (node + 1) as u8;
                    here.near = 0;
                    is_leaf = false;
                }
                b'X' => {
                    let index = self.number()?;
                    if index >= usize::from(here.binders) {
                        shape.unbound = shape.unbound.min(node);
                    } else if index < usize::from(here.near) {
                        shape.bare = shape.bare.min(node);
                    } else {
                        let binder = path[(usize::from(here.binders) - 1 - index) % N];
                        add(&mut rule.demands[usize::from(here.set) % N], usize::from(binder));
                        shape.variables = true;
                    }
                }
                b'V' => {
                    path[usize::from(here.binders) % N] = node as u8;
                    rule.fields[node % N] = here.set;
                    add(&mut rule.binders, node);
                    here.set = (node + 1) as u8;
                    here.binders = here.binders.wrapping_add(1);
                    here.near = here.near.wrapping_add(1);
                    shape.deepest = shape.deepest.max(here.binders);
                    is_leaf = false;
                }
                _ => {
                    self.at -= 1;
                    return None;
                }
            }
            shape.count += 1;
            if is_leaf {
                if open > 0 {
                    open -= 1;
                    here = waiting[open % N];
                } else if shape.whole == 0 {
                    shape.whole = shape.count;
                }
            }
            if !self.another()? {
                break;
            }
        }
        if self.at < self.text.len() {
            return None;
        }
        Some(shape)
    }
}

/// Where a node stands.
#[derive(Clone, Copy)]
struct Position {
    /// The set of demands that it belongs to.
    set: u8,
    /// How many binders are around it.
    binders: u8,
    /// How many of them have no G between them and the node.
    near: u8,
}

/// A set-up as it was read.
struct SetUp {
    events: usize,
    values: usize,
    top: usize,
    meet: [[u8; VALUE_LIMIT]; VALUE_LIMIT],
    /// How many entries the meet table has, and the largest.
    entries: usize,
    largest: usize,
}

impl SetUp {
    const NONE: SetUp = {
        let meet = [[0; VALUE_LIMIT]; VALUE_LIMIT];
        SetUp { events: 0, values: 0, top: 0, meet, entries: 0, largest: 0 }
    };

    /// 1 to 3.
    #[inline(always)]
    fn judge(&self) -> Result<(), Refusal> {
        if !(1..=EVENT_LIMIT).contains(&self.events) {
            return Err(Refusal::new(1));
        }
        if !(1..=VALUE_LIMIT).contains(&self.values) || self.top >= self.values {
            return Err(Refusal::new(2));
        }
        if self.entries != self.values * self.values || self.largest >= self.values || !self.is_lawful() {
            return Err(Refusal::new(3));
        }
        Ok(())
    }

    /// Meet is idempotent and commutative, top is neutral, and at or below a meet are the values at or below both.
    /// Given the first two, this is associativity: both ways of bracketing have the same values at or below them, so
    /// that each is at or below the other.
    #[inline(always)]
    fn is_lawful(&self) -> bool {
        let meet = |b: usize, c: usize| usize::from(self.meet[b % VALUE_LIMIT][c % VALUE_LIMIT]);
        let mut below: [Values; VALUE_LIMIT] = [0; VALUE_LIMIT];
        for b in 0..self.values {
            if meet(b, b) != b || meet(b, self.top) != b {
                return false;
            }
            for c in 0..self.values {
                below[b % VALUE_LIMIT] |= Values::from(meet(b, c) == c) << c;
            }
        }
        for b in 1..self.values {
            for c in 0..b {
                let both = below[b % VALUE_LIMIT] & below[c];
                if meet(b, c) != meet(c, b) || below[meet(b, c) % VALUE_LIMIT] != both {
                    return false;
                }
            }
        }
        true
    }
}

/// What the rule's line says beside its nodes.
struct Shape {
    /// How many nodes there are, and how many the tree has that begins with the first; 0 where it does not end.
    count: usize,
    whole: usize,
    /// The lowest places of 6, 8 and 9.
    unknown: usize,
    unbound: usize,
    bare: usize,
    /// The most V nodes on a path.
    deepest: u8,
    /// Whether there is a variable.
    variables: bool,
}

impl Shape {
    const NONE: Shape = {
        let (unknown, unbound, bare) = (NONE, NONE, NONE);
        Shape { count: 0, whole: 0, unknown, unbound, bare, deepest: 0, variables: false }
    };

    /// 5 to 8, 23, 9.
    #[inline(always)]
    fn judge(&self) -> Result<(), Refusal> {
        if self.count > NODE_LIMIT {
            return Err(Refusal::new(5));
        }
        if self.unknown != NONE {
            return Err(Refusal::at(6, self.unknown));
        }
        if self.whole != self.count {
            return Err(Refusal::at(7, if self.whole == 0 { self.count } else { self.whole }));
        }
        if self.unbound != NONE {
            return Err(Refusal::at(8, self.unbound));
        }
        if usize::from(self.deepest) > BINDER_LIMIT {
            return Err(Refusal::new(23));
        }
        if self.bare != NONE {
            return Err(Refusal::at(9, self.bare));
        }
        Ok(())
    }
}

/// A rule of up to N nodes.
struct Rule<const N: usize> {
    /// G: its event. O: 16 times its event, and its value. V: where the set of demands stands that it belongs to.
    fields: [u8; N],
    /// At 0 the demands of the root; at the number after a G or V those of its part. While the text is read they lack
    /// those of V nodes, and for a variable they have the number of its binder.
    demands: [Set; N],
    after: Set,
    outputs: Set,
    binders: Set,
}

impl<const N: usize> Rule<N> {
    /// How many words of a set may have members.
    const WORDS: usize = N.div_ceil(64);

    const NONE: Rule<N> = Rule { fields: [0; N], demands: [EMPTY; N], after: EMPTY, outputs: EMPTY, binders: EMPTY };

    /// Completes the demands. Those of a V go into the set that it belongs to, inner ones first. Then each binder's
    /// number gives way to its demands, in rising order: a G lies between a variable and its binder, so that the
    /// binder's set stands before those which have its number, and is complete.
    #[inline(always)]
    fn settle(&mut self, variables: bool) {
        for (index, &word) in self.binders.iter().enumerate().rev() {
            let mut rest = word;
            while rest != 0 {
                let bit = 63 - rest.leading_zeros() as usize;
                rest ^= 1 << bit;
                let binder = 64 * index + bit;
                let part = self.demands[(binder + 1) % N];
                unite(&mut self.demands[usize::from(self.fields[binder % N]) % N], &part);
            }
        }
        if !variables {
            return;
        }
        for index in 0..4 {
            for bit in members(self.after[index] | self.binders[index]) {
                let place = (64 * index + bit + 1) % N;
                let mut set = self.demands[place];
                let mut own = EMPTY;
                for word in 0..4 {
                    own[word] = set[word] & self.binders[word];
                    set[word] ^= own[word];
                }
                if own == EMPTY {
                    continue;
                }
                for (index, &word) in own.iter().enumerate() {
                    for bit in members(word) {
                        unite(&mut set, &self.demands[(64 * index + bit + 1) % N]);
                    }
                }
                self.demands[place] = set;
            }
        }
    }
}

#[inline(always)]
fn add(set: &mut Set, node: usize) {
    set[node / 64 % 4] |= 1 << (node % 64);
}

#[inline(always)]
fn unite(set: &mut Set, other: &Set) {
    for (word, other) in set.iter_mut().zip(other) {
        *word |= other;
    }
}

/// The numbers of the bits of a word, rising.
#[inline(always)]
fn members(mut word: u64) -> impl Iterator<Item = usize> {
    std::iter::from_fn(move || {
        if word == 0 {
            return None;
        }
        let bit = word.trailing_zeros() as usize;
        word &= word - 1;
        Some(bit)
    })
}

// The walk over states.

/// The states that were found, in arrays for S of them and B buckets.
struct States<const S: usize, const B: usize> {
    sets: [Set; S],
    count: usize,
    /// By hash the number of a state and one; 0 where there is none.
    buckets: [u16; B],
}

/// There is no room for one more state: the next states of this one are not known.
struct Full(usize);

impl States<FEW_STATES, FEW_BUCKETS> {
    /// The same states in arrays for more.
    fn grown(&self) -> States<STATE_LIMIT, BUCKETS> {
        let mut grown = States::NONE;
        for set in &self.sets[..self.count] {
            grown.number(set);
        }
        grown
    }
}

impl<const S: usize, const B: usize> States<S, B> {
    const NONE: States<S, B> = States { sets: [EMPTY; S], count: 0, buckets: [0; B] };

    /// The number of a state, which is added where it is new; nothing where there is no room.
    #[inline(always)]
    fn number(&mut self, set: &Set) -> Option<u8> {
        let mut bucket = hash::<B>(set);
        loop {
            let found = self.buckets[bucket];
            if found == 0 {
                break;
            }
            if self.sets[(usize::from(found) - 1) % S] == *set {
                return Some((found - 1) as u8);
            }
            bucket = (bucket + 1) % B;
        }
        if self.count == S {
            return None;
        }
        let number = self.count as u8;
        self.sets[self.count] = *set;
        self.count += 1;
        self.buckets[bucket] = self.count as u16;
        Some(number)
    }
}

#[inline(always)]
fn hash<const B: usize>(set: &Set) -> usize {
    let mixed = set[0].wrapping_mul(0x9e37_79b9_7f4a_7c15)
        ^ set[1].wrapping_mul(0xbf58_476d_1ce4_e5b9)
        ^ set[2].wrapping_mul(0x94d0_49bb_1331_11eb)
        ^ set[3].wrapping_mul(0x2545_f491_4f6c_dd1d);
    (mixed >> (64 - B.ilog2())) as usize
}

/// The states in order, and the next state of each on each event, from a state on.
#[inline(always)]
fn explore<const N: usize, const S: usize, const B: usize>(
    rule: &Rule<N>,
    events: usize,
    states: &mut States<S, B>,
    to: &mut Nexts<S>,
    from: usize,
) -> Result<(), Full> {
    // The next sets of a state, and the events that have a G node in it; the sets of the others are empty.
    let mut sets = [EMPTY; EVENT_LIMIT];
    let mut empty = None;
    let mut done = from;
    while done < states.count {
        let state = states.sets[done % S];
        let mut met = 0u32;
        for (index, (word, after)) in state.iter().zip(rule.after).enumerate().take(Rule::<N>::WORDS) {
            for bit in members(word & after) {
                let node = 64 * index + bit;
                // With one event the set stays in registers.
                let event = if events == 1 { 0 } else { usize::from(rule.fields[node % N]) % EVENT_LIMIT };
                unite(&mut sets[event], &rule.demands[(node + 1) % N]);
                met |= 1 << event;
            }
        }
        for (event, next) in to[done % S][..events].iter_mut().enumerate() {
            *next = if met >> event & 1 == 1 {
                let set = std::mem::take(&mut sets[event % EVENT_LIMIT]);
                states.number(&set).ok_or(Full(done))?
            } else if let Some(number) = empty {
                number
            } else {
                *empty.insert(states.number(&EMPTY).ok_or(Full(done))?)
            };
        }
        done += 1;
    }
    Ok(())
}

/// Values and next states, by state and then event.
#[inline(always)]
fn store<const N: usize, const S: usize, const B: usize>(
    rule: &Rule<N>,
    set_up: &SetUp,
    states: &States<S, B>,
    nexts: &Nexts<S>,
    to: &mut [u8],
) {
    let top = set_up.top as u8;
    let meet = |value: u8, other: usize| set_up.meet[usize::from(value) % VALUE_LIMIT][other % VALUE_LIMIT];
    let rows = to.chunks_exact_mut(2 * set_up.events).zip(nexts);
    for (state, (row, nexts)) in states.sets.iter().zip(rows) {
        for (entry, next) in row.chunks_exact_mut(2).zip(nexts) {
            entry.copy_from_slice(&[top, *next]);
        }
        // The values of each event's O nodes, one bit each, sixteen for an event.
        let mut met = EMPTY;
        for (index, (word, outputs)) in state.iter().zip(rule.outputs).enumerate().take(Rule::<N>::WORDS) {
            for bit in members(word & outputs) {
                let field = rule.fields[(64 * index + bit) % N];
                add(&mut met, usize::from(if set_up.events == 1 { field % 16 } else { field }));
            }
        }
        if met == EMPTY {
            continue;
        }
        for (event, entry) in row.chunks_exact_mut(2).enumerate() {
            let values = (met[event / 4 % 4] >> (event % 4 * VALUE_LIMIT)) as Values;
            entry[0] = members(values.into()).fold(top, meet);
        }
    }
}
