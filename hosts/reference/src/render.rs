//! What the programs print.

use crate::channel_file::{self, push_number, push_value, ChannelFile};
use crate::table::Table;
use crate::values::Kind;
use crate::Refusal;

/// The lines of a table: events, states, and a row for each entry. "A row is state, event, value, next state." The value of a register is
/// two numbers, may-be-low and may-be-high.
pub fn table(table: &Table) -> String {
    let mut text = String::with_capacity(32 + 18 * table.entries().len());
    text.push_str("events=");
    push_number(&mut text, table.events());
    text.push_str("\nstates=");
    push_number(&mut text, table.states());
    text.push('\n');
    for (index, entry) in table.entries().iter().enumerate() {
        text.push_str("row=");
        push_number(&mut text, index / table.events());
        text.push(' ');
        push_number(&mut text, index % table.events());
        text.push(' ');
        push_value(&mut text, table.kind(), entry.value, ' ');
        text.push(' ');
        push_number(&mut text, entry.next.into());
        text.push('\n');
    }
    text
}

/// "the single line `refused=` with the number and, if there is a place, a space and the place".
pub fn refusal(refusal: Refusal) -> String {
    format!("refused={refusal}\n")
}

/// What the program prints for the text on its standard input: the rule's table, or the refusal (4, 1 to 3, 5 to 8, 23, 9, 10).
pub fn program(text: &[u8]) -> String {
    program_of(Kind::Numbers, text)
}

/// The same of a program that reads files for values of this kind: for a register refusals 4, 1, 20, 5 to 8, 23, 9, 10.
pub fn program_of(kind: Kind, text: &[u8]) -> String {
    let made = channel_file::read_of(kind, text).and_then(|ChannelFile { set_up, rule }| Table::of_rule(&set_up, &rule));
    match made {
        Ok(made) => table(&made),
        Err(refused) => refusal(refused),
    }
}
