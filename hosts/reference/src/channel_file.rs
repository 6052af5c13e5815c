//! Channel files of both kinds: their form (refusal 4 and its place), reading, writing, and the stretch of tokens.
//!
//! A register's "channel file has `events`, `lines`, `rule`; an O token is event.low.high, where a mask has up to five digits and document
//! 01's limit of 255 does not hold for masks; other numbers keep three digits" (document 02, F-7).

use crate::formula::{Node, Rule};
use crate::refusal::room;
use crate::values::{of_masks, Kind, RawNumbers, RawSetUp, RawValues, SetUp, Value};
use crate::Refusal;

/// "Up to 4,096 bytes".
pub const MAX_BYTES: usize = 4096;

/// A channel file that was read.
#[derive(Clone, Debug, PartialEq, Eq)]
pub struct ChannelFile {
    /// The set-up of the lines before the last.
    pub set_up: SetUp,
    /// The rule of the last line.
    pub rule: Rule,
}

/// What a text in the form says, not yet judged.
#[derive(Clone, Debug, PartialEq, Eq)]
pub struct Lines {
    /// The lines before the last. Meet entries above 255 stand as 255, too large for a value all the same.
    pub set_up: RawSetUp,
    /// The rule in bytes. Numbers above 255 stand as 255: "a number above 255 is 6 for an event or value, 8 for X", and so is
    /// 255, since there are at most 16 events and values and a variable has at most 255 binders around it. A mask of 65,536 to 99,999 is no
    /// mask of 16 bits, and 65,535 may be one of the register's, so such a node has 255 as its event: it is 6 too.
    pub rule: Vec<u8>,
    /// Where the tokens begin.
    tokens: usize,
}

/// Reads the form of document 01 alone: refusal 4.
pub fn lines(text: &[u8]) -> Result<Lines, Refusal> {
    lines_of(Kind::Numbers, text)
}

/// Reads the form for values of this kind alone: refusal 4.
pub fn lines_of(kind: Kind, text: &[u8]) -> Result<Lines, Refusal> {
    // "Over 4,096 bytes: place 4,096, tested first."
    if text.len() > MAX_BYTES {
        return Err(Refusal::at(4, MAX_BYTES));
    }
    let mut reader = Reader { text, at: 0 };
    let events = reader.number_line(b"events=")?;
    let values = match kind {
        Kind::Numbers => RawValues::Numbers(reader.numbers()?),
        Kind::Register => RawValues::Register { lines: reader.number_line(b"lines=")? },
    };
    let tokens = reader.at + b"rule=".len();
    let mut rule = Vec::new();
    reader.list_line(b"rule=", |reader| {
        reader.item(kind)?.push_bytes(kind, &mut rule);
        Ok(())
    })?;
    if reader.at < text.len() {
        return Err(reader.refusal());
    }
    Ok(Lines { set_up: RawSetUp { events, values }, rule, tokens })
}

/// Reads a channel file: refusals 4, 1 to 3, 5 to 8, 23, 9. "reading or writing a file alone makes none", so there is no 10.
pub fn read(text: &[u8]) -> Result<ChannelFile, Refusal> {
    read_of(Kind::Numbers, text)
}

/// Reads a channel file for values of this kind: for a register refusals 4, 1, 20, 5 to 8, 23, 9.
pub fn read_of(kind: Kind, text: &[u8]) -> Result<ChannelFile, Refusal> {
    let Lines { set_up, rule, .. } = lines_of(kind, text)?;
    let set_up = SetUp::new(set_up)?;
    let rule = Rule::from_bytes(&set_up, &rule)?;
    Ok(ChannelFile { set_up, rule })
}

/// The numbers of a file whose meet table and rule went into lent memory.
#[derive(Clone, Copy, Debug, PartialEq, Eq)]
pub struct Sizes {
    /// How many events.
    pub events: usize,
    /// How many values; the meet table has values × values bytes.
    pub values: usize,
    /// The top value.
    pub top: usize,
    /// How many nodes the rule has.
    pub nodes: usize,
}

/// Reads a channel file into lent memory: refusals 4, 1 to 3, 5 to 8, 23, 9, and 13 on both buffers before either is written.
pub fn read_into(text: &[u8], meet: &mut [u8], rule: &mut [u8]) -> Result<Sizes, Refusal> {
    let file = read(text)?;
    let RawSetUp { events, values: RawValues::Numbers(RawNumbers { values, top, meet: entries }) } = file.set_up.raw() else {
        unreachable!("document 01's form is one of numbers");
    };
    room(meet, entries.len())?;
    room(rule, file.rule.to_bytes().len())?;
    meet[..entries.len()].copy_from_slice(entries);
    let nodes = file.rule.write_bytes(rule)?;
    Ok(Sizes { events: *events, values: *values, top: *top, nodes })
}

/// The numbers of a register's file whose rule went into lent memory.
#[derive(Clone, Copy, Debug, PartialEq, Eq)]
pub struct RegisterSizes {
    /// How many events.
    pub events: usize,
    /// How many lines.
    pub lines: usize,
    /// How many nodes the rule has.
    pub nodes: usize,
}

/// Reads a register's channel file into lent memory: refusals 4, 1, 20, 5 to 8, 23, 9, 13.
pub fn read_register_into(text: &[u8], rule: &mut [u8]) -> Result<RegisterSizes, Refusal> {
    let file = read_of(Kind::Register, text)?;
    let RawSetUp { events, values: RawValues::Register { lines } } = *file.set_up.raw() else {
        unreachable!("the form is one of a register");
    };
    let nodes = file.rule.write_bytes(rule)?;
    Ok(RegisterSizes { events, lines, nodes })
}

/// "the rule line's tokens are handed out as a stretch of the lent text. It runs from after `rule=` to before the last byte 10,
/// and is empty for a text that 4 refuses."
pub fn tokens(text: &[u8]) -> &[u8] {
    tokens_of(Kind::Numbers, text)
}

/// The same for values of this kind.
pub fn tokens_of(kind: Kind, text: &[u8]) -> &[u8] {
    match lines_of(kind, text) {
        Ok(lines) => &text[lines.tokens..text.len() - 1],
        Err(_) => &[],
    }
}

/// The text of a channel file.
pub fn to_text(set_up: &SetUp, rule: &Rule) -> String {
    let mut text = head(set_up);
    push_items(&mut text, set_up.kind(), rule.nodes());
    text.push('\n');
    text
}

/// The text of a channel file up to its tokens.
pub fn head(set_up: &SetUp) -> String {
    let mut text = String::new();
    push_line(&mut text, "events=", [set_up.events()]);
    match &set_up.raw().values {
        RawValues::Numbers(RawNumbers { values, top, meet }) => {
            push_line(&mut text, "values=", [*values]);
            push_line(&mut text, "top=", [*top]);
            push_line(&mut text, "meet=", meet.iter().map(|&entry| entry.into()));
        }
        RawValues::Register { lines } => push_line(&mut text, "lines=", [*lines]),
    }
    text.push_str("rule=");
    text
}

/// Adds a line of numbers, one space between.
fn push_line(text: &mut String, name: &str, numbers: impl IntoIterator<Item = usize>) {
    text.push_str(name);
    for (index, number) in numbers.into_iter().enumerate() {
        if index > 0 {
            text.push(' ');
        }
        push_number(text, number);
    }
    text.push('\n');
}

/// Writes a channel file into lent memory and returns its length: refusals 1 to 3 (or 1, 20), 5 to 8, 23, 9, 13.
pub fn write(set_up: &RawSetUp, rule: &[u8], lent: &mut [u8]) -> Result<usize, Refusal> {
    let set_up = SetUp::new(set_up.clone())?;
    let text = to_text(&set_up, &Rule::from_bytes(&set_up, rule)?);
    room(lent, text.len())?;
    lent[..text.len()].copy_from_slice(text.as_bytes());
    Ok(text.len())
}

/// Adds a number in decimal.
pub(crate) fn push_number(text: &mut String, number: usize) {
    if number >= 10 {
        push_number(text, number / 10);
    }
    text.push(char::from(b'0' + (number % 10) as u8));
}

/// Adds a value: a number, or the masks of a register, may-be-low first, with this between.
pub(crate) fn push_value(text: &mut String, kind: Kind, value: Value, between: char) {
    for (index, number) in kind.numbers_of(value).into_iter().enumerate() {
        if index > 0 {
            text.push(between);
        }
        push_number(text, number);
    }
}

/// Adds the items of a rule, one space between.
pub(crate) fn push_items(text: &mut String, kind: Kind, nodes: &[Node]) {
    for (index, &node) in nodes.iter().enumerate() {
        if index > 0 {
            text.push(' ');
        }
        push_item(text, kind, node);
    }
}

/// "Rule items are T, A, V alone, X or G with one number, O with two numbers and a dot between." For a register "an O token is
/// event.low.high" (document 02, F-7).
fn push_item(text: &mut String, kind: Kind, node: Node) {
    match node {
        Node::True => text.push('T'),
        Node::Both => text.push('A'),
        Node::Greatest => text.push('V'),
        Node::Variable(index) => {
            text.push('X');
            push_number(text, index.into());
        }
        Node::After(event) => {
            text.push('G');
            push_number(text, event.into());
        }
        Node::Output(event, value) => {
            text.push('O');
            push_number(text, event.into());
            text.push('.');
            push_value(text, kind, value, '.');
        }
    }
}

/// 255 for every number above it.
fn clamp(number: usize) -> u8 {
    u8::try_from(number).unwrap_or(u8::MAX)
}

/// Goes through a text. At every point what has been read begins some text of the form, so the first byte that does not fit is
/// the place of 4: "least offset p where the first p + 1 bytes begin no text of the form, or the length if it ends early".
struct Reader<'a> {
    text: &'a [u8],
    at: usize,
}

impl Reader<'_> {
    fn refusal(&self) -> Refusal {
        Refusal::at(4, self.at)
    }

    fn peek(&self) -> Option<u8> {
        self.text.get(self.at).copied()
    }

    fn byte(&mut self, wanted: u8) -> Result<(), Refusal> {
        if self.peek() != Some(wanted) {
            return Err(self.refusal());
        }
        self.at += 1;
        Ok(())
    }

    fn name(&mut self, name: &[u8]) -> Result<(), Refusal> {
        name.iter().try_for_each(|&byte| self.byte(byte))
    }

    fn digit(&mut self) -> Option<usize> {
        let digit = self.peek().filter(u8::is_ascii_digit)?;
        self.at += 1;
        Some(usize::from(digit - b'0'))
    }

    /// "Numbers have one to three digits, no leading zero".
    fn number(&mut self) -> Result<usize, Refusal> {
        self.number_of_digits(3)
    }

    /// A mask: "a mask has up to five digits" (document 02, F-7).
    fn mask(&mut self) -> Result<usize, Refusal> {
        self.number_of_digits(5)
    }

    /// One digit to so many, no leading zero.
    fn number_of_digits(&mut self, most: usize) -> Result<usize, Refusal> {
        let mut number = self.digit().ok_or(self.refusal())?;
        if number == 0 {
            return Ok(0);
        }
        for _ in 1..most {
            match self.digit() {
                Some(digit) => number = 10 * number + digit,
                None => break,
            }
        }
        Ok(number)
    }

    fn number_line(&mut self, name: &[u8]) -> Result<usize, Refusal> {
        self.name(name)?;
        let number = self.number()?;
        self.byte(b'\n')?;
        Ok(number)
    }

    /// "one space between items; meet and rule have at least one item".
    fn list_line(&mut self, name: &[u8], mut item: impl FnMut(&mut Self) -> Result<(), Refusal>) -> Result<(), Refusal> {
        self.name(name)?;
        loop {
            item(self)?;
            match self.peek() {
                Some(b' ') => self.at += 1,
                _ => return self.byte(b'\n'),
            }
        }
    }

    /// The lines of document 01's values.
    fn numbers(&mut self) -> Result<RawNumbers, Refusal> {
        let values = self.number_line(b"values=")?;
        let top = self.number_line(b"top=")?;
        let mut meet = Vec::new();
        self.list_line(b"meet=", |reader| {
            meet.push(clamp(reader.number()?));
            Ok(())
        })?;
        Ok(RawNumbers { values, top, meet })
    }

    /// A rule item as a node.
    fn item(&mut self, kind: Kind) -> Result<Node, Refusal> {
        let Some(letter @ (b'T' | b'X' | b'G' | b'O' | b'A' | b'V')) = self.peek() else {
            return Err(self.refusal());
        };
        self.at += 1;
        Ok(match letter {
            b'T' => Node::True,
            b'X' => Node::Variable(clamp(self.number()?)),
            b'G' => Node::After(clamp(self.number()?)),
            b'O' => self.output(kind)?,
            b'A' => Node::Both,
            _ => Node::Greatest,
        })
    }

    /// An O token behind its letter.
    fn output(&mut self, kind: Kind) -> Result<Node, Refusal> {
        let event = clamp(self.number()?);
        self.byte(b'.')?;
        match kind {
            Kind::Numbers => Ok(Node::Output(event, clamp(self.number()?).into())),
            Kind::Register => {
                let low = self.mask()?;
                self.byte(b'.')?;
                let high = self.mask()?;
                Ok(match (u16::try_from(low), u16::try_from(high)) {
                    (Ok(low), Ok(high)) => Node::Output(event, of_masks(low, high)),
                    _ => Node::Output(u8::MAX, 0),
                })
            }
        }
    }
}
