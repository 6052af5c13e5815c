//! Versions of one call held against each other on generated texts.

use gurvazze::TABLE_BYTES;
use gurvazze_reference::channel_file;
use gurvazze_reference::generate::Generator;
use gurvazze_reference::values::SetUp;
use gurvazze_reference::Refusal;

use crate::rules::{file, file_of_tokens, joined, numbers, ring};

/// The table of a channel file, or its refusal.
pub type TableOfFile = fn(&[u8], &mut [u8]) -> Result<usize, Refusal>;

/// Both versions answer the same and leave the same bytes on so many texts, good and damaged. Each refusal of a file
/// arises among them, and so do tables of more than 64 states.
pub fn check(first: TableOfFile, second: TableOfFile, texts: usize) {
    let mut generator = Generator::new(9);
    let mut met = [false; 24];
    let mut large = false;
    for _ in 0..texts {
        let text = any_text(&mut generator);
        let length = any_length(&mut generator, first, &text);
        let mut to = generator.bytes(length);
        let mut other = to.clone();
        let answer = first(&text, &mut to);
        assert_eq!(answer, second(&text, &mut other), "{}", String::from_utf8_lossy(&text));
        assert!(to == other, "{}", String::from_utf8_lossy(&text));
        met[answer.map_or_else(|refusal| usize::from(refusal.number), |_| 0)] = true;
        large |= answer.is_ok_and(|states| states > 64);
    }
    assert!(large, "no table of more than 64 states arises");
    for number in [0, 1, 2, 3, 4, 5, 6, 7, 8, 9, 10, 13, 23] {
        assert!(met[number], "{number} does not arise");
    }
}

fn any_text(generator: &mut Generator) -> Vec<u8> {
    match generator.below(11) {
        0 => generator.file(),
        1 => generator.loose_file(),
        2 => generator.damaged_file(),
        3 | 4 => {
            let set_up = generator.set_up();
            let tokens = generator.tokens(&set_up);
            file_of_tokens(set_up.raw(), &tokens)
        }
        5 => {
            let set_up = generator.set_up();
            let rule = generator.rule_of_loops(&set_up);
            channel_file::to_text(&set_up, &rule).into_bytes()
        }
        6 => file_of_tokens(&generator.damaged_set_up(), b"A T O0.0"),
        7 => {
            let set_up = generator.set_up();
            let items = any_items(generator, &set_up);
            file_of_tokens(set_up.raw(), items.as_bytes())
        }
        8 => {
            // a loop, or two joined, about the limit of 256 states
            let set_up = generator.set_up();
            let (first, second) = (generator.between(1, 20), generator.between(1, 20));
            let long = generator.between(230, 254);
            let nodes = if generator.once_in(4) { ring(long) } else { joined(&[ring(first), ring(second)]) };
            file(&set_up, &nodes)
        }
        _ => {
            let mut text = if generator.once_in(2) { generator.file() } else { generator.loose_file() };
            change_byte(generator, &mut text);
            text
        }
    }
}

/// Items of any kind, up to some 500 of them, mostly a whole tree; some are deep, to the left or to the right.
fn any_items(generator: &mut Generator, set_up: &SetUp) -> String {
    let letters = generator.one_of(&["TXGOAV", "OOGAA", "GGGGGXA", "VVVVVXGA", "VVVVVV", "AAAAAXG"]).as_bytes();
    let most = generator.between(1, 260);
    let mut items = Vec::new();
    let mut wanted = 1;
    while wanted > 0 && items.len() < most {
        let letter = char::from(generator.one_of(letters));
        let mut number = |limit| if generator.once_in(100) { limit } else { generator.below(limit) };
        let (event, value) = (number(set_up.events()), number(numbers(set_up.raw()).values));
        let binders = if generator.once_in(4) { most } else { 4 };
        items.push(match letter {
            'X' => format!("X{}", generator.below(binders)),
            'G' => format!("G{event}"),
            'O' => format!("O{event}.{value}"),
            _ => letter.to_string(),
        });
        match letter {
            'A' => wanted += 1,
            'T' | 'X' | 'O' => wanted -= 1,
            _ => {}
        }
    }
    let behind = if generator.once_in(8) { generator.below(wanted + 2) } else { wanted };
    items.extend(std::iter::repeat_n("T".to_string(), behind));
    items.join(" ")
}

/// One byte is changed in one bit, removed or inserted, often one that the text has elsewhere.
fn change_byte(generator: &mut Generator, text: &mut Vec<u8>) {
    let at = generator.below(text.len());
    let other = text[generator.below(text.len())];
    match generator.below(4) {
        0 => text[at] ^= 1 << generator.below(8),
        1 => text[at] = other,
        2 => drop(text.remove(at)),
        _ => text.insert(at, other),
    }
}

/// The length of a buffer: any, or about what the table of the text needs.
fn any_length(generator: &mut Generator, table: TableOfFile, text: &[u8]) -> usize {
    let mut to = [0; TABLE_BYTES];
    match (table(text, &mut to), channel_file::read(text)) {
        (Ok(states), Ok(file)) if !generator.once_in(4) => {
            let needed = 2 * states * file.set_up.events();
            needed - 1 + generator.one_of(&[0, 1, 1, 2, 9])
        }
        _ => generator.one_of(&[0, 7, 64, TABLE_BYTES]),
    }
}

#[cfg(test)]
mod tests {
    use super::{check, TableOfFile};
    use crate::{fast, library_table, plain};

    const TEXTS: usize = 40_000;

    #[test]
    fn fast_version_and_reference() {
        check(plain::table, fast::table, TEXTS);
    }

    #[test]
    fn fast_version_and_library() {
        let library: TableOfFile = library_table;
        check(library, fast::table, TEXTS);
    }
}
