//! A book file for people.
use crate::book::{kind, Slices};

/// Names for people: their characters, or their bytes where these are no UTF-8.
pub fn bytes(names: &[u8]) -> String {
    match std::str::from_utf8(names) {
        Ok(names) => format!("{names:?}"),
        Err(_) => format!("bytes \"{}\"", names.escape_ascii()),
    }
}

pub fn show(file: &[u8]) {
    let Some(slices) = Slices::from_file(file) else {
        println!("the file ends inside the book");
        return;
    };
    let names: Vec<String> = slices.names.split(|byte| *byte == 10).map(bytes).collect();
    let count = slices.book[0] as usize;
    println!("{count} entries, {} names", slices.book[1]);
    for place in 0..count {
        let (kind, word) = (slices.book[2 + place], slices.book[2 + count + place]);
        let number = match kind {
            kind::DEFINED..=kind::NAMED_STRUCT
            | kind::FUNCTION
            | kind::BLOCK
            | kind::NAMED
            | kind::TARGET
            | kind::LOCAL
            | kind::GLOBAL => Some(word),
            kind::PARAM | kind::BIN..=kind::FENCE => word.checked_sub(1),
            _ => None,
        };
        let name = number.and_then(|number| names.get(number as usize));
        let name = name.map_or(String::new(), |name| format!("  {name}"));
        println!("{place:>6} {kind:>3} {word}{name}");
    }
}
