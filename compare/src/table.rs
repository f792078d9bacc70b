//! Writes a checked table of crates/lowering: random books from raw entries to text bytes, with the published Rust's answers.
use crate::book::Slices;
use crate::expect::{expected, Expected};
use crate::runs;
use std::fmt::Write as _;

/// The refusals that the Rust gives, and 7; 8 takes a book with 65,000 slots.
const REFUSALS: [u8; 14] = [5, 6, 7, 9, 10, 11, 12, 13, 14, 15, 16, 17, 18, 19];

/// How many entries a book of the table has.
const ENTRIES: std::ops::RangeInclusive<u64> = 12..=64;

/// One of so many books is a given refusal.
const REFUSED: u64 = 20;

/// How long a row of the file may be.
const WIDTH: usize = 160;

/// The first books of this seed that are small enough: as many of each refusal, the rest accepted.
pub fn write(seed: u64, count: u64, file: &str) -> Result<(), String> {
    let mut wanted = [0; 22];
    REFUSALS.iter().for_each(|number| wanted[*number as usize] = count / REFUSED);
    wanted[0] = count - wanted.iter().sum::<u64>();

    let mut rows = vec![];
    for index in 0.. {
        if wanted.iter().all(|left| *left == 0) {
            break;
        }
        let mut lent = runs::plain(seed, index);
        lent.counter = 0;
        if !ENTRIES.contains(&lent.slices.book[0]) || lent.slices.names.iter().any(|byte| b"\"\\".contains(byte)) {
            continue;
        }
        let answer = expected(&lent).map_err(|error| format!("seed {seed}, book {index}: {error}"))?;
        let number = match answer {
            Expected::Refused(number) => number,
            _ => 0,
        };
        let Some(says) = says(&answer) else { continue };
        if wanted[number as usize] > 0 {
            wanted[number as usize] -= 1;
            rows.push(Row { title: index.to_string(), slices: lent.slices, says });
        }
    }
    std::fs::write(file, named(&head(seed, count), "vectors", &rows, &[])).map_err(|error| format!("{file}: {error}"))
}

fn head(seed: u64, count: u64) -> String {
    format!(
        "-- Random books, from raw entries to text bytes, with the answers of the published Rust: one table, one theorem. Written by
-- `compare table {seed} {count} FILE`; the number over a book is its index under seed {seed}.
"
    )
}

/// A book with its answer, under a title.
pub struct Row {
    pub title: String,
    pub slices: Slices,
    pub says: String,
}

/// An answer as a table has it; none where it is open.
pub fn says(answer: &Expected) -> Option<String> {
    match answer {
        Expected::Accepted(accepted) => {
            let lines = strings(accepted.lines.iter().map(String::as_str));
            Some(format!("Answer.text (unlines (\n{}) {}", rows(10, &lines, ")"), accepted.next))
        }
        Expected::Refused(number) => Some(format!("Answer.refusal {number}")),
        Expected::Open(_) => None,
    }
}

/// A file with one table of this name and one theorem, and the same again for books at the largest counter, if there are any; `head` stands
/// over it.
pub fn named(head: &str, name: &str, rows: &[Row], largest: &[Row]) -> String {
    let power = if largest.is_empty() { "" } else { "◌^◌, " };
    let at = if largest.is_empty() { "" } else { " answers_at," };
    let file = format!(
        "{head}use Rattle.std.specs.Prelude.{{{power}◌≡◌, refl, List, [], ◌∷◌, map}}
use Rattle.assembly.specs.Cases.{{unlines}}
use Rattle.lowering.specs.Sheet.{{Sheet, Answer,{at} answers, says_of, open_sheet}}
"
    );
    let first = theorem(name, "answers", rows);
    if largest.is_empty() {
        return file + &first;
    }
    file + &first + "\n-- at the largest counter, so that only a later function begins above it" + &theorem("largest", "(answers_at (2 ^ 32))", largest)
}

/// A table, and the theorem that its books have these answers.
fn theorem(name: &str, answers: &str, rows: &[Row]) -> String {
    let mut table = format!("\nunfoldable pub {name} : List Sheet\n{name} =\n");
    rows.iter().for_each(|row| sheet(&mut table, &row.title, &row.slices, &row.says));
    let _ = write!(
        table,
        "    []\n\npub {name}_hold : map {answers} {name} ≡ map says_of {name}\nunfolding open_sheet {name}\n{name}_hold = refl\n"
    );
    table
}

fn sheet(table: &mut String, title: &str, slices: &Slices, says: &str) {
    let count = slices.book[0] as usize;
    let entries: Vec<String> = (0..count).map(|place| format!("({}, {})", slices.book[2 + place], slices.book[2 + count + place])).collect();
    // The definitions read a quoted text as one byte for each character.
    assert!(slices.names.is_ascii(), "{title}: a table's names are in ASCII");
    let names = std::str::from_utf8(&slices.names).expect("ASCII");
    let names = strings(names.lines());
    let _ = write!(
        table,
        "    -- {title}\n    record {{\n      entries =\n{};\n      names =\n{};\n      says = {says};\n    }} ∷\n",
        rows(10, &entries, ""),
        rows(10, &names, ""),
    );
}

fn strings<'a>(items: impl Iterator<Item = &'a str>) -> Vec<String> {
    items.map(|item| format!("\"{item}\"")).collect()
}

/// A list in rows, so many columns in; `end` stands behind it.
fn rows(indent: usize, items: &[String], end: &str) -> String {
    let margin = " ".repeat(indent);
    let mut rows = margin.clone();
    let mut row = indent;
    for (place, item) in items.iter().map(String::as_str).chain(["[]"]).enumerate() {
        let width = item.chars().count() + 3;
        if row + width > WIDTH {
            rows += "\n";
            rows += &margin;
            rows += "∷ ";
            row = indent + 2;
        } else if place > 0 {
            rows += " ∷ ";
        }
        rows += item;
        row += width;
    }
    rows + end
}
