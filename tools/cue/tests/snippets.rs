//! Texts with their books: tests/statements.txt has statements with their entries below, tests/texts.txt whole texts.
//!
//! A book's entries stand in a row, each its kind and its word if it has one; a word that names something is shown by name.
use cue::pieces::{write, Candidate};
use mivolanjy::kind::{self, Naming};
use mivolanjy::Book;

/// What stands before a statement of the first table, and in the book.
const BEFORE: &str = "
%S = type { i8, i32, i8 }
%P = type <{ i8, [2 x %S] }>
%O = type opaque
%F = type { float }
@v = global i32 0
declare i32 @h(i32)
define i32 @g(i32 %a) { ret i32 %a }
define void @f(i1 %t, i8 %a, i32 %b, i64 %c, ptr %p) {
entry: %q = cmpxchg ptr %p, i64 0, i64 0 seq_cst seq_cst
";
const HEAD: &str =
    "5 f, 10, 6 t, 11 1, 6 a, 11 8, 6 b, 11 32, 6 c, 11 64, 6 p, 12, 0, 7 entry, 80 q, 11 64, 30 p, 32 0, 32 0, ";

/// What stands behind it: behind a terminator the blocks that it may name, behind anything else the block's end.
const BLOCKS: (&str, &str) = ("y:\n ret void\nz:\n ret void\n}", ", 7 y, 90, 21, 7 z, 90, 21, 0, 0");
const END: (&str, &str) = ("ret void\n}", "90, 21, 0, 0");

#[test]
fn statements() {
    let table = include_str!("statements.txt");
    let mut rows: Vec<(&str, String)> = Vec::new();
    for line in table.lines().filter(|line| !line.is_empty() && !line.starts_with("== ")) {
        match (line.strip_prefix("    "), rows.last_mut()) {
            (Some(more), Some((_, expected))) => *expected = format!("{expected} {more}").trim().to_string(),
            _ => rows.push((line, String::new())),
        }
    }
    let wrong: Vec<String> = rows.iter().filter_map(|(statement, expected)| row(statement, expected)).collect();
    assert!(wrong.is_empty(), "{} of {} rows:\n{}", wrong.len(), rows.len(), wrong.join("\n"));
}

/// None where a statement has these entries.
fn row(statement: &str, expected: &str) -> Option<String> {
    let ends = ["ret ", "br ", "switch ", "unreachable"].iter().any(|word| statement.starts_with(word));
    let (behind, tail) = if ends { BLOCKS } else { END };
    let answer = answer(&format!("{BEFORE}{statement}\n{behind}"), Some("f"));
    let found = match answer.split_once(HEAD) {
        Some((marks, rest)) => {
            let own = rest.strip_suffix(tail).unwrap_or(rest).trim_end_matches(", ");
            let marks = marks.trim_end_matches(", ");
            if marks.is_empty() {
                own.to_string()
            } else {
                format!("{marks}; {own}")
            }
        }
        None => answer.replace("error 11:", "error ").replace("left out 11:", "left out "),
    };
    let found = if found.is_empty() { "nothing" } else { &found };
    (found != expected).then(|| format!("{statement}\n    {found}"))
}

#[test]
fn texts() {
    let table = include_str!("texts.txt");
    let rows: Vec<&str> = table.split("==== ").skip(1).collect();
    let wrong: Vec<String> = rows.iter().filter_map(|row| whole(row)).collect();
    assert!(wrong.is_empty(), "{} of {} rows:\n{}", wrong.len(), rows.len(), wrong.join("\n"));
}

/// None where a text, behind its title, has the answer that stands under it.
fn whole(row: &str) -> Option<String> {
    let (title, rest) = row.split_once('\n')?;
    let (text, expected) = rest.split_once("----\n").expect("a text ---- its answer");
    let found = answer(text, None);
    let words = |text: &str| text.split_whitespace().map(str::to_string).collect::<Vec<_>>();
    (words(&found) != words(expected)).then(|| format!("==== {title}\n{text}----\n{found}"))
}

/// The entries of the book of a text's functions, or of one of them, and what is said of those left out; or the error.
fn answer(text: &str, only: Option<&str>) -> String {
    let unit = match cue::read(text.as_bytes()) {
        Ok(unit) => unit,
        Err(fault) => return format!("error {}:{}: {}", fault.line, fault.column, fault.message),
    };
    let (mut functions, mut left_out) = (Vec::new(), Vec::new());
    for (index, definition) in unit.definitions.iter().enumerate() {
        match &definition.body {
            _ if only.is_some() && definition.name.as_deref() != only => {}
            Ok(body) => functions.push(Candidate { index, definition, body }),
            Err(why) => left_out.push((index, why.clone())),
        }
    }
    let (books, _) = write(&unit.module, &functions, &mut left_out);
    let said = left_out.iter().map(|(_, why)| format!("left out {}:{}: {}", why.spot.line, why.spot.column, why.reason));
    books.iter().map(entries).chain(said).collect::<Vec<_>>().join("\n")
}

fn entries(book: &Book) -> String {
    let names: Vec<&str> = std::str::from_utf8(book.names()).expect("names").split('\n').collect();
    book.entries().map(|(kind, word)| entry(kind, word, &names)).collect::<Vec<_>>().join(", ")
}

fn entry(kind: u64, word: u64, names: &[&str]) -> String {
    match (kind::naming(kind), kind) {
        (Naming::Name, _) => format!("{kind} {}", names[word as usize]),
        (Naming::MaybeName, _) if word > 0 => format!("{kind} {}", names[word as usize - 1]),
        (_, kind::INT | kind::ARRAY | kind::PACKED_ARRAY | kind::NUMBER) => format!("{kind} {word}"),
        (_, kind::INTEGER) => format!("{kind} {}", word as i64),
        _ => kind.to_string(),
    }
}
