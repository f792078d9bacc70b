//! Compares the definition of the translation (crates/lowering) with the published Rust by computation. Each book becomes an
//! equation between the definition's answer and the Rust's in a scratch repository under target/, and `rt` checks it.
use crate::book::Lent;
use crate::expect::{expected, Expected};
use crate::runs;
use crate::scratch::{numbers, Scratch};
use crate::written::faulty;

const SCRATCH: Scratch = Scratch {
    name: "definitions",
    crates: &["numbers", "names", "book", "layout", "assembly", "lowering"],
    module: None,
    head: HEAD,
    per_file: 20,
    unfolding: "open_sheet",
};

/// Longer books take long to compute.
const MOST_WORDS: usize = 1500;

/// Room for lines where a book is refused.
const ROOM: usize = 4096;

/// What was lent, and the text with the counter that follows or the refusal's number.
struct Case {
    /// Seed, index and, for a damaged copy, its number.
    name: String,
    lent: Lent,
    says: Says,
}

enum Says {
    Text { text: String, lines: usize, next: u64 },
    Refusal(u8),
}

/// A book as a case; none where its answer is open or where it is longer than `most` words.
fn case(name: String, lent: Lent, most: usize) -> Result<Option<Case>, String> {
    if lent.slices.book.len() > most {
        return Ok(None);
    }
    let says = match expected(&lent).map_err(|error| format!("{name}: {error}"))? {
        Expected::Accepted(accepted) => {
            Says::Text { text: accepted.text(), lines: accepted.lines.len(), next: accepted.next }
        }
        Expected::Refused(number) => Says::Refusal(number),
        Expected::Open(_) => return Ok(None),
    };
    Ok(Some(Case { name, lent, says }))
}

/// Which books are compared.
#[derive(Clone, Copy)]
pub enum Sort {
    Random,
    /// Damaged copies of random ones.
    Damaged,
    /// Statements whose parts are right or wrong.
    Faulty,
    /// Books of up to four functions, and a damaged copy of every third.
    Pieces,
}

/// So many functions at most: the definition computes for long on more.
const MOST_FUNCTIONS: usize = 4;

pub fn compare(seed: u64, count: u64, sort: Sort) -> Result<(), String> {
    let mut cases = vec![];
    for index in 0..count {
        let (name, lent) = match sort {
            Sort::Random => (format!("seed {seed}, book {index}"), runs::book(seed, index, false)),
            Sort::Damaged => {
                let lent = runs::book(seed, index, false);
                (format!("seed {seed}, damaged copy of book {index}"), runs::copy(&lent, seed, index, 0))
            }
            Sort::Faulty => (format!("seed {seed}, faulty book {index}"), faulty::lent(seed, index)),
            Sort::Pieces => {
                let lent = runs::piece(seed, index, MOST_FUNCTIONS);
                match index % 3 {
                    2 => (format!("seed {seed}, damaged copy of piece {index}"), runs::piece_copy(&lent, seed, index, 0)),
                    _ => (format!("seed {seed}, piece {index}"), lent),
                }
            }
        };
        cases.extend(case(name, lent, MOST_WORDS)?);
    }
    println!("{} equations, {} books left out as open or longer than {MOST_WORDS} words", cases.len(), count - cases.len() as u64);

    let differing = SCRATCH.differing(&cases.iter().map(equation).collect::<Vec<_>>())?;

    let mut agreed = [0u64; 22];
    for (place, case) in cases.iter().enumerate() {
        agreed[number(case)] += !differing.contains(&place) as u64;
    }
    println!("agreed: {}, of these accepted {}", agreed.iter().sum::<u64>(), agreed[0]);
    for (number, count) in agreed.iter().enumerate().skip(1).filter(|(_, count)| **count > 0) {
        println!("agreed on refusal {number}: {count}");
    }
    let words = |place: &usize| cases[*place].lent.slices.book.len();
    let (Some(first), Some(smallest)) = (differing.first(), differing.iter().min_by_key(|place| words(place))) else {
        return Ok(());
    };
    Err(format!(
        "{} differences, the first: {}; the smallest: {}, {} words",
        differing.len(),
        cases[*first].name,
        cases[*smallest].name,
        words(smallest)
    ))
}

/// The refusal's number, 0 for none.
fn number(case: &Case) -> usize {
    match case.says {
        Says::Text { .. } => 0,
        Says::Refusal(number) => number as usize,
    }
}

const HEAD: &str = "use Rattle.std.specs.Prelude.{◌≡◌, refl, [], ◌∷◌}
use Rattle.lowering.specs.Sheet.{Answer, answer_in, open_sheet}
";

/// The slices are exactly full where the book is accepted.
fn equation(case: &Case) -> String {
    let (lines, bytes, says) = match &case.says {
        Says::Text { text, lines, next } => {
            (*lines, text.len(), format!("Answer.text ({}) {next}", numbers(text.bytes().map(u64::from))))
        }
        Says::Refusal(number) => (ROOM, 1, format!("Answer.refusal {number}")),
    };
    format!(
        "answer_in {} {lines} {bytes}\n    ({})\n    ({})\n    {}\n    ≡ {says}",
        case.lent.work,
        numbers(case.lent.slices.book.iter().copied()),
        numbers(case.lent.slices.names.iter().map(|byte| *byte as u64)),
        case.lent.counter,
    )
}
