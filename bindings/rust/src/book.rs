//! A book as it is lent to the calls.
use crate::kind;
#[cfg(feature = "library")]
use crate::{raw, Refusal};

/// A book: the u64 slice and the bytes of its names, as document 01's 'The book' has them.
#[derive(Clone, Debug, PartialEq, Eq)]
pub struct Book {
    words: Vec<u64>,
    names: Vec<u8>,
}

impl Book {
    /// Whatever the slices hold: the calls refuse what is no book.
    pub fn from_slices(words: Vec<u64>, names: Vec<u8>) -> Book {
        Book { words, names }
    }

    /// Entry count, name count, kinds, words.
    pub fn words(&self) -> &[u64] {
        &self.words
    }

    /// Each name ended by byte 10.
    pub fn names(&self) -> &[u8] {
        &self.names
    }

    /// The slices themselves.
    pub fn into_slices(self) -> (Vec<u64>, Vec<u8>) {
        (self.words, self.names)
    }

    /// Kind and word of each entry, as far as there are both.
    pub fn entries(&self) -> impl Iterator<Item = (u64, u64)> + '_ {
        let count = self.words.first().map_or(0, |count| usize::try_from(*count).unwrap_or(usize::MAX));
        let behind = self.words.get(2..).unwrap_or(&[]);
        let (kinds, words) = behind.split_at(count.min(behind.len()));
        kinds.iter().copied().zip(words.iter().copied())
    }

    /// How many functions it holds: kind 5 begins one and stands nowhere else.
    pub fn functions(&self) -> usize {
        self.entries().filter(|(kind, _)| *kind == kind::FUNCTION).count()
    }

    /// A book file: the u64s little-endian, then the names.
    pub fn to_file(&self) -> Vec<u8> {
        let mut bytes = Vec::with_capacity(8 * self.words.len() + self.names.len());
        bytes.extend(self.words.iter().flat_map(|word| word.to_le_bytes()));
        bytes.extend_from_slice(&self.names);
        bytes
    }

    /// None where the file ends inside the book.
    pub fn from_file(bytes: &[u8]) -> Option<Book> {
        let count = u64::from_le_bytes(bytes.get(..8)?.try_into().ok()?);
        let length = usize::try_from(count).ok()?.checked_mul(16)?.checked_add(16)?;
        let words = bytes.get(..length)?.chunks_exact(8);
        let words = words.map(|word| u64::from_le_bytes(word.try_into().expect("eight bytes"))).collect();
        Some(Book { words, names: bytes[length..].to_vec() })
    }
}

/// A name as labels, jumps and pushes print it: `_` for each character but ASCII's letters, digits and `_`.
pub fn sanitize(name: &str) -> String {
    name.chars().map(|letter| if letter.is_ascii_alphanumeric() { letter } else { '_' }).collect()
}

/// The lines of a book's functions, each a kind and an operand (docs/LINES.md), and the label counter behind them.
#[derive(Clone, Debug, PartialEq, Eq)]
pub struct Lines {
    pub kinds: Vec<u16>,
    pub operands: Vec<u64>,
    pub next: u64,
}

#[cfg(feature = "library")]
impl Book {
    /// Whether 'The book' is kept and nothing forbidden is called: refusals 1 to 3.
    pub fn check(&self, counter: u64) -> Result<(), Refusal> {
        refused(raw::check(&self.words, &self.names, counter, usize::MAX))
    }

    /// The lines of all functions, in order, the first beginning with the given label counter and each further one with
    /// that which the last left. Never [`Refusal::Work`], and never [`Refusal::NoRoom`]: there is as much room as they want,
    /// which for a switch of many cases to a block of many phis is the product of both.
    pub fn translate(&self, counter: u64) -> Result<Lines, Refusal> {
        let names = self.words.get(1).map_or(0, |names| usize::try_from(*names).unwrap_or(0).min(crate::MOST_NAMES));
        let mut work = vec![0; raw::work_length(names)];
        // Functions as clang writes them have fewer lines than entries.
        let mut room = self.words.len() / 2 + 64;
        loop {
            let (mut kinds, mut operands) = (vec![0; room], vec![0; room]);
            let reply = raw::translate(&self.words, &self.names, counter, &mut work, &mut kinds, &mut operands);
            match refused(reply.refusal) {
                Err(Refusal::NoRoom) => room *= 4,
                Err(refusal) => return Err(refusal),
                Ok(()) => {
                    kinds.truncate(reply.lines as usize);
                    operands.truncate(reply.lines as usize);
                    return Ok(Lines { kinds, operands, next: reply.next });
                }
            }
        }
    }

    /// The text of lines of this book's functions, each line ended by byte 10. Never [`Refusal::NoRoom`].
    pub fn print(&self, lines: &Lines) -> Result<String, Refusal> {
        let mut room = 16 * lines.kinds.len() + self.names.len() + 64;
        loop {
            let mut text = vec![0; room];
            let (refusal, count) = raw::print(&self.words, &self.names, &lines.kinds, &lines.operands, &mut text);
            match refused(refusal) {
                Err(Refusal::NoRoom) => room *= 4,
                Err(refusal) => return Err(refusal),
                Ok(()) => {
                    text.truncate(count as usize);
                    return Ok(String::from_utf8(text).expect("names are UTF-8, and so is what is printed"));
                }
            }
        }
    }
}

#[cfg(feature = "library")]
fn refused(number: u64) -> Result<(), Refusal> {
    match number {
        0 => Ok(()),
        number => Err(Refusal::of_number(number).expect("a number of document 01's table")),
    }
}
