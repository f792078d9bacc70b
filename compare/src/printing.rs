//! Compares the proved printer with a printer written from docs/LINES.md, on random lines of every kind, and times both.
use crate::book::{kind, Slices, Type};
use crate::clock::best;
use crate::letters::character;
use crate::lines::Printer;
use crate::proved;
use crate::rng::Rng;

/// The best of so many calls is printed.
const CALLS: usize = 5;

/// How many characters of a name in a thousand are outside ASCII, and how many functions the book has, a row for each.
const ROWS: [(usize, usize); 6] = [(0, 1), (100, 1), (900, 1), (0, 40), (100, 40), (0, 10_000)];

struct Made {
    names: Vec<String>,
    /// Of each function the name's number and that of the struct that it returns.
    functions: Vec<[u64; 2]>,
    kinds: Vec<u16>,
    operands: Vec<u64>,
}

/// Names of every character in ASCII, and so many in a thousand outside it; one name in sixteen is a syscall's.
fn names(rng: &mut Rng, count: usize, outside: usize) -> Vec<String> {
    let mut names: Vec<String> = (0..count)
        .map(|index| {
            let start = if index % 16 == 0 { "__uvm_" } else { "" };
            let characters = (0..rng.range(1, 12)).map(|_| character(rng, outside));
            format!("{start}{}{index}", characters.collect::<String>())
        })
        .collect();
    names.sort_by(|a, b| a.as_bytes().cmp(b.as_bytes()));
    names
}

/// The first line is a comment, so that blocks have a function from there on.
fn lines(seed: u64, count: usize, many: usize, outside: usize, functions: usize) -> Made {
    let mut rng = Rng::new(seed, 0);
    let names = names(&mut rng, many, outside);
    let calls: Vec<usize> = (0..many).filter(|&x| names[x].starts_with("__uvm_")).collect();
    let step = (many / functions).max(1);
    let functions: Vec<[u64; 2]> = (0..functions.min(many)).map(|place| [(place * step) as u64, rng.below(many) as u64]).collect();
    let (mut kinds, mut operands) = (vec![], vec![]);
    for place in 0..count {
        let line = if place == 0 { 0 } else { rng.below(94) as u16 };
        let name = rng.below(many) as u64;
        let digits = rng.below(64);
        operands.push(match line {
            0 => rng.pick(&functions)[0],
            1..=4 => name,
            5 => name * 256 + rng.below(256) as u64,
            6 => *rng.pick(&calls) as u64,
            7 => rng.range(1, 65535) as u64,
            10 | 11 => rng.below(65536) as u64,
            12 => rng.below(256) as u64,
            8 | 9 | 13..=20 => rng.next() >> digits,
            _ => 0,
        });
        kinds.push(line);
    }
    Made { names, functions, kinds, operands }
}

impl Made {
    /// Functions that return a struct each, without parameters, with one empty block.
    fn book(&self) -> Vec<u64> {
        let function = |[name, returned]: &[u64; 2]| {
            [(kind::FUNCTION, *name), (kind::NAMED, *returned), (kind::END, 0), (kind::BLOCK, 0), (kind::UNREACHABLE, 0), (kind::END, 0)]
        };
        let entries: Vec<(u64, u64)> = self.functions.iter().flat_map(function).chain([(kind::END, 0)]).collect();
        Slices { book: vec![0, self.names.len() as u64], names: vec![] }.with_entries(&entries).book
    }

    fn text(&self) -> String {
        let returned = |[_, returned]: &[u64; 2]| Type::NamedStruct(self.names[*returned as usize].clone());
        let types: Vec<Type> = self.functions.iter().map(returned).collect();
        let printer = Printer::new(&self.names, self.functions.iter().zip(&types).map(|([name, _], ty)| (*name, ty, 0)));
        printer.text(&self.kinds, &self.operands).expect("every line is one of docs/LINES.md")
    }
}

pub fn compare(seed: u64, count: u64, many: u64) -> Result<(), String> {
    ROWS.into_iter().try_for_each(|(outside, functions)| row(seed, count.max(1), many.max(1), outside, functions))
}

fn row(seed: u64, count: u64, many: u64, outside: usize, functions: usize) -> Result<(), String> {
    let lines = lines(seed, count as usize, many as usize, outside, functions);
    let (book, names) = (lines.book(), lines.names.iter().map(|name| format!("{name}\n")).collect::<String>());
    let (owed, written) = best(CALLS, || lines.text());
    let mut text = vec![b'!'; owed.len() + 1];
    let (answer, printed) =
        best(CALLS, || proved::print(&book, names.as_bytes(), &lines.kinds, &lines.operands, &mut text));
    let room = owed.len() - 1;
    let short = proved::print(&book, names.as_bytes(), &lines.kinds, &lines.operands, &mut text[..room]);
    let share = outside / 10;
    let functions = lines.functions.len();
    print!("{count} lines, {functions} functions, {many} names, {share} % of their characters outside ASCII, {} bytes: ", owed.len());
    println!("{printed:?} proved, {written:?} by std's formatting");
    if answer != (0, owed.len() as u64) || &text[..owed.len()] != owed.as_bytes() || text[owed.len()] != b'!' {
        return Err(format!("the texts differ: the proved printer answers {answer:?}"));
    }
    if short != (20, 0) {
        return Err(format!("one byte short: the proved printer answers {short:?}"));
    }
    Ok(())
}
