//! Names by themselves. Two of them: their order and the steps of a comparison, after document 02's card 4, held against the definition in
//! crates/names by computation and against the program `try_compare`, which has the proved comparison. Lists of long ones, for the check.
#[cfg(proved)]
use crate::book::{Lent, Slices};
#[cfg(proved)]
use crate::check::work_needed;
#[cfg(proved)]
use crate::large::unreachable;
#[cfg(proved)]
use crate::letters::{character, ill_formed};
use crate::program;
use crate::rng::Rng;
use crate::scratch::{numbers, Scratch};
use std::cmp::Ordering;
use std::fs;
use std::path::Path;

/// Words have so many bytes.
const WORD: usize = 8;

/// Lengths up to this are paired with each other, with the first difference at each place.
const EVERY: usize = 36;

/// The program reads no more bytes.
const MOST_BYTES: usize = 65_536;

type Name = Vec<u8>;

// ---- what is owed

/// One step for each word while eight bytes of both remain, then for each byte pair, up to and with the first that differs.
fn steps(a: &[u8], b: &[u8]) -> usize {
    let words = a.len().min(b.len()) / WORD;
    let word = |name: &[u8], number: usize| name[WORD * number..WORD * (number + 1)].to_vec();
    if let Some(number) = (0..words).find(|&number| word(a, number) != word(b, number)) {
        return number + 1;
    }
    let (a, b) = (&a[WORD * words..], &b[WORD * words..]);
    let pairs = a.iter().zip(b);
    words + pairs.clone().position(|(x, y)| x != y).map_or(pairs.len(), |place| place + 1)
}

fn sign(order: Ordering) -> char {
    match order {
        Ordering::Less => '<',
        Ordering::Equal => '=',
        Ordering::Greater => '>',
    }
}

/// What the program owes to a row of lines: one for each, compared with the line before it.
fn owed(lines: &[Name]) -> String {
    let before = [Name::new()];
    let lasts = before.iter().chain(lines);
    lasts.zip(lines).map(|(last, line)| format!("{} {}\n", sign(last.cmp(line)), steps(last, line))).collect()
}

// ---- makers

/// Two names of any bytes but 10: the second is like the first up to a place.
fn pair(rng: &mut Rng, most: usize) -> [Name; 2] {
    let byte = |rng: &mut Rng| if rng.chance(300) { rng.below(256) as u8 } else { rng.range(97, 99) as u8 };
    let text = |rng: &mut Rng, length: usize| -> Name { (0..length).map(|_| byte(rng)).map(|b| if b == 10 { 11 } else { b }).collect() };
    let length = rng.range(0, most);
    let a = text(rng, length);
    let alike = rng.range(0, a.len());
    let rest = rng.range(0, most - alike);
    let b = if rng.chance(100) { a.clone() } else { [&a[..alike], &text(rng, rest)].concat() };
    if rng.chance(500) { [a, b] } else { [b, a] }
}

fn random_pair(seed: u64, index: u64) -> [Name; 2] {
    let mut rng = Rng::new(seed, index);
    let most = if rng.chance(50) { 400 } else { 40 };
    pair(&mut rng, most)
}

/// Every two lengths, with the first difference at each place, or with none. Behind the first difference the order is the other way.
fn every_place(most: usize) -> impl Iterator<Item = [Name; 2]> {
    let lengths = move || 0..=most;
    lengths().flat_map(move |first| lengths().map(move |second| (first, second))).flat_map(|(first, second)| {
        let (a, b) = (vec![b'm'; first], vec![b'm'; second]);
        let equal = [a.clone(), b.clone()];
        let differing = (0..first.min(second)).flat_map(move |place| {
            let (a, b) = (a.clone(), b.clone());
            [(b'n', b'a'), (b'a', b'z'), (0x80, 0), (0, 0xff)].map(|(here, behind)| {
                let mut other = b.clone();
                other[place] = here;
                other[place + 1..].fill(behind);
                [a.clone(), other]
            })
        });
        [equal].into_iter().chain(differing)
    })
}

/// Rows of lines that the program can read, each with the names of many pairs.
fn rows(pairs: impl Iterator<Item = [Name; 2]>) -> impl Iterator<Item = Vec<Name>> {
    let mut names = pairs.flatten().peekable();
    std::iter::from_fn(move || {
        let (mut row, mut bytes) = (vec![], 0);
        while let Some(name) = names.next_if(|name| bytes + name.len() < MOST_BYTES) {
            bytes += name.len() + 1;
            row.push(name);
        }
        (!row.is_empty()).then_some(row)
    })
}

fn input(lines: &[Name]) -> Vec<u8> {
    lines.iter().flat_map(|line| [&line[..], b"\n"].concat()).collect()
}

// ---- the program

/// What was compared.
#[derive(Default)]
struct Tally {
    orders: [u64; 3],
    /// As many steps as there may be: n / 8 + 7 for a shorter name of n bytes.
    most: u64,
}

impl Tally {
    fn add(&mut self, last: &[u8], line: &[u8]) -> Result<(), String> {
        let (steps, bound) = (steps(last, line), last.len().min(line.len()) / WORD + WORD - 1);
        if steps > bound {
            return Err(format!("{last:?} and {line:?}: {steps} steps"));
        }
        self.orders[(last.cmp(line) as i8 + 1) as usize] += 1;
        self.most += u64::from(steps == bound);
        Ok(())
    }
}

fn ask(command: &[&str], lines: &[Name], tally: &mut Tally) -> Result<(), String> {
    let (found, owed) = (program::run(command, &input(lines))?, owed(lines));
    for (place, (found, owed)) in found.lines().zip(owed.lines()).enumerate() {
        if found != owed {
            let last = if place == 0 { &[][..] } else { &lines[place - 1][..] };
            return Err(format!("{last:?} and {:?}: expected {owed}, found {found}", lines[place]));
        }
    }
    if found.len() != owed.len() {
        return Err(format!("{} lines, {} answers", lines.len(), found.lines().count()));
    }
    lines.windows(2).try_for_each(|two| tally.add(&two[0], &two[1]))
}

/// Whether the program gives Rust's order and the steps owed, for each two neighbours among the names of many pairs.
pub fn compare(seed: u64, count: u64, command: &[&str]) -> Result<(), String> {
    let mut tally = Tally::default();
    rows(every_place(EVERY)).try_for_each(|row| ask(command, &row, &mut tally))?;
    rows((0..count).map(|index| random_pair(seed, index))).try_for_each(|row| ask(command, &row, &mut tally))?;
    let [less, equal, greater] = tally.orders;
    println!("{} comparisons, no difference", less + equal + greater);
    println!("{less} less, {equal} equal, {greater} greater; {} in n/8 + 7 steps", tally.most);
    Ok(())
}

/// Writes what the program reads, and what it owes: names of printable bytes, so that a reader can follow them.
pub fn write(seed: u64, count: u64, folder: &str) -> Result<(), String> {
    let pairs = every_place(17).step_by(13).chain((0..count).map(|index| random_pair(seed, index)));
    let printable = |name: Name| -> Name { name.iter().map(|byte| 32 + byte.wrapping_sub(32) % 95).collect() };
    let lines = rows(pairs.map(|pair| pair.map(printable))).next().unwrap_or_default();
    let put = |name: &str, bytes: &[u8]| fs::write(Path::new(folder).join(name), bytes).map_err(|error| error.to_string());
    put("stdin", &input(&lines))?;
    put("stdout", owed(&lines).as_bytes())
}

// ---- the definition

const SCRATCH: Scratch = Scratch {
    name: "names",
    crates: &["names"],
    module: None,
    head: "use Rattle.std.specs.Prelude.{ℕ, ◌≡◌, refl, [], ◌∷◌}
use Rattle.names.specs.Text.{open_text}
use Rattle.names.specs.Name.{open_name}
use Rattle.names.specs.Compare.{Order, order, steps, open_compare}
",
    per_file: 50,
    unfolding: "open_text open_name open_compare",
};

/// Whether the definition gives the order and steps owed, by computation.
pub fn definitions(seed: u64, count: u64) -> Result<(), String> {
    let pairs: Vec<[Name; 2]> = (0..count).map(|index| pair(&mut Rng::new(seed, index), 60)).collect();
    let list = |name: &[u8]| numbers(name.iter().map(|byte| u64::from(*byte)));
    let equation = |[a, b]: &[Name; 2]| {
        let (order, steps) = (format!("{:?}", a.cmp(b)).to_lowercase(), steps(a, b));
        let (a, b) = (list(a), list(b));
        format!("◌≡◌ {{A = Order × ℕ}} (order ({a}) ({b}), steps ({a}) ({b})) (Order.{order}, {steps})")
    };
    let differing = SCRATCH.differing(&pairs.iter().map(equation).collect::<Vec<_>>())?;
    println!("{count} pairs, {} agreed", count as usize - differing.len());
    differing.first().map_or(Ok(()), |&place| Err(format!("the first difference: seed {seed}, pair {place}: {:?}", pairs[place])))
}

// ---- lists

/// Names that share much of their beginnings, in order; of some lists a few characters are outside ASCII, of some most.
#[cfg(proved)]
fn long_names(rng: &mut Rng) -> Vec<Name> {
    let outside = *rng.pick(&[0, 0, 30, 800]);
    let mut names: Vec<Vec<char>> = vec![];
    for _ in 0..rng.range(1, 10) {
        let mut name = names.last().map_or(vec![], |name| name[..rng.range(0, name.len())].to_vec());
        name.extend((0..rng.range(1, 30)).map(|_| character(rng, outside)));
        names.push(name);
    }
    names.sort_unstable();
    names.dedup();
    names.into_iter().map(|name| name.into_iter().collect::<String>().into_bytes()).collect()
}

/// Their bytes, four times in five changed in one way or two. What a change does is for the checks to say.
#[cfg(proved)]
fn damaged(rng: &mut Rng, mut names: Vec<Name>) -> Vec<u8> {
    let (one, two) = (rng.below(names.len()), rng.below(names.len()));
    match rng.below(6) {
        0 => names.swap(one, two),
        1 => names[one] = names[two].clone(),
        2 => names[one].truncate(1),
        _ => {}
    }
    let mut bytes = input(&names);
    let place = rng.below(bytes.len());
    match rng.below(8) {
        0 => bytes[place] = *rng.pick(&[0, 9, 10, 11, 31, 32, 126, 127, 128, 255]),
        1 => bytes.truncate(place),
        2 => bytes[place] = bytes[place].wrapping_add(1),
        3 => bytes.splice(place..place, ill_formed(rng)).for_each(drop),
        4 => drop(bytes.remove(place)),
        _ => {}
    }
    bytes
}

/// A book that has nothing but a list of long names, sound or damaged.
#[cfg(proved)]
pub fn list(seed: u64, index: u64) -> Lent {
    let mut rng = Rng::new(seed, index);
    let names = long_names(&mut rng);
    let mut slices = Slices::new(&unreachable(&[]), &[]);
    slices.book[1] = names.len() as u64;
    let work = work_needed(names.len());
    slices.names = damaged(&mut rng, names);
    Lent { slices, counter: 0, work }
}
