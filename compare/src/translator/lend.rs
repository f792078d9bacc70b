//! One call of the proved translator: what is lent, full of rubbish and with more of it on both sides, and whether it is left
//! as it should be.
use crate::book::Slices;
use crate::lines::Lines;
use crate::proved::{self, Reply};
use crate::rng::Rng;

/// Elements beside each lent slice.
const MARGIN: usize = 4;

/// What a call owes: its reply, and the lines when there is no refusal.
pub struct Owed<'a> {
    pub reply: Reply,
    pub lines: &'a Lines,
}

/// Sorts of differences.
#[derive(Clone, Copy, PartialEq, Eq, PartialOrd, Ord, Debug)]
pub enum Difference {
    Refusal,
    Count,
    Next,
    Kinds,
    Operands,
    Rest,
    Work,
    Beside,
    Text,
    ProvedText,
    Rust,
}

impl Difference {
    pub fn says(self) -> &'static str {
        match self {
            Difference::Refusal => "another refusal",
            Difference::Count => "another number of lines",
            Difference::Next => "another next counter",
            Difference::Kinds => "another line kind",
            Difference::Operands => "another operand",
            Difference::Rest => "a line slice is changed where no line belongs",
            Difference::Work => "the work slice is not all zero",
            Difference::Beside => "something beside a lent slice is changed",
            Difference::Text => "another text, printed by docs/LINES.md",
            Difference::ProvedText => "another text, printed by the proved printer",
            Difference::Rust => "the Rust and our reading of it differ",
        }
    }
}

pub type Found = (Difference, String);

/// Lengths of the work slice, of the kinds and of the operands.
#[derive(Clone, Copy, Debug)]
pub struct Lengths {
    pub work: usize,
    pub kinds: usize,
    pub operands: usize,
}

/// Slices that are lent again and again.
#[derive(Default)]
pub struct Desk {
    work: Vec<u64>,
    kinds: Vec<u16>,
    operands: Vec<u64>,
    lengths: Option<Lengths>,
    /// What stands everywhere before a call, never 0.
    rubbish: u64,
}

fn fill<T: Copy>(slice: &mut Vec<T>, length: usize, rubbish: T) {
    let whole = length + 2 * MARGIN;
    if slice.len() < whole {
        slice.resize(whole, rubbish);
    }
    slice[..whole].fill(rubbish);
}

fn inner<T>(slice: &[T], length: usize) -> &[T] {
    &slice[MARGIN..MARGIN + length]
}

fn inner_mut<T>(slice: &mut [T], length: usize) -> &mut [T] {
    &mut slice[MARGIN..MARGIN + length]
}

fn beside_kept<T: Copy + PartialEq>(slice: &[T], length: usize, rubbish: T) -> bool {
    slice[..MARGIN].iter().chain(&slice[MARGIN + length..2 * MARGIN + length]).all(|x| *x == rubbish)
}

impl Desk {
    pub fn call(&mut self, slices: &Slices, counter: u64, lengths: Lengths, rng: &mut Rng) -> Reply {
        self.rubbish = rng.next() | 1;
        self.lengths = Some(lengths);
        fill(&mut self.work, lengths.work, self.rubbish);
        fill(&mut self.kinds, lengths.kinds, self.rubbish as u16);
        fill(&mut self.operands, lengths.operands, self.rubbish);
        let work = inner_mut(&mut self.work, lengths.work);
        let kinds = inner_mut(&mut self.kinds, lengths.kinds);
        let operands = inner_mut(&mut self.operands, lengths.operands);
        proved::translate(slices, counter, work, kinds, operands)
    }

    /// The first lines, as many as there are.
    pub fn lines(&self, count: usize) -> (&[u16], &[u64]) {
        (inner(&self.kinds, count), inner(&self.operands, count))
    }

    /// The first difference of the last call.
    pub fn judge(&self, found: Reply, owed: &Owed) -> Result<(), Found> {
        if found.refusal != owed.reply.refusal {
            let says = |refusal: u64| if refusal == 0 { "accepted".to_string() } else { format!("refused {refusal}") };
            return Err((Difference::Refusal, format!("{}, owed is {}", says(found.refusal), says(owed.reply.refusal))));
        }
        if found.lines != owed.reply.lines {
            return Err((Difference::Count, format!("{}, owed is {}", found.lines, owed.reply.lines)));
        }
        if found.next != owed.reply.next {
            return Err((Difference::Next, format!("{}, owed is {}", found.next, owed.reply.next)));
        }
        let count = owed.reply.lines as usize;
        let (kinds, operands) = self.lines(count);
        let differs = |place: usize| {
            let found = (kinds[place], operands[place]);
            format!("at line {place}: {found:?}, owed is {:?}", (owed.lines.kinds[place], owed.lines.operands[place]))
        };
        if let Some(place) = (0..count).find(|&place| kinds[place] != owed.lines.kinds[place]) {
            return Err((Difference::Kinds, differs(place)));
        }
        if let Some(place) = (0..count).find(|&place| operands[place] != owed.lines.operands[place]) {
            return Err((Difference::Operands, differs(place)));
        }
        self.kept(count)
    }

    /// What holds whatever the answer is: the line slices behind the lines, the work slice, all beside the slices.
    pub fn kept(&self, count: usize) -> Result<(), Found> {
        let lengths = self.lengths.expect("a call");
        let kinds = &inner(&self.kinds, lengths.kinds)[count..];
        if let Some(place) = kinds.iter().position(|x| *x != self.rubbish as u16) {
            return Err((Difference::Rest, format!("{count} lines, the kind at {} is {}", count + place, kinds[place])));
        }
        let operands = &inner(&self.operands, lengths.operands)[count..];
        if let Some(place) = operands.iter().position(|x| *x != self.rubbish) {
            return Err((Difference::Rest, format!("{count} lines, the operand at {} is {}", count + place, operands[place])));
        }
        let work = inner(&self.work, lengths.work);
        if let Some(place) = work.iter().position(|x| *x != 0) {
            return Err((Difference::Work, format!("word {place} of {} is {}", work.len(), work[place])));
        }
        let beside = beside_kept(&self.work, lengths.work, self.rubbish)
            && beside_kept(&self.kinds, lengths.kinds, self.rubbish as u16)
            && beside_kept(&self.operands, lengths.operands, self.rubbish);
        if beside { Ok(()) } else { Err((Difference::Beside, String::new())) }
    }
}
