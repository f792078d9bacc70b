//! Makes a book whose function shows a difference smaller: other functions and instructions are left out, one after the other, while it still does.
use super::make::make;
use super::program::Program;
use crate::book::Mark;
use std::collections::BTreeSet;

/// What is made smaller: the book of an index, and which of its functions is run.
#[derive(Clone, Copy)]
pub struct Whole {
    pub seed: u64,
    pub index: u64,
    pub place: usize,
    pub counter: u64,
}

/// The book without these items: its other functions come first, each by its place, then the instructions of all. A function left out counts as
/// defined still. None where the translator refuses that.
fn without(whole: Whole, left_out: &BTreeSet<usize>) -> Option<Program> {
    let mut made = make(whole.seed, whole.index);
    let count = made.book.functions.len();
    let mut item = count;
    for block in made.book.functions.iter_mut().flat_map(|function| &mut function.blocks) {
        block.insts.retain(|_| {
            item += 1;
            !left_out.contains(&(item - 1))
        });
    }
    let kept = |place: usize| place == whole.place || !left_out.contains(&place);
    let marked = |name: &str| made.book.marks.iter().any(|(_, other)| other == name);
    let gone = (0..count).filter(|place| !kept(*place)).map(|place| made.book.functions[place].name.clone());
    let defined: Vec<(Mark, String)> = gone.filter(|name| !marked(name)).map(|name| (Mark::Defined, name)).collect();
    made.book.marks.extend(defined);
    let mut place = 0;
    made.book.functions.retain(|_| {
        place += 1;
        kept(place - 1)
    });
    let place = (0..whole.place).filter(|place| kept(*place)).count();
    let mut program = Program::new(made, whole.counter).ok().flatten()?;
    program.enter(place).ok()?;
    Some(program)
}

/// The smallest book found for which `differ` holds, which answers for each of several at once.
pub fn shrink(whole: Whole, differ: &mut dyn FnMut(&[Program]) -> Vec<bool>) -> Option<Program> {
    let mut smallest = without(whole, &BTreeSet::new())?;
    let count = smallest.book.functions.len() + smallest.book.instructions().count();
    let mut left_out = BTreeSet::new();
    loop {
        let mut items = vec![];
        let mut smaller = vec![];
        for item in (0..count).filter(|item| *item != whole.place) {
            if left_out.insert(item) {
                if let Some(program) = without(whole, &left_out) {
                    items.push(item);
                    smaller.push(program);
                }
                left_out.remove(&item);
            }
        }
        let Some(found) = differ(&smaller).iter().position(|differs| *differs) else { return Some(smallest) };
        left_out.insert(items[found]);
        smallest = smaller.swap_remove(found);
    }
}
