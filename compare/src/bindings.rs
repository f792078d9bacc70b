//! Whether what bindings/rust adds to the proved code is right: the functions handed over (uvclang/from_ast.rs), the books
//! written, the call in uvclang's own place (uvclang/gen_function.rs). On random modules, with parts that no book has.
use mivolanjy::Refusal;
use piece::Piece;
use std::collections::BTreeMap;

mod fault;
mod foreign;
mod judge;
mod names;
mod piece;
mod reserved;

/// What was met.
#[derive(Default)]
struct Counts {
    modules: u64,
    functions: u64,
    /// By what they have that no book has.
    turned_down: BTreeMap<&'static str, u64>,
    /// Functions that are taken without some calls, which do nothing.
    hinted: u64,
    /// Functions that went through `gen_function_proved` to the Rust.
    fallbacks: u64,
    /// Lines of functions one by one.
    one_by_one: u64,
    /// Functions with an error on both sides.
    errors: u64,
    not_asked: u64,
    /// Books of all functions that are taken, and their lines.
    accepted: u64,
    lines: u64,
    refused: [u64; 22],
    open: u64,
}

impl Counts {
    fn print(&self) {
        let Counts { modules, functions, hinted, fallbacks, one_by_one, errors, not_asked, .. } = self;
        println!("{modules} modules of {functions} functions, {hinted} of them taken without calls that do nothing");
        println!("turned down: {}", self.turned_down.values().sum::<u64>());
        self.turned_down.iter().for_each(|(what, count)| println!("{count:>9}  {what}"));
        println!("one by one: {one_by_one} lines, {errors} errors, {fallbacks} by the Rust itself, {not_asked} not asked");
        let Counts { accepted, lines, open, .. } = self;
        let refused = self.refused.iter().enumerate().filter(|(_, count)| **count > 0);
        let refused: Vec<String> = refused.map(|(number, count)| format!("{number}: {count}")).collect();
        println!("as one book: {accepted} accepted, {lines} lines, {open} open; refused, by number: {}", refused.join(", "));
    }
}

/// Goes over all modules and tells of the smallest that shows a difference.
pub fn compare(seed: u64, count: u64) -> Result<(), String> {
    refusals()?;
    reserved::compare(seed)?;
    let mut counts = Counts::default();
    let mut smallest: Option<(usize, String)> = None;
    let mut differing = 0;
    for index in 0..count {
        let piece = Piece::new(seed, index);
        let size = piece.size();
        if let Err(difference) = judge::judge(piece, &mut counts) {
            differing += 1;
            if smallest.as_ref().is_none_or(|(least, _)| size < *least) {
                smallest = Some((size, format!("seed {seed}, module {index}: {difference}")));
            }
        }
    }
    counts.print();
    match smallest {
        None => {
            println!("no difference");
            Ok(())
        }
        Some((_, difference)) => Err(format!("{differing} modules differ; the smallest is {difference}")),
    }
}

/// Refusals and their numbers.
fn refusals() -> Result<(), String> {
    let there = |number: u64| Refusal::of_number(number).map(|refusal| u64::from(refusal.number()));
    let right = (1..=21).all(|number| there(number) == Some(number)) && [0, 22, u64::MAX].map(there) == [None; 3];
    if right { Ok(()) } else { Err("a refusal has another number".to_string()) }
}
