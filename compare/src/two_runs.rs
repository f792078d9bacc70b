//! Holds a function's run by the manual against the run of its lines on the stack machine, on random books and inputs, each function by itself:
//! first by two interpreters written here from document 01, then by the definitions in crates/manual and crates/machine.
mod agree;
mod cases;
mod counts;
mod equations;
mod inputs;
mod machine;
mod make;
mod program;
mod shrink;
mod source;
mod world;

use crate::scratch::Scratch;
use agree::{hold, Held};
use counts::Counts;
use equations::Case;
use program::Program;
use shrink::Whole;
use world::Input;

pub use cases::tests;

/// Blocks of a run at most: of one that is computed, and of one that is only run here.
const BOUND: usize = 12;
const FAR_BOUND: usize = 40;

/// Inputs for each function of a book.
const INPUTS: u64 = 2;

/// For each book that is computed, so many are only run here.
const RUN_HERE: u64 = 100;

const COUNTERS: [u64; 3] = [0, 7, 1 << 32];

const SCRATCH: Scratch = Scratch {
    name: "runs",
    crates: &["manual", "machine", "lowering", "layout", "assembly", "book", "names", "numbers"],
    module: Some(("Show", equations::SHOW)),
    head: equations::HEAD,
    per_file: 10,
    unfolding: "open_show",
};

/// A run by its names: the book's seed and index, the function's place in it, the input's number.
#[derive(Clone, Copy)]
struct Run {
    seed: u64,
    index: u64,
    place: usize,
    number: u64,
    bound: usize,
}

impl Run {
    fn counter(&self) -> u64 {
        counter(self.index)
    }

    fn name(&self) -> String {
        format!("seed {}, book {}, function {}, input {}", self.seed, self.index, self.place, self.number)
    }

    fn input(&self, program: &Program) -> Input {
        inputs::input(program, self.seed, self.index, self.number, self.bound)
    }

    fn hold(&self, program: &Program) -> Result<(Input, Held), String> {
        let input = self.input(program);
        let held = hold(program, &input, self.bound)?;
        Ok((input, held))
    }

    /// The equation of this run for its function or a smaller one; none where the interpreters differ.
    fn case(&self, program: &Program) -> Option<Case> {
        let (input, held) = self.hold(program).ok()?;
        Some(equations::case(*self, program, &input, &held))
    }

    /// The function that still differs when no instruction can be left out, with its lines and input.
    fn smaller(&self, differ: &mut dyn FnMut(&[Program]) -> Vec<bool>) -> Option<(Program, String)> {
        let whole = Whole { seed: self.seed, index: self.index, place: self.place, counter: self.counter() };
        let program = shrink::shrink(whole, differ)?;
        let text = format!("{:?}\n{}\n{:?}", program.function(), program.lines.join("\n"), self.input(&program));
        Some((program, text))
    }
}

pub fn compare(seed: u64, count: u64) -> Result<(), String> {
    println!("by the two interpreters:");
    let here = run_here(seed, count * RUN_HERE)?;
    here.print(FAR_BOUND);
    println!("no difference");

    println!("by the definitions:");
    let mut computed = Counts::default();
    let mut cases = vec![];
    for index in 0..count {
        let mut program = book(seed, index)?;
        for place in 0..program.book.functions.len() {
            program.enter(place)?;
            computed.functions += 1;
            for number in 0..INPUTS {
                let run = Run { seed, index, place, number, bound: BOUND };
                let (input, held) = run.hold(&program)?;
                computed.add(&held);
                cases.push(equations::case(run, &program, &input, &held));
            }
        }
    }
    computed.print(BOUND);
    report(&cases, &differing(&cases)?)?;
    println!("{} equations, no difference", cases.len());
    if here.lacks_a_kind() { Err("the maker has lost what was never run".to_string()) } else { Ok(()) }
}

fn counter(index: u64) -> u64 {
    COUNTERS[index as usize % COUNTERS.len()]
}

fn book(seed: u64, index: u64) -> Result<Program, String> {
    let program = Program::new(make::make(seed, index), counter(index)).and_then(|made| made.ok_or("refused".to_string()));
    program.map_err(|error| format!("seed {seed}, book {index}: {error}"))
}

/// Runs each function of the books by the two interpreters.
fn run_here(seed: u64, count: u64) -> Result<Counts, String> {
    let mut counts = Counts::default();
    for index in 0..count {
        let mut program = book(seed, index)?;
        for place in 0..program.book.functions.len() {
            program.enter(place)?;
            counts.functions += 1;
            for number in 0..INPUTS {
                counts.add(&run_one(&program, Run { seed, index, place, number, bound: FAR_BOUND })?);
            }
        }
    }
    Ok(counts)
}

/// One run; where the two differ, an error with the book made smaller.
fn run_one(program: &Program, run: Run) -> Result<Held, String> {
    run.hold(program).map(|(_, held)| held).map_err(|error| {
        let mut differ = |programs: &[Program]| programs.iter().map(|program| run.hold(program).is_err()).collect();
        let text = run.smaller(&mut differ).map_or(String::new(), |(_, text)| text);
        format!("{}: {error}; made smaller:\n{text}", run.name())
    })
}

/// The places of the runs that the definitions don't show as they were seen here.
fn differing(cases: &[Case]) -> Result<Vec<usize>, String> {
    SCRATCH.differing(&cases.iter().map(|case| case.equation.clone()).collect::<Vec<_>>())
}

/// An error where there is a difference: the run with the smallest function, made smaller.
fn report(cases: &[Case], places: &[usize]) -> Result<(), String> {
    let (Some(first), Some(smallest)) = (places.first(), places.iter().min_by_key(|place| cases[**place].words)) else {
        return Ok(());
    };
    println!("{} of {} equations don't hold, the first: {}", places.len(), cases.len(), cases[*first].run.name());
    let run = cases[*smallest].run;
    let mut differ = |programs: &[Program]| {
        let (places, cases): (Vec<usize>, Vec<Case>) =
            programs.iter().enumerate().filter_map(|(place, program)| Some((place, run.case(program)?))).unzip();
        let found = differing(&cases).unwrap_or_default();
        let mut differs = vec![false; programs.len()];
        found.iter().for_each(|place| differs[places[*place]] = true);
        differs
    };
    let smaller = run.smaller(&mut differ);
    // Once more, alone: the scratch repository then has this equation and its log.
    let text = match smaller {
        Some((program, text)) => {
            differing(&run.case(&program).into_iter().collect::<Vec<_>>())?;
            text
        }
        None => String::new(),
    };
    Err(format!("the smallest: {}, in target/{} made smaller:\n{text}", run.name(), SCRATCH.name))
}
