//! How much stack the proved check, translator and printer take: the least, in steps of 8 KiB, on which all of them run.
use crate::bench;
use crate::book::Lent;
use crate::cases;
use crate::check::{work_needed, MOST_NAMES};
use crate::large;
use crate::proved;
use crate::random::MOST_FUNCTIONS;
use crate::runs;
use std::process::{Command, Stdio};

/// One step, in KiB.
const STEP: u64 = 8;

/// Nothing may take more, in KiB.
const MOST: u64 = 512;

/// So many random books, and as many of several functions, beside those of hostile shape, at the limits and of the sheets.
const RANDOM: u64 = 2000;

/// Lines and bytes of text beyond these are not made room for: a call is then refused with 20 at its end.
const LINES: usize = 1 << 20;
const TEXT: usize = 1 << 25;

/// Halves what is left between a size that is too small and one that is not.
pub fn least() -> Result<(), String> {
    let (mut short, mut enough) = (0, MOST);
    if !runs_on(enough)? {
        return Err(format!("more than {MOST} KiB are needed"));
    }
    while enough - short > STEP {
        let size = (short + enough) / (2 * STEP) * STEP;
        *if runs_on(size)? { &mut enough } else { &mut short } = size;
    }
    println!("check, translate and print run on a stack of {enough} KiB, and not on one of {short} KiB");
    Ok(())
}

/// In a process of its own, since a stack that is too small ends it.
fn runs_on(size: u64) -> Result<bool, String> {
    let program = std::env::current_exe().map_err(|error| error.to_string())?;
    let mut command = Command::new(program);
    command.args(["stack", &size.to_string()]).stdout(Stdio::null()).stderr(Stdio::null());
    Ok(command.status().map_err(|error| error.to_string())?.success())
}

/// All books on a stack of so many KiB.
pub fn within(size: u64) -> Result<(), String> {
    let books = books();
    std::thread::scope(|scope| {
        let thread = std::thread::Builder::new().stack_size(size as usize * 1024);
        let calls = thread.spawn_scoped(scope, || calls(&books)).map_err(|error| error.to_string())?;
        calls.join().map_err(|_| "a call panicked".to_string())
    })?;
    println!("{} books on a stack of {size} KiB", books.len());
    Ok(())
}

fn books() -> Vec<Lent> {
    let shapes = bench::shapes().into_iter().chain(bench::asks()).chain(large::books()).map(|large| large.lent);
    let sheets = cases::books().into_iter().map(|(_, slices)| {
        let names = slices.book.get(1).map_or(0, |names| *names.min(&MOST_NAMES));
        Lent { work: work_needed(names as usize), counter: 0, slices }
    });
    let random = (0..RANDOM).map(|index| runs::book(1, index, true));
    shapes.chain(sheets).chain(random).chain((0..RANDOM).map(|index| runs::piece(1, index, MOST_FUNCTIONS))).collect()
}

fn calls(books: &[Lent]) {
    let (mut kinds, mut operands, mut text) = (vec![0; LINES], vec![0; LINES], vec![0; TEXT]);
    for lent in books {
        let mut work = vec![1; lent.work];
        proved::check(lent);
        let reply = proved::translate(&lent.slices, lent.counter, &mut work, &mut kinds, &mut operands);
        let many = reply.lines as usize;
        proved::print(&lent.slices.book, &lent.slices.names, &kinds[..many], &operands[..many], &mut text);
    }
}
