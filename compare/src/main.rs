//! Builds the published code generator as an oracle, and random and damaged books to compare with it. See README.md.
#[cfg(proved)]
mod bench;
#[cfg(proved)]
mod bindings;
mod book;
mod cases;
mod check;
#[cfg(proved)]
mod checking;
#[cfg(proved)]
mod clock;
mod damage;
mod definitions;
mod expect;
mod features;
mod hash;
#[cfg(proved)]
mod large;
mod letters;
mod lines;
mod measure;
mod names;
#[cfg(proved)]
mod neighbours;
mod oracle;
mod pieces;
mod program;
#[cfg(proved)]
mod printing;
#[cfg(proved)]
mod proved;
mod random;
mod refusal;
mod rng;
mod runs;
mod scratch;
mod segments;
mod show;
#[cfg(proved)]
mod stack;
mod stats;
mod table;
#[cfg(proved)]
mod translator;
mod two_runs;
mod utf8;
mod vectors;
mod visit;
mod written;

use book::{Lent, Slices};
use definitions::Sort;
use expect::{expected, Expected};
use std::io::{Read, Write};
use std::process::ExitCode;

const USAGE: &str = "usage:
  compare oracle [COUNTER] < BOOK    the published Rust's text for a book file, or the refusal's number
  compare show < BOOK                the entries of a book file
  compare book SEED INDEX > BOOK     one random book as a file
  compare piece SEED INDEX > BOOK    one random book of several functions as a file
  compare stats SEED COUNT           what random books meet
  compare checks SEED COUNT          what damaged copies meet
  compare vectors SEED COUNT DIR [MOST]
                                     random and damaged books of at most MOST entries with their answers
  compare vectors numbers SEED COUNT FILE [MOST]
                                     the sheets, the limits and small books of every refusal with their answers, as numbers alone
  compare program SEED COUNT COMMAND..
                                     whether a program prints what `compare oracle` does
  compare faulty SEED COUNT          what random statements meet whose parts are right or wrong
  compare faulty book SEED INDEX > BOOK
                                     one of these as a file
  compare definitions SEED COUNT [--damaged | --faulty | --pieces]
                                     whether the definition in crates/lowering answers as the Rust does, by computation
  compare definitions names SEED COUNT
                                     whether the definition in crates/names orders two names as Rust does, in the steps of card 4
  compare definitions utf8 SEED COUNT
                                     whether the definition in crates/names takes the byte lists for UTF-8 and for names that Rust
                                     and our check do, and spells them as the Rust does
  compare names SEED COUNT COMMAND.. whether a program like `try_compare` does
  compare names cases SEED COUNT FOLDER
                                     what such a program reads and writes, as crates/try_compare has it
  compare pieces SEED COUNT          whether a book of several functions has the lines, next counter and refusals of its functions
                                     one by one: by the Rust, and by the proved translator where that is built in
  compare segments SEED COUNT        whether lines put together otherwise (functions' lines in another order, comments lost, repeated or
                                     of other names) print as docs/LINES.md says, or are a 21: by two printers and two readings of
                                     ours, and by the proved printer where that is built in
  compare runs SEED COUNT            whether a function's run by the manual and the run of its lines on the machine agree, by
                                     two interpreters and by computation of the definitions, on random functions
  compare table SEED COUNT FILE      random books with the Rust's answers as a checked table of crates/lowering
  compare written FOLDER             books written by hand with the Rust's answers as checked tables of crates/lowering
  compare checking SEED COUNT        whether the proved check of a book, and the printer's, answer as ours does; built in
                                     where the static library of the crate `exports` stands
  compare printing SEED LINES NAMES  whether the proved printer prints random lines of every kind as docs/LINES.md says, and
                                     its time; built in as above
  compare translator SEED COUNT      whether the proved translator gives the Rust's lines, next counter and refusals, on random
                                     books, damaged copies, faulty statements and books at the limits; built in as above
  compare translator shapes          the same of the shapes that `compare bench` times
  compare bindings SEED COUNT        whether the books that bindings/rust writes of random modules give the Rust's lines, and
                                     whether its writer turns down what no book has; built in as above
  compare bench [SEED]               times of the proved translator and printer beside the Rust's; built in as above
  compare bench names                the table of the names' check alone
  compare bench shapes               the table of the shapes that a careless translator or printer is slow on alone
  compare bench instructions         the table of instructions by callgrind alone
  compare bench bindings [SEED]      times of the way through bindings/rust, whole and in its parts, beside the Rust's
  compare time < BOOK                the nanoseconds that the Rust's `gen_function` takes for a book; built in as above
  compare stack                      the stack that the proved check, translator and printer need; built in as above
  compare test                       tests of this program";

/// The published Rust goes down into types by plain recursion.
const STACK: usize = 1 << 29;

fn main() -> ExitCode {
    oracle::install_hook();
    let worker = std::thread::Builder::new().stack_size(STACK).spawn(|| {
        let args: Vec<String> = std::env::args().skip(1).collect();
        run(&args.iter().map(String::as_str).collect::<Vec<_>>())
    });
    match worker.expect("a thread").join() {
        Ok(Ok(())) => ExitCode::SUCCESS,
        Ok(Err(message)) => {
            eprintln!("compare: {message}");
            ExitCode::FAILURE
        }
        Err(_) => ExitCode::FAILURE,
    }
}

fn run(args: &[&str]) -> Result<(), String> {
    match args {
        ["oracle"] => ask(&read_input()?, 0),
        ["oracle", counter] => ask(&read_input()?, number(counter)?),
        ["show"] => {
            show::show(&read_input()?);
            Ok(())
        }
        ["book", seed, index] => {
            let lent = runs::book(number(seed)?, number(index)?, true);
            std::io::stdout().write_all(&lent.slices.to_file()).map_err(|error| error.to_string())
        }
        ["stats", seed, count] => stats::books(number(seed)?, number(count)?),
        ["checks", seed, count] => stats::damaged(number(seed)?, number(count)?),
        ["vectors", "numbers", seed, count, file] => vectors::write_numbers(number(seed)?, number(count)?, file, 60),
        ["vectors", "numbers", seed, count, file, most] => {
            vectors::write_numbers(number(seed)?, number(count)?, file, number(most)?)
        }
        ["vectors", seed, count, folder] => vectors::write(number(seed)?, number(count)?, folder, u64::MAX),
        ["vectors", seed, count, folder, most] => vectors::write(number(seed)?, number(count)?, folder, number(most)?),
        ["program", seed, count, command @ ..] if !command.is_empty() => {
            program::compare(number(seed)?, number(count)?, command)
        }
        ["definitions", seed, count] => definitions::compare(number(seed)?, number(count)?, Sort::Random),
        ["definitions", seed, count, "--damaged"] => definitions::compare(number(seed)?, number(count)?, Sort::Damaged),
        ["definitions", seed, count, "--faulty"] => definitions::compare(number(seed)?, number(count)?, Sort::Faulty),
        ["definitions", seed, count, "--pieces"] => definitions::compare(number(seed)?, number(count)?, Sort::Pieces),
        ["piece", seed, index] => {
            let slices = runs::piece(number(seed)?, number(index)?, random::MOST_FUNCTIONS).slices;
            std::io::stdout().write_all(&slices.to_file()).map_err(|error| error.to_string())
        }
        ["faulty", seed, count] => stats::faulty(number(seed)?, number(count)?),
        ["faulty", "book", seed, index] => {
            let slices = written::faulty::lent(number(seed)?, number(index)?).slices;
            std::io::stdout().write_all(&slices.to_file()).map_err(|error| error.to_string())
        }
        ["names", "cases", seed, count, folder] => names::write(number(seed)?, number(count)?, folder),
        ["names", seed, count, command @ ..] if !command.is_empty() => names::compare(number(seed)?, number(count)?, command),
        ["definitions", "names", seed, count] => names::definitions(number(seed)?, number(count)?),
        ["definitions", "utf8", seed, count] => utf8::definitions(number(seed)?, number(count)?),
        ["segments", seed, count] => segments::compare(number(seed)?, number(count)?),
        ["pieces", seed, count] => pieces::compare(number(seed)?, number(count)?),
        ["runs", seed, count] => two_runs::compare(number(seed)?, number(count)?),
        ["written", folder] => written::write(folder),
        ["table", seed, count, file] => table::write(number(seed)?, number(count)?, file),
        #[cfg(proved)]
        ["checking", seed, count] => checking::compare(number(seed)?, number(count)?),
        #[cfg(proved)]
        ["printing", seed, count, names] => printing::compare(number(seed)?, number(count)?, number(names)?),
        #[cfg(proved)]
        ["translator", "shapes"] => translator::shapes(),
        #[cfg(proved)]
        ["translator", seed, count] => translator::compare(number(seed)?, number(count)?),
        #[cfg(proved)]
        ["bindings", seed, count] => bindings::compare(number(seed)?, number(count)?),
        #[cfg(proved)]
        ["bench"] => bench::bench(1),
        #[cfg(proved)]
        ["bench", "names"] => bench::names(),
        #[cfg(proved)]
        ["bench", "shapes"] => bench::slow_shapes(),
        #[cfg(proved)]
        ["bench", "instructions"] => bench::instructions(1),
        #[cfg(proved)]
        ["bench", "bindings"] => bench::bindings(1),
        #[cfg(proved)]
        ["bench", "bindings", seed] => bench::bindings(number(seed)?),
        #[cfg(proved)]
        ["bench", "pass", seed, class] => bench::pass(number(seed)?, class),
        #[cfg(proved)]
        ["bench", seed] => bench::bench(number(seed)?),
        #[cfg(proved)]
        ["time"] => {
            let slices = Slices::from_file(&read_input()?).ok_or("no book and names")?;
            println!("{}", bench::rust_time(&Lent { slices, counter: 0, work: usize::MAX })?);
            Ok(())
        }
        #[cfg(proved)]
        ["stack"] => stack::least(),
        #[cfg(proved)]
        ["stack", size] => stack::within(number(size)?),
        #[cfg(not(proved))]
        ["checking" | "printing" | "translator" | "bindings" | "bench" | "time" | "stack", ..] => {
            Err("built without the static library of the crate `exports`: see README.md".to_string())
        }
        ["test"] => cases::test(),
        _ => Err(USAGE.to_string()),
    }
}

fn number(text: &str) -> Result<u64, String> {
    text.parse().map_err(|_| format!("{text:?} is no number\n{USAGE}"))
}

fn read_input() -> Result<Vec<u8>, String> {
    let mut bytes = vec![];
    std::io::stdin().read_to_end(&mut bytes).map_err(|error| error.to_string())?;
    Ok(bytes)
}

/// Prints the text, or the number of the refusal.
fn ask(file: &[u8], counter: u64) -> Result<(), String> {
    let Some(slices) = Slices::from_file(file) else {
        println!("1");
        return Ok(());
    };
    match expected(&Lent { slices, counter, work: usize::MAX })? {
        Expected::Accepted(accepted) => print!("{}", accepted.text()),
        Expected::Refused(number) => println!("{number}"),
        Expected::Open(reason) => return Err(format!("no answer: {reason}")),
    }
    Ok(())
}
