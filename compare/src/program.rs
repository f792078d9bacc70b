//! Compares a program that reads a book file and prints the text or the refusal's number, as `lines` does.
use crate::book::{kind, Lent, Slices};
use crate::expect::{expected, Expected};
use crate::random::MOST_FUNCTIONS;
use crate::runs;
use crate::written::faulty;
use std::io::Write;
use std::process::{Command, Stdio};

/// A longer file is a 1 for such a program.
const MOST_BYTES: usize = 65_536;

/// The file with the most names, then random books and books of several functions, one damaged copy of each, and faulty statements,
/// as many of each. The first difference is an error.
pub fn compare(seed: u64, count: u64, command: &[&str]) -> Result<(), String> {
    let mut compared = 0;
    let mut add = |what: String, slices: &Slices| {
        let file = slices.to_file();
        let place = |error| format!("{what}: {error}");
        let Some(owed) = reply(&file).map_err(place)? else { return Ok(()) };
        let found = run(command, &file).map_err(place)?;
        if found.trim_end_matches('\n') != owed.trim_end_matches('\n') {
            return Err(place(format!("expected\n{owed}\nfound\n{found}")));
        }
        compared += 1;
        Ok(())
    };
    add("the most names".to_string(), &most_names())?;
    for index in 0..count {
        let lent = runs::book(seed, index, false);
        let copy = runs::copy(&lent, seed, index, 0);
        let statement = faulty::lent(seed, index);
        let piece = runs::piece(seed, index, MOST_FUNCTIONS);
        let cut = runs::piece_copy(&piece, seed, index, 0);
        let single = [("book", &lent), ("damaged copy of book", &copy), ("faulty book", &statement)];
        for (what, lent) in single.into_iter().chain([("piece", &piece), ("damaged copy of piece", &cut)]) {
            add(format!("seed {seed}, {what} {index}"), &lent.slices)?;
        }
    }
    println!("{compared} files, no difference");
    Ok(())
}

/// A function without blocks, and as many names as a file holds with it: all of one byte, all of two, the rest of three.
fn most_names() -> Slices {
    let entries = [(kind::FUNCTION, 0), (kind::VOID, 0), (kind::END, 0), (kind::END, 0), (kind::END, 0)];
    let bytes: Vec<String> = (' '..='~').map(String::from).collect();
    let mut two: Vec<String> = bytes.iter().flat_map(|first| bytes.iter().map(move |second| format!("{first}{second}"))).collect();
    two.extend(('\u{80}'..='\u{7ff}').map(String::from));
    let three = two.iter().flat_map(|first| bytes.iter().map(move |last| format!("{first}{last}")));
    let mut room = MOST_BYTES - Slices::new(&entries, &[]).to_file().len();
    let fits = |name: &String| room.checked_sub(name.len() + 1).map(|rest| room = rest).is_some();
    let mut names: Vec<String> = bytes.iter().chain(&two).cloned().chain(three).take_while(fits).collect();
    names.sort_unstable();
    Slices::new(&entries, &names.iter().map(String::as_str).collect::<Vec<_>>())
}

/// What the program should print at counter 0; none where the answer is open.
fn reply(file: &[u8]) -> Result<Option<String>, String> {
    let slices = if file.len() > MOST_BYTES { None } else { Slices::from_file(file) };
    let Some(slices) = slices else { return Ok(Some("1".to_string())) };
    Ok(match expected(&Lent { slices, counter: 0, work: usize::MAX })? {
        Expected::Accepted(accepted) => Some(accepted.text()),
        Expected::Refused(number) => Some(number.to_string()),
        Expected::Open(_) => None,
    })
}

pub fn run(command: &[&str], file: &[u8]) -> Result<String, String> {
    let mut child = Command::new(command[0])
        .args(&command[1..])
        .stdin(Stdio::piped())
        .stdout(Stdio::piped())
        .spawn()
        .map_err(|error| format!("{}: {error}", command[0]))?;
    // The program may stop reading early; then only its answer counts.
    let _ = child.stdin.take().unwrap().write_all(file);
    let output = child.wait_with_output().map_err(|error| error.to_string())?;
    String::from_utf8(output.stdout).map_err(|error| error.to_string())
}
