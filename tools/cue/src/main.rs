//! The command: arguments, files and printing. See README.md.
use cue::{run, Options, Outcome, Stats};
use std::ffi::OsString;
use std::io::{self, Read, Write};
use std::path::{Path, PathBuf};
use std::process::ExitCode;

const USAGE: &str = "usage: cue [OPTION].. [FILE.ll]

Prints the lines of every function that FILE.ll defines. Without FILE, or where it is -, the text is standard input's.

  --book DIR        write books: DIR/piece.book of all functions printed, DIR/functions/NAME.book of each
  --function NAME   only this function
  --stats           counts, to standard error
  --help            this
  --version         the version

0: all functions are printed. 1: some are left out, each named on standard error. 2: no IR, or a file that can't be read
or written, or none of these options.";

/// What the command was asked for.
#[derive(Default)]
struct Request {
    file: Option<PathBuf>,
    folder: Option<PathBuf>,
    function: Option<String>,
    stats: bool,
}

enum Asked {
    Lines(Request),
    Print(String),
}

fn main() -> ExitCode {
    match asked(std::env::args_os().skip(1)) {
        Ok(Asked::Print(text)) => ExitCode::from(print(&text).map_or_else(fail, |()| 0)),
        Ok(Asked::Lines(request)) => ExitCode::from(serve(&request).unwrap_or_else(fail)),
        Err(reason) => ExitCode::from(fail(format!("cue: {reason}\n{USAGE}"))),
    }
}

/// Says why nothing came of it, and gives the exit code.
fn fail(reason: String) -> u8 {
    say(&reason);
    2
}

fn asked(mut args: impl Iterator<Item = OsString>) -> Result<Asked, String> {
    let mut request = Request::default();
    let mut options = true;
    while let Some(arg) = args.next() {
        let mut value = || args.next().ok_or(format!("nothing behind {}", arg.to_string_lossy()));
        match arg.to_str() {
            Some("--book") if options => request.folder = Some(value()?.into()),
            Some("--function") if options => request.function = Some(value()?.to_string_lossy().into_owned()),
            Some("--stats") if options => request.stats = true,
            Some("--help") if options => return Ok(Asked::Print(format!("{USAGE}\n"))),
            Some("--version") if options => return Ok(Asked::Print(format!("cue {}\n", env!("CARGO_PKG_VERSION")))),
            Some("--") if options => options = false,
            Some(option) if options && option.len() > 1 && option.starts_with('-') => {
                return Err(format!("no option {option}"))
            }
            _ if request.file.is_some() => return Err("one file at a time".to_string()),
            _ => request.file = Some(arg.into()),
        }
    }
    Ok(Asked::Lines(request))
}

/// Does what was asked, and gives the exit code.
fn serve(request: &Request) -> Result<u8, String> {
    let (name, text) = text(request.file.as_deref())?;
    let options = Options { function: request.function.clone(), books: request.folder.is_some() };
    let outcome = run(&name, &text, &options);
    write_books(request.folder.as_deref(), &outcome)?;
    print(&outcome.text)?;
    for complaint in &outcome.complaints {
        say(complaint);
    }
    if request.stats && outcome.code < 2 {
        say(&counts(&outcome.stats));
    }
    Ok(outcome.code)
}

/// The text and what complaints call it.
fn text(file: Option<&Path>) -> Result<(String, Vec<u8>), String> {
    match file.filter(|file| *file != Path::new("-")) {
        Some(file) => {
            let name = file.to_string_lossy().into_owned();
            let text = std::fs::read(file).map_err(|error| format!("{name}: error: {error}"))?;
            Ok((name, text))
        }
        None => {
            let mut text = Vec::new();
            io::stdin().read_to_end(&mut text).map_err(|error| format!("<stdin>: error: {error}"))?;
            Ok(("<stdin>".to_string(), text))
        }
    }
}

fn write_books(folder: Option<&Path>, outcome: &Outcome) -> Result<(), String> {
    let Some(folder) = folder.filter(|_| outcome.code < 2) else { return Ok(()) };
    let named = |path: &Path, error: io::Error| format!("{}: error: {error}", path.display());
    let functions = folder.join("functions");
    std::fs::create_dir_all(&functions).map_err(|error| named(&functions, error))?;
    for (name, bytes) in &outcome.books {
        let path = folder.join(name);
        std::fs::write(&path, bytes).map_err(|error| named(&path, error))?;
    }
    Ok(())
}

fn counts(stats: &Stats) -> String {
    let Stats { read, printed, left_out, entries, names, lines, bytes, next } = stats;
    format!(
        "functions: {read} read, {printed} printed, {left_out} left out\n\
         book: {entries} entries, {names} names\n\
         text: {lines} lines, {bytes} bytes\n\
         next label counter: {next}"
    )
}

/// To standard output. That its reader has gone is no error.
fn print(text: &str) -> Result<(), String> {
    let mut output = io::stdout().lock();
    match output.write_all(text.as_bytes()).and_then(|()| output.flush()) {
        Err(error) if error.kind() != io::ErrorKind::BrokenPipe => Err(format!("<stdout>: error: {error}")),
        _ => Ok(()),
    }
}

/// A line to standard error.
fn say(text: &str) {
    let _ = writeln!(io::stderr().lock(), "{text}");
}
