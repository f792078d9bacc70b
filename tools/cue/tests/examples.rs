//! The examples: `cue` gives the stored lines and complaints, the books that it writes give the same lines again, and the
//! lines do on a machine what the C says.
mod machine;

use cue::{run, Options, Outcome};
use machine::Machine;
use mivolanjy::Book;
use std::fs;
use std::path::{Path, PathBuf};

fn folder() -> PathBuf {
    Path::new(env!("CARGO_MANIFEST_DIR")).join("../../examples")
}

/// The files of the folder with an extension.
fn files(extension: &str) -> Vec<PathBuf> {
    let entries = fs::read_dir(folder()).expect("the examples are there").map(|entry| entry.expect("an entry").path());
    let mut files: Vec<PathBuf> = entries.filter(|path| path.extension().is_some_and(|found| found == extension)).collect();
    files.sort();
    files
}

/// An example by its name without `.ll`, run as by someone who stands in the folder.
fn outcome(name: &str) -> Outcome {
    let file = format!("{name}.ll");
    let text = fs::read(folder().join(&file)).unwrap_or_else(|error| panic!("{file}: {error}"));
    run(&file, &text, &Options { books: true, ..Options::default() })
}

fn names() -> Vec<String> {
    let stem = |path: PathBuf| path.file_stem().expect("a name").to_string_lossy().into_owned();
    files("ll").into_iter().map(stem).collect()
}

fn stored(name: &str, extension: &str) -> Option<String> {
    fs::read_to_string(folder().join(format!("{name}.{extension}"))).ok()
}

/// The text of books one after the other, each beginning with the label counter that the last one left.
fn text_of<'b>(books: impl Iterator<Item = &'b [u8]>) -> String {
    let mut text = String::new();
    let mut counter = 0;
    for file in books {
        let book = Book::from_file(file).expect("a whole book");
        let lines = book.translate(counter).expect("accepted");
        text += &book.print(&lines).expect("printed");
        counter = lines.next;
    }
    text
}

#[test]
fn lines_are_those_stored() {
    for name in names() {
        let lines = stored(&name, "lines").unwrap_or_else(|| panic!("no {name}.lines"));
        assert!(outcome(&name).text == lines, "{name}.ll has other lines than {name}.lines");
    }
}

#[test]
fn complaints_are_those_stored() {
    for name in names() {
        let Outcome { complaints, code, .. } = outcome(&name);
        let said: String = complaints.iter().map(|complaint| format!("{complaint}\n")).collect();
        assert_eq!(said, stored(&name, "left-out").unwrap_or_default(), "{name}");
        assert_eq!(code, u8::from(!said.is_empty()), "{name}");
    }
}

#[test]
fn the_books_give_the_same_lines() {
    for name in names() {
        let Outcome { text, books, stats, .. } = outcome(&name);
        let (own, piece): (Vec<_>, Vec<_>) = books.iter().partition(|(path, _)| path.starts_with("functions/"));
        assert_eq!((piece.len(), own.len()), (1, stats.printed), "{name}");
        assert_eq!(piece[0].0, "piece.book", "{name}");
        for books in [piece, own] {
            assert!(text_of(books.iter().map(|(_, file)| file.as_slice())) == text, "{name}");
        }
    }
}

/// Pointers of one type or of many, with or without what a debugger wants: the C is the same, and so are the lines.
#[test]
fn spellings_give_the_same_lines() {
    let timer = outcome("timer").text;
    assert_eq!(outcome("timer.opaque").text, timer);
    assert_eq!(outcome("timer.debug").text, timer);
}

#[test]
fn nothing_is_stored_for_nothing() {
    let names = names();
    assert!(!names.is_empty());
    for file in [files("lines"), files("left-out"), files("c")].concat() {
        let stem = file.file_stem().expect("a name").to_string_lossy();
        assert!(names.iter().any(|name| *name == stem), "{} belongs to no text", file.display());
    }
}

/// Where the tests below put their data.
const HERE: u64 = 4_096;
const THERE: u64 = 8_192;

fn put(machine: &mut Machine, at: u64, bytes: &[u8]) {
    machine.memory[at as usize..][..bytes.len()].copy_from_slice(bytes);
}

fn taken<'m>(machine: &'m Machine, at: u64, count: usize) -> &'m [u8] {
    &machine.memory[at as usize..][..count]
}

#[test]
fn the_timer_runs() {
    // Held, padding, time, number, padding.
    let cue = |held: u64, at: i64, number: u64| [held.to_le_bytes(), at.to_le_bytes(), number.to_le_bytes()].concat();
    let cues = [cue(0, -500, 1), cue(0, 1_000, 2), cue(1, 2_000, 3), cue(0, 64_000, 4)].concat();
    for name in ["timer", "timer.opaque", "timer.debug", "timer.O0"] {
        let text = outcome(name).text;
        let mut machine = Machine::new(&text);
        put(&mut machine, HERE, &cues);
        for (now, next, left) in [(-501, 0, 1), (-500, 1, 1_500), (1_000, 3, 63_000), (64_000, -1, -1)] {
            assert_eq!(machine.call("next_cue", &[HERE, 4, now as u64]) as i32, next, "{name} at {now}");
            assert_eq!(machine.call("remaining", &[HERE, 4, now as u64]) as i64, left, "{name} at {now}");
        }
        let shown =
            [(0, "00:00"), (1, "00:01"), (63_000, "01:03"), (5_999_000, "99:59"), (5_999_001, "--:--"), (-1, "--:--")];
        for (left, expected) in shown {
            machine.call("put_remaining", &[THERE, left as u64]);
            assert_eq!(taken(&machine, THERE, 5), expected.as_bytes(), "{name}: {left}");
        }
    }
}

#[test]
fn the_breaker_runs() {
    let song = " La donn\u{e0} \u{e8}  mobile qual piuma";
    let cases: [(u64, &[&str]); 4] = [
        (0, &[]),
        (6, &["La", "donn\u{e0}", "\u{e8}", "mobile", "qual", "piuma"]),
        (10, &["La donn\u{e0} \u{e8}", "mobile", "qual piuma"]),
        (4, &["La", "donn", "\u{e0} \u{e8}", "mobi", "le", "qual", "pium", "a"]),
    ];
    for name in ["breaker", "breaker.O2"] {
        let text = outcome(name).text;
        let mut machine = Machine::new(&text);
        put(&mut machine, HERE, song.as_bytes());
        for (width, expected) in cases {
            let count = machine.call("break_lines", &[HERE, song.len() as u64, width, THERE, 20]);
            let spans = taken(&machine, THERE, 8 * count as usize).to_vec();
            let spans = spans.chunks(8).map(|span| u64::from_le_bytes(span.try_into().expect("two offsets")));
            let lines = spans.clone().map(|span| &song[span as u32 as usize..(span >> 32) as usize]);
            assert_eq!(lines.collect::<Vec<&str>>(), expected, "{name}: {width}");
            for (span, line) in spans.zip(expected) {
                assert_eq!(machine.call("characters", &[HERE, span]), line.chars().count() as u64, "{name}: {line}");
            }
        }
    }
}

#[test]
fn the_search_runs() {
    let names = ["Aria", "Ariadne", "Bacchus", "Najade"];
    let text = outcome("search").text;
    let mut machine = Machine::new(&text);
    for (place, name) in (0..).zip(names) {
        // Act and bar, name, length, colour: 32 bytes.
        let bar = 10 * (place + 1);
        let words = [bar << 32, THERE + 16 * place, name.len() as u64, 0x30_20_10 + place];
        put(&mut machine, HERE + 32 * place, &words.map(u64::to_le_bytes).concat());
        put(&mut machine, THERE + 16 * place, name.as_bytes());
    }
    for (bar, cue) in [(0, -1), (9, -1), (10, 0), (29, 1), (40, 3), (u32::MAX, 3)] {
        assert_eq!(machine.call("at_bar", &[HERE, 4, u64::from(bar)]) as i32, cue, "bar {bar}");
    }
    for (place, length, cue) in [(0, 4, 0), (1, 4, 0), (1, 7, 1), (3, 6, 3), (3, 5, -1)] {
        assert_eq!(machine.call("named", &[HERE, 4, THERE + 16 * place, length]) as i32, cue, "{place}, {length}");
    }
    for one in 0..4 {
        for other in 0..4 {
            let order = machine.call("order", &[HERE + 32 * one, HERE + 32 * other]) as i32;
            assert_eq!(order.cmp(&0), one.cmp(&other), "{one}, {other}");
        }
    }
    assert_eq!(machine.call("ascending", &[HERE, 4]), 1);
    put(&mut machine, THERE, b"Cria");
    assert_eq!(machine.call("ascending", &[HERE, 4]), 0);
    assert_eq!(machine.call("colour", &[HERE + 64]), 0x12_20_30);
}

#[test]
fn the_screen_runs() {
    for name in ["screen", "screen.opaque"] {
        let text = outcome(name).text;
        let mut machine = Machine::new(&text);
        let mut carry_out = |command: u64, value: i32| machine.call("carry_out", &[HERE, command, u64::from(value as u32)]);
        // Fade to 80, not to 101, nor below 0; show cue 1200, a step back; its number in line 1, not in 2; turn left; none.
        let commands = [(3, 80), (3, 21), (3, -81), (1, 1_200), (2, -1), (4, 1), (4, 2), (5, -5), (6, 0)];
        let replies = commands.map(|(command, value)| carry_out(command, value));
        assert_eq!(replies, [0, 1, 1, 0, 0, 0, 1, 0, 1], "{name}");
        // Dark, level, turn, cue, shown; then lines of a byte and 42.
        let mut expected =
            [&[0, 0, 80, 0, 255, 0, 0, 0], &1_199u64.to_le_bytes()[..], &2u64.to_le_bytes(), &[0; 43]].concat();
        expected.extend(b"\x041199");
        assert_eq!(taken(&machine, HERE, expected.len()), expected, "{name}");
        assert_eq!(machine.call("light", &[HERE, 200]), 128, "{name}");
        put(&mut machine, THERE, b"O namenlose Freude!\0");
        assert_eq!(machine.call("put_line", &[HERE + 24, THERE]), 0, "{name}");
        assert_eq!(taken(&machine, HERE + 24, 21), b"\x13O namenlose Freude!\0", "{name}");
    }
}

#[test]
fn the_rest_of_outside_runs() {
    let text = outcome("outside").text;
    let mut machine = Machine::new(&text);
    put(&mut machine, HERE, &[0u32, 30, 15].map(u32::to_le_bytes).concat());
    assert_eq!(machine.call("reading_time", &[30]), 3_500);
    assert_eq!(machine.call("reading_times", &[HERE, 3]), 1_500 + 3_500 + 2_500);
}
