//! Texts that a careless reader is slow on, or has no stack for.
use cue::read;
use std::time::{Duration, Instant};

/// So much text is read in well under this time, without optimisation too: were each byte looked at for every other one, it
/// would take minutes.
const LENGTH: usize = 1 << 19;
const MOST: Duration = Duration::from_secs(10);

fn fault(text: &str) -> String {
    read(text.as_bytes()).expect_err("a fault").message
}

#[test]
fn nesting() {
    let nested = |open: &str, close: &str, levels: usize| {
        format!("define void @f() {{\n  %x = alloca {}i8{}\n  ret void\n}}", open.repeat(levels), close.repeat(levels))
    };
    for (open, close) in [("[1 x ", "]"), ("{ ", " }"), ("<{", "}>"), ("i8 (", ")*")] {
        assert!(read(nested(open, close, 100).as_bytes()).is_ok(), "{open}");
        assert_eq!(fault(&nested(open, close, 100_000)), "nested too deeply", "{open}");
    }
    let (open, close) = ("bitcast (i8* ".repeat(100_000), " to i8*)".repeat(100_000));
    assert_eq!(fault(&format!("define void @f() {{ store i8* {open}@g{close}, i8** null")), "nested too deeply");
    let brackets = format!("@a = global i8 {}{}", "[".repeat(100_000), "]".repeat(100_000));
    assert!(read(brackets.as_bytes()).is_ok());
}

#[test]
fn length() {
    for part in [
        "1-", "i1", "0x", "@a ", "!", "!0 = ", "%", "\"", "a:", "(", "-", "^0 ", "$a ", "#", "i8 (", "<1 x ", "define ",
        "... ",
    ] {
        for head in ["", "define void @f() {\n", "define void @f() {\n fadd ", "@a = global i8 ", "!0 = !{"] {
            let text = format!("{head}{}", part.repeat(LENGTH / part.len()));
            let begin = Instant::now();
            let _ = read(text.as_bytes());
            assert!(begin.elapsed() < MOST, "{head}{part}: {:?}", begin.elapsed());
        }
    }
}
