//! What the lexer makes of each spelling.
use super::*;

/// The tokens of a text, up to its end or a fault.
fn tokens(text: &str) -> Vec<Token<'_>> {
    let mut lexer = Lexer::new(text.as_bytes());
    let next = || lexer.next().ok().map(|(token, _, _)| token).filter(|token| *token != Token::End);
    std::iter::from_fn(next).collect()
}

fn one(text: &str) -> Token<'_> {
    let found = tokens(text);
    assert_eq!(found.len(), 1, "{text}: {found:?}");
    found[0]
}

/// Line, column and message of a text's first fault.
fn fault(text: &[u8]) -> (usize, usize, String) {
    let mut lexer = Lexer::new(text);
    loop {
        match lexer.next() {
            Ok((Token::End, ..)) => panic!("no fault"),
            Ok(_) => {}
            Err(fault) => return (fault.line, fault.column, fault.message),
        }
    }
}

fn name(token: Token<'_>) -> String {
    match token {
        Token::Local(name) | Token::Global(name) | Token::Label(name) => name.name().expect("a name").into_owned(),
        _ => panic!("{token:?}"),
    }
}

#[test]
fn names() {
    for (text, expected) in [
        ("%a", "a"),
        ("%-a$._9", "-a$._9"),
        ("@\"a b\"", "a b"),
        ("@\"x\\22y\\\\z\\q\"", "x\"y\\z\\q"),
        ("%\"\\C3\\A9\"", "é"),
        ("%\"é\"", "é"),
        ("%12", "12"),
        ("%012", "12"),
        ("@0", "0"),
        ("entry:", "entry"),
        ("\"a b\":", "a b"),
        ("7:", "7"),
        ("-1:", "-1"),
        ("1a.b$:", "1a.b$"),
        (".x:", ".x"),
        ("$x:", "$x"),
    ] {
        assert_eq!(name(one(text)), expected, "{text}");
    }
}

#[test]
fn names_without_a_book() {
    for (text, expected) in [
        ("%\"\\FF\"", "a name that is not UTF-8"),
        ("%\"12\"", "a quoted name of digits alone, which a book can't tell from a number"),
        ("%\"\"", "an empty name"),
    ] {
        let Token::Local(name) = one(text) else { panic!("{text}") };
        assert_eq!(name.name(), Err(expected), "{text}");
    }
}

#[test]
fn integers() {
    for (text, expected) in [
        ("0", 0),
        ("-0", 0),
        ("007", 7),
        ("-12", -12),
        ("18446744073709551615", u64::MAX.into()),
        ("170141183460469231731687303715884105727", i128::MAX),
        ("-170141183460469231731687303715884105728", i128::MIN),
        ("u0xFF", 255),
        ("u0x0", 0),
        ("s0xFF", -1),
        ("s0x0F", -1),
        ("s0x50", -0x30),
        ("s0x0", 0),
    ] {
        assert_eq!(one(text), Token::Int(expected), "{text}");
    }
    assert_eq!(one("170141183460469231731687303715884105728"), Token::Huge);
    assert_eq!(one("u0xFFFFFFFFFFFFFFFFFFFFFFFFFFFFFFFF"), Token::Huge);
    assert_eq!(one("u0xg"), Token::Word("u0xg"));
}

#[test]
fn floats() {
    for text in [
        "1.0",
        "-1.5e+10",
        "+0.5",
        "1.e5",
        "0x400921FB54442D18",
        "0xH3C00",
        "0xK4000C8F5C28F5C28F800",
        "0xL00",
        "0xM00",
        "0xR3F80",
    ] {
        assert_eq!(one(text), Token::Float, "{text}");
    }
}

#[test]
fn others() {
    assert_eq!(one("!dbg"), Token::Metadata);
    assert_eq!(one("!llvm.module.flags"), Token::Metadata);
    assert_eq!(one("!\\31x"), Token::Metadata);
    assert_eq!(tokens("!7"), [Token::Mark(b'!'), Token::Int(7)]);
    assert_eq!(tokens("!\"text\""), [Token::Mark(b'!'), Token::Text]);
    assert_eq!(one("#7"), Token::Group);
    assert_eq!(tokens("#dbg_value"), [Token::Mark(b'#'), Token::Word("dbg_value")]);
    assert_eq!(one("^7"), Token::Summary);
    assert_eq!(one("$x"), Token::Comdat);
    assert_eq!(one("$\"x y\""), Token::Comdat);
    assert_eq!(one("..."), Token::Dots);
    assert_eq!(one("\"a\\22b\n\""), Token::Text);
    assert_eq!(tokens("[4x i8]").len(), 5);
    assert_eq!(tokens("i32x"), [Token::Word("i32"), Token::Word("x")]);
    assert_eq!(tokens("c\"x\""), [Token::Word("c"), Token::Text]);
    assert_eq!(tokens("; 5 %\n \t\r\0 ; x"), []);
}

#[test]
fn places() {
    let mut lexer = Lexer::new("a ; b\n\"x\ny\" \u{e9}".as_bytes());
    let mut next = || lexer.next().map(|(_, spot, _)| (spot.line, spot.column));
    assert_eq!(next(), Ok((1, 1)));
    assert_eq!(next(), Ok((2, 1)));
    assert_eq!(next(), Err(Fault::new(Spot { line: 3, column: 4 }, "a character that LLVM's text doesn't have")));
}

#[test]
fn faults() {
    assert_eq!(fault(b"a\n \"b"), (2, 2, "a quotation mark that is never closed".to_string()));
    assert_eq!(fault(b"% "), (1, 1, "a sign for a name, and no name".to_string()));
    assert_eq!(fault(b"%\"a\\00\""), (1, 2, "a zero byte in a name".to_string()));
    assert_eq!(fault(b"%4294967296"), (1, 2, "a number above 4294967295 in place of a name".to_string()));
    assert_eq!(fault(b"-").2, "a minus sign without digits");
    assert_eq!(fault(b"+x").2, "a plus sign without digits");
    assert_eq!(fault(b".").2, "a dot that begins nothing");
    assert_eq!(fault(b"\xff").2, "a character that LLVM's text doesn't have");
}

#[test]
fn comments_end_with_their_line() {
    for text in ["; a\nadd", "; a\radd", "; a\r\nadd", "add ; a"] {
        assert_eq!(tokens(text), [Token::Word("add")], "{text:?}");
    }
}
