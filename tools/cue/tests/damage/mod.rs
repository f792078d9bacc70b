//! Damaged copies of texts. A copy is made from its number alone.
use std::fs;
use std::ops::Range;
use std::path::{Path, PathBuf};

/// The texts that are damaged.
pub struct Sources {
    examples: Vec<Vec<u8>>,
    snippets: Vec<Vec<u8>>,
}

impl Sources {
    pub fn read() -> Sources {
        let tests = Path::new(env!("CARGO_MANIFEST_DIR")).join("tests");
        let entries = fs::read_dir(tests.join("../../../examples")).expect("the examples are there");
        let mut paths: Vec<PathBuf> = entries.map(|entry| entry.expect("an entry").path()).collect();
        paths.retain(|path| path.extension().is_some_and(|extension| extension == "ll"));
        paths.sort();
        let examples: Vec<Vec<u8>> = paths.iter().map(|path| fs::read(path).expect("an example")).collect();
        let statements = fs::read_to_string(tests.join("statements.txt")).expect("statements.txt");
        let texts = fs::read_to_string(tests.join("texts.txt")).expect("texts.txt");
        let (statements, texts) = (within_functions(&statements), whole_texts(&texts));
        assert!(!examples.is_empty() && !statements.is_empty() && !texts.is_empty(), "a sort of text is missing");
        Sources { examples, snippets: [statements, texts].concat() }
    }

    fn pick(&self, dice: &mut Dice) -> &[u8] {
        let texts = *dice.choice(&[&self.examples, &self.snippets]);
        dice.choice(texts).as_slice()
    }
}

/// A text for each statement of a table, where they alone begin a line; titles begin with `==`.
fn within_functions(table: &str) -> Vec<Vec<u8>> {
    let statements = table.lines().filter(|line| !line.is_empty() && !line.starts_with([' ', '=']));
    statements.map(|statement| format!("{BEFORE}{statement}\nret void\n}}\n").into_bytes()).collect()
}

/// The texts of a table that has them between a title and a row of dashes.
fn whole_texts(table: &str) -> Vec<Vec<u8>> {
    let rows = table.split("==== ").filter_map(|row| row.split_once('\n'));
    rows.filter_map(|(_, rest)| Some(rest.split_once("----\n")?.0.as_bytes().to_vec())).collect()
}

/// What a statement may name.
const BEFORE: &str = "
%S = type { i8, i32, i8 }
%P = type <{ i8, [2 x %S] }>
%O = type opaque
@v = global i32 0
declare i32 @h(i32)
define i32 @g(i32 %a) { ret i32 %a }
define void @f(i1 %t, i8 %a, i32 %b, i64 %c, ptr %p) {
entry:
";

/// What stands in IR, in whatever order, between blanks.
const WORDS: &str = r##"
    define declare global constant alias ifunc type opaque attributes source_filename target module asm sideeffect
    uselistorder dso_local internal private linkonce_odr comdat section gc prefix personality unnamed_addr addrspace(1)
    noundef byval(i8) sret( dereferenceable(8) align captures(none) fastcc cc i0 i1 i8 i16 i24 i32 i64 i128 i8388608
    i99999999999999999999 ptr void label metadata token half float double x86_fp80 vscale x add sdiv ashr nsw nuw exact
    nneg disjoint samesign icmp eq slt select load store volatile atomic seq_cst syncscope("a") alloca inalloca
    getelementptr inbounds inrange phi call tail musttail invoke to unwind switch br ret unreachable indirectbr callbr
    resume landingpad cleanup freeze cmpxchg weak atomicrmw xchg fence extractvalue insertvalue extractelement
    shufflevector va_arg trunc zext sext bitcast ptrtoint addrspacecast fadd fcmp fast null undef poison
    zeroinitializer none true false splat c"a\00" dso_local_equivalent no_cfi #0 #999999999999 !0 !dbg !{ !"
    !DIExpression() !llvm.loop ^0 @llvm.trap @llvm.smax.i32 @llvm.lifetime.end.p0 @memcmp @x %x %0
    %18446744073709551616 %"\F0\9F" %" @" @"" "\00" " \ ' $x ... ( ) [ ] { } < > <{ }> , = * | : ; entry: 0: -1: "a": -
    -1 0 1 0x 0xK0 u0x1F 1.0 1e9 2147483648 -9223372036854775809 18446744073709551616
    340282366920938463463374607431768211456
"##;

/// What has blanks within.
const PHRASES: [&str; 8] = [
    "\n",
    "\r",
    "\t",
    "\0",
    "%\"a b\"",
    "range(i8 0, 1)",
    "blockaddress(@f, %b)",
    "#dbg_value(i32 0, !0, !DIExpression(), !0)",
];

/// What goes about something, over and over.
const SHELLS: [(&str, &str); 14] = [
    ("[1 x ", "]"),
    ("{ ", " }"),
    ("<{", "}>"),
    ("<4 x ", ">"),
    ("i8 (", ")"),
    ("!{", "}"),
    ("(", ")"),
    ("", "*"),
    ("[", ""),
    ("{", ""),
    ("<", ""),
    ("(", ""),
    ("inttoptr (i64 ptrtoint (ptr ", " to i64) to ptr)"),
    ("getelementptr (i8, ptr ", ", i64 1)"),
];

/// Numbers without end, each generator's own by its seed: xorshift, the seed stirred first.
struct Dice(u64);

impl Dice {
    fn new(seed: u64) -> Dice {
        let stirred = (seed + 1).wrapping_mul(0x9E37_79B9_7F4A_7C15);
        Dice((stirred ^ stirred >> 29).wrapping_mul(0xBF58_476D_1CE4_E5B9) | 1)
    }

    fn next(&mut self) -> u64 {
        self.0 ^= self.0 << 13;
        self.0 ^= self.0 >> 7;
        self.0 ^= self.0 << 17;
        self.0.wrapping_mul(0x2545_F491_4F6C_DD1D) >> 16
    }

    /// A number below the bound; 0 below 0.
    fn below(&mut self, bound: usize) -> usize {
        self.next() as usize % bound.max(1)
    }

    fn choice<'c, T>(&mut self, choices: &'c [T]) -> &'c T {
        &choices[self.below(choices.len())]
    }
}

/// The copy of a number. It has one damage, or more, each half as likely as the one before.
pub fn copy(number: u64, sources: &Sources) -> Vec<u8> {
    let mut dice = Dice::new(number);
    let mut text = sources.pick(&mut dice).to_vec();
    loop {
        damage(&mut text, &mut dice, sources);
        if dice.below(2) == 0 {
            return text;
        }
    }
}

fn damage(text: &mut Vec<u8>, dice: &mut Dice, sources: &Sources) {
    match dice.below(16) {
        0 => text.truncate(dice.below(text.len())),
        1 => rearrange(text, dice, byte),
        2 | 3 => rearrange(text, dice, token),
        4 => rearrange(text, dice, line),
        5 => rearrange(text, dice, stretch),
        6..=9 => exchange(text, dice),
        10 => flip(text, dice),
        11 => splice(text, dice, sources),
        12 => insert_words(text, dice),
        13 => {
            let place = token(text, dice);
            let word = word(dice);
            text.splice(place, word.bytes());
        }
        14 => match dice.below(8) {
            0 => nest(text, dice),
            _ => enlarge(text, dice),
        },
        _ => insert_bytes(text, dice),
    }
}

/// Drops a part, doubles it, or has it change places with another of its sort.
fn rearrange(text: &mut Vec<u8>, dice: &mut Dice, part: fn(&[u8], &mut Dice) -> Range<usize>) {
    let one = part(text, dice);
    match dice.below(3) {
        0 => drop(text.drain(one)),
        1 => {
            let again = text[one.clone()].to_vec();
            text.splice(one.end..one.end, again);
        }
        _ => {
            let other = part(text, dice);
            let (one, other) = if one.start <= other.start { (one, other) } else { (other, one) };
            if one.end <= other.start {
                let between = one.end..other.start;
                let swapped = [&text[other.clone()], &text[between], &text[one.clone()]].concat();
                text.splice(one.start..other.end, swapped);
            }
        }
    }
}

fn byte(text: &[u8], dice: &mut Dice) -> Range<usize> {
    let at = dice.below(text.len());
    at..(at + 1).min(text.len())
}

/// The token about a place.
fn token(text: &[u8], dice: &mut Dice) -> Range<usize> {
    token_at(text, dice.below(text.len()))
}

fn token_at(text: &[u8], at: usize) -> Range<usize> {
    let in_word = |byte: &u8| byte.is_ascii_alphanumeric() || b"_.%@!#$-\\\"".contains(byte);
    let Some(here) = text.get(at) else { return at..at };
    if !in_word(here) {
        return at..at + 1;
    }
    let before = text[..at].iter().rev().take_while(|byte| in_word(byte)).count();
    let behind = text[at..].iter().take_while(|byte| in_word(byte)).count();
    at - before..at + behind
}

/// The line about a place, with its end.
fn line(text: &[u8], dice: &mut Dice) -> Range<usize> {
    let at = dice.below(text.len());
    let start = text[..at].iter().rposition(|&byte| byte == b'\n').map_or(0, |end| end + 1);
    let end = text[at..].iter().position(|&byte| byte == b'\n').map_or(text.len(), |end| at + end + 1);
    start..end
}

fn stretch(text: &[u8], dice: &mut Dice) -> Range<usize> {
    let start = dice.below(text.len());
    start..(start + dice.below(400)).min(text.len())
}

/// A token becomes another of its sort: mostly IR still, with another meaning or none.
fn exchange(text: &mut Vec<u8>, dice: &mut Dice) {
    let place = token(text, dice);
    let sort = sort_of(&text[place.clone()]);
    let other = (0..64).map(|_| token(text, dice)).find(|other| sort_of(&text[other.clone()]) == sort);
    if let Some(other) = other {
        let bytes = text[other].to_vec();
        text.splice(place, bytes);
    }
}

/// Locals, globals, metadata, types, numbers, words, and each punctuation by itself.
fn sort_of(token: &[u8]) -> u8 {
    match token {
        [b'i', b'0'..=b'9', ..] | b"ptr" | b"void" => b'i',
        [b'-' | b'0'..=b'9', ..] => b'0',
        [first, ..] if first.is_ascii_alphabetic() => b'a',
        [first, ..] => *first,
        [] => 0,
    }
}

fn flip(text: &mut [u8], dice: &mut Dice) {
    for _ in 0..1 + dice.below(8) {
        let at = dice.below(text.len());
        if let Some(byte) = text.get_mut(at) {
            *byte ^= 1 << dice.below(8);
        }
    }
}

/// What follows comes from another text.
fn splice(text: &mut Vec<u8>, dice: &mut Dice, sources: &Sources) {
    let other = sources.pick(dice);
    text.truncate(dice.below(text.len()));
    text.extend_from_slice(&other[dice.below(other.len())..]);
}

fn word(dice: &mut Dice) -> &'static str {
    let at = dice.below(PHRASES.len() + WORDS.split_whitespace().count());
    PHRASES.into_iter().chain(WORDS.split_whitespace()).nth(at).expect("fewer than there are")
}

fn insert_words(text: &mut Vec<u8>, dice: &mut Dice) {
    let mut words = Vec::new();
    for _ in 0..1 + dice.below(6) {
        words.push(b' ');
        words.extend(word(dice).bytes());
    }
    words.push(b' ');
    let at = token(text, dice).end;
    text.splice(at..at, words);
}

/// Bytes of any value, so mostly no UTF-8.
fn insert_bytes(text: &mut Vec<u8>, dice: &mut Dice) {
    let bytes: Vec<u8> = (0..1 + dice.below(12)).map(|_| dice.next() as u8).collect();
    let at = dice.below(text.len());
    text.splice(at..at, bytes);
}

/// A type or another token within many shells, closed or not.
fn nest(text: &mut Vec<u8>, dice: &mut Dice) {
    let depth = *dice.choice(&[30, 63, 64, 65, 1_000, 100_000]);
    let (open, close) = dice.choice(&SHELLS);
    let place = match dice.below(3) {
        0 => token(text, dice),
        _ => next_token(text, dice, |word| sort_of(word) == b'i'),
    };
    let within = String::from_utf8_lossy(&text[place.clone()]).into_owned();
    let nested = [&open.repeat(depth), within.as_str(), &close.repeat(depth)].concat();
    text.splice(place, nested.into_bytes());
}

/// A number becomes another, mostly one that nothing holds.
fn enlarge(text: &mut Vec<u8>, dice: &mut Dice) {
    let place = next_token(text, dice, |word| word.iter().all(u8::is_ascii_digit));
    let number = match dice.below(4) {
        0 => "9".repeat(1 + dice.below(50)),
        1 => "1".to_string() + &"0".repeat(dice.below(3_000)),
        2 => "-".to_string() + &"9".repeat(1 + dice.below(30)),
        _ => (1u128 << dice.below(128)).to_string(),
    };
    text.splice(place, number.into_bytes());
}

/// The first token behind some place that is of a sort; where there is none, the end of the text.
fn next_token(text: &[u8], dice: &mut Dice, sort: fn(&[u8]) -> bool) -> Range<usize> {
    let mut at = dice.below(text.len());
    while at < text.len() {
        let token = token_at(text, at);
        if sort(&text[token.clone()]) {
            return token;
        }
        at = token.end;
    }
    at..at
}
