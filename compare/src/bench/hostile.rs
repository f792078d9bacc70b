//! Shapes that a careless translator is slow on. The time for an entry should be that of any other book.
use crate::book::{kind, Lent, Slices};
use crate::check::{work_needed, MOST_ENTRIES, MOST_NAMES};
use crate::clock::best;
use crate::large::{self, arrays, function, nested, unreachable, Entries, Large};
use crate::proved;
use std::io::{Read, Write};
use std::process::{Command, Stdio};
use std::time::{Duration, Instant};

const NAMES: usize = MOST_NAMES as usize;
const ENTRIES: usize = MOST_ENTRIES as usize;
const END: (u64, u64) = (kind::END, 0);
const VOID: (u64, u64) = (kind::VOID, 0);
const BYTE: (u64, u64) = (kind::INT, 8);
const WORD: (u64, u64) = (kind::INT, 64);
const NULL: (u64, u64) = (kind::NULL, 0);

/// Lines beyond these are not made room for.
const MOST_LINES: usize = 1 << 23;
const MOST_TEXT: usize = 1 << 28;

/// So many bytes count as an entry does.
const BYTES: usize = 16;

/// The best of so many calls.
const CALLS: usize = 3;

/// The Rust is waited for so long: on some shapes it would take years.
const PATIENCE: Duration = Duration::from_secs(10);

pub fn table() -> Result<(), String> {
    println!("\nns for each entry, name, line and {BYTES} bytes of names or text, the best of {CALLS} calls; then ms of a whole call");
    println!(
        "{:>9}{:>8}{:>9}{:>8}{:>8}{:>11}{:>8}{:>14}{:>17}",
        "entries", "names", "lines", "answer", "check", "translate", "print", "translate ms", "gen_function ms",
    );
    let sound = large::books().into_iter().filter(|large| large.answer == 0);
    shapes().into_iter().chain(asks()).chain(sound).for_each(|large| row(&large));
    lines_table();
    Ok(())
}

/// Lines that no translation has, by the printer alone.
fn lines_table() {
    println!("\nlines put together by hand, and a text of so many bytes: ms of a whole call");
    println!("{:>9}{:>8}{:>9}{:>10}{:>8}{:>10}", "entries", "names", "lines", "text", "answer", "print ms");
    for Put { what, slices, kinds, operands, text } in put_together() {
        let mut text = vec![0; text];
        let ((answer, _), time) = least(|| proved::print(&slices.book, &slices.names, &kinds, &operands, &mut text));
        let [entries, names, lines, bytes] = [slices.book[0] as usize, slices.book[1] as usize, kinds.len(), text.len()];
        println!("{entries:>9}{names:>8}{lines:>9}{bytes:>10}{answer:>8}{:>10.1}  {what}", time / 1e6);
    }
}

/// Lines of a book, and the length of the text that they are printed into.
struct Put {
    what: &'static str,
    slices: Slices,
    kinds: Vec<u16>,
    operands: Vec<u64>,
    text: usize,
}

/// Comment lines in turn of functions with these results and parameters, which have no block; each has a name so long.
fn in_turn(what: &'static str, count: u64, result: &[(u64, u64)], params: usize, long: usize, lines: usize, text: usize) -> Put {
    let params = [(kind::PARAM, 0), BYTE].repeat(params);
    let function = |name: u64| [&[(kind::FUNCTION, name)], result, &params, &[END, END]].concat();
    let names = long_names("a", count as usize, long);
    let names: Vec<&str> = names.iter().map(String::as_str).collect();
    let slices = Slices::new(&large::closed((0..count).map(function)), &names);
    Put { what, slices, kinds: vec![0; lines], operands: (0..lines as u64).map(|line| line % count).collect(), text }
}

fn put_together() -> Vec<Put> {
    let wide = [vec![(kind::STRUCT, 0)], vec![BYTE; 400_000], vec![END]].concat();
    vec![
        in_turn("20,000 comments in turn of two functions of 200,000 parameters", 2, &[VOID], 200_000, 10, 20_000, 1 << 21),
        in_turn("the same with results of 400,000 fields", 2, &wide, 0, 10, 20_000, 1 << 21),
        in_turn("200,000 comments in turn of 2,000 functions of 200 parameters", 2000, &[VOID], 200, 10, 200_000, 1 << 24),
        in_turn("200,000 comments in turn of 100,000 functions", 100_000, &[VOID], 1, 10, 200_000, 1 << 24),
        in_turn("20,000 comments in turn of two functions of names of 1 MB, no text", 2, &[VOID], 0, 1 << 20, 20_000, 0),
    ]
}

/// The best of the calls, of one where that is long.
fn least<T>(mut call: impl FnMut() -> T) -> (T, f64) {
    let (answer, first) = best(1, &mut call);
    if first > Duration::from_secs(1) {
        return (answer, first.as_nanos() as f64);
    }
    let (answer, time) = best(CALLS - 1, call);
    (answer, time.min(first).as_nanos() as f64)
}

fn row(large: &Large) {
    let lent = &large.lent;
    let mut work = vec![1; lent.work];
    let (mut kinds, mut operands) = (vec![0; 0], vec![0; 0]);
    let mut room = 1 << 18;
    let (reply, translated) = loop {
        kinds.resize(room, 0);
        operands.resize(room, 0);
        let (answer, time) = least(|| proved::translate(&lent.slices, 0, &mut work, &mut kinds, &mut operands));
        if answer.refusal != 20 || room >= MOST_LINES {
            break (answer, time);
        }
        room *= 4;
    };
    let (_, checked) = least(|| proved::check(lent));
    let lines = if reply.refusal == 0 { reply.lines as usize } else { 0 };
    let [entries, names] = [lent.slices.book[0], lent.slices.book[1]];
    let (book, bytes) = (&lent.slices.book, &lent.slices.names);
    let size = entries as usize + names as usize + bytes.len() / BYTES;
    let mut text = vec![0; if lines == 0 { 0 } else { (64 * lines + bytes.len() * 2).min(MOST_TEXT) }];
    let print = |text: &mut Vec<u8>| proved::print(book, bytes, &kinds[..lines], &operands[..lines], text);
    while print(&mut text).0 == 20 && text.len() < MOST_TEXT {
        text.resize((4 * text.len()).min(MOST_TEXT), 0);
    }
    let printed = if lines > 0 {
        let ((_, count), time) = least(|| print(&mut text));
        format!("{:.1}", time / (size + lines + count as usize / BYTES) as f64)
    } else {
        String::new()
    };
    let whole = translated / 1e6;
    let (checked, translated) = (checked / size as f64, translated / (size + lines) as f64);
    let answer = if reply.refusal == 0 { String::new() } else { reply.refusal.to_string() };
    let rust = rust_time(&lent.slices).map_or("none".to_string(), |time| format!("{:.1}", time / 1e6));
    println!(
        "{entries:>9}{names:>8}{lines:>9}{answer:>8}{checked:>8.1}{translated:>11.1}{printed:>8}{whole:>14.1}{rust:>17}  {}",
        large.what,
    );
}

/// The nanoseconds that the Rust takes for a book, in a process of its own; none where it does not end in time.
fn rust_time(slices: &Slices) -> Option<f64> {
    let mut child = Command::new(std::env::current_exe().ok()?)
        .arg("time")
        .stdin(Stdio::piped())
        .stdout(Stdio::piped())
        .stderr(Stdio::null())
        .spawn()
        .ok()?;
    let (mut input, file) = (child.stdin.take()?, slices.to_file());
    let feeding = std::thread::spawn(move || input.write_all(&file));
    let start = Instant::now();
    let ended = loop {
        match child.try_wait().ok()? {
            Some(status) => break status.success(),
            None if start.elapsed() > PATIENCE => break false,
            None => std::thread::sleep(Duration::from_millis(5)),
        }
    };
    let _ = child.kill();
    let _ = child.wait();
    let _ = feeding.join();
    let mut text = String::new();
    child.stdout.take()?.read_to_string(&mut text).ok()?;
    text.trim().parse().ok().filter(|_| ended)
}

/// A book with its names given.
fn named(what: &'static str, entries: &[(u64, u64)], names: Vec<String>) -> Large {
    let names: Vec<&str> = names.iter().map(String::as_str).collect();
    let work = work_needed(names.len());
    Large { what, answer: 0, lent: Lent { slices: Slices::new(entries, &names), counter: 0, work } }
}

/// `%0 = {}`, `%1 = {%0, %0}` and so on, then a function that freezes the last of them so often. Name COUNT is the result.
fn doubling(what: &'static str, count: u64, times: usize) -> Large {
    let mut entries: Entries = vec![(kind::NAMED_STRUCT, 0), (kind::STRUCT, 0), END];
    for number in 1..count {
        let field = (kind::NAMED, number - 1);
        entries.extend([(kind::NAMED_STRUCT, number), (kind::STRUCT, 0), field, field, END]);
    }
    entries.extend(unreachable(&[(kind::FREEZE, count + 1), (kind::NAMED, count - 1), NULL].repeat(times)));
    large::large(what, 0, &entries, count as usize + 1)
}

/// A named struct of so many fields, and so many statements upon it. Name 0 is the struct's, 1 a result's.
fn fields(what: &'static str, count: usize, statement: &[(u64, u64)], times: usize) -> Large {
    let body = [vec![(kind::NAMED_STRUCT, 0), (kind::STRUCT, 0)], [BYTE, WORD].repeat(count / 2), vec![END]].concat();
    large::large(what, 0, &[body, unreachable(&statement.repeat(times))].concat(), 2)
}

fn field_of(ty: &[(u64, u64)], indices: &[u64]) -> Entries {
    let indices = indices.iter().flat_map(|index| [(kind::INT, 32), (kind::INTEGER, *index)]);
    [&[(kind::GEP, 2)], ty, &[NULL], &indices.collect::<Vec<_>>(), &[END]].concat()
}

/// A named struct with these fields, and so many of them asked for, in no order. Name 0 is the struct's, 1 a result's; the others
/// stand in nothing, but each has work words.
fn asked(what: &'static str, body: &[(u64, u64)], count: u64, times: u64, names: usize) -> Large {
    let ask = |number: u64| field_of(&[(kind::NAMED, 0)], &[0, number * 7919 % count]);
    let body = [&[(kind::NAMED_STRUCT, 0), (kind::STRUCT, 0)], body, &[END]].concat();
    let asks: Entries = (0..times).flat_map(ask).collect();
    large::large(what, 0, &[body, unreachable(&asks)].concat(), names)
}

/// Two named structs: one of a byte and a word, and one of so many of it, which are asked for in no order.
fn asked_named(what: &'static str, count: u64, times: u64, names: usize) -> Large {
    let ask = |number: u64| field_of(&[(kind::NAMED, 1)], &[0, number * 7919 % count]);
    let inner = [(kind::NAMED_STRUCT, 0), (kind::STRUCT, 0), BYTE, WORD, END];
    let outer = [vec![(kind::NAMED_STRUCT, 1), (kind::STRUCT, 0)], vec![(kind::NAMED, 0); count as usize], vec![END]].concat();
    let asks: Entries = (0..times).flat_map(ask).collect();
    large::large(what, 0, &[&inner[..], &outer, &unreachable(&asks)].concat(), names)
}

/// So many getelementptrs into arrays in one another, `depth` of them, in a named struct, of this element. Name 0 is the struct's, 1 a result's,
/// 2 an opaque struct's.
fn elements(what: &'static str, element: &[(u64, u64)], depth: usize, times: usize, names: usize) -> Large {
    let opaque = [(kind::NAMED_STRUCT, 2), (kind::OPAQUE, 0)];
    let arrays = vec![(kind::ARRAY, 1); depth];
    let body = [&[(kind::NAMED_STRUCT, 0), (kind::STRUCT, 0)], &arrays[..], element, &[END]].concat();
    let asks = field_of(&[(kind::NAMED, 0)], &vec![0; 2 + depth]).repeat(times);
    large::large(what, 0, &[&opaque[..], &body, &unreachable(&asks)].concat(), names)
}

/// So many named structs, each of structs in one another with a byte before the next, the innermost of so many structs of a byte and a word; the field
/// at every depth that indices reach is asked for, in one struct after the other. The names behind those of the structs are a result's and the small
/// struct's.
fn chains(what: &'static str, count: u64, depth: usize, fields: usize, times: u64, names: usize) -> Large {
    let small = [(kind::NAMED_STRUCT, count + 1), (kind::STRUCT, 0), BYTE, WORD, END];
    let opened = [(kind::STRUCT, 0), BYTE].repeat(depth);
    let body = [&opened[..], &vec![(kind::NAMED, count + 1); fields], &vec![END; depth]].concat();
    let structs: Entries = (0..count).flat_map(|name| [vec![(kind::NAMED_STRUCT, name)], body.clone()].concat()).collect();
    let indices: Vec<u64> = [0].into_iter().chain(vec![1; depth.min(31)]).collect();
    let asks: Entries = (0..times).flat_map(|number| field_of(&[(kind::NAMED, number * 7919 % count)], &indices)).collect();
    large::large(what, 0, &[&small[..], &structs, &unreachable(&asks)].concat(), names)
}

/// Structs in one another, each with so many bytes before the next and many behind it; the last byte at every depth is asked for.
fn asked_inward(what: &'static str, depth: u64, before: u64, behind: u64, times: u64, names: usize) -> Large {
    let bytes = |count: u64| vec![BYTE; count as usize];
    let around = |inner: Entries| [&[(kind::STRUCT, 0)], &bytes(before)[..], &inner, &bytes(behind), &[END]].concat();
    let named = [vec![(kind::NAMED_STRUCT, 0)], (0..depth).fold(vec![], |inner, _| around(inner))].concat();
    let ask = |number: u64| {
        let down = number % depth;
        let last = before + behind - u64::from(down + 1 == depth);
        let indices: Vec<u64> = [0].into_iter().chain((0..down).map(|_| before)).chain([last]).collect();
        field_of(&[(kind::NAMED, 0)], &indices)
    };
    let asks: Entries = (0..times).flat_map(ask).collect();
    large::large(what, 0, &[named, unreachable(&asks)].concat(), names)
}

/// Blocks that go to one block of phis, which has a pair for each of them. Name 0 is the function's and the first block's.
fn phis(what: &'static str, blocks: u64, phis: u64, backwards: bool) -> Large {
    let join = blocks;
    let mut entries: Entries = vec![(kind::FUNCTION, 0), VOID, END];
    for block in 0..blocks {
        entries.extend([(kind::BLOCK, block), (kind::BR, 0), (kind::ABSENT, 0), (kind::TARGET, join), (kind::ABSENT, 0)]);
    }
    entries.push((kind::BLOCK, join));
    for phi in 0..phis {
        entries.extend([(kind::PHI, join + 2 + phi), WORD]);
        let pair = |block: u64| [NULL, (kind::TARGET, if backwards { blocks - 1 - block } else { block })];
        entries.extend((0..blocks).flat_map(pair));
        entries.push(END);
    }
    entries.extend([(kind::UNREACHABLE, 0), END, END]);
    large::large(what, 0, &entries, (join + 1 + phis) as usize)
}

/// A switch of so many cases that all go to a block of so many phis.
fn switch(what: &'static str, cases: usize, phis: u64) -> Large {
    let case = [(kind::INTEGER, 7), (kind::TARGET, 1)];
    let mut entries: Entries = vec![(kind::FUNCTION, 0), VOID, END, (kind::BLOCK, 0)];
    entries.extend([(kind::SWITCH, 0), WORD, NULL, (kind::TARGET, 1)]);
    entries.extend(case.repeat(cases));
    entries.extend([END, (kind::BLOCK, 1)]);
    entries.extend((0..phis).flat_map(|phi| [(kind::PHI, 3 + phi), WORD, NULL, (kind::TARGET, 0), END]));
    entries.extend([(kind::UNREACHABLE, 0), END, END]);
    large::large(what, 0, &entries, 2 + phis as usize)
}

/// So many functions, whose names stand all over a book of as many names as there may be. Each has a frame, labels of its own, a phi, and calls
/// another one; where `shared`, all have the same parameter, blocks and results.
fn functions(what: &'static str, count: u64, shared: bool) -> Large {
    let step = MOST_NAMES / count;
    let function = |place: u64| {
        let own = place * step;
        let local = |number: u64| if shared { number } else { own + number };
        let callee = (place * 7919 + 1) % count * step;
        let [param, first, last, slot, select, phi, reply] = [1, 2, 3, 4, 5, 6, 7].map(local);
        vec![
            (kind::FUNCTION, own), WORD, (kind::PARAM, param + 1), WORD, END, (kind::BLOCK, first),
            (kind::ALLOCA, slot + 1), WORD, (kind::ABSENT, 0), (kind::ABSENT, 0),
            (kind::SELECT, select + 1), (kind::LOCAL, param), WORD, (kind::LOCAL, param), NULL,
            (kind::STORE, 0), WORD, (kind::LOCAL, select), (kind::LOCAL, slot), (kind::ABSENT, 0),
            (kind::BR, 0), (kind::LOCAL, select), (kind::TARGET, last), (kind::TARGET, last),
            (kind::BLOCK, last), (kind::PHI, phi + 1), WORD, (kind::LOCAL, select), (kind::TARGET, first), END,
            (kind::CALL, reply + 1), WORD, (kind::GLOBAL, callee), WORD, (kind::LOCAL, phi), END,
            (kind::RET, 0), WORD, (kind::LOCAL, reply), END,
        ]
    };
    large::large(what, 0, &large::closed((0..count).map(function)), NAMES)
}

/// A function that stores the address of each name, so that each is printed.
fn every_name(what: &'static str, names: Vec<String>) -> Large {
    let store = |name: u64| [(kind::STORE, 0), (kind::PTR, 0), (kind::GLOBAL, name), NULL, (kind::ABSENT, 0)];
    let stores: Entries = (0..names.len() as u64).flat_map(store).collect();
    named(what, &unreachable(&stores), names)
}

/// So many names, one of a million bytes among the first; a global behind it is stored so often.
fn behind_long(what: &'static str, names: usize, times: usize) -> Large {
    let mut all: Vec<String> = (0..names - 1).map(|number| format!("n{number:06}")).collect();
    all.insert(3, format!("{}{}", all[2], "x".repeat(1_000_000)));
    let store = [(kind::STORE, 0), (kind::PTR, 0), (kind::GLOBAL, 5), NULL, (kind::ABSENT, 0)];
    named(what, &unreachable(&store.repeat(times)), all)
}

/// So many names, of which every so many-th has 10,000 bytes; the globals behind these are stored in turn.
fn behind_each(what: &'static str, names: usize, every: usize, times: u64) -> Large {
    let name = |number: usize| if number % every == 0 { format!("n{number:06}{}", "x".repeat(10_000)) } else { format!("n{number:06}") };
    let step = (names / every) as u64;
    let store = |number: u64| [(kind::STORE, 0), (kind::PTR, 0), (kind::GLOBAL, number * 7919 % step * every as u64 + 1), NULL, (kind::ABSENT, 0)];
    let stores: Entries = (0..times).flat_map(store).collect();
    named(what, &unreachable(&stores), (0..names).map(name).collect())
}

/// So many functions that each freeze one struct of so many fields: what is measured for one should serve the next.
fn structs_of_functions(what: &'static str, count: u64, fields: usize) -> Large {
    let body = [vec![(kind::NAMED_STRUCT, 0), (kind::STRUCT, 0)], [BYTE, WORD].repeat(fields / 2), vec![END]].concat();
    let freeze = [(kind::FREEZE, 2), (kind::NAMED, 0), NULL];
    let functions = large::closed((0..count).map(|name| large::small(name + 2, &freeze)));
    large::large(what, 0, &[body, functions].concat(), count as usize + 2)
}

/// So many functions of names so long, each with blocks that jump to each other: every label has the function's name.
fn piece_named(what: &'static str, count: u64, length: usize) -> Large {
    let jump = |from: u64, to: u64| [(kind::BLOCK, from), (kind::BR, 0), (kind::ABSENT, 0), (kind::TARGET, to), (kind::ABSENT, 0)];
    let function = |name: u64| [&[(kind::FUNCTION, name), VOID, END][..], &jump(0, 1).repeat(4), &jump(1, 0).repeat(4), &[END]].concat();
    named(what, &large::closed((0..count).map(function)), long_names("a", count as usize, length))
}

/// Names of one to three bytes, as many as a book may have.
fn short_names() -> Vec<String> {
    let bytes = || (33..=126u8).map(char::from);
    let one = bytes().map(String::from);
    let two = bytes().flat_map(|a| bytes().map(move |b| format!("{a}{b}")));
    let three = bytes().flat_map(|a| bytes().flat_map(move |b| bytes().map(move |c| format!("{a}{b}{c}"))));
    let mut names: Vec<String> = one.chain(two).chain(three).take(NAMES).collect();
    names.sort_unstable();
    names
}

/// Names of so many bytes that are alike but for their ends.
pub fn long_names(letter: &str, count: usize, length: usize) -> Vec<String> {
    (0..count).map(|number| format!("{}{number:06}", letter.repeat((length - 6) / letter.len()))).collect()
}

pub fn shapes() -> Vec<Large> {
    let named_struct = [(kind::NAMED, 0)];
    let freeze = |ty: &[(u64, u64)]| [&[(kind::FREEZE, 2)], ty, &[NULL]].concat();
    let place = |ty: &[(u64, u64)]| [&[(kind::ALLOCA, 2)], ty, &[(kind::ABSENT, 0), (kind::ABSENT, 0)]].concat();
    let varying = {
        let indices = [WORD, (kind::GLOBAL, 0)].repeat(32);
        [vec![(kind::GEP, 2)], arrays(32), vec![NULL], indices, vec![END]].concat()
    };
    // As often as entries and slots allow.
    let filled = |part: &[(u64, u64)]| unreachable(&part.repeat(((ENTRIES - 20) / part.len()).min(65_000)));
    let wide = nested(31, &vec![BYTE; ENTRIES - 300]);
    let inner = field_of(&wide, &[0; 32]);
    let last = field_of(&named_struct, &[0, 19_999]);
    let case = [(kind::INTEGER, 7), (kind::TARGET, 0)];
    let cases = [vec![(kind::SWITCH, 0), WORD, NULL, (kind::TARGET, 0)], case.repeat(100_000), vec![END]];
    let select = [(kind::SELECT, 2), (kind::GLOBAL, 0), WORD, (kind::GLOBAL, 0), NULL];
    vec![
        doubling("structs that double, 31 of them", 31, 1),
        doubling("structs that double, 31 of them, measured 60,000 times", 31, 60_000),
        doubling("structs that double, 60 of them", 60, 1),
        fields("a struct of 20,000 fields, measured 60,000 times", 20_000, &freeze(&named_struct), 60_000),
        fields("a struct of 20,000 fields, the last asked for 20,000 times", 20_000, &last, 20_000),
        fields("a struct of 2,000 fields in 60,000 places", 2000, &place(&named_struct), 60_000),
        large::large("types of 64 levels, measured", 0, &filled(&freeze(&arrays(64))), 2),
        large::large("32 indices that vary", 0, &filled(&varying), 2),
        large::large("32 indices into structs in one another, the innermost wide", 0, &unreachable(&inner), 2),
        large::large("a select after the other", 0, &filled(&select), 2),
        large::large("a switch of 100,000 cases", 0, &function(&[], &cases.concat()), 2),
        switch("a switch of 20,000 cases to a block of 50 phis", 20_000, 50),
        switch("a switch of 50 cases to a block of 20,000 phis", 50, 20_000),
        phis("60,000 phis of one pair", 1, 60_000, false),
        phis("60,000 phis of 6 pairs", 6, 60_000, false),
        phis("700 phis of 700 pairs", 700, 700, false),
        phis("700 phis of 700 pairs, backwards", 700, 700, true),
        phis("one phi of 20,000 pairs", 20_000, 1, false),
        phis("one phi of 20,000 pairs, backwards", 20_000, 1, true),
        behind_long("10,000 stores of a global behind a name of 1 MB, among 4,000", 4_000, 10_000),
        behind_long("the same among 100,000 names", 100_000, 10_000),
        behind_each("100,000 stores of globals behind 1,100 names of 10,000 bytes, among 44,000", 44_000, 40, 100_000),
        every_name("131,072 names of one to three bytes, each pushed", short_names()),
        every_name("131,072 names of 100 bytes, each pushed", long_names("a", NAMES, 100)),
        every_name("16,384 names of 1,000 bytes, each pushed", long_names("a", 16_384, 1000)),
        every_name("131,072 names of 100 bytes outside ASCII, each pushed", long_names("ř", NAMES, 100)),
        named("131,072 names of 1,000 bytes", &unreachable(&[]), long_names("a", NAMES, 1000)),
        functions("forty small functions over 131,072 names", 40, false),
        functions("10,000 small functions over 131,072 names", 10_000, false),
        functions("10,000 small functions that share their names", 10_000, true),
        structs_of_functions("10,000 functions that each measure a struct of 20,000 fields", 10_000, 20_000),
        piece_named("1,000 functions whose names are 1,000 bytes long and alike", 1000, 1000),
    ]
}

/// Fields asked for here and there: on most of these the Rust does not end.
pub fn asks() -> Vec<Large> {
    let mixed = [BYTE, WORD].repeat(250_000);
    let thick = [vec![(kind::STRUCT, 0)], vec![BYTE; 400], vec![END]].concat().repeat(1000);
    let structs = |fields: Entries| [vec![(kind::STRUCT, 0)], fields, vec![END]].concat();
    let wide = structs(vec![BYTE; 400_000]);
    let barred = structs([vec![BYTE; 400_000], vec![(kind::NAMED, 2)]].concat());
    vec![
        elements("an array's struct of 400,000 fields, 50,000 times", &wide, 1, 50_000, 3),
        elements("the same in a book of 5,000 names", &wide, 1, 50_000, 5_000),
        elements("the same through 28 arrays, 300 times", &wide, 28, 300, 3),
        elements("an array's struct of 400,000 fields, the last opaque, 5,000 times", &barred, 1, 5_000, 3),
        elements("an array's 58 structs in one another around 8,000 fields, 1,000 times", &nested(58, &[BYTE; 8000]), 1, 1000, 3),
        large::large("32 indices into 61 structs in one another, the innermost wide", 0, &unreachable(&field_of(&nested(61, &vec![BYTE; 900_000]), &[0; 32])), 2),
        chains("120 times 31 structs in one another around 4,000 structs, in a book of 4,097 names", 120, 31, 4000, 7_500, 4_097),
        chains("500 times 31 structs in one another around 900 structs, in a book of 4,097 names", 500, 31, 900, 7_500, 4_097),
        asked("a struct of 500,000 fields, 60,000 of them asked for", &mixed, 500_000, 60_000, 2),
        asked("the same in a book of 5,000 names", &mixed, 500_000, 60_000, 5_000),
        asked("the same in a book of 131,072 names", &mixed, 500_000, 60_000, NAMES),
        asked("a struct of 1,000 structs of 400 fields, 60,000 of them asked for", &thick, 1000, 60_000, 2),
        asked_named("a struct of 500,000 named structs, 60,000 of them asked for", 500_000, 60_000, 3),
        asked_named("the same in a book of 5,000 names", 500_000, 60_000, 5_000),
        asked_inward("31 structs in one another, 8,000 bytes behind each, 15,000 asked for", 31, 0, 8000, 15_000, 2),
        asked_inward("the same with a byte before each", 31, 1, 8000, 15_000, 2),
    ]
}

/// The same in books that the Rust is asked about, long enough that facts are noted: in the lent work words, and in those that a
/// book of more than 16,384 entries has.
pub fn few_asks() -> Vec<Large> {
    let mixed = [BYTE, WORD].repeat(1250);
    let long = [BYTE, WORD].repeat(8500);
    let thick = [vec![(kind::STRUCT, 0)], vec![BYTE; 100], vec![END]].concat().repeat(50);
    let wide = [vec![(kind::STRUCT, 0)], vec![BYTE; 2500], vec![END]].concat();
    let barred = [vec![(kind::STRUCT, 0)], vec![BYTE; 2500], vec![(kind::NAMED, 2), END]].concat();
    let over = [vec![(kind::STRUCT, 0), (kind::ARRAY, 1 << 25), BYTE], vec![BYTE; 2500], vec![END]].concat();
    let both = [vec![(kind::STRUCT, 0), (kind::ARRAY, 1 << 25), BYTE], vec![BYTE; 2500], vec![(kind::NAMED, 2), END]].concat();
    vec![
        elements("an array's struct of 2,500 fields, 300 times", &wide, 1, 300, 300),
        elements("the same in a book of 5,000 names", &wide, 1, 300, 5_000),
        elements("the same through 28 arrays", &wide, 28, 20, 300),
        elements("an array's struct of 2,500 fields, the last opaque", &barred, 1, 20, 300),
        elements("an array's struct of a long array and 2,500 fields", &over, 1, 20, 300),
        elements("an array's struct of a long array and 2,500 fields, the last opaque", &both, 1, 20, 300),
        elements("the same in a struct", &[vec![(kind::STRUCT, 0)], both.clone(), vec![END]].concat(), 1, 20, 300),
        elements("an array's 58 structs in one another around 2,500 fields", &nested(58, &[BYTE; 2500]), 1, 20, 300),
        chains("10 times 31 structs in one another around 300 structs", 10, 31, 300, 40, 300),
        asked("a struct of 2,500 fields, 300 of them asked for", &mixed, 2500, 300, 300),
        asked("the same in a book of 5,000 names", &mixed, 2500, 300, 5_000),
        asked("a struct of 17,000 fields, 60 of them asked for", &long, 17_000, 60, 2),
        asked("a struct of 50 structs of 100 fields, 200 of them asked for", &thick, 50, 200, 300),
        asked_named("a struct of 2,500 named structs, 200 of them asked for", 2500, 200, 300),
        asked_inward("12 structs in one another, 90 bytes behind each, 100 asked for", 12, 0, 90, 100, 300),
        asked_inward("the same with a byte before each", 12, 1, 90, 100, 300),
    ]
}
