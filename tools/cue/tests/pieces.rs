//! More functions than one book holds, and functions that don't fit in any.
use cue::{run, Options};
use mivolanjy::Book;

/// A function of so many named results. Each is a select, so that the label counter moves.
fn long(name: &str, results: usize) -> String {
    let selects = (0..results).map(|n| format!("  %{name}{n} = select i1 %t, i32 %a, i32 {n}\n"));
    format!("define i32 @{name}(i1 %t, i32 %a) {{\n{}  ret i32 %a\n}}\n", selects.collect::<String>())
}

/// The text of books one after the other, each beginning with the label counter that the last one left.
fn text<'b>(books: impl Iterator<Item = &'b (String, Vec<u8>)>) -> (String, u64) {
    books.fold((String::new(), 0), |(text, counter), (name, bytes)| {
        let book = Book::from_file(bytes).expect(name);
        let lines = book.translate(counter).expect(name);
        (text + &book.print(&lines).expect(name), lines.next)
    })
}

#[test]
fn several_books() {
    let functions = ["one", "two", "three"].map(|name| long(name, 50_000)).concat();
    let outcome = run("long.ll", functions.as_bytes(), &Options { books: true, ..Options::default() });
    assert_eq!((outcome.code, outcome.complaints.len(), outcome.stats.printed), (0, 0, 3));
    let names: Vec<&str> = outcome.books.iter().map(|(name, _)| name.as_str()).collect();
    let own = ["functions/one.book", "functions/two.book", "functions/three.book"];
    assert_eq!(names, [&["piece-1.book", "piece-2.book"][..], &own].concat());
    let expected = (outcome.text, outcome.stats.next);
    assert!(text(outcome.books[..2].iter()) == expected, "the pieces");
    assert!(text(outcome.books[2..].iter()) == expected, "one by one");
    assert_eq!(expected.1, 300_000);
}

#[test]
fn a_function_for_no_book() {
    let functions = [long("one", 3), long("endless", 140_000), long("two", 3)].concat();
    let outcome = run("long.ll", functions.as_bytes(), &Options { books: true, ..Options::default() });
    assert_eq!((outcome.code, outcome.stats.printed), (1, 2));
    let [complaint] = &outcome.complaints[..] else { panic!("{:?}", outcome.complaints) };
    assert!(complaint.contains("@endless is left out: "), "{complaint}");
    assert_eq!(outcome.books[0].0, "piece.book");
    assert_eq!(outcome.stats.next, 12);
}
