//! The way from uvclang's functions to lines through bindings/rust, function by function, beside the Rust's `gen_function`:
//! what it takes as a whole and in its parts.
use super::{subjects, Class, Subject, CALLS, CLASSES, RUNS};
use crate::clock::best;
use mivolanjy::{ir, Book, BookWriter, Lines};
use std::hint::black_box;
use uvclang::codegen::access::Asked;
use uvclang::from_ast;

#[derive(Clone, Copy)]
enum Part {
    /// `from_ast::function`.
    HandOver,
    /// A `BookWriter`, and its book.
    Write,
    /// `Book::translate`, with the slices that it makes.
    Translate,
    /// `Book::print`, likewise.
    Print,
    /// The text as a string for each line, as uvclang's buffer has them.
    Split,
    /// `gen_function_proved`: all of these.
    Whole,
    /// The Rust's `gen_function`.
    Generate,
}

impl Part {
    const ALL: [Part; 7] =
        [Part::HandOver, Part::Write, Part::Translate, Part::Print, Part::Split, Part::Whole, Part::Generate];
}

/// A subject with what each part begins with, made before.
struct Way<'a> {
    subject: &'a Subject,
    units: ir::Module<'a>,
    functions: Vec<ir::Function<'a>>,
    books: Vec<Book>,
    /// Each function's first counter and lines.
    lines: Vec<(u64, Lines)>,
    texts: Vec<String>,
}

impl<'a> Way<'a> {
    fn new(subject: &'a Subject) -> Result<Way<'a>, String> {
        let units = from_ast::module(&subject.module);
        let functions: Vec<ir::Function> = subject.book.functions.iter().map(from_ast::function).collect();
        let books = functions.iter().map(|function| written(&units, function)).collect::<Result<Vec<_>, _>>()?;
        let (mut lines, mut texts, mut counter) = (vec![], vec![], 0);
        for book in &books {
            let translated = book.translate(counter).map_err(|refusal| refusal.to_string())?;
            texts.push(book.print(&translated).map_err(|refusal| refusal.to_string())?);
            let next = translated.next;
            lines.push((counter, translated));
            counter = next;
        }
        Ok(Way { subject, units, functions, books, lines, texts })
    }

    fn run(&self, part: Part) {
        let sources = &self.subject.book.functions;
        let translated = || self.books.iter().zip(&self.lines);
        match part {
            Part::HandOver => sources.iter().for_each(|function| drop(black_box(from_ast::function(function)))),
            Part::Write => self.functions.iter().for_each(|function| drop(black_box(written(&self.units, function)))),
            Part::Translate => translated().for_each(|(book, (counter, _))| drop(black_box(book.translate(*counter)))),
            Part::Print => translated().for_each(|(book, (_, lines))| drop(black_box(book.print(lines)))),
            Part::Split => translated().zip(&self.texts).for_each(|((_, (_, lines)), text)| drop(black_box(split(text, lines)))),
            Part::Whole => drop(black_box(self.asked(true))),
            Part::Generate => drop(black_box(self.asked(false))),
        }
    }

    /// All functions on one code generator.
    fn asked(&self, proved: bool) -> Result<Asked<'a>, String> {
        let mut asked = Asked::new(&self.subject.module, 0);
        for function in &self.subject.book.functions {
            if proved { asked.proved(&self.units, function)? } else { asked.own(function)? }
        }
        Ok(asked)
    }
}

fn written(units: &ir::Module, function: &ir::Function) -> Result<Book, String> {
    let mut writer = BookWriter::new(units);
    writer.function(function).and_then(|()| writer.finish()).map_err(|unwritable| unwritable.to_string())
}

fn split(text: &str, lines: &Lines) -> Vec<String> {
    let mut buffer = Vec::with_capacity(lines.kinds.len());
    buffer.extend(text.split_terminator('\n').map(str::to_string));
    buffer
}

pub fn table(seed: u64) -> Result<(), String> {
    println!("ns an entry, function by function: the best of {RUNS} runs of {CALLS} calls");
    print!("{:<8}{:>6}{:>9}{:>10}{:>7}{:>11}{:>7}", "", "books", "entries", "hand over", "write", "translate", "print");
    println!("{:>7}{:>7}{:>14}{:>12}", "split", "whole", "gen_function", "gen/whole");
    CLASSES.iter().try_for_each(|class| row(class, &subjects(class, seed, class.books)?))
}

fn row(class: &Class, subjects: &[Subject]) -> Result<(), String> {
    let ways = subjects.iter().map(Way::new).collect::<Result<Vec<_>, _>>()?;
    for way in &ways {
        if way.asked(true)?.lines() != way.asked(false)?.lines() {
            return Err(format!("{}: the lines differ", class.name));
        }
    }
    let entries: u64 = subjects.iter().map(|subject| subject.lent.slices.book[0]).sum();
    let each = |part: Part| {
        let times = ways.iter().map(|way| best(RUNS, || (0..CALLS).for_each(|_| way.run(part))).1 / CALLS);
        times.sum::<std::time::Duration>().as_nanos() as f64 / entries as f64
    };
    let [hand_over, write, translate, print, split, whole, generate] = Part::ALL.map(each);
    print!("{:<8}{:>6}{entries:>9}{hand_over:>10.1}{write:>7.1}{translate:>11.1}", class.name, ways.len());
    println!("{print:>7.1}{split:>7.1}{whole:>7.1}{generate:>14.1}{:>12.2}", generate / whole);
    Ok(())
}
