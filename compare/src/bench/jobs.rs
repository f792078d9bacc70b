//! What is measured upon a book: the proved code's calls, and the Rust's.
use super::Subject;
use crate::book::Lent;
use crate::lines::{Lines, Printer};
use crate::proved;
use std::hint::black_box;
use uvclang::codegen::access;

#[derive(Clone, Copy)]
pub enum Job {
    Check,
    Translate,
    Print,
    /// The translator, and the printer upon its lines.
    Both,
    /// The Rust's `gen_function` for each function, its module made before.
    Generate,
    /// The lines as strings by `format!`.
    Format,
    /// The lines in one string by `write!`, names cleaned before.
    Write,
}

impl Job {
    pub const ALL: [Job; 7] =
        [Job::Check, Job::Translate, Job::Print, Job::Both, Job::Generate, Job::Format, Job::Write];
}

/// The subjects with slices as long as the longest of them needs, and printers made before.
pub struct Bench<'a> {
    subjects: &'a [Subject],
    printers: Vec<Printer<'a>>,
    work: Vec<u64>,
    kinds: Vec<u16>,
    operands: Vec<u64>,
    text: Vec<u8>,
    wrong: Option<String>,
}

impl<'a> Bench<'a> {
    pub fn new(subjects: &'a [Subject]) -> Bench<'a> {
        let most = |of: fn(&Subject) -> usize| subjects.iter().map(of).max().unwrap_or(0);
        let lines = most(|subject| subject.lines.kinds.len());
        Bench {
            subjects,
            printers: subjects.iter().map(|subject| Printer::of_book(&subject.book)).collect(),
            work: vec![0; most(|subject| subject.lent.work)],
            kinds: vec![0; lines],
            operands: vec![0; lines],
            text: vec![0; most(|subject| subject.text)],
            wrong: None,
        }
    }

    pub fn books(&self) -> usize {
        self.subjects.len()
    }

    /// Does a job once upon a book.
    pub fn run(&mut self, job: Job, book: usize) {
        let Subject { lent, book: ast, module, lines: Lines { kinds, operands }, text } = &self.subjects[book];
        match job {
            Job::Check => {
                black_box(proved::check(lent));
            }
            Job::Translate => {
                black_box(self.translate(lent));
            }
            Job::Print => {
                black_box(proved::print(&lent.slices.book, &lent.slices.names, kinds, operands, &mut self.text));
            }
            Job::Both => {
                let reply = self.translate(lent);
                let lines = reply.lines.min(self.kinds.len() as u64) as usize;
                let (kinds, operands) = (&self.kinds[..lines], &self.operands[..lines]);
                let printed = proved::print(&lent.slices.book, &lent.slices.names, kinds, operands, &mut self.text);
                if reply.refusal != 0 || printed != (0, *text as u64) {
                    self.wrong = Some(format!("{reply:?}, then {printed:?}"));
                }
            }
            Job::Generate => {
                let _ = black_box(access::gen_functions(module, &ast.functions, 0));
            }
            Job::Format => {
                black_box(self.printers[book].strings(kinds, operands));
            }
            Job::Write => {
                black_box(self.printers[book].text(kinds, operands));
            }
        }
    }

    fn translate(&mut self, lent: &Lent) -> proved::Reply {
        proved::translate(&lent.slices, lent.counter, &mut self.work[..lent.work], &mut self.kinds, &mut self.operands)
    }

    /// Whether every answer was right.
    pub fn right(&self) -> Result<(), String> {
        self.wrong.clone().map_or(Ok(()), Err)
    }
}
