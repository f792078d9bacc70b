//! Large functions: the blocks of a book's one small function many times, with new names for their labels and results in each copy.
use crate::book::{encode, Book, Lent, Value};
use crate::check::{check, work_needed, Verdict};
use crate::visit::{each_inst, each_label, each_value};

/// None where the book is not sound.
pub fn copied(lent: &Lent, copies: usize) -> Option<Lent> {
    let Verdict::Sound(mut book) = check(lent) else { return None };
    let params: Vec<String> = book.functions[0].params.iter().filter_map(|param| param.name.clone()).collect();
    let mut names = book.names.clone();
    let mut blocks = vec![];
    for copy in 0..copies {
        let Verdict::Sound(Book { mut functions, .. }) = check(lent) else { return None };
        let function = &mut functions[0];
        let mut rename = |name: &mut String| {
            name.push_str(&format!(".{copy}"));
            names.push(name.clone());
        };
        each_label(function, &mut rename);
        each_inst(function, &mut |inst| {
            inst.dest.iter_mut().filter(|name| !params.contains(name)).for_each(&mut rename);
        });
        each_value(function, &mut |value| match value {
            Value::Local(name) if !params.contains(name) => rename(name),
            _ => {}
        });
        blocks.append(&mut function.blocks);
    }
    book.functions[0].blocks = blocks;
    names.sort_unstable();
    names.dedup();
    book.names = names;
    Some(Lent { slices: encode(&book), counter: lent.counter, work: work_needed(book.names.len()) })
}
