//! Names that no book has, and such that it just has, for those of a random function.
use crate::book::*;
use crate::rng::Rng;
use crate::visit;

/// In front of a name, or instead of it.
const ODD: [&str; 10] = ["", "a\tb", "a\nb", "\r", "\0", "\u{1f}", "\u{7f}", "\u{80}", "\u{9f}", " "];

/// Renames something, with all that uses it within the function.
pub fn put(rng: &mut Rng, book: &mut Book, place: usize) {
    let odd = *rng.pick(&ODD);
    match rng.below(6) {
        0 => {
            let name = spelled(odd, &book.functions[place].name);
            if !book.functions.iter().any(|function| function.name == name) {
                book.functions[place].name = name;
            }
        }
        1..=2 => rename_local(rng, &mut book.functions[place], odd),
        3 => rename_block(rng, &mut book.functions[place], odd),
        4 => {
            let value = Value::Global(spelled(odd, "g"));
            visit::one_of(rng, &mut book.functions[place], visit::each_value, |old| *old = value.clone());
        }
        _ => {
            let ty = Type::NamedStruct(spelled(odd, "s"));
            visit::one_of(rng, &mut book.functions[place], visit::each_type, |old| *old = ty.clone());
        }
    }
}

fn spelled(odd: &str, name: &str) -> String {
    if odd.is_empty() { String::new() } else { format!("{odd}{name}") }
}

fn rename_local(rng: &mut Rng, function: &mut Function, odd: &str) {
    let params = function.params.iter().filter_map(|param| param.name.as_ref());
    let locals: Vec<&String> = params.chain(instructions(function).filter_map(|inst| inst.dest.as_ref())).collect();
    if locals.is_empty() {
        return;
    }
    let old = (*rng.pick(&locals)).clone();
    let new = spelled(odd, &old);
    let mut rename = |name: &mut String| {
        if *name == old {
            name.clone_from(&new);
        }
    };
    function.params.iter_mut().filter_map(|param| param.name.as_mut()).for_each(&mut rename);
    visit::each_inst(function, &mut |inst| inst.dest.iter_mut().for_each(&mut rename));
    visit::each_value(function, &mut |value| {
        if let Value::Local(name) = value {
            rename(name);
        }
    });
}

fn rename_block(rng: &mut Rng, function: &mut Function, odd: &str) {
    let old = rng.pick(&function.blocks).label.clone();
    let new = spelled(odd, &old);
    visit::each_label(function, &mut |label| {
        if *label == old {
            label.clone_from(&new);
        }
    });
}
