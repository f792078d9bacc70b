//! Names that print alike. Whoever reads the text goes by what is printed: a jump by its label, a call and an address by the
//! global's name. So lines do as their functions say only where no two of these print the same, which is a premise of the
//! two runs too (document 01, 'Naming conditions').
use crate::read::{is_memcmp, Body, Definition, LeftOut, Spot, Unit};
use mivolanjy::sanitize;
use std::collections::{HashMap, HashSet};

/// How the labels begin that lines number by themselves (docs/LINES.md).
const NUMBERED: [&str; 4] = ["__sel_false_", "__sel_done_", "__br_false_", "__sw_case_"];

/// The functions that have, or use, a name which prints like another, by their places, and why they are left out.
pub fn alike(unit: &Unit) -> Vec<(usize, LeftOut)> {
    let mut names: Vec<&str> = unit.globals.iter().map(|name| &**name).collect();
    names.sort_unstable();
    let defined = unit.module.defined.iter().map(|name| &**name).collect();
    let mut printed = Printed { defined, ..Printed::default() };
    for name in names {
        printed.globals.entry(sanitize(name)).or_default().push(name);
    }
    let read = unit
        .definitions
        .iter()
        .enumerate()
        .filter_map(|(index, definition)| Some((index, definition, definition.body.as_ref().ok()?)));
    read.filter_map(|(index, definition, body)| Some((index, printed.trouble(definition, body)?))).collect()
}

/// What the text of a file's lines may hold.
#[derive(Default)]
struct Printed<'u> {
    /// The globals that print so.
    globals: HashMap<String, Vec<&'u str>>,
    /// The functions that have a body.
    defined: HashSet<&'u str>,
    /// The labels of blocks so far.
    blocks: HashSet<String>,
}

impl Printed<'_> {
    fn trouble(&mut self, definition: &Definition, body: &Body) -> Option<LeftOut> {
        let own = [(&body.function.name, definition.spot)].into_iter();
        let used = own.chain(body.globals.iter().map(|(name, spot)| (name, *spot)));
        let mut global = used.filter_map(|(name, spot)| Some(LeftOut { spot, reason: self.of_global(name)? }));
        let machine =
            || body.globals.iter().find_map(|(name, spot)| Some(LeftOut { spot: *spot, reason: self.of_machine(name)? }));
        global.next().or_else(machine).or_else(|| self.of_blocks(body))
    }

    /// Names that lines call the machine by, whatever body they have, and print as they are.
    fn of_machine(&self, name: &str) -> Option<String> {
        let syscall = name.strip_prefix("__uvm_");
        if self.defined.contains(name) && (syscall.is_some() || is_memcmp(name)) {
            return Some(format!("lines call the machine's own for @{name}, and not the one here"));
        }
        syscall?.find([' ', ';'])?;
        Some(format!("@{name} prints as itself, and its line would end within it"))
    }

    fn of_global(&self, name: &str) -> Option<String> {
        let print = sanitize(name);
        if print.starts_with(|letter: char| letter.is_ascii_digit()) {
            return Some(format!("@{name} prints as {print}, like a number"));
        }
        if NUMBERED.iter().any(|start| print.strip_prefix(start).is_some_and(is_number)) {
            return Some(format!("@{name} prints as {print}, like a label that lines have by themselves"));
        }
        let other = self.globals.get(&print)?.iter().find(|other| **other != name)?;
        Some(format!("@{name} prints as {print}, and so does @{other}"))
    }

    /// Notes a function's labels.
    fn of_blocks(&mut self, body: &Body) -> Option<LeftOut> {
        let function = sanitize(&body.function.name);
        let places = body.spots.iter().map(|spots| spots.first().copied().unwrap_or(Spot::default()));
        for (block, spot) in body.function.blocks.iter().zip(places) {
            let print = format!("{function}__{}", sanitize(&block.label));
            let label = &block.label;
            if let Some(global) = self.globals.get(&print).and_then(|names| names.first()) {
                return Some(LeftOut {
                    spot,
                    reason: format!("its block %{label} prints as {print}, and so does @{global}"),
                });
            }
            if self.blocks.contains(&print) {
                return Some(LeftOut { spot, reason: format!("its block %{label} prints as {print}, and so does another") });
            }
            self.blocks.insert(print);
        }
        None
    }
}

fn is_number(text: &str) -> bool {
    !text.is_empty() && text.bytes().all(|byte| byte.is_ascii_digit())
}
