//! What the runs reached. A run that stops at once shows nothing, so it is counted how far they went.
use super::agree::{Held, Seen};
use super::source::{Stop, KINDS};
use crate::book::*;
use std::collections::BTreeMap;

/// Runs that passed more blocks than this went far.
const FAR: usize = 3;

/// What is easily missed; source.rs and inst.rs count it.
const CORNERS: [&str; 25] = [
    "arithmetic at 1", "arithmetic at 8", "arithmetic at 16", "arithmetic at 32", "arithmetic at 64", "phis that swap",
    "switch to a case", "switch to a negative case", "constant index", "varying index", "negative varying index", "field",
    "fixed place", "varying place", "stack pointer that wraps", "access that wraps", "cmpxchg that stores",
    "cmpxchg that does not", "call of a function", "void call of a function", "call through a pointer",
    "void call through a pointer", "memcmp", "syscall with a reply", "syscall without a reply",
];

#[derive(Default)]
pub struct Counts {
    pub functions: u64,
    runs: u64,
    far: u64,
    returned: u64,
    going: u64,
    stops: BTreeMap<Stop, u64>,
    blocks: u64,
    executed: Vec<u64>,
    met: BTreeMap<&'static str, u64>,
}

impl Counts {
    pub fn add(&mut self, held: &Held) {
        self.runs += 1;
        self.blocks += held.passed() as u64;
        self.far += (held.passed() > FAR) as u64;
        match held.seen.last() {
            Some(Seen::Gave { .. }) => self.returned += 1,
            Some(Seen::Stopped(stop)) => *self.stops.entry(*stop).or_default() += 1,
            _ => self.going += 1,
        }
        self.executed.resize(KINDS, 0);
        for (sum, number) in self.executed.iter_mut().zip(&held.executed) {
            *sum += number;
        }
        for (what, number) in &held.met {
            *self.met.entry(what).or_default() += number;
        }
    }

    /// Prints the counts, and the kinds that were never run, which are a loss of the maker.
    pub fn print(&self, bound: usize) {
        let share = |number: u64| 100.0 * number as f64 / self.runs.max(1) as f64;
        println!("functions {}, runs {}, blocks passed {}", self.functions, self.runs, self.blocks);
        println!("beyond {FAR} blocks {:8} {:6.1} %", self.far, share(self.far));
        println!("returned        {:8} {:6.1} %", self.returned, share(self.returned));
        println!("going at {bound:<6} {:8} {:6.1} %", self.going, share(self.going));
        let stopped = self.stops.values().sum();
        println!("stopped         {stopped:8} {:6.1} %", share(stopped));
        for (stop, number) in &self.stops {
            println!("  {:14}{number:8}", format!("{stop:?}"));
        }
        println!("run:");
        let mut row = String::new();
        for (name, number) in self.reached() {
            row += &format!("  {name} {number}");
            if row.len() > 100 {
                println!("{}", std::mem::take(&mut row));
            }
        }
        println!("{row}");
        for (name, _) in self.reached().filter(|(_, number)| *number == 0) {
            println!("NEVER RUN: {name}");
        }
    }

    /// How often each kind of instruction and each corner was run.
    fn reached(&self) -> impl Iterator<Item = (String, u64)> + '_ {
        let kinds = kinds().map(|(kind, name)| (name, self.executed.get(kind as usize).copied().unwrap_or(0)));
        kinds.chain(CORNERS.iter().map(|what| (what.to_string(), self.met.get(what).copied().unwrap_or(0))))
    }

    /// Whether a good part of the runs returned or went beyond a few blocks.
    pub fn goes_far(&self) -> bool {
        self.returned > self.runs / 3 && self.far > self.runs / 3
    }

    /// Whether there is a kind or a corner that no run reached.
    pub fn lacks_a_kind(&self) -> bool {
        self.reached().any(|(_, number)| number == 0)
    }
}

/// Every kind of instruction and terminator that can be run, with its name; an unreachable only stops.
fn kinds() -> impl Iterator<Item = (u64, String)> {
    let lower = |name: String| name.to_lowercase();
    let bins = BIN_OPS.iter().enumerate().map(move |(place, op)| (kind::BIN + place as u64, lower(format!("{op:?}"))));
    let convs = CONV_OPS.iter().enumerate().map(move |(place, op)| (kind::CONV + place as u64, lower(format!("{op:?}"))));
    let preds = PREDS.iter().enumerate().map(move |(place, pred)| (kind::ICMP + place as u64, lower(format!("{pred:?}"))));
    let others = [
        (kind::SELECT, "select"), (kind::LOAD, "load"), (kind::STORE, "store"), (kind::ALLOCA, "alloca"),
        (kind::GEP, "getelementptr"), (kind::PHI, "phi"), (kind::CALL, "call"), (kind::FREEZE, "freeze"),
        (kind::ATOMIC_LOAD, "atomic load"), (kind::ATOMIC_STORE, "atomic store"), (kind::CMPXCHG, "cmpxchg"),
        (kind::EXTRACT_VALUE, "extractvalue"), (kind::FENCE, "fence"), (kind::RET, "ret"), (kind::BR, "br"),
        (kind::SWITCH, "switch"),
    ];
    bins.chain(convs).chain(preds).chain(others.into_iter().map(|(kind, name)| (kind, name.to_string())))
}
