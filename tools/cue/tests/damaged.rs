//! 100,000 damaged copies of texts go through all of `cue`: none panics, hangs or needs more stack than a thread has. Half
//! are copies of the examples, half of the statements and texts beside this file.
//!
//! `DAMAGED=7 cargo test --release -p cue --test damaged -- --nocapture` writes the copy of that number to target/tmp and
//! tries it alone.
mod damage;

use cue::{run, Options, Outcome};
use damage::{copy, Sources};
use mivolanjy::Book;
use std::fs::{self, File};
use std::os::unix::fs::FileExt;
use std::panic::catch_unwind;
use std::path::{Path, PathBuf};
use std::sync::atomic::{AtomicU64, Ordering::Relaxed};
use std::sync::Arc;
use std::thread::{self, JoinHandle};
use std::time::{Duration, Instant};

const COPIES: u64 = 100_000;
const THREADS: u64 = 2;
/// What Rust gives a thread.
const STACK: usize = 2 << 20;
/// How long one copy may take.
const PATIENCE: Duration = Duration::from_secs(30);

#[test]
fn damaged_copies_are_answered() {
    let sources = Arc::new(Sources::read());
    if let Ok(number) = std::env::var("DAMAGED") {
        let number = number.parse().expect("DAMAGED is a number");
        let path = keep(number, &sources);
        println!("{}: {:?}", path.display(), answer(&copy(number, &sources)));
        return;
    }
    let mut workers: Vec<Worker> = (0..THREADS).map(|first| Worker::start(first, sources.clone())).collect();
    while workers.iter().any(|worker| !worker.handle.is_finished()) {
        thread::sleep(Duration::from_millis(50));
        for worker in &mut workers {
            assert!(!worker.hangs(), "copy {} hangs: {}", worker.seen, keep(worker.seen, &sources).display());
        }
    }
    let mut counts = Counts::default();
    for worker in workers {
        match worker.handle.join().expect("a worker catches what it calls") {
            Ok(more) => counts.add(&more),
            Err(number) => panic!("copy {number} panics: {}", keep(number, &sources).display()),
        }
    }
    println!("{counts:?}");
    // Copies that are all refused, or all untouched, would try nothing.
    for count in [counts.refused, counts.left_out, counts.translated] {
        assert!(count > COPIES / 20, "{counts:?}");
    }
}

/// Tries every THREADS-th copy.
struct Worker {
    /// The number of the copy that it is at.
    at: Arc<AtomicU64>,
    handle: JoinHandle<Result<Counts, u64>>,
    seen: u64,
    since: Instant,
}

impl Worker {
    fn start(first: u64, sources: Arc<Sources>) -> Worker {
        let at = Arc::new(AtomicU64::new(first));
        let note = at.clone();
        let work = move || {
            // A test does not outlive its stack. So the number stands in target/tmp, in a file of the thread's name.
            let file = File::create(kept(thread::current().name().expect("a name"))).expect("target/tmp can be written");
            let mut counts = Counts::default();
            for number in (first..COPIES).step_by(THREADS as usize) {
                note.store(number, Relaxed);
                file.write_all_at(format!("{number:6}\n").as_bytes(), 0).expect("target/tmp can be written");
                let text = copy(number, &sources);
                counts.add(&catch_unwind(|| answer(&text)).map_err(|_| number)?);
            }
            Ok(counts)
        };
        let thread = thread::Builder::new().name(format!("damaged-{first}")).stack_size(STACK);
        let handle = thread.spawn(work).expect("a thread");
        Worker { at, handle, seen: first, since: Instant::now() }
    }

    /// Whether it has been at one copy for too long.
    fn hangs(&mut self) -> bool {
        let at = self.at.load(Relaxed);
        if at != self.seen || self.handle.is_finished() {
            (self.seen, self.since) = (at, Instant::now());
        }
        self.since.elapsed() > PATIENCE
    }
}

/// How many copies were refused as a whole, had functions left out, had functions translated.
#[derive(Debug, Default)]
struct Counts {
    refused: u64,
    left_out: u64,
    translated: u64,
}

impl Counts {
    fn add(&mut self, more: &Counts) {
        self.refused += more.refused;
        self.left_out += more.left_out;
        self.translated += more.translated;
    }
}

/// Has `cue` do all that it does, and sees that the parts of its outcome go together.
fn answer(text: &[u8]) -> Counts {
    let Outcome { text, complaints, books, stats, code } = run("copy", text, &Options { books: true, ..Options::default() });
    let said = |complaint: &String| complaint.starts_with("copy:") && !complaint.contains('\n');
    assert!(complaints.iter().all(said), "{complaints:?}");
    if code == 2 {
        // A fault of the text, at a line and a column.
        let fault = complaints[0].split(':').skip(1).take(2).all(|number| number.parse::<u64>().is_ok());
        assert!(fault && complaints.len() == 1 && text.is_empty() && books.is_empty(), "{complaints:?}");
        return Counts { refused: 1, ..Counts::default() };
    }
    assert_eq!((stats.left_out, u8::from(stats.left_out > 0)), (complaints.len(), code));
    assert_eq!(stats.read, stats.printed + stats.left_out);
    assert_eq!(stats.bytes, text.len());
    assert!(text.is_empty() || text.ends_with(";\n\n"), "{text}");
    for (path, file) in &books {
        assert_eq!(Book::from_file(file).map(|book| book.check(0)), Some(Ok(())), "{path}");
    }
    Counts { refused: 0, left_out: u64::from(stats.left_out > 0), translated: u64::from(stats.printed > 0) }
}

fn kept(name: &str) -> PathBuf {
    Path::new(env!("CARGO_TARGET_TMPDIR")).join(name)
}

/// Writes a copy for those who look into it.
fn keep(number: u64, sources: &Sources) -> PathBuf {
    let path = kept(&format!("damaged-{number}.ll"));
    fs::write(&path, copy(number, sources)).expect("target/tmp can be written");
    path
}
