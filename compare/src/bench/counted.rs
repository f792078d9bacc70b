//! Instructions instead of time, where valgrind is installed: each job once upon some books of each class, counted by callgrind.
use super::jobs::{Bench, Job};
use super::{heading, print_row, subjects, Class, Subject, CLASSES};
use std::path::{Path, PathBuf};
use std::process::{Command, Stdio};

/// One book in so many of a class is enough, since a count does not vary.
const SHARE: usize = 4;

fn some(class: &Class, seed: u64) -> Result<Vec<Subject>, String> {
    subjects(class, seed, (class.books / SHARE).max(2))
}

/// What callgrind counts: one pass over the books. It has this name in the program, so that it can be told to callgrind.
#[no_mangle]
#[inline(never)]
fn counted_pass(bench: &mut Bench, job: Job) {
    (0..bench.books()).for_each(|book| bench.run(job, book));
}

/// Each job once, in order, upon the books of the class of this name. Callgrind writes a file for each.
pub fn pass(seed: u64, name: &str) -> Result<(), String> {
    let class = CLASSES.iter().find(|class| class.name == name).ok_or("no class of this name")?;
    let subjects = some(class, seed)?;
    let mut bench = Bench::new(&subjects);
    Job::ALL.into_iter().for_each(|job| counted_pass(&mut bench, job));
    bench.right()
}

/// The instructions of each job, as a run of this program under callgrind counts them; none where there is no valgrind.
fn counts(class: &Class, seed: u64, folder: &Path) -> Option<Vec<f64>> {
    let file = folder.join(class.name);
    let ended = Command::new("valgrind")
        .args(["--tool=callgrind", "--toggle-collect=counted_pass", "--dump-after=counted_pass"])
        .arg(format!("--callgrind-out-file={}", file.display()))
        .arg(std::env::current_exe().ok()?)
        .args(["bench", "pass", &seed.to_string(), class.name])
        .stdout(Stdio::null())
        .stderr(Stdio::null())
        .status()
        .ok()?;
    ended.success().then(|| (1..=Job::ALL.len()).map(|part| instructions(&file, part)).collect::<Option<Vec<f64>>>())?
}

/// The sum that callgrind's file of this part has in its last lines.
fn instructions(file: &Path, part: usize) -> Option<f64> {
    let mut name = file.as_os_str().to_owned();
    name.push(format!(".{part}"));
    let text = std::fs::read_to_string(PathBuf::from(name)).ok()?;
    let line = text.lines().rev().find(|line| line.starts_with("totals:") || line.starts_with("summary:"))?;
    line.split_whitespace().nth(1)?.parse().ok()
}

pub fn table(seed: u64) -> Result<(), String> {
    let folder = std::env::temp_dir().join(format!("compare-counted-{}", std::process::id()));
    std::fs::create_dir_all(&folder).map_err(|error| error.to_string())?;
    println!("\ninstructions an entry, by callgrind: one book in {SHARE} of each class, each job once");
    heading();
    for class in &CLASSES {
        match counts(class, seed, &folder) {
            Some(counts) => print_row(class, &some(class, seed)?, |job| counts[job as usize]),
            None => {
                println!("no valgrind here");
                break;
            }
        }
    }
    std::fs::remove_dir_all(&folder).map_err(|error| error.to_string())
}
