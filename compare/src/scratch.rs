//! A scratch repository under target/: copies of our crates, and a crate `equations` over them, which `rt` checks by
//! computation. An equation that does not hold is a difference.
use std::collections::BTreeSet;
use std::fmt::Write as _;
use std::fs;
use std::path::{Path, PathBuf};
use std::process::Command;

/// What a scratch repository is to hold.
pub struct Scratch<'a> {
    /// Its folder under target/.
    pub name: &'a str,
    /// The crates that the equations name; those that they rest on come too.
    pub crates: &'a [&'a str],
    /// A module that the equations use, and its text.
    pub module: Option<(&'a str, &'a str)>,
    /// What every file of equations begins with.
    pub head: &'a str,
    pub per_file: usize,
    /// What is opened to compute an equation.
    pub unfolding: &'a str,
}

impl Scratch<'_> {
    /// Gives the places of the equations that don't hold. Each is a type; its proof is `refl`.
    pub fn differing(&self, equations: &[String]) -> Result<Vec<usize>, String> {
        let root = root()?;
        let folder = root.join("target").join(self.name);
        self.write(&root, &folder, equations).map_err(|error| format!("{}: {error}", folder.display()))?;
        check(&folder, equations.len())
    }

    fn write(&self, root: &Path, folder: &Path, equations: &[String]) -> std::io::Result<()> {
        let crates = folder.join("crates");
        if crates.exists() {
            fs::remove_dir_all(&crates)?;
        }
        let specs = crates.join("equations/specs");
        fs::create_dir_all(&specs)?;
        fs::create_dir_all(crates.join("equations/src"))?;
        fs::write(crates.join("equations/src/lib.rt"), "#![tactic(auto)]\n// Equations.\n")?;
        let all = fs::read_to_string(root.join("crates.txt"))?;
        let needed = needed(&all, self.crates);
        for name in &needed {
            copy_folder(&root.join("crates").join(name), &crates.join(name))?;
        }
        let mut listed: String =
            listed(&all).filter(|(name, _)| needed.contains(name)).map(|(_, line)| format!("{line}\n")).collect();
        let _ = writeln!(listed, "equations: {}", self.crates.join(" "));
        fs::write(folder.join("crates.txt"), listed)?;

        let mut modules = String::new();
        if let Some((name, text)) = self.module {
            fs::write(specs.join(format!("{name}.antt")), text)?;
            let _ = writeln!(modules, "pub mod {name}");
        }
        for (part, chunk) in equations.chunks(self.per_file).enumerate() {
            let mut file = self.head.to_string();
            for (place, equation) in chunk.iter().enumerate() {
                let place = part * self.per_file + place;
                let _ = write!(file, "\ncase-{place} :\n    {equation}\nunfolding {}\ncase-{place} = refl\n", self.unfolding);
            }
            fs::write(specs.join(format!("Part{part}.antt")), file)?;
            let _ = writeln!(modules, "pub mod Part{part}");
        }
        fs::write(specs.join("Lib.antt"), modules)
    }
}

/// The repository: the nearest folder upwards that lists its crates.
fn root() -> Result<PathBuf, String> {
    let here = std::env::current_dir().map_err(|error| error.to_string())?;
    here.ancestors()
        .find(|folder| folder.join("crates.txt").exists())
        .map(Path::to_path_buf)
        .ok_or_else(|| "run it inside the repository: no crates.txt here or above".to_string())
}

/// The crates of a list, each with its line.
fn listed(all: &str) -> impl Iterator<Item = (&str, &str)> {
    all.lines().filter(|line| !line.starts_with('#')).filter_map(|line| Some((line.split_once(':')?.0.split_whitespace().next()?, line)))
}

/// These crates and all that they rest on.
fn needed<'a>(all: &'a str, crates: &[&'a str]) -> BTreeSet<&'a str> {
    let mut needed = BTreeSet::new();
    let mut open = crates.to_vec();
    while let Some(name) = open.pop() {
        if needed.insert(name) {
            let line = listed(all).find(|(other, _)| *other == name).map_or("", |(_, line)| line);
            open.extend(line.split_once(':').map_or("", |(_, rests)| rests).split_whitespace());
        }
    }
    needed
}

fn copy_folder(from: &Path, to: &Path) -> std::io::Result<()> {
    fs::create_dir_all(to)?;
    for entry in fs::read_dir(from)? {
        let entry = entry?;
        // What `rt` has made of a crate stays behind.
        if entry.file_name() == "out" {
            continue;
        }
        let target = to.join(entry.file_name());
        if entry.file_type()?.is_dir() {
            copy_folder(&entry.path(), &target)?;
        } else {
            fs::copy(entry.path(), target)?;
        }
    }
    Ok(())
}

/// A list, forty numbers a row.
pub fn numbers(items: impl Iterator<Item = u64>) -> String {
    let mut list = String::new();
    for (place, item) in items.enumerate() {
        let _ = write!(list, "{item}{}", if place % 40 == 39 { "\n    ∷ " } else { " ∷ " });
    }
    list + "[]"
}

/// Has `rt` check the equations. Gives the places of those that don't hold.
fn check(folder: &Path, count: usize) -> Result<Vec<usize>, String> {
    let rt = std::env::var("RT").unwrap_or_else(|_| "rt".to_string());
    let output = Command::new(&rt)
        .arg("check")
        .current_dir(folder.join("crates/equations"))
        .output()
        .map_err(|error| format!("{rt}: {error}"))?;
    let log = [output.stdout, output.stderr].concat();
    let log = String::from_utf8_lossy(&log);
    fs::write(folder.join("log"), log.as_bytes()).map_err(|error| error.to_string())?;
    let mut differing: Vec<usize> = log
        .split("`case-")
        .skip(1)
        .filter_map(|rest| rest.split('`').next()?.parse().ok())
        .filter(|place| *place < count)
        .collect();
    differing.sort_unstable();
    differing.dedup();
    if output.status.success() != differing.is_empty() {
        return Err(format!("{rt} found something else than equations that don't hold: see {}", folder.join("log").display()));
    }
    Ok(differing)
}
