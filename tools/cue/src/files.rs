//! Names of book files.
use std::collections::{HashMap, HashSet};

/// Longer names are cut, for a file system's sake.
const LONGEST: usize = 200;

/// A file for each function, below the folder of books: its name with `_` for what a file's name had better not have, and a
/// number behind it where another function has that file already.
pub fn function_files<'n>(names: impl Iterator<Item = &'n str>) -> Vec<String> {
    let mut taken = HashSet::new();
    let mut counts: HashMap<String, usize> = HashMap::new();
    let mut file = |name: &str| {
        let stem: String = name.chars().map(plain).take(LONGEST).collect();
        let count = counts.entry(stem.clone()).or_insert(0);
        loop {
            *count += 1;
            let file = if *count == 1 { format!("functions/{stem}.book") } else { format!("functions/{stem}-{count}.book") };
            if taken.insert(file.clone()) {
                return file;
            }
        }
    };
    names.map(&mut file).collect()
}

fn plain(letter: char) -> char {
    if letter.is_ascii_alphanumeric() || "_.-".contains(letter) {
        letter
    } else {
        '_'
    }
}
