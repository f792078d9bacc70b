//! Finds the static library of the proved code, or builds it with `tools/library`, which proves it first. One that is older than its sources is
//! taken, with a warning.
//!
//! MIVOLANJY_LIB names the folder of a libexports.a that stands elsewhere.
use std::path::{Path, PathBuf};
use std::process::Command;
use std::time::SystemTime;

fn main() {
    println!("cargo:rerun-if-env-changed=MIVOLANJY_LIB");
    if std::env::var_os("CARGO_FEATURE_LIBRARY").is_none() {
        return;
    }
    let folder = match std::env::var_os("MIVOLANJY_LIB") {
        Some(folder) => PathBuf::from(folder),
        None => built(),
    };
    let library = folder.join("libexports.a");
    assert!(library.is_file(), "there is no {}", library.display());
    println!("cargo:rerun-if-changed={}", library.display());
    println!("cargo:rustc-link-search=native={}", folder.display());
    println!("cargo:rustc-link-lib=static=exports");
}

/// The folder in the repository, where the library is built if there is none.
fn built() -> PathBuf {
    let root = PathBuf::from(std::env::var_os("CARGO_MANIFEST_DIR").expect("cargo sets it")).join("../..");
    let folder = root.join("target/staticlib");
    let library = folder.join("libexports.a");
    let sources = sources(&root.join("crates"));
    sources.iter().for_each(|folder| println!("cargo:rerun-if-changed={}", folder.display()));
    if !library.is_file() {
        let status = Command::new(root.join("tools/library")).current_dir(&root).status();
        assert!(status.is_ok_and(|status| status.success()), "`tools/library` did not build the library");
    } else if changed(&library) < sources.iter().filter_map(|folder| newest(folder)).max() {
        println!("cargo:warning=target/staticlib/libexports.a is older than crates/: tools/library makes it anew");
    }
    folder
}

/// The folders of the crates that code and proofs stand in.
fn sources(crates: &Path) -> Vec<PathBuf> {
    let entries = crates.read_dir().into_iter().flatten().filter_map(|entry| Some(entry.ok()?.path()));
    let folders = entries.flat_map(|path| ["src", "specs", "proofs"].map(|name| path.join(name)));
    folders.filter(|folder| folder.is_dir()).collect()
}

fn changed(file: &Path) -> Option<SystemTime> {
    file.metadata().ok()?.modified().ok()
}

/// When the last file of a folder was changed that code or proofs are made of.
fn newest(folder: &Path) -> Option<SystemTime> {
    let entries = folder.read_dir().ok()?.filter_map(|entry| Some(entry.ok()?.path()));
    let times = entries.filter_map(|path| if path.is_dir() { newest(&path) } else { changed(&path).filter(|_| is_source(&path)) });
    times.max()
}

fn is_source(file: &Path) -> bool {
    file.extension().is_some_and(|ending| ending == "rt" || ending == "antt")
}
