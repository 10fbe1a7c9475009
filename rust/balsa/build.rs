//! Links the archive of the proved calls. `c/make-archive` makes it: here, where it is missing or
//! older than the source of a crate.

use std::fs;
use std::io;
use std::path::{Path, PathBuf};
use std::process::Command;
use std::time::SystemTime;

fn main() -> io::Result<()> {
    let root = Path::new(env!("CARGO_MANIFEST_DIR")).join("../..");
    let folder = root.join("target/staticlib");
    let archive = folder.join("libbalsa.a");
    let sources = sources(&root)?;
    if !archive.exists() || is_newer(&sources, changed(&archive)?)? {
        make(&root);
    }
    println!("cargo:rustc-link-search=native={}", folder.display());
    println!("cargo:rustc-link-lib=static=balsa");
    for path in sources.iter().chain([&archive]) {
        println!("cargo:rerun-if-changed={}", path.display());
    }
    Ok(())
}

/// The list of crates and the source files of each.
fn sources(root: &Path) -> io::Result<Vec<PathBuf>> {
    let mut sources = vec![root.join("crates.txt")];
    for entry in fs::read_dir(root.join("crates"))? {
        sources.extend(files(&entry?.path().join("src"))?);
    }
    Ok(sources)
}

/// The files of a folder.
fn files(folder: &Path) -> io::Result<Vec<PathBuf>> {
    fs::read_dir(folder)?
        .map(|entry| Ok(entry?.path()))
        .collect()
}

fn changed(path: &Path) -> io::Result<SystemTime> {
    fs::metadata(path)?.modified()
}

/// Whether a source was changed after a time.
fn is_newer(sources: &[PathBuf], time: SystemTime) -> io::Result<bool> {
    let times: io::Result<Vec<_>> = sources.iter().map(|path| changed(path)).collect();
    Ok(times?.into_iter().any(|source| source > time))
}

fn make(root: &Path) {
    let made = Command::new(root.join("c/make-archive")).status();
    assert!(
        made.is_ok_and(|status| status.success()),
        "`c/make-archive` did not make the archive"
    );
}
