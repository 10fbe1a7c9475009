//! Links the archive of the plain engine, which `c/make-archive kekule_plain` makes from the crates.

use std::fs;
use std::io;
use std::path::Path;
use std::process::Command;

fn main() -> io::Result<()> {
    let root = Path::new(env!("CARGO_MANIFEST_DIR")).join("../..");
    let made = Command::new(root.join("c/make-archive"))
        .arg("kekule_plain")
        .status();
    assert!(
        made.is_ok_and(|status| status.success()),
        "`c/make-archive kekule_plain` did not make the archive"
    );
    let folder = root.join("target/staticlib");
    println!("cargo:rustc-link-search=native={}", folder.display());
    println!("cargo:rustc-link-lib=static=kekule_plain");
    // of a crate its sources alone: checks write beside them
    for entry in fs::read_dir(root.join("crates"))? {
        println!(
            "cargo:rerun-if-changed={}",
            entry?.path().join("src").display()
        );
    }
    println!(
        "cargo:rerun-if-changed={}",
        folder.join("libkekule_plain.a").display()
    );
    Ok(())
}
