//! Adds entries to the register of a file until it is killed: `add-entries FILE TAG` adds the entry of
//! the tag, of the next tag and so on, empties the register where it is full, and prints each tag
//! when its entry was added.

use balsa::{Code, FileError, RegisterFile};
use compare::registers::body_of_tag;
use std::io::Write;

fn main() -> Result<(), FileError> {
    let arguments: Vec<String> = std::env::args().collect();
    let [_, path, tag] = &arguments[..] else {
        eprintln!("add-entries FILE TAG");
        std::process::exit(2);
    };
    let mut tag: u16 = tag.parse().expect("a tag is a number below 65,536");
    let mut file = RegisterFile::open(path)?;
    let mut out = std::io::stdout();
    loop {
        match file.add(tag, &body_of_tag(tag)) {
            Err(FileError::Refused(Code::FullRegister)) => {
                file.empty()?;
                continue;
            }
            added => added?,
        }
        writeln!(out, "{tag}")?;
        tag = tag.wrapping_add(1);
    }
}
