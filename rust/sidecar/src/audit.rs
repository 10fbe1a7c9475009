//! A line for each answer, written before it is given.

use std::fs::{File, OpenOptions};
use std::io::{self, Write};
use std::path::Path;
use std::time::{SystemTime, UNIX_EPOCH};

/// Where answers are written down.
#[derive(Debug)]
pub struct Audit {
    file: File,
    sync: bool,
}

impl Audit {
    /// Opens a file to which lines are added; with `sync` each is on the disk before its answer is given.
    ///
    /// # Errors
    /// Those of the file system.
    pub fn open(path: &Path, sync: bool) -> io::Result<Audit> {
        let file = OpenOptions::new().append(true).create(true).open(path)?;
        Ok(Audit { file, sync })
    }

    /// Writes down an answer: milliseconds since 1970, the answer and the text, with tabs between. What cannot be printed of the
    /// text is written as in Rust.
    ///
    /// # Errors
    /// Those of the file system.
    pub fn note(&self, text: &[u8], answer: &str) -> io::Result<()> {
        let time = SystemTime::now().duration_since(UNIX_EPOCH);
        let time = time.unwrap_or_default().as_millis();
        let line = format!("{time}\t{answer}\t{}\n", text.escape_ascii());
        (&self.file).write_all(line.as_bytes())?;
        if self.sync {
            self.file.sync_data()?;
        }
        Ok(())
    }
}
