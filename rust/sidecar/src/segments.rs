//! The withdrawals on disk: the files of a folder, each a register, each named by the number of its first entry.

use balsa::{Code, FileError, RegisterFile};
use std::fs::{self, File, OpenOptions, TryLockError};
use std::io;
use std::path::{Path, PathBuf};

/// What the name of a segment begins with.
const NAME: &str = "withdrawn-";

/// A withdrawal as it is held.
#[derive(Debug, PartialEq, Eq)]
pub struct Entry {
    /// Its tag.
    pub tag: u16,
    /// Its text.
    pub body: Vec<u8>,
}

/// A folder that this process alone adds to.
#[derive(Debug)]
pub struct Folder {
    path: PathBuf,
    /// Locked as long as this lives.
    _lock: File,
}

/// The segments of a folder, opened for adding.
#[derive(Debug)]
pub struct Segments {
    folder: Folder,
    last: Option<RegisterFile>,
    held: u64,
}

impl Folder {
    /// Locks a folder, which is made where it is missing.
    ///
    /// # Errors
    /// In words; a second process is one of them.
    pub fn lock(path: &Path) -> Result<Folder, String> {
        let lock = fs::create_dir_all(path)
            .and_then(|()| {
                let mut options = OpenOptions::new();
                let options = options.create(true).truncate(false).write(true);
                options.open(path.join("lock"))
            })
            .map_err(|error| format!("{}: {error}", path.display()))?;
        match lock.try_lock() {
            Ok(()) => Ok(Folder {
                path: path.to_path_buf(),
                _lock: lock,
            }),
            Err(TryLockError::WouldBlock) => {
                Err(format!("{}: another sidecar holds it", path.display()))
            }
            Err(TryLockError::Error(error)) => Err(format!("{}: {error}", path.display())),
        }
    }

    fn segment(&self, first: u64) -> PathBuf {
        self.path.join(format!("{NAME}{first:010}"))
    }

    /// The first number of each segment, ascending.
    fn firsts(&self) -> io::Result<Vec<u64>> {
        let mut firsts = Vec::new();
        for entry in fs::read_dir(&self.path)? {
            let name = entry?.file_name();
            let number = name.to_str().and_then(|name| name.strip_prefix(NAME));
            firsts.extend(number.and_then(|number| number.parse::<u64>().ok()));
        }
        firsts.sort_unstable();
        Ok(firsts)
    }
}

impl Segments {
    /// Opens the segments of a folder and hands out what they hold, in order.
    ///
    /// # Errors
    /// In words: a segment that is damaged, missing or shorter than the name of the next one says.
    pub fn open(folder: Folder) -> Result<(Segments, Vec<Entry>), String> {
        let firsts = folder
            .firsts()
            .map_err(|error| format!("{}: {error}", folder.path.display()))?;
        let mut entries = Vec::new();
        for first in &firsts {
            if *first != entries.len() as u64 + 1 {
                let held = entries.len();
                return Err(format!(
                    "a segment begins with {first}, but those before it end with {held}"
                ));
            }
            entries.extend(read(&folder.segment(*first))?);
        }
        let last = match firsts.last() {
            Some(first) => Some(opened(&folder.segment(*first))?),
            None => None,
        };
        let held = entries.len() as u64;
        Ok((Segments { folder, last, held }, entries))
    }

    /// Adds a withdrawal: when this returns it is on the disk.
    ///
    /// # Errors
    /// In words. What is on the disk is then known only by opening the folder anew.
    pub fn add(&mut self, tag: u16, body: &[u8]) -> Result<(), String> {
        if let Some(last) = &mut self.last {
            match last.add(tag, body) {
                Ok(()) => {
                    self.held += 1;
                    return Ok(());
                }
                Err(FileError::Refused(Code::FullRegister)) => {}
                Err(error) => return Err(error.to_string()),
            }
        }
        let path = self.folder.segment(self.held + 1);
        let mut next = opened(&path)?;
        next.add(tag, body)
            .map_err(|error| format!("{}: {error}", path.display()))?;
        self.last = Some(next);
        self.held += 1;
        Ok(())
    }
}

fn opened(path: &Path) -> Result<RegisterFile, String> {
    RegisterFile::open(path).map_err(|error| format!("{}: {error}", path.display()))
}

/// What a segment holds.
fn read(path: &Path) -> Result<Vec<Entry>, String> {
    let in_words = |error: &dyn std::fmt::Display| format!("{}: {error}", path.display());
    let register = RegisterFile::read(path).map_err(|error| in_words(&error))?;
    let entries = register.entries().map_err(|error| in_words(&error))?;
    let entry = |(tag, body): (u16, &[u8])| Entry {
        tag,
        body: body.to_vec(),
    };
    Ok(entries.map(entry).collect())
}
