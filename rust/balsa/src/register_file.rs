//! A register in a file.
//!
//! What is owed after a power cut rests on the disk: after a successful sync the bytes written before
//! it are there for good; what was not yet synced may have reached the disk in part and in any order,
//! each byte whole.

#[cfg(test)]
mod crashes;

use crate::refusal::{Code, Refusal};
use crate::register::{Damage, Register, Withdrawn, REGISTER};
use std::fs::{self, File, OpenOptions, TryLockError};
use std::os::unix::fs::{FileExt, MetadataExt};
use std::path::{Path, PathBuf};
use std::{fmt, io};

/// A register in a file, opened for adding. A second one that is opened meanwhile, in this process or
/// in another, is refused ([`FileError::Locked`]); [`RegisterFile::read`] is not.
///
/// ```
/// use balsa::RegisterFile;
///
/// # let folder = std::env::temp_dir().join(format!("balsa-doc-{}", std::process::id()));
/// # std::fs::create_dir_all(&folder)?;
/// let path = folder.join("withdrawn");
/// let mut file = RegisterFile::open(&path)?;
/// file.add(7, b"c1ccccc1")?;
/// let seen = RegisterFile::read(&path)?;
/// assert_eq!(seen.entry(0), Ok(Some((7, &b"c1ccccc1"[..]))));
/// # std::fs::remove_dir_all(&folder)?;
/// # Ok::<(), balsa::FileError>(())
/// ```
#[derive(Debug)]
pub struct RegisterFile {
    path: PathBuf,
    file: Locked,
    register: Register<Vec<u8>>,
    failed: bool,
}

/// Why a call on a register's file fails.
#[derive(Debug)]
pub enum FileError {
    /// The file system says no.
    Io(io::Error),
    /// The file is open for adding already.
    Locked,
    /// The file holds no valid register: 1 or 17, with the reason.
    Damaged(Damage),
    /// The register refuses: 18.
    Refused(Code),
    /// Reading refuses the text, at a place.
    Unread(Refusal),
    /// An earlier write failed, or the file was taken away, so that what it holds is not known here:
    /// open it anew.
    Stale,
}

impl RegisterFile {
    /// Opens the register of a file; where there is no file, an empty register is made.
    ///
    /// # Errors
    /// [`FileError::Io`], [`FileError::Locked`] or [`FileError::Damaged`].
    pub fn open(path: impl AsRef<Path>) -> Result<Self, FileError> {
        let path = resolved(path.as_ref())?;
        let file = loop {
            match found(lock(&path, false))? {
                Some(file) => break file,
                None => {
                    if let Some(made) = make(&path, None)? {
                        break made;
                    }
                }
            }
        };
        Self::of(path, file)
    }

    /// Makes an empty register in a file, in place of whatever stands there.
    ///
    /// # Errors
    /// [`FileError::Io`] or [`FileError::Locked`].
    pub fn create(path: impl AsRef<Path>) -> Result<Self, FileError> {
        let path = resolved(path.as_ref())?;
        let file = loop {
            let old = found(lock(&path, false))?;
            if let Some(made) = make(&path, old.as_ref())? {
                break made;
            }
        };
        Self::of(path, file)
    }

    fn of(path: PathBuf, file: Locked) -> Result<Self, FileError> {
        let register = load(&file.0)?;
        Ok(RegisterFile {
            path,
            file,
            register,
            failed: false,
        })
    }

    /// The register that a file holds now, whether or not it is open for adding elsewhere.
    ///
    /// # Errors
    /// [`FileError::Io`] or [`FileError::Damaged`].
    pub fn read(path: impl AsRef<Path>) -> Result<Register<Vec<u8>>, FileError> {
        load(&File::open(path)?)
    }

    /// The register as it was opened, with what was added since.
    pub fn register(&self) -> &Register<Vec<u8>> {
        &self.register
    }

    /// Adds an entry. Its bytes are on the disk before byte 1, which makes it count, is written; when
    /// the call returns that one is there too. After a cut at any moment the file lists the old
    /// entries, or these and the new one.
    ///
    /// # Errors
    /// [`FileError::Refused`] leaves the file as it was. After [`FileError::Io`] the entry counts as
    /// made or as not made, and the file has to be opened anew.
    pub fn add(&mut self, tag: u16, body: &[u8]) -> Result<(), FileError> {
        self.is_known()?;
        let mut next = self.register.clone();
        next.add(tag, body)?;
        self.store(next)
    }

    /// Withdraws a text: adds it, as [`RegisterFile::add`] does, if it is one that is read. After a cut
    /// at any moment the file lists the old texts, or these and the new one; once the call has returned,
    /// no drawing of the compound is clear.
    ///
    /// ```
    /// # let folder = std::env::temp_dir().join(format!("balsa-doc-withdraw-{}", std::process::id()));
    /// # std::fs::create_dir_all(&folder)?;
    /// # let path = folder.join("withdrawn");
    /// let mut file = balsa::RegisterFile::open(&path)?;
    /// file.withdraw(7, b"CC1=C(C)C=CC=C1")?;
    /// assert!(!file.withdrawn(b"CC=1C(C)=CC=CC1")?.is_clear());
    /// assert!(file.withdrawn(b"Cc1cccc(C)c1")?.is_clear());
    /// # std::fs::remove_dir_all(&folder)?;
    /// # Ok::<(), balsa::FileError>(())
    /// ```
    ///
    /// # Errors
    /// [`FileError::Unread`] and [`FileError::Refused`] leave the file as it was. After
    /// [`FileError::Io`] the text counts as withdrawn or as not withdrawn, and the file has to be opened
    /// anew.
    pub fn withdraw(&mut self, tag: u16, text: &[u8]) -> Result<(), FileError> {
        self.is_known()?;
        let mut next = self.register.clone();
        next.withdraw(tag, text).map_err(of_withdrawing)?;
        self.store(next)
    }

    /// Whether a text is withdrawn by the register as it was opened, with what was added since
    /// ([`Register::withdrawn`]). Release on [`Withdrawn::Clear`], and on nothing else.
    ///
    /// # Errors
    /// [`FileError::Unread`] for a text that reading refuses; [`FileError::Stale`] after a write that
    /// failed, since what the file lists is not known then.
    pub fn withdrawn(&self, text: &[u8]) -> Result<Withdrawn, FileError> {
        self.is_known()?;
        self.register.withdrawn(text).map_err(of_withdrawing)
    }

    /// Whether it is known here what the file holds.
    fn is_known(&self) -> Result<(), FileError> {
        match self.failed {
            true => Err(FileError::Stale),
            false => Ok(()),
        }
    }

    /// Stores a register that has one entry more.
    fn store(&mut self, next: Register<Vec<u8>>) -> Result<(), FileError> {
        self.failed = true;
        commit(&mut self.file.0, &next)?;
        self.failed = false;
        self.register = next;
        Ok(())
    }

    /// Empties the register: a new empty one takes the file's place at once. After a cut the file
    /// lists the old entries or none; who reads meanwhile sees the old register or the new one.
    ///
    /// # Errors
    /// [`FileError::Io`], [`FileError::Locked`] or [`FileError::Stale`].
    pub fn empty(&mut self) -> Result<(), FileError> {
        let file = make(&self.path, Some(&self.file))?.ok_or(FileError::Stale)?;
        self.register = load(&file.0)?;
        self.file = file;
        self.failed = false;
        Ok(())
    }
}

/// A file that this process has locked.
#[derive(Debug)]
struct Locked(File);

impl Drop for Locked {
    /// Gives up the lock, also where a process that is just being started still has the file open.
    fn drop(&mut self) {
        let _ = self.0.unlock();
    }
}

/// A refusal of a register of full length and right layout: of the text, or 18.
fn of_withdrawing(refusal: Refusal) -> FileError {
    match refusal.code {
        code @ (Code::Short | Code::InvalidRegister | Code::FullRegister) => code.into(),
        _ => FileError::Unread(refusal),
    }
}

/// What adding does to a file.
trait Disk {
    fn store(&mut self, place: usize, bytes: &[u8]) -> io::Result<()>;
    /// Returns when all that was stored is on the disk.
    fn sync(&mut self) -> io::Result<()>;
}

impl Disk for File {
    fn store(&mut self, place: usize, bytes: &[u8]) -> io::Result<()> {
        self.write_all_at(bytes, place as u64)
    }

    fn sync(&mut self) -> io::Result<()> {
        self.sync_data()
    }
}

/// Stores the last entry of a register over one that lacks it: the body and the line of the contents
/// first, and byte 1 when these are on the disk.
fn commit(disk: &mut impl Disk, register: &Register<Vec<u8>>) -> io::Result<()> {
    let bytes = register.bytes();
    let (line, body) = register.last_entry();
    disk.store(body.start, &bytes[body])?;
    disk.store(line.start, &bytes[line])?;
    disk.sync()?;
    disk.store(1, &bytes[1..2])?;
    disk.sync()
}

/// Reads the register of a file. Byte 1 comes first: while another process adds, what it counts is
/// there already.
fn load(file: &File) -> Result<Register<Vec<u8>>, FileError> {
    let mut bytes = vec![0; REGISTER];
    let (head, rest) = bytes.split_at_mut(2);
    let read = file.read_exact_at(head, 0);
    match read.and_then(|()| file.read_exact_at(rest, 2)) {
        Err(error) if error.kind() == io::ErrorKind::UnexpectedEof => {
            let length = file.metadata()?.len() as usize;
            return Err(FileError::Damaged(Damage::Short(length)));
        }
        read => read?,
    }
    let register = Register::new(bytes);
    match (register.entry(0), register.damage()) {
        (Ok(_), _) => Ok(register),
        (Err(_), Some(damage)) => Err(FileError::Damaged(damage)),
        (Err(code), None) => Err(FileError::Refused(code)),
    }
}

/// The file's own path, so that neither a link nor a change of the folder leads elsewhere later.
fn resolved(path: &Path) -> io::Result<PathBuf> {
    fs::canonicalize(path).or_else(|_| std::path::absolute(path))
}

/// None for a file that is not there.
fn found(file: Result<Locked, FileError>) -> Result<Option<Locked>, FileError> {
    match file {
        Err(FileError::Io(error)) if error.kind() == io::ErrorKind::NotFound => Ok(None),
        file => file.map(Some),
    }
}

/// Opens the file at a path, or makes it, and locks it.
fn lock(path: &Path, make: bool) -> Result<Locked, FileError> {
    loop {
        let mut options = OpenOptions::new();
        options.read(true).write(true).create(make).truncate(false);
        let file = options.open(path)?;
        match file.try_lock() {
            Err(TryLockError::WouldBlock) => return Err(FileError::Locked),
            Err(TryLockError::Error(error)) => return Err(error.into()),
            Ok(()) => {}
        }
        let file = Locked(file);
        if stands_at(&file, path)? {
            return Ok(file);
        }
    }
}

/// Whether a path leads to this file: another one may have taken its place before it was locked.
fn stands_at(file: &Locked, path: &Path) -> io::Result<bool> {
    let one = file.0.metadata()?;
    match fs::metadata(path) {
        Err(error) if error.kind() == io::ErrorKind::NotFound => Ok(false),
        other => other.map(|other| (one.dev(), one.ino()) == (other.dev(), other.ino())),
    }
}

/// Makes an empty register at a path where nothing stands, or in place of the file `old`, which this
/// process has locked: written and locked beside it, synced, renamed, the folder synced. None where
/// another file stands there.
fn make(path: &Path, old: Option<&Locked>) -> Result<Option<Locked>, FileError> {
    let mut beside = path.as_os_str().to_owned();
    beside.push(".new");
    let beside = PathBuf::from(beside);
    let file = lock(&beside, true)?;
    let is_free = match old {
        Some(old) => stands_at(old, path)?,
        None => !path.try_exists()?,
    };
    if !is_free {
        fs::remove_file(&beside)?;
        return Ok(None);
    }
    let mut register = Register::new(vec![0; REGISTER]);
    register.empty()?;
    file.0.set_len(0)?;
    file.0.write_all_at(register.bytes(), 0)?;
    file.0.sync_all()?;
    fs::rename(&beside, path)?;
    let folder = path.parent().unwrap_or(Path::new("/"));
    File::open(folder)?.sync_all()?;
    Ok(Some(file))
}

impl fmt::Display for FileError {
    fn fmt(&self, f: &mut fmt::Formatter<'_>) -> fmt::Result {
        match self {
            FileError::Io(error) => error.fmt(f),
            FileError::Locked => write!(f, "the register is open for adding already"),
            FileError::Damaged(damage) => {
                write!(f, "refusal {}: {damage}", damage.code().number())
            }
            FileError::Refused(code) => code.fmt(f),
            FileError::Unread(refusal) => refusal.fmt(f),
            FileError::Stale => write!(f, "what the file holds is not known: open it anew"),
        }
    }
}

impl std::error::Error for FileError {
    fn source(&self) -> Option<&(dyn std::error::Error + 'static)> {
        match self {
            FileError::Io(error) => Some(error),
            _ => None,
        }
    }
}

impl From<Code> for FileError {
    fn from(code: Code) -> Self {
        FileError::Refused(code)
    }
}

impl From<io::Error> for FileError {
    fn from(error: io::Error) -> Self {
        FileError::Io(error)
    }
}
