//! The Unix socket: a line with a text in, a line with the answer out.

use crate::audit::Audit;
use crate::clock;
use crate::store::{self, Answer, Store};
use std::fs::{self, Permissions};
use std::io::{self, BufRead, BufReader, Read, Write};
use std::os::unix::fs::PermissionsExt;
use std::os::unix::net::{UnixListener, UnixStream};
use std::path::Path;
use std::sync::atomic::{AtomicUsize, Ordering};
use std::sync::RwLock;
use std::thread;

/// The longest text, and one byte more to see that a line is longer.
const LINE: u64 = balsa::tables::TEXT as u64 + 1;
/// The most clients at once.
const CLIENTS: usize = 64;

/// What answers rest on.
#[derive(Debug)]
pub struct Desk {
    /// What is held.
    pub store: RwLock<Store>,
    /// The lease, in milliseconds.
    pub limit: u64,
    /// Where answers are written down.
    pub audit: Option<Audit>,
}

impl Desk {
    /// The answer to a text. One that cannot be written down is not given.
    fn answer(&self, text: &[u8]) -> String {
        let key = store::key(text);
        let answer = {
            let store = self.store.read().expect("no panic");
            store.answer(text, key, clock::now(), self.limit)
        };
        self.noted(text, &answer).unwrap_or_else(|error| {
            let why = format!("the audit: {error}");
            self.store.write().expect("no panic").halt(why.clone());
            Answer::Halted(why).to_string()
        })
    }

    fn noted(&self, text: &[u8], answer: &Answer) -> io::Result<String> {
        let answer = answer.to_string();
        if let Some(audit) = &self.audit {
            audit.note(text, &answer)?;
        }
        Ok(answer)
    }

    /// Answers a client's lines until it goes.
    fn serve(&self, stream: &UnixStream) -> io::Result<()> {
        let mut lines = BufReader::new(stream);
        let mut out = stream;
        let mut line = Vec::new();
        loop {
            line.clear();
            lines.by_ref().take(LINE).read_until(b'\n', &mut line)?;
            let whole = line.last() == Some(&b'\n');
            if whole {
                line.pop();
            } else if (line.len() as u64) < LINE {
                return Ok(());
            }
            out.write_all(format!("{}\n", self.answer(&line)).as_bytes())?;
            if !whole {
                return Ok(());
            }
        }
    }
}

/// The socket at a path, for its owner and group. One that a process listens at is left to it.
///
/// # Errors
/// Those of the file system, and `AddrInUse`.
pub fn listen(path: &Path) -> io::Result<UnixListener> {
    if UnixStream::connect(path).is_ok() {
        return Err(io::ErrorKind::AddrInUse.into());
    }
    match fs::remove_file(path) {
        Err(error) if error.kind() != io::ErrorKind::NotFound => return Err(error),
        _ => {}
    }
    let listener = UnixListener::bind(path)?;
    fs::set_permissions(path, Permissions::from_mode(0o660))?;
    Ok(listener)
}

/// Clients that are being answered.
static CLIENTS_NOW: AtomicUsize = AtomicUsize::new(0);

/// A client that is being answered, as long as this lives.
struct Seat;

impl Seat {
    /// A seat, or none where all are taken.
    fn take() -> Option<Seat> {
        let seat = Seat;
        (CLIENTS_NOW.fetch_add(1, Ordering::Relaxed) < CLIENTS).then_some(seat)
    }
}

impl Drop for Seat {
    fn drop(&mut self) {
        CLIENTS_NOW.fetch_sub(1, Ordering::Relaxed);
    }
}

/// Answers clients, each in a thread of its own; one too many is turned away.
pub fn run(listener: &UnixListener, desk: &'static Desk) {
    for stream in listener.incoming().flatten() {
        let Some(seat) = Seat::take() else {
            continue;
        };
        let answers = move || {
            let _seat = seat;
            // an error is a client that has gone
            let _ = desk.serve(&stream);
        };
        if let Err(error) = thread::Builder::new().spawn(answers) {
            eprintln!("balsa-sidecar: a client is turned away: {error}");
        }
    }
}
