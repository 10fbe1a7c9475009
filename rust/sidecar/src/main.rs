//! Says at a bench whether a text may be released. It holds the withdrawals of a PostgreSQL table on its own disk, follows the
//! table, and answers on a Unix socket; wherever something is wrong the answer is no (docs/SIDECAR.md).

mod audit;
mod clock;
mod feed;
mod pq;
mod segments;
mod server;
mod store;

use audit::Audit;
use feed::Settings;
use segments::{Folder, Segments};
use server::Desk;
use std::path::{Path, PathBuf};
use std::process::ExitCode;
use std::sync::RwLock;
use std::thread;
use std::time::{Duration, Instant};
use store::Store;

const USAGE: &str = "\
usage: balsa-sidecar --folder DIR --socket PATH --database SETTINGS [--lease MS] [--poll MS] [--audit FILE [--sync]]

Answers each line, a text, with 'yes NUMBER AGE' or 'no REASON ..' (docs/SIDECAR.md).

  --folder DIR         where withdrawals are held, for this process alone
  --socket PATH        the Unix socket
  --database SETTINGS  libpq's string or URI
  --lease MS           the longest time since the head was asked for (60000)
  --poll MS            the longest time between two looks at the table (a sixth of the lease)
  --audit FILE         a line for each answer
  --sync               each of these is on the disk before its answer is given";

/// What the command line says.
struct Options {
    folder: PathBuf,
    socket: PathBuf,
    database: String,
    lease: u64,
    poll: u64,
    audit: Option<PathBuf>,
    sync: bool,
}

fn options() -> Result<Options, String> {
    let (mut folder, mut socket, mut database, mut audit) = (None, None, None, None);
    let (mut lease, mut poll, mut sync) = (60_000, None, false);
    let mut words = std::env::args().skip(1);
    while let Some(word) = words.next() {
        let mut value = || words.next().ok_or(format!("{word} needs a value"));
        match word.as_str() {
            "--folder" => folder = Some(value()?.into()),
            "--socket" => socket = Some(value()?.into()),
            "--database" => database = Some(value()?),
            "--lease" => lease = milliseconds(&value()?)?,
            "--poll" => poll = Some(milliseconds(&value()?)?),
            "--audit" => audit = Some(value()?.into()),
            "--sync" => sync = true,
            _ => return Err(format!("{word} is not known")),
        }
    }
    Ok(Options {
        folder: folder.ok_or("--folder is missing")?,
        socket: socket.ok_or("--socket is missing")?,
        database: database.ok_or("--database is missing")?,
        lease,
        poll: poll.unwrap_or(lease / 6),
        audit,
        sync,
    })
}

fn milliseconds(word: &str) -> Result<u64, String> {
    let number = word.parse().ok().filter(|number| *number > 0);
    number.ok_or(format!("{word} is no number of milliseconds"))
}

/// Loads what is held. Where that fails the answers are no, and nothing is followed.
fn load(folder: Folder) -> (Option<Segments>, Store) {
    match Segments::open(folder) {
        Ok((segments, entries)) => (Some(segments), Store::new(entries)),
        Err(why) => {
            eprintln!("balsa-sidecar: halted: {why}");
            (None, Store::failed(why))
        }
    }
}

fn run(options: Options) -> Result<(), String> {
    let at = |path: &Path, error| format!("{}: {error}", path.display());
    let folder = Folder::lock(&options.folder)?;
    let listener = server::listen(&options.socket).map_err(|error| at(&options.socket, error))?;
    let audit = match &options.audit {
        Some(path) => Some(Audit::open(path, options.sync).map_err(|error| at(path, error))?),
        None => None,
    };
    let started = Instant::now();
    let (segments, store) = load(folder);
    eprintln!(
        "balsa-sidecar: {} held, loaded in {} ms",
        store.held(),
        started.elapsed().as_millis()
    );
    let desk: &'static Desk = Box::leak(Box::new(Desk {
        store: RwLock::new(store),
        limit: options.lease,
        audit,
    }));
    if let Some(mut segments) = segments {
        let settings = Settings {
            database: options.database,
            poll: Duration::from_millis(options.poll),
            within: Duration::from_millis(options.lease),
        };
        thread::spawn(move || feed::follow(&settings, &mut segments, &desk.store));
    }
    server::run(&listener, desk);
    Ok(())
}

fn main() -> ExitCode {
    let options = match options() {
        Ok(options) => options,
        Err(why) => {
            eprintln!("balsa-sidecar: {why}\n{USAGE}");
            return ExitCode::from(2);
        }
    };
    match run(options) {
        Ok(()) => ExitCode::SUCCESS,
        Err(why) => {
            eprintln!("balsa-sidecar: {why}");
            ExitCode::from(2)
        }
    }
}
