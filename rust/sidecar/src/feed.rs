//! Following the table of withdrawals. A notice only wakes; what counts is every row after the last held, read in one snapshot
//! with the head.

use crate::clock;
use crate::pq::{Connection, Rows};
use crate::segments::{Entry, Segments};
use crate::store::Store;
use std::sync::RwLock;
use std::thread;
use std::time::Duration;

/// The most rows that are asked for at once.
const ROWS: usize = 1000;
/// The pause before a new connection.
const PAUSE: Duration = Duration::from_millis(200);

/// How a feed is followed.
#[derive(Clone, Debug)]
pub struct Settings {
    /// libpq's string or URI.
    pub database: String,
    /// The longest time between two looks.
    pub poll: Duration,
    /// The longest time that an answer may take.
    pub within: Duration,
}

/// Follows until the store has halted.
pub fn follow(settings: &Settings, segments: &mut Segments, store: &RwLock<Store>) {
    while store.read().expect("no panic").fault().is_none() {
        if let Err(why) = connected(settings, segments, store) {
            eprintln!("balsa-sidecar: feed: {why}");
        }
        thread::sleep(PAUSE);
    }
    let store = store.read().expect("no panic");
    eprintln!(
        "balsa-sidecar: halted: {}",
        store.fault().unwrap_or_default()
    );
}

/// Follows as long as the connection lasts.
fn connected(
    settings: &Settings,
    segments: &mut Segments,
    store: &RwLock<Store>,
) -> Result<(), String> {
    let connection = Connection::open(&settings.database)?;
    connection.run("LISTEN balsa_withdrawal", settings.within)?;
    compare(&connection, settings.within, store)?;
    while store.read().expect("no panic").fault().is_none() {
        if look(&connection, settings.within, segments, store)? {
            connection.wait(settings.poll)?;
            connection.take_notices();
        }
    }
    Ok(())
}

/// Compares all that is held with the database, once for each connection, and halts where a withdrawal differs: the disk may
/// have changed, and a database that was restored older may have gone on with another history. Where the database has fewer,
/// the head will tell.
fn compare(connection: &Connection, within: Duration, store: &RwLock<Store>) -> Result<(), String> {
    let held = store.read().expect("no panic").held();
    let mut next = 1;
    while next <= held {
        let rows = connection.run(
            &format!(
                "SELECT number, tag, body FROM balsa_feed.withdrawal \
                 WHERE number BETWEEN {next} AND {held} ORDER BY number LIMIT {ROWS}"
            ),
            within,
        )?;
        if rows.len() == 0 {
            break;
        }
        for row in 0..rows.len() {
            let there = withdrawal(&rows, row);
            if !there.is_some_and(|(number, entry)| {
                number == next && store.read().expect("no panic").holds(number, &entry)
            }) {
                let why = format!("withdrawal {next} of the database is not the one held");
                store.write().expect("no panic").halt(why);
                return Ok(());
            }
            next += 1;
        }
    }
    Ok(())
}

/// Notes the time, asks for what is new and for the head, and takes it in. Whether that was all.
fn look(
    connection: &Connection,
    within: Duration,
    segments: &mut Segments,
    store: &RwLock<Store>,
) -> Result<bool, String> {
    let asked = clock::now();
    let held = store.read().expect("no panic").held();
    let rows = connection.run(&question(held), within)?;
    let head = rows.number(0, 3).ok_or("a row without a head")?;
    if rows.cell(0, 4) != Some(b"f") {
        return Err("the database is a replica, which may lag behind".to_string());
    }
    let taken = take(&rows, held, head, segments, store);
    let mut store = store.write().expect("no panic");
    match taken {
        Ok(()) => store.heard(asked, head),
        Err(why) => store.halt(why),
    }
    Ok(store.held() >= head || store.fault().is_some())
}

/// What is asked for: the withdrawals after the last held, beside the head, in one snapshot.
fn question(held: u64) -> String {
    format!(
        "SELECT w.number, w.tag, w.body, h.head, pg_is_in_recovery() \
         FROM (SELECT coalesce(max(number), 0) AS head FROM balsa_feed.withdrawal) h \
         LEFT JOIN balsa_feed.withdrawal w ON w.number > {held} ORDER BY w.number LIMIT {ROWS}"
    )
}

/// Takes in the rows of an answer: at least one, where the head is above what is held.
fn take(
    rows: &Rows,
    held: u64,
    head: u64,
    segments: &mut Segments,
    store: &RwLock<Store>,
) -> Result<(), String> {
    if head <= held {
        return Ok(());
    }
    (0..rows.len()).try_for_each(|row| {
        let (number, entry) = withdrawal(rows, row).ok_or("a row that is no withdrawal")?;
        keep(number, entry, segments, store)
    })
}

/// Takes in a withdrawal: on the disk first, and then it counts.
fn keep(
    number: u64,
    entry: Entry,
    segments: &mut Segments,
    store: &RwLock<Store>,
) -> Result<(), String> {
    if !store.read().expect("no panic").expects(number) {
        return Err(format!("a gap: {number} is not the next number"));
    }
    crate::store::key(&entry.body)
        .map_err(|refusal| format!("withdrawal {number} is no text: {refusal}"))?;
    segments.add(entry.tag, &entry.body)?;
    store.write().expect("no panic").hold(number, entry);
    Ok(())
}

/// The withdrawal of a row, if it has one.
fn withdrawal(rows: &Rows, row: usize) -> Option<(u64, Entry)> {
    let tag = u16::try_from(rows.number(row, 1)?).ok()?;
    let body = rows.cell(row, 2)?.to_vec();
    Some((rows.number(row, 0)?, Entry { tag, body }))
}
