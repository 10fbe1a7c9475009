//! The crash model: between two syncs any subset of the stored bytes may have reached the disk.

use super::{commit, Disk, FileError, RegisterFile};
use crate::refusal::Code;
use crate::register::{Register, MAX_BODY, REGISTER};
use std::io;

type Entries = Vec<(u16, Vec<u8>)>;

/// The stores of each part between two syncs.
#[derive(Default)]
struct Recorder {
    synced: Vec<Vec<(usize, u8)>>,
    stored: Vec<(usize, u8)>,
}

impl Disk for Recorder {
    fn store(&mut self, place: usize, bytes: &[u8]) -> io::Result<()> {
        self.stored.extend((place..).zip(bytes.iter().copied()));
        Ok(())
    }

    fn sync(&mut self) -> io::Result<()> {
        self.synced.push(std::mem::take(&mut self.stored));
        Ok(())
    }
}

/// Sync is called, and nothing waits for it.
struct Unsynced<'a>(&'a mut Recorder);

impl Disk for Unsynced<'_> {
    fn store(&mut self, place: usize, bytes: &[u8]) -> io::Result<()> {
        self.0.store(place, bytes)
    }

    fn sync(&mut self) -> io::Result<()> {
        Ok(())
    }
}

/// A small generator of pseudo-random numbers (xorshift64).
struct Random(u64);

impl Random {
    fn below(&mut self, limit: usize) -> usize {
        self.0 ^= self.0 << 13;
        self.0 ^= self.0 >> 7;
        self.0 ^= self.0 << 17;
        (self.0 % limit as u64) as usize
    }

    fn bytes(&mut self, length: usize) -> Vec<u8> {
        (0..length).map(|_| self.below(256) as u8).collect()
    }
}

/// All entries that the bytes of a disk list, as a file that is opened shows them.
fn entries(disk: &[u8]) -> Entries {
    let register = Register::new(disk);
    let entry = |place| register.entry(place).expect("the register is valid");
    (0..)
        .map_while(entry)
        .map(|(tag, body)| (tag, body.to_vec()))
        .collect()
}

/// A register that was emptied over rubbish, with some entries.
fn register(random: &mut Random, count: usize, longest: usize) -> Vec<u8> {
    let mut register = Register::new(random.bytes(REGISTER));
    register.empty().unwrap();
    for _ in 0..count {
        let length = random.below(longest + 1);
        register
            .add(random.below(65_536) as u16, &random.bytes(length))
            .unwrap();
    }
    register.into_bytes()
}

/// The stores by which an entry is added to a disk, if there is room.
fn stores(disk: &[u8], tag: u16, body: &[u8]) -> Option<Vec<Vec<(usize, u8)>>> {
    let mut next = Register::new(disk.to_vec());
    next.add(tag, body).ok()?;
    let mut recorder = Recorder::default();
    commit(&mut recorder, &next).unwrap();
    assert!(recorder.stored.is_empty(), "the last store is synced");
    Some(recorder.synced)
}

/// The disk after a crash in a part, when the stores that `reached` picks have reached it.
fn crashed(
    disk: &[u8],
    parts: &[Vec<(usize, u8)>],
    part: usize,
    mut reached: impl FnMut(usize) -> bool,
) -> Vec<u8> {
    let mut disk = disk.to_vec();
    for &(place, byte) in parts[..part].iter().flatten() {
        disk[place] = byte;
    }
    for (i, &(place, byte)) in parts[part].iter().enumerate() {
        if reached(i) {
            disk[place] = byte;
        }
    }
    disk
}

/// Every subset, for short bodies.
#[test]
fn every_subset_lists_the_old_or_the_new_entries() {
    let mut random = Random(11);
    let mut states = 0;
    for length in 0..=5 {
        let disk = register(&mut random, 3, 40);
        let (tag, body) = (random.below(65_536) as u16, random.bytes(length));
        let old = entries(&disk);
        let mut new = old.clone();
        new.push((tag, body.clone()));
        let parts = stores(&disk, tag, &body).expect("there is room");
        for part in 0..parts.len() {
            for subset in 0..1_usize << parts[part].len() {
                let left = crashed(&disk, &parts, part, |i| subset >> i & 1 == 1);
                let listed = entries(&left);
                assert!(
                    listed == old || listed == new,
                    "{length} bytes, {part}, {subset}"
                );
                states += 1;
            }
        }
        let whole = crashed(&disk, &parts, parts.len() - 1, |_| true);
        assert_eq!(entries(&whole), new);
    }
    assert!(states > 4000, "{states}");
}

/// Random subsets for bodies of any length, one crash after the other on one disk, which is opened
/// and added to again each time.
#[test]
fn crash_after_crash() {
    let mut random = Random(12);
    for round in 0..60 {
        let count = random.below(20);
        let mut disk = register(&mut random, count, 300);
        for _ in 0..30 {
            let length = random.below(if round % 4 == 0 { MAX_BODY } else { 200 } + 1);
            let (tag, body) = (random.below(65_536) as u16, random.bytes(length));
            let Some(parts) = stores(&disk, tag, &body) else {
                break;
            };
            let old = entries(&disk);
            let mut new = old.clone();
            new.push((tag, body));
            let part = random.below(parts.len());
            let chance = random.below(101);
            disk = crashed(&disk, &parts, part, |_| random.below(100) < chance);
            let listed = entries(&disk);
            assert!(listed == old || listed == new);
        }
    }
}

/// The model sees a file that does not wait for its syncs.
#[test]
fn a_missing_sync_is_seen() {
    let mut random = Random(13);
    let disk = register(&mut random, 2, 40);
    let mut next = Register::new(disk.clone());
    next.add(5, b"body").unwrap();
    let mut recorder = Recorder::default();
    commit(&mut Unsynced(&mut recorder), &next).unwrap();
    recorder.sync().unwrap();
    let only_last = recorder.synced[0].len() - 1;
    let left = crashed(&disk, &recorder.synced, 0, |i| i == only_last);
    assert_eq!(
        Register::new(&left[..]).entry(0),
        Err(Code::InvalidRegister)
    );
}

/// Where a write failed, nothing is told of any text: what the file lists is not known.
#[test]
fn nothing_is_clear_after_a_failure() {
    let name = format!("balsa-stale-{}", std::process::id());
    let path = std::env::temp_dir().join(name);
    let mut file = RegisterFile::create(&path).unwrap();
    assert!(file.withdrawn(b"C").unwrap().is_clear());
    file.failed = true;
    assert!(matches!(file.withdrawn(b"C"), Err(FileError::Stale)));
    assert!(matches!(file.withdraw(7, b"C"), Err(FileError::Stale)));
    std::fs::remove_file(&path).unwrap();
}
