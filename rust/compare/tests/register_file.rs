//! A register in a real file: opened, made, added to, read meanwhile, damaged, and its process killed at any moment.

use balsa::register::REGISTER;
use balsa::{Code, FileError, Refusal, Register, RegisterFile, Withdrawn};
use compare::random::Random;
use compare::registers::{self, body_of_tag, listed};
use std::fs;
use std::io::{BufRead, BufReader, Read};
use std::path::{Path, PathBuf};
use std::process::{Command, Stdio};
use std::sync::atomic::{AtomicBool, Ordering};
use std::thread;
use std::time::Duration;

/// A folder of its own for a test, removed at the end.
struct Folder(PathBuf);

impl Folder {
    fn new(name: &str) -> Self {
        let folder = format!("balsa-{name}-{}", std::process::id());
        let folder = Path::new(env!("CARGO_TARGET_TMPDIR")).join(folder);
        let _ = fs::remove_dir_all(&folder);
        fs::create_dir_all(&folder).unwrap();
        Folder(folder)
    }

    fn file(&self) -> PathBuf {
        self.0.join("register")
    }
}

impl Drop for Folder {
    fn drop(&mut self) {
        let _ = fs::remove_dir_all(&self.0);
    }
}

/// The tags of a file, each of whose bodies is the one of its tag.
fn tags(path: &Path) -> Vec<u16> {
    let register = RegisterFile::read(path).unwrap();
    let entry = |(tag, body)| {
        assert!(body == body_of_tag(tag), "the body of {tag}");
        tag
    };
    listed(register.bytes())
        .unwrap()
        .into_iter()
        .map(entry)
        .collect()
}

fn add(file: &mut RegisterFile, tag: u16) -> Result<(), FileError> {
    file.add(tag, &body_of_tag(tag))
}

#[test]
fn entries_stay() {
    let folder = Folder::new("stay");
    for tag in 0..20 {
        let mut file = RegisterFile::open(folder.file()).unwrap();
        add(&mut file, tag).unwrap();
        assert_eq!(file.register().entry(tag.into()).unwrap().unwrap().0, tag);
        assert_eq!(tags(&folder.file()), (0..=tag).collect::<Vec<_>>());
    }
    let mut file = RegisterFile::open(folder.file()).unwrap();
    file.empty().unwrap();
    add(&mut file, 7).unwrap();
    drop(file);
    assert_eq!(tags(&folder.file()), [7]);
    assert_eq!(
        fs::read_dir(&folder.0).unwrap().count(),
        1,
        "nothing is left beside it"
    );
}

#[test]
fn full_leaves_the_file() {
    let folder = Folder::new("full");
    let mut file = RegisterFile::open(folder.file()).unwrap();
    let tag = (0..).find(|&tag| add(&mut file, tag).is_err()).unwrap();
    let before = fs::read(folder.file()).unwrap();
    let again = add(&mut file, tag).unwrap_err();
    assert!(matches!(again, FileError::Refused(Code::FullRegister)));
    assert!(fs::read(folder.file()).unwrap() == before);
}

/// A text that is withdrawn stays so when the file is opened anew, in every drawing; one that reading or
/// the register refuses leaves the file as it was.
#[test]
fn withdrawn_texts_stay() {
    let folder = Folder::new("withdrawn");
    let mut file = RegisterFile::open(folder.file()).unwrap();
    assert_eq!(file.withdrawn(b"C").unwrap(), Withdrawn::Clear);
    file.withdraw(7, b"CC1=C(C)C=CC=C1").unwrap();
    let before = fs::read(folder.file()).unwrap();
    let unread = file.withdraw(8, b"C11").unwrap_err();
    let refusal = Refusal {
        code: Code::SelfBridge,
        place: 2,
    };
    assert!(matches!(unread, FileError::Unread(it) if it == refusal));
    assert_eq!(unread.to_string(), refusal.to_string());
    let asked = file.withdrawn(b"C11").unwrap_err();
    assert!(matches!(asked, FileError::Unread(it) if it == refusal));
    let long = "[CH2:1000]".repeat(500);
    let full = file.withdraw(8, long.as_bytes()).unwrap_err();
    assert!(matches!(full, FileError::Refused(Code::FullRegister)));
    assert!(fs::read(folder.file()).unwrap() == before);
    let listed = Withdrawn::Withdrawn { tag: 7, entry: 0 };
    let drawings = [
        "CC=1C(C)=CC=CC1",
        "Cc1ccccc1C",
        "[H]C([H])([H])c1ccccc1[CH3:4]",
    ];
    for drawing in drawings.map(str::as_bytes) {
        assert_eq!(file.withdrawn(drawing).unwrap(), listed);
        let seen = RegisterFile::read(folder.file()).unwrap();
        assert_eq!(seen.withdrawn(drawing), Ok(listed));
    }
    drop(file);
    let file = RegisterFile::open(folder.file()).unwrap();
    for drawing in drawings.map(str::as_bytes) {
        assert_eq!(file.withdrawn(drawing).unwrap(), listed);
    }
    assert!(file.withdrawn(b"Cc1cccc(C)c1").unwrap().is_clear());
}

/// A second writer is refused, a reader is not.
#[test]
fn one_writer_at_a_time() {
    let folder = Folder::new("writer");
    let mut file = RegisterFile::open(folder.file()).unwrap();
    for tag in 0..5 {
        add(&mut file, tag).unwrap();
        let second = RegisterFile::open(folder.file()).unwrap_err();
        assert!(matches!(second, FileError::Locked));
        let third = RegisterFile::create(folder.file()).unwrap_err();
        assert!(matches!(third, FileError::Locked));
        let child = Command::new(env!("CARGO_BIN_EXE_add-entries"))
            .arg(folder.file())
            .arg("100")
            .output()
            .unwrap();
        assert!(!child.status.success() && child.stdout.is_empty());
        assert_eq!(tags(&folder.file()), (0..=tag).collect::<Vec<_>>());
    }
    drop(file);
    RegisterFile::open(folder.file()).unwrap();
}

/// Of many that make one file at the same time one has it, and what it adds stays.
#[test]
fn one_maker_at_a_time() {
    let folder = Folder::new("maker");
    for round in 0..25 {
        let path = folder.0.join(round.to_string());
        let open = |tag: u16| {
            let mut file = if tag.is_multiple_of(2) {
                RegisterFile::open(&path)?
            } else {
                RegisterFile::create(&path)?
            };
            add(&mut file, tag)?;
            Ok((file, tag))
        };
        let opened: Vec<Result<_, FileError>> = thread::scope(|scope| {
            let threads: Vec<_> = (0..4).map(|tag| scope.spawn(move || open(tag))).collect();
            threads
                .into_iter()
                .map(|thread| thread.join().unwrap())
                .collect()
        });
        let (made, refused): (Vec<_>, Vec<_>) = opened.into_iter().partition(Result::is_ok);
        assert_eq!(made.len(), 1);
        assert!(refused
            .iter()
            .all(|no| matches!(no, Err(FileError::Locked))));
        let expected: Vec<u16> = made.iter().flatten().map(|(_, tag)| *tag).collect();
        assert_eq!(tags(&path), expected);
    }
}

/// What a cut in the middle of making leaves beside the file is no hindrance.
#[test]
fn leftovers_are_taken_over() {
    let folder = Folder::new("leftover");
    fs::write(folder.0.join("register.new"), b"half a regis").unwrap();
    let mut file = RegisterFile::open(folder.file()).unwrap();
    add(&mut file, 1).unwrap();
    fs::write(folder.0.join("register.new"), vec![9; 2 * REGISTER]).unwrap();
    file.empty().unwrap();
    add(&mut file, 2).unwrap();
    assert_eq!(tags(&folder.file()), [2]);
}

/// A damaged file is told with its number and in words, and stays as it is; it can be made anew.
#[test]
fn damaged_files() {
    let folder = Folder::new("damaged");
    let mut random = Random::new(5);
    let mut told = [0; 3];
    for _ in 0..500 {
        let bytes = registers::register(&mut random);
        fs::write(folder.file(), &bytes).unwrap();
        let expected = listed(&bytes);
        let words = match (RegisterFile::open(folder.file()), &expected) {
            (Ok(file), Ok(entries)) => {
                told[0] += 1;
                assert_eq!(&listed(file.register().bytes()), &Ok(entries.clone()));
                continue;
            }
            (Err(error @ FileError::Damaged(_)), Err(_)) => error.to_string(),
            (opened, _) => panic!("{opened:?} for {expected:?}"),
        };
        let number = expected.unwrap_err();
        assert!(words.starts_with(&format!("refusal {number}: ")), "{words}");
        told[if number == 1 { 1 } else { 2 }] += 1;
        assert!(matches!(
            RegisterFile::read(folder.file()),
            Err(FileError::Damaged(_))
        ));
        assert!(fs::read(folder.file()).unwrap() == bytes);
    }
    assert!(told.iter().all(|&count| count > 20), "{told:?}");
    fs::write(folder.file(), b"rubbish").unwrap();
    add(&mut RegisterFile::create(folder.file()).unwrap(), 3).unwrap();
    assert_eq!(tags(&folder.file()), [3]);
    assert!(matches!(
        RegisterFile::read(folder.0.join("none")),
        Err(FileError::Io(_))
    ));
    assert!(matches!(
        RegisterFile::open(&folder.0),
        Err(FileError::Io(_))
    ));
}

/// Who reads while another adds sees a run of entries, never a part of one.
#[test]
fn readers_beside_a_writer() {
    let folder = Folder::new("reader");
    let path = folder.file();
    let mut file = RegisterFile::open(&path).unwrap();
    let ended = AtomicBool::new(false);
    thread::scope(|scope| {
        let reader = scope.spawn(|| {
            let mut seen = 0;
            while !ended.load(Ordering::Relaxed) {
                let tags = tags(&path);
                assert!(tags.windows(2).all(|pair| pair[0] + 1 == pair[1]));
                seen += 1;
            }
            seen
        });
        for tag in 0..150 {
            if add(&mut file, tag).is_err() {
                file.empty().unwrap();
                add(&mut file, tag).unwrap();
            }
        }
        ended.store(true, Ordering::Relaxed);
        assert!(reader.join().unwrap() > 0);
    });
}

/// The tag that comes after those that stand there.
fn tag_after(tags: &[u16]) -> u16 {
    tags.last().map_or(0, |last| last.wrapping_add(1))
}

/// The tags when one more was added: those and it, or it alone where the register had to be emptied.
fn with_next(tags: &[u16]) -> Vec<u16> {
    let tag = tag_after(tags);
    let mut register = Register::new(vec![0; REGISTER]);
    register.empty().unwrap();
    for &tag in tags {
        register.add(tag, &body_of_tag(tag)).unwrap();
    }
    match register.add(tag, &body_of_tag(tag)) {
        Ok(()) => [tags, &[tag]].concat(),
        Err(_) => vec![tag],
    }
}

/// A process that adds is killed at a random moment, hundreds of times: nothing that it told as added
/// is lost, and what is there is whole.
#[test]
fn killed_while_adding() {
    let folder = Folder::new("killed");
    let path = folder.file();
    let mut random = Random::new(6);
    let mut standing = vec![0];
    add(&mut RegisterFile::open(&path).unwrap(), 0).unwrap();
    let (mut told, mut untold, mut emptied) = (0, 0, 0);
    for round in 0..300 {
        let mut child = Command::new(env!("CARGO_BIN_EXE_add-entries"))
            .arg(&path)
            .arg(tag_after(&standing).to_string())
            .stdout(Stdio::piped())
            .spawn()
            .unwrap();
        let mut output = BufReader::new(child.stdout.take().unwrap());
        let mut printed = String::new();
        if round % 3 != 0 {
            output.read_line(&mut printed).unwrap();
        }
        thread::sleep(Duration::from_micros(random.below(4000) as u64));
        child.kill().unwrap();
        child.wait().unwrap();
        output.read_to_string(&mut printed).unwrap();
        for line in printed.lines() {
            standing = with_next(&standing);
            assert_eq!(line.parse(), Ok(*standing.last().unwrap()));
            told += 1;
        }
        let found = tags(&path);
        let next = with_next(&standing);
        if found == next {
            untold += 1;
            standing = next;
        } else if found.is_empty() && next.len() == 1 {
            emptied += 1;
            add(&mut RegisterFile::open(&path).unwrap(), next[0]).unwrap();
            standing = next;
        } else {
            assert_eq!(found, standing);
        }
    }
    let seen = format!("{told} told, {untold} not told, {emptied} times just emptied");
    println!("{seen}");
    assert!(told >= 200, "{seen}");
}
