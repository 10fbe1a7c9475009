//! The story of a review. A compound is withdrawn in one Kekulé drawing; orders ask for it in the other
//! one, with selected letters, with hydrogens drawn as atoms, with map numbers: none is released. Then a
//! process is killed in the middle of a withdrawal, again and again: opened anew, the register lists the
//! old texts, or these and the new one, and still releases no drawing of the compound.

use balsa::register::{MAX_ENTRIES, REGISTER};
use balsa::{Register, RegisterFile};
use std::error::Error;
use std::fs;
use std::io::{BufRead, BufReader, Write};
use std::path::Path;
use std::process::{Command, Stdio};
use std::thread;
use std::time::Duration;

/// What a step of the story may fail with.
type Step<T> = Result<T, Box<dyn Error>>;

/// o-Xylene in one Kekulé drawing, and the tag of its withdrawal.
const WITHDRAWN: (u16, &str) = (7, "CC1=C(C)C=CC=C1");

/// The same compound as it is ordered.
const ORDERS: [&str; 4] = [
    "CC=1C(C)=CC=CC1",
    "Cc1ccccc1C",
    "[H]C([H])([H])c1ccccc1C",
    "[CH3:1]c1ccccc1[CH3:2]",
];

/// m-Xylene, which nobody withdrew.
const OTHER: &str = "Cc1cccc(C)c1";

/// How often the process is killed in the middle of a withdrawal.
const KILLS: usize = 5;

fn main() -> Step<()> {
    if let Some(path) = std::env::args_os().nth(1) {
        return withdraw_chains(path.as_ref());
    }
    let folder = std::env::temp_dir().join(format!("balsa-review-{}", std::process::id()));
    fs::create_dir_all(&folder)?;
    let told = review(&folder.join("withdrawn"));
    fs::remove_dir_all(&folder)?;
    told
}

fn review(path: &Path) -> Step<()> {
    let (tag, text) = WITHDRAWN;
    RegisterFile::create(path)?.withdraw(tag, text.as_bytes())?;
    println!("withdrawn  {text}");
    let register = RegisterFile::read(path)?;
    for order in ORDERS.into_iter().chain([OTHER]) {
        let answer = register.withdrawn(order.as_bytes())?;
        let done = if answer.is_clear() {
            "released"
        } else {
            "held"
        };
        println!("{done:10} {order:25} {answer}");
    }
    let mut killed = 0;
    for attempt in 0.. {
        let pause = Duration::from_micros(attempt * 37 % 700);
        killed += usize::from(kill_while_withdrawing(path, pause)?);
        if killed == KILLS {
            break;
        }
        assert!(attempt < 5000, "no kill came in the middle of a withdrawal");
    }
    println!("killed {killed} times in the middle of a withdrawal and opened anew: nothing is lost, no order released");
    Ok(())
}

/// Lets a process withdraw text after text, kills it after a pause, and looks at what it left. Whether the
/// kill came in the middle of a withdrawal: parts of the next entry stand in the file and are not listed.
fn kill_while_withdrawing(path: &Path, pause: Duration) -> Step<bool> {
    let (tag, text) = WITHDRAWN;
    RegisterFile::create(path)?.withdraw(tag, text.as_bytes())?;
    let mut child = Command::new(std::env::current_exe()?)
        .arg(path)
        .stdout(Stdio::piped())
        .spawn()?;
    let output = child.stdout.take().ok_or("no output")?;
    let mut told = BufReader::new(output).lines();
    let first = told.next().transpose()?;
    thread::sleep(pause);
    child.kill()?; // SIGKILL
    child.wait()?;
    let told = usize::from(first.is_some()) + told.count();

    let register = RegisterFile::read(path)?;
    let listed: Vec<(u16, &[u8])> = register.entries()?.collect();
    let old = [(tag, text.to_string())].into_iter();
    let new = (1..).map(|length| (length, chain(length)));
    for ((tag, body), (expected, text)) in listed.iter().zip(old.chain(new)) {
        assert_eq!((*tag, *body), (expected, text.as_bytes()));
    }
    // what was told as withdrawn is there; beyond it at most the one that was being added
    assert!((told + 1..=told + 2).contains(&listed.len()));
    for order in ORDERS {
        assert!(!register.withdrawn(order.as_bytes())?.is_clear());
    }
    Ok(is_half_made(&register, listed.len()))
}

/// Whether bytes stand behind the entries that are listed: the file was made of zeros.
fn is_half_made(register: &Register<Vec<u8>>, listed: usize) -> bool {
    let bytes = register.bytes();
    let used: usize = register
        .entries()
        .map_or(0, |all| all.map(|(_, body)| body.len()).sum());
    let contents = 2 + 6 * listed..2 + 6 * MAX_ENTRIES;
    let bodies = contents.end + used..REGISTER;
    let mut behind = bytes[contents].iter().chain(&bytes[bodies]);
    behind.any(|&byte| byte != 0)
}

/// Withdraws methane, ethane, propane and so on, and tells each when it is done, until it is killed.
fn withdraw_chains(path: &Path) -> Step<()> {
    let mut file = RegisterFile::open(path)?;
    let mut out = std::io::stdout();
    for length in 1..MAX_ENTRIES as u16 {
        file.withdraw(length, chain(length).as_bytes())?;
        writeln!(out, "{length}")?;
    }
    Ok(())
}

/// A chain of carbons.
fn chain(length: u16) -> String {
    "C".repeat(length.into())
}
