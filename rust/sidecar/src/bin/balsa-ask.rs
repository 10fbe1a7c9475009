//! A client of the sidecar: asks whether texts may be released, and counts its own time. A process that was frozen with an answer
//! on its way is so told from one that answered at once.

#[path = "../clock.rs"]
mod clock;

use std::io::{self, BufRead, BufReader, Write};
use std::os::unix::net::UnixStream;
use std::process::ExitCode;
use std::time::{Duration, Instant};

const USAGE: &str = "\
usage: balsa-ask [--times] SOCKET LEASE [TEXT ..]

Asks for each text, or each line of standard input, and prints the answer. One that takes, with its age, longer than the lease
(milliseconds) is 'no late'. The exit status is 0 if all may be released, 1 if not, 2 if there is no answer.

  --times   prints the median and the 99th percentile of the times in place of the answers";

/// A connection, with the lease.
struct Client {
    stream: BufReader<UnixStream>,
    lease: u64,
}

impl Client {
    fn open(socket: &str, lease: u64) -> io::Result<Client> {
        let stream = UnixStream::connect(socket)?;
        let longest = Some(Duration::from_millis(lease.max(1)));
        stream.set_read_timeout(longest)?;
        stream.set_write_timeout(longest)?;
        Ok(Client {
            stream: BufReader::new(stream),
            lease,
        })
    }

    /// The answer, and how long it took.
    fn ask(&mut self, text: &str) -> io::Result<(String, Duration)> {
        let (asked, started) = (clock::now(), Instant::now());
        self.stream
            .get_mut()
            .write_all(format!("{text}\n").as_bytes())?;
        let mut answer = String::new();
        if self.stream.read_line(&mut answer)? == 0 {
            return Err(io::ErrorKind::UnexpectedEof.into());
        }
        let took = started.elapsed();
        let waited = clock::now() - asked;
        let answer = answer.trim_end();
        match age(answer) {
            Some(age) if age.saturating_add(waited) > self.lease => {
                Ok(("no late".to_string(), took))
            }
            _ => Ok((answer.to_string(), took)),
        }
    }
}

/// The age that a yes tells.
fn age(answer: &str) -> Option<u64> {
    let mut words = answer.strip_prefix("yes ")?.split(' ');
    words.nth(1)?.parse().ok()
}

/// Asks for all texts; whether all may be released.
fn run(
    client: &mut Client,
    texts: impl Iterator<Item = io::Result<String>>,
    times: bool,
) -> io::Result<bool> {
    let mut all = true;
    let mut took = Vec::new();
    for text in texts {
        let (answer, time) = client.ask(&text?)?;
        all &= answer.starts_with("yes ");
        match times {
            true => took.push(time),
            false => println!("{answer}"),
        }
    }
    took.sort_unstable();
    if let Some(last) = took.len().checked_sub(1) {
        let at = |percent: usize| took[last * percent / 100].as_nanos() as f64 / 1000.0;
        println!(
            "{} answers, p50 {:.1} us, p99 {:.1} us",
            last + 1,
            at(50),
            at(99)
        );
    }
    Ok(all)
}

fn main() -> ExitCode {
    let mut words: Vec<String> = std::env::args().skip(1).collect();
    let times = words.first().is_some_and(|word| word == "--times");
    words.drain(..usize::from(times));
    let lease = words.get(1).and_then(|word| word.parse().ok());
    let (Some(lease), [socket, _, texts @ ..]) = (lease, &words[..]) else {
        eprintln!("{USAGE}");
        return ExitCode::from(2);
    };
    let asked = Client::open(socket, lease).and_then(|mut client| match texts {
        [] => run(&mut client, io::stdin().lines(), times),
        texts => run(&mut client, texts.iter().cloned().map(Ok), times),
    });
    match asked {
        Ok(true) => ExitCode::SUCCESS,
        Ok(false) => ExitCode::from(1),
        Err(error) => {
            println!("no answer: {error}");
            ExitCode::from(2)
        }
    }
}
