//! Texts from arguments, files and standard input.

use crate::arguments::{Arguments, Opt};
use crate::failure::Failure;
use std::fs::File;
use std::io::{self, BufRead, BufReader, Read};
use std::path::Path;

/// Texts from a file.
pub const FILE: Opt = Opt {
    letter: Some('f'),
    name: "file",
    value: Some("FILE"),
    about: "takes a text from each line of FILE, - for standard input",
};
/// Lines as in files of names and structures.
pub const TITLES: Opt = Opt {
    letter: Some('t'),
    name: "titles",
    value: None,
    about: "ends a text at the first blank or tab, a name follows; a line may end in CR LF",
};

/// The most bytes of a line that are kept: any text of more than the rules allow is refused alike.
const KEPT: u64 = 1 << 20;
const BUFFER: usize = 1 << 16;
/// Stands for the name of a file where texts are words at the prompt.
pub const ARGUMENTS: &str = "<arguments>";
/// Stands for the name of standard input.
pub const STDIN: &str = "<stdin>";

/// The name of a file, and its lines.
type Lines = (String, Box<dyn BufRead>);

/// A text and where it stands.
#[derive(Clone, Copy)]
pub struct Text<'a> {
    /// The file's name, `<stdin>` or `<arguments>`.
    pub file: &'a str,
    /// The number of the line or argument, from 1.
    pub line: usize,
    /// Where in the line it begins.
    pub start: usize,
    /// The text.
    pub bytes: &'a [u8],
    /// What stands behind it, from the first blank or tab on.
    pub title: &'a [u8],
}

impl<'a> Text<'a> {
    /// A text that is the only one of its file.
    pub fn alone(file: &'a str, bytes: &'a [u8]) -> Self {
        text(file, 1, 0, bytes, false)
    }

    /// The title without the blanks before it.
    pub fn name(&self) -> &[u8] {
        self.title.trim_ascii()
    }
}

/// Goes through the texts that the arguments name: operands first, then files; standard input where
/// there are neither.
pub fn each_text(
    arguments: &Arguments,
    mut each: impl FnMut(Text<'_>) -> Result<(), Failure>,
) -> Result<(), Failure> {
    let has_titles = arguments.has(&TITLES);
    let files = files(arguments)?;
    for (index, word) in arguments.operands().iter().enumerate() {
        let kept = word.as_encoded_bytes();
        each(text(ARGUMENTS, index + 1, 0, kept, has_titles))?;
    }
    each_line(files, |file, line, kept| {
        each(text(file, line, 0, kept, has_titles))
    })
}

/// Goes through the pairs of texts that the arguments name: two operands first, then the lines of
/// files, each with two texts; standard input where there are neither.
pub fn each_pair(
    arguments: &Arguments,
    mut each: impl FnMut([Text<'_>; 2]) -> Result<(), Failure>,
) -> Result<(), Failure> {
    let has_titles = arguments.has(&TITLES);
    let files = files(arguments)?;
    match arguments.operands() {
        [] => {}
        [one, other] => {
            let words = [one, other].map(|word| word.as_encoded_bytes());
            each([1, 2].map(|line| text(ARGUMENTS, line, 0, words[line - 1], has_titles)))?;
        }
        _ => return Err(Failure::usage("two texts are compared")),
    }
    each_line(files, |file, line, kept| {
        each(pair(file, line, kept, has_titles)?)
    })
}

/// Goes through the lines of files.
fn each_line(
    files: Vec<Lines>,
    mut each: impl FnMut(&str, usize, &[u8]) -> Result<(), Failure>,
) -> Result<(), Failure> {
    for (file, mut lines) in files {
        let mut kept = Vec::new();
        let mut line = 0;
        loop {
            let next = next_line(&mut lines, &mut kept);
            if !next.map_err(|error| Failure::File(file.clone(), error))? {
                break;
            }
            line += 1;
            each(&file, line, &kept)?;
        }
    }
    Ok(())
}

/// The text that begins at a byte of a line.
fn text<'a>(file: &'a str, line: usize, start: usize, kept: &'a [u8], has_title: bool) -> Text<'a> {
    let rest = &kept[start..];
    let (bytes, title) = if has_title {
        split(rest)
    } else {
        (rest, &b""[..])
    };
    Text {
        file,
        line,
        start,
        bytes,
        title,
    }
}

/// The two texts of a line, which blanks or tabs keep apart.
fn pair<'a>(
    file: &'a str,
    line: usize,
    kept: &'a [u8],
    has_title: bool,
) -> Result<[Text<'a>; 2], Failure> {
    let (one, rest) = split(kept);
    let gap = rest.iter().take_while(|byte| b" \t".contains(byte)).count();
    if gap == 0 {
        let error = io::Error::other(format!("no second text on line {line}"));
        return Err(Failure::File(file.into(), error));
    }
    Ok([
        text(file, line, 0, one, false),
        text(file, line, one.len() + gap, kept, has_title),
    ])
}

/// Stores the next line without its end; whether there is one. A last one that is not ended counts.
fn next_line(lines: &mut impl BufRead, kept: &mut Vec<u8>) -> io::Result<bool> {
    kept.clear();
    if lines.by_ref().take(KEPT).read_until(b'\n', kept)? == 0 {
        return Ok(false);
    }
    if kept.last() == Some(&b'\n') {
        kept.pop();
    } else if kept.len() as u64 == KEPT {
        lines.skip_until(b'\n')?;
    }
    Ok(true)
}

/// The text of a line, and what follows it up to the end of the line.
fn split(line: &[u8]) -> (&[u8], &[u8]) {
    let line = line.strip_suffix(b"\r").unwrap_or(line);
    let end = line.iter().position(|byte| b" \t".contains(byte));
    line.split_at(end.unwrap_or(line.len()))
}

/// The files that the arguments name; standard input where they name no text either.
fn files(arguments: &Arguments) -> Result<Vec<Lines>, Failure> {
    let mut files = Vec::new();
    for name in arguments.values(&FILE) {
        files.push(if name == "-" {
            stdin()
        } else {
            open(name.as_ref())?
        });
    }
    if files.is_empty() && arguments.operands().is_empty() {
        files.push(stdin());
    }
    Ok(files)
}

fn stdin() -> Lines {
    let lines = BufReader::with_capacity(BUFFER, io::stdin());
    (STDIN.into(), Box::new(lines))
}

fn open(path: &Path) -> Result<Lines, Failure> {
    let name = path.display().to_string();
    match File::open(path) {
        Ok(file) => Ok((name, Box::new(BufReader::with_capacity(BUFFER, file)))),
        Err(error) => Err(Failure::File(name, error)),
    }
}
