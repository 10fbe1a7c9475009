//! The tool as it is used: messages, exit statuses, titles, pipes, the report, the register.

use balsa::tables::{RENUMBERING, TEXT};
use balsa::Code;
use std::fs;
use std::io::{BufRead, BufReader, Read, Write};
use std::path::PathBuf;
use std::process::{Command, Stdio};
use std::thread;

const TOOL: &str = env!("CARGO_BIN_EXE_balsa");
const ROOT: &str = concat!(env!("CARGO_MANIFEST_DIR"), "/../..");

/// What a run left: the exit status, standard output and standard error.
#[derive(Debug, PartialEq, Eq)]
struct Run {
    status: i32,
    out: String,
    err: String,
}

fn run_on(words: &[&str], input: &[u8]) -> Run {
    let mut child = Command::new(TOOL)
        .args(words)
        .env_remove("NO_COLOR")
        .stdin(Stdio::piped())
        .stdout(Stdio::piped())
        .stderr(Stdio::piped())
        .spawn()
        .unwrap();
    let mut stdin = child.stdin.take().unwrap();
    let done = thread::scope(|scope| {
        // the tool need not read all
        scope.spawn(move || drop(stdin.write_all(input)));
        child.wait_with_output().unwrap()
    });
    Run {
        status: done.status.code().unwrap(),
        out: String::from_utf8(done.stdout).unwrap(),
        err: String::from_utf8(done.stderr).unwrap(),
    }
}

fn run(words: &[&str]) -> Run {
    run_on(words, b"")
}

fn assert_run(words: &[&str], status: i32, out: &str, err: &str) {
    let expected = Run {
        status,
        out: out.into(),
        err: err.into(),
    };
    assert_eq!(run(words), expected, "{words:?}");
}

/// A folder of its own for a test, taken away with it.
struct Folder(PathBuf);

impl Folder {
    fn new(name: &str) -> Self {
        let path = PathBuf::from(env!("CARGO_TARGET_TMPDIR")).join(name);
        let _ = fs::remove_dir_all(&path);
        fs::create_dir_all(&path).unwrap();
        Folder(path)
    }

    fn file(&self, name: &str) -> String {
        self.0.join(name).to_str().unwrap().into()
    }

    fn with(&self, name: &str, bytes: &[u8]) -> String {
        fs::write(self.file(name), bytes).unwrap();
        self.file(name)
    }
}

impl Drop for Folder {
    fn drop(&mut self) {
        let _ = fs::remove_dir_all(&self.0);
    }
}

/// A hub whose children are joined in a row: writing it needs a bridge for nearly each.
fn fan(children: usize) -> String {
    let between: String = (1..children - 1)
        .map(|n| ["(C12)", "(C21)"][(n + 1) % 2])
        .collect();
    let last = if children.is_multiple_of(2) { "1" } else { "2" };
    format!("[*](C1){between}C{last}")
}

/// A spine whose leaves come after it: the walk puts each part of the spine in a branch.
fn spine(depth: usize) -> String {
    let spine: String = (0..depth).map(|n| format!("C%{}", 10 + n)).collect();
    let leaves: String = (0..depth).map(|n| format!(".C%{}", 10 + n)).collect();
    spine + "C" + &leaves
}

/// Texts that reading or writing refuses, for each code that a text can bring about.
fn refused_texts() -> Vec<String> {
    vec![
        "C".repeat(TEXT + 1),
        "C(=".into(),
        "CCx".into(),
        "C\u{e9}\tC".into(),
        format!("{}*(]{}", "C".repeat(100), "C".repeat(100)),
        "C".repeat(RENUMBERING + 1),
        "C1CC1".repeat(RENUMBERING / 3),
        format!("C{}", "(C".repeat(65)),
        "C11".into(),
        "C1C1".into(),
        "C=1CC#1".into(),
        "C1CC2".into(),
        "c1cccc1".into(),
        fan(101),
        spine(65),
        r"F/C(\F)=C".into(),
        "C/C".into(),
        "cc".into(),
        "C[S@](=O)C".into(),
    ]
}

/// UPDATE_GOLDEN=1 writes the file anew.
#[test]
fn messages_are_the_golden_ones() {
    let path = concat!(env!("CARGO_MANIFEST_DIR"), "/tests/refusals.golden");
    let texts = refused_texts();
    let mut words = vec!["kekulize"];
    words.extend(texts.iter().map(String::as_str));
    let Run { status, out, err } = run(&words);
    assert_eq!((status, out.as_str()), (1, ""));
    if std::env::var_os("UPDATE_GOLDEN").is_some() {
        fs::write(path, &err).unwrap();
    }
    assert_eq!(err, fs::read_to_string(path).unwrap());
    for code in Code::ALL {
        let is_told = err.contains(&format!(": {code}\n"));
        let elsewhere = [1, 12, 13, 16, 17, 18, 19, 24, 25].contains(&code.number());
        assert!(is_told || elsewhere, "no text for {code}");
    }
}

#[test]
fn words_are_those_of_c() {
    let listed = fs::read_to_string(format!("{ROOT}/c/refusals.out")).unwrap();
    let words: String = Code::ALL
        .iter()
        .map(|code| format!("{} {}\n", code.number(), code.words()))
        .collect();
    assert_eq!(words, listed);
}

#[test]
fn numbers_are_those_of_the_header() {
    let header = fs::read_to_string(format!("{ROOT}/include/balsa.h")).unwrap();
    let defined = |name: &str, value: &str| {
        let line = format!("#define {name} {value}\n");
        assert!(header.contains(&line), "{line}");
    };
    defined("BALSA_EDITION", &balsa::EDITION.to_string());
    defined(
        "BALSA_VERSION",
        &format!("\"{}\"", env!("CARGO_PKG_VERSION")),
    );
    let shown = run(&["--version"]).out;
    let version = env!("CARGO_PKG_VERSION");
    let edition = balsa::EDITION;
    assert_eq!(
        shown,
        format!("balsa {version} (edition {edition} of the rules)\n")
    );
}

#[test]
fn answers_in_lines() {
    assert_run(
        &["check", "c1ccccc1", "FC(F)(F)(F)F"],
        0,
        "1: 6 atoms, 6 bonds\n2: 6 atoms, 5 bonds, 1 over-full\n",
        "",
    );
    assert_run(&["check", "-q", "c1ccccc1", "C11"], 1, "", "");
    assert_run(
        &["kekulize", "c1ccccc1", "", "C[C@@H](F)c1ccco1"],
        0,
        "C1=CC=CC=C1\n\nC[C@@H](F)C1=CC=CO1\n",
        "",
    );
    let benzene = "1: 101010 C1=CC=CC=C1\n1: 010101 C=1C=CC=CC1\n";
    assert_run(
        &["matchings", "c1ccccc1", "C", ""],
        0,
        &format!("{benzene}2: - C\n3: - -\n"),
        "",
    );
    assert_run(
        &["sides", "F/C=C/F", r"F/C=C\F", "C"],
        0,
        "1: 020\n2: 010\n3: -\n",
        "",
    );
    assert_run(
        &["matchings", "-n1", "c1ccccc1"],
        0,
        "1: 101010 C1=CC=CC=C1\n",
        "",
    );
}

#[test]
fn answers_in_json() {
    let at = |line: usize| format!(r#"{{"file": "<arguments>", "line": {line}"#);
    assert_run(
        &["check", "--json", "C=C", "C11", "cc"],
        1,
        &format!(
            "{}, \"atoms\": 2, \"bonds\": 1, \"overfull\": 0}}\n\
             {}, \"refusal\": 7, \"place\": 2, \"message\": \"a bridge joins an atom to itself\"}}\n\
             {}, \"refusal\": 22, \"place\": null, \"message\": \"a selected atom has fewer than two bonds\"}}\n",
            at(1),
            at(2),
            at(3)
        ),
        "",
    );
    assert_run(
        &["kekulize", "--json", "o1cccc1"],
        0,
        &format!("{}, \"text\": \"O1C=CC=C1\"}}\n", at(1)),
        "",
    );
    assert_run(
        &["matchings", "--json", "o1cccc1"],
        0,
        &format!(
            "{}, \"matching\": \"01010\", \"text\": \"O1C=CC=C1\"}}\n",
            at(1)
        ),
        "",
    );
    let named = run_on(&["check", "--json", "-t"], b"C a \"b\"\x01\\\n");
    assert_eq!(
        named.out,
        "{\"file\": \"<stdin>\", \"line\": 1, \"title\": \"a \\\"b\\\"\\u0001\\\\\", \
         \"atoms\": 1, \"bonds\": 0, \"overfull\": 0}\n"
    );
}

#[test]
fn the_same_compound() {
    let turned = "1: same 101010 000000 0,5,4,3,2,1\n";
    assert_run(&["same", "c1ccccc1", "C=1C=CC=CC1"], 0, turned, "");
    assert_run(&["same", "CCO", "COC"], 1, "1: different\n", "");
    assert_run(&["same", "", ""], 0, "1: same - - -\n", "");
    assert_run(&["same", "-q", "CCO", "COC"], 1, "", "");
    assert_run(&["same", "-q", "CCO", "OCC"], 0, "", "");
    let bad = "refusal 7: a bridge joins an atom to itself\n  C11\n    ^\n";
    let told = format!("<arguments>:2:3: {bad}");
    assert_run(&["same", "C", "C11"], 1, "", &told);
    let chain = "C".repeat(65);
    let told = format!("<arguments>:2: refusal 19: a molecule has over 64 atoms\n  {chain}\n");
    assert_run(&["same", "C", &chain], 1, "", &told);
    let Run { status, out, err } = run(&["same", "C"]);
    assert_eq!((status, out.as_str()), (2, ""));
    assert_eq!(err, "balsa: two texts are compared\n");
}

/// What three drawings of o-xylene say of one another.
#[test]
fn pairs_on_lines() {
    let pairs = b"Cc1c(C)cccc1\tCC1=C(C)C=CC=C1\nCc1c(C)cccc1 CC=1C(C)=CC=CC1\n\
                  CC1=C(C)C=CC=C1  CC=1C(C)=CC=CC1\n\t\nC \tC1\n";
    let told = "1: same 01001010 00000000 0,1,2,3,4,5,6,7\n\
                2: same 00010101 00000000 0,1,2,3,4,5,6,7\n3: different\n4: same - - -\n";
    let Run { status, out, err } = run_on(&["same"], pairs);
    assert_eq!((status, out.as_str()), (1, told));
    let open = "<stdin>:5:5: refusal 10: a bridge is open at the end\n  C1\n   ^\n";
    assert_eq!(err, open);
    let named = run_on(&["same", "-t"], b"C C methane\r\n\tO\t water\r\n");
    assert_eq!(named.out, "1: same - - 0 methane\n2: different\t water\n");
    let Run { status, out, err } = run_on(&["same"], b"C C\nC\nC C\n");
    assert_eq!((status, out.as_str()), (2, "1: same - - 0\n"));
    assert_eq!(err, "balsa: <stdin>: no second text on line 2\n");
}

#[test]
fn pairs_in_json() {
    let input = b"C=C C=C a b\nC=C C\nC11 C\nC C#\n";
    let at = |line: usize| format!(r#"{{"file": "<stdin>", "line": {line}"#);
    let said = run_on(&["same", "-t", "--json"], input);
    let bad = "\"message\": \"a bridge joins an atom to itself\"";
    let short = "\"message\": \"no text of the grammar continues so\"";
    let told = [
        format!(
            "{}, \"title\": \"a b\", \"same\": true, \"row1\": \"0\", \"row2\": \"0\", \
             \"renumbering\": [0, 1]}}\n",
            at(1)
        ),
        format!("{}, \"same\": false}}\n", at(2)),
        format!(
            "{}, \"which\": 1, \"refusal\": 7, \"place\": 2, {bad}}}\n",
            at(3)
        ),
        format!(
            "{}, \"which\": 2, \"refusal\": 3, \"place\": 2, {short}}}\n",
            at(4)
        ),
    ];
    assert_eq!((said.status, said.out), (1, told.concat()));
    assert_eq!(said.err, "");
}

/// Each text of the corpus and its kekulized form are the same compound, unless they are too large.
#[test]
fn the_corpus_and_its_kekulized_forms() {
    let path = format!("{ROOT}/corpus/real.smi");
    let corpus = fs::read_to_string(&path).unwrap();
    let kekulized = run(&["kekulize", "-f", &path]).out;
    let lines = corpus.lines().zip(kekulized.lines());
    let pairs: String = lines
        .map(|(one, other)| format!("{one}\t{other}\n"))
        .collect();
    let Run { status, out, err } = run_on(&["same"], pairs.as_bytes());
    assert_eq!(status, 1);
    let large = err
        .matches("refusal 19: a molecule has over 64 atoms\n")
        .count();
    assert_eq!((out.lines().count(), large), (5406 - large, large));
    assert!(
        large > 0 && out.lines().all(|line| line.contains(": same ")),
        "{out}"
    );
}

#[test]
fn titles_and_carriage_returns() {
    let lines = b"c1ccccc1 benzene 1\r\nCC\tethane\n\r\nC11  bad\r\nO\r";
    let folder = Folder::new("titles");
    let file = folder.with("a.smi", lines);
    let bad = "refusal 7: a bridge joins an atom to itself\n  C11\n    ^\n";
    assert_run(
        &["kekulize", "--titles", "-f", &file],
        1,
        "C1=CC=CC=C1 benzene 1\nCC\tethane\n\nO\n",
        &format!("{file}:4:3: {bad}"),
    );
    assert_eq!(
        run_on(&["report", "-t"], lines).out,
        "balsa report\n1: 0 6 6 0 101010 C1=CC=CC=C1\n2: 0 2 1 0 0 CC\n3: 0 0 0 0 - -\n4: 7 2\n\
         5: 0 1 0 0 - O\naccepted 4 refused 1\n"
    );
    // without the option every byte counts, and a hint names the option
    let Run { status, out, err } = run_on(&["kekulize"], b"CC\r\nC x\n");
    assert_eq!((status, out.as_str()), (1, ""));
    assert_eq!(
        err,
        "<stdin>:1:3: refusal 3: no text of the grammar continues so\n  CC?\n    ^\n  \
         (a carriage return: --titles takes lines that end in CR LF)\n\
         <stdin>:2:2: refusal 3: no text of the grammar continues so\n  C x\n   ^\n  \
         (a blank: --titles takes lines with a name after the text)\n"
    );
}

#[test]
fn texts_from_everywhere() {
    let folder = Folder::new("everywhere");
    let one = folder.with("one", b"CC\nCCC");
    let words = ["kekulize", "C", "-f", &one, "-f", "-", "O", "--", "-"];
    let Run { status, out, err } = run_on(&words, b"N\n");
    assert_eq!((status, out.as_str()), (1, "C\nO\nCC\nCCC\nN\n"));
    assert!(err.starts_with("<arguments>:3:1: refusal 3: "), "{err}");
    assert_eq!(run_on(&["kekulize"], b"C\n\nN").out, "C\n\nN\n");
    assert_eq!(
        run(&["check", &one]).err.lines().last(),
        Some("  (there is a file of this name: -f reads it)")
    );
}

#[test]
fn lines_of_any_length() {
    let long = [vec![b'C'; 3 << 20], b"\nO\n".to_vec()].concat();
    let Run { status, out, err } = run_on(&["kekulize"], &long);
    assert_eq!((status, out.as_str()), (1, "O\n"));
    assert!(err.starts_with(&format!("<stdin>:1:{}: refusal 2: ", TEXT + 1)));
    assert!(err.lines().all(|line| line.len() < 100), "{err}");
}

#[test]
fn what_was_asked_wrongly() {
    for (words, told) in [
        (&["check", "--nothing"][..], "no option --nothing"),
        (&["check", "-n", "1"], "no option -n"),
        (&["matchings", "-n", "x"], "--limit is a number"),
        (&["matchings", "-n"], "-n needs N"),
        (&["check", "--json=1"], "--json takes no value"),
        (
            &["check", "--color=red"],
            "--color is auto, always or never",
        ),
        (&["nothing"], "no command nothing"),
        (&[], "which command?"),
        (&["register"], "init, withdraw, add or list?"),
        (&["withdrawn"], "which register?"),
        (
            &["withdrawn", "/no/such/register", "C"],
            "/no/such/register: No such file or directory (os error 2)",
        ),
        (
            &["register", "withdraw", "f", "x", "C"],
            "a tag is a number from 0 to 65535",
        ),
        (
            &["register", "withdraw", "f", "1", "C", "C"],
            "these words do not fit together",
        ),
        (
            &["register", "add", "f", "70000", "C"],
            "a tag is a number from 0 to 65535",
        ),
        (
            &["check", "-f", "/no/such/file"],
            "/no/such/file: No such file or directory (os error 2)",
        ),
        (&["check", "-f", "/"], "/: Is a directory (os error 21)"),
    ] {
        let Run { status, out, err } = run(words);
        assert_eq!((status, out.as_str()), (2, ""), "{words:?}");
        assert_eq!(err.lines().next(), Some(&*format!("balsa: {told}")));
    }
    let helped = run(&["check", "--help"]);
    assert_eq!((helped.status, helped.err.as_str()), (0, ""));
    assert!(helped.out.starts_with("usage: balsa check "));
}

#[test]
fn the_output_cannot_be_written() {
    let full = fs::OpenOptions::new().write(true).open("/dev/full");
    let done = Command::new(TOOL)
        .args(["kekulize", "C"])
        .stdout(full.unwrap())
        .output()
        .unwrap();
    assert_eq!(done.status.code(), Some(2));
    assert!(done
        .stderr
        .starts_with(b"balsa: the output could not be written"));
}

#[test]
fn a_broken_pipe_is_quiet() {
    let folder = Folder::new("pipe");
    let register = folder.file("register");
    run(&["register", "init", &register]);
    let corpus = format!("{ROOT}/corpus/real.smi");
    let commands = ["check", "kekulize", "matchings", "sides", "key", "report"];
    let commands = commands.map(|command| vec![command, "-f", &corpus]);
    let withdrawn = vec!["withdrawn", &register, "-f", &corpus];
    for (words, status) in commands
        .map(|words| (words, 0))
        .into_iter()
        .chain([(withdrawn, 1)])
    {
        let mut child = Command::new(TOOL)
            .args(words)
            .stdout(Stdio::piped())
            .stderr(Stdio::piped())
            .spawn()
            .unwrap();
        let mut first = [0];
        child.stdout.take().unwrap().read_exact(&mut first).unwrap();
        let done = child.wait_with_output().unwrap();
        let told = (done.status.code(), &*done.stderr);
        assert_eq!(told, (Some(status), &b""[..]));
    }
}

#[test]
fn colour_where_it_is_wanted() {
    let red = "<arguments>:1:3: \x1b[1;31mrefusal 7\x1b[0m: a bridge joins an atom to itself\n  \
               C11\n    \x1b[1;31m^\x1b[0m\n";
    assert_run(&["check", "--color=always", "C11"], 1, "", red);
    let plain = run(&["check", "C11"]);
    assert_eq!(
        plain,
        run(&["check", "--color", "auto", "--color=never", "C11"])
    );
    assert!(!plain.err.contains('\x1b'));
}

/// What the proved program writes; `c/make-report` makes it.
fn proved_report(input: &[u8]) -> Vec<u8> {
    let mut child = Command::new(format!("{ROOT}/target/bin/report"))
        .stdin(Stdio::piped())
        .stdout(Stdio::piped())
        .spawn()
        .unwrap();
    let mut stdin = child.stdin.take().unwrap();
    thread::scope(|scope| {
        scope.spawn(move || stdin.write_all(input).unwrap());
        child.wait_with_output().unwrap().stdout
    })
}

#[test]
fn the_report_is_the_proved_one() {
    let corpus = fs::read(format!("{ROOT}/corpus/real.smi")).unwrap();
    let mut odd = refused_texts().join("\n").into_bytes();
    odd.extend(b"\n\n\r\n\0\xff\nC\n\nC");
    for input in [&corpus[..], &odd, b"", b"\n", b"C", b"\n\n"] {
        let Run { status, out, err } = run_on(&["report"], input);
        assert_eq!((status, err.as_str()), (0, ""));
        assert!(out.as_bytes() == proved_report(input));
    }
    let failed = run(&["report", "C", "-f", "/"]);
    assert_eq!(failed.status, 2);
    assert_eq!(failed.out, "balsa report\n1: 0 1 0 0 - C\n");
}

/// What `check` and `kekulize` say of each text is what the report says.
#[test]
fn the_commands_agree_with_the_report() {
    let path = format!("{ROOT}/corpus/real.smi");
    let report = run(&["report", "-f", &path]).out;
    let kekulized = run(&["kekulize", "-f", &path]).out;
    let checked = run(&["check", "-f", &path]).out;
    let lines = report.lines().skip(1);
    let mut seen = 0;
    for ((line, text), counts) in lines.zip(kekulized.lines()).zip(checked.lines()) {
        seen += 1;
        let fields: Vec<&str> = line.split(' ').collect();
        assert_eq!(fields[6], text);
        let expected = format!("{} {} atoms, {} bonds", fields[0], fields[2], fields[3]);
        assert!(counts.starts_with(&expected), "{counts}");
    }
    assert_eq!(seen, 5406);
}

#[test]
fn a_register() {
    let folder = Folder::new("register");
    let file = folder.file("withdrawn");
    let missing = format!("balsa: {file}: no register; `balsa register init` makes one\n");
    assert_run(&["register", "add", &file, "7", "C"], 2, "", &missing);
    assert_run(&["register", "init", &file], 0, "", "");
    let there = format!("balsa: {file}: it is there; --force empties it\n");
    assert_run(&["register", "init", &file], 2, "", &there);
    assert_run(&["register", "add", &file, "7", "c1ccccc1"], 0, "", "");
    assert_eq!(
        run_on(&["register", "add", &file, "65535"], b"C\"").status,
        0
    );
    assert_run(
        &["register", "list", &file],
        0,
        "7\tc1ccccc1\n65535\tC\"\n",
        "",
    );
    assert_run(
        &["register", "list", "--json", &file],
        0,
        "{\"tag\": 7, \"length\": 8, \"text\": \"c1ccccc1\"}\n\
         {\"tag\": 65535, \"length\": 2, \"text\": \"C\\\"\"}\n",
        "",
    );
    let long = "C".repeat(balsa::register::MAX_BODY + 1);
    let full = format!("{file}: refusal 18: the register has no room for the body\n");
    assert_run(&["register", "add", &file, "1", &long], 1, "", &full);
    assert_run(&["register", "init", "--force", &file], 0, "", "");
    assert_run(&["register", "list", &file], 0, "", "");
    let bad = folder.with("bad", &[3; balsa::register::REGISTER]);
    let layout = "refusal 17: the layout of the register breaks a rule: byte 0 is 3 and not 1";
    let told = format!("{bad}: {layout}\n");
    assert_run(&["register", "list", &bad], 1, "", &told);
    let short = folder.with("short", b"");
    let told = format!("{short}: refusal 1: a buffer is too short: 0 bytes are under 32768\n");
    assert_run(&["register", "list", &short], 1, "", &told);
}

/// All drawings of a compound have one key.
#[test]
fn keys() {
    let texts = [
        "CC1=C(C)C=CC=C1",
        "CC=1C(C)=CC=CC1",
        "[H]C([H])([H])c1ccccc1[CH3:4]",
    ];
    let Run { status, out, err } = run(&["key", texts[0], texts[1], texts[2], "Cc1cccc(C)c1"]);
    assert_eq!((status, err.as_str()), (0, ""));
    let told: Vec<(&str, &str)> = out.lines().flat_map(|line| line.split_once(": ")).collect();
    let lines: Vec<&str> = told.iter().map(|(line, _)| *line).collect();
    let keys: Vec<&str> = told.iter().map(|(_, key)| *key).collect();
    assert_eq!(lines, ["1", "2", "3", "4"]);
    assert!(
        keys[0] == keys[1] && keys[0] == keys[2] && keys[0] != keys[3],
        "{out}"
    );
    assert!(keys
        .iter()
        .all(|key| key.len() == 16 && u64::from_str_radix(key, 16).is_ok()));
    let at = r#"{"file": "<arguments>", "line": 1, "#;
    let json = format!("{at}\"key\": \"{}\"}}\n", keys[0]);
    assert_run(&["key", "--json", texts[0]], 0, &json, "");
    let named = run_on(&["key", "-t"], b"Cc1ccccc1C o-xylene\r\n");
    assert_eq!(named.out, format!("1: {} o-xylene\n", keys[0]));
    let open = "<arguments>:1:2: refusal 10: a bridge is open at the end\n  C1\n   ^\n";
    assert_run(&["key", "C1"], 1, "", open);
}

/// A compound that is withdrawn is so in every drawing; the exit status is 0 where all are clear.
#[test]
fn withdrawn() {
    let folder = Folder::new("withdrawn");
    let file = folder.file("register");
    run(&["register", "init", &file]);
    assert_run(&["withdrawn", &file, "C"], 0, "1: clear\n", "");
    assert_run(
        &["register", "withdraw", &file, "7", "CC1=C(C)C=CC=C1"],
        0,
        "",
        "",
    );
    assert_eq!(
        run_on(&["register", "withdraw", &file, "9"], b"CCO\n").status,
        0
    );
    assert_run(
        &["register", "list", &file],
        0,
        "7\tCC1=C(C)C=CC=C1\n9\tCCO\n",
        "",
    );
    let drawings = [
        "CC=1C(C)=CC=CC1",
        "Cc1ccccc1C",
        "[H]C([H])([H])c1ccccc1[CH3:4]",
    ];
    for drawing in drawings {
        let told = "1: withdrawn, entry 0, tag 7\n";
        assert_run(&["withdrawn", &file, drawing], 1, told, "");
    }
    let told = "1: clear\n2: withdrawn, entry 1, tag 9\n3: clear\n";
    assert_run(
        &["withdrawn", &file, "Cc1cccc(C)c1", "OCC", ""],
        1,
        told,
        "",
    );
    assert_run(&["withdrawn", "-q", &file, "OCC"], 1, "", "");
    assert_run(&["withdrawn", "-q", &file, "COC"], 0, "", "");
    let lines = folder.with("orders", b"COC dimethyl ether\r\nC(C)O ethanol\r\n");
    let told = "1: clear dimethyl ether\n2: withdrawn, entry 1, tag 9 ethanol\n";
    assert_run(&["withdrawn", "-t", &file, "-f", &lines], 1, told, "");
    assert_eq!(
        run_on(&["withdrawn", &file], b"C\n[OH]CC\n").out,
        "1: clear\n2: withdrawn, entry 1, tag 9\n"
    );
    let bad = "<arguments>:2:3: refusal 7: a bridge joins an atom to itself\n  C11\n    ^\n";
    assert_run(&["withdrawn", &file, "C", "C11"], 1, "1: clear\n", bad);
    run(&["register", "add", &file, "3", "no text"]);
    assert_run(&["withdrawn", &file, "C"], 1, "1: undecided, entry 2\n", "");
    assert_run(
        &["withdrawn", &file, "CCO"],
        1,
        "1: withdrawn, entry 1, tag 9\n",
        "",
    );
}

/// Each text is answered at once, by the register as it is then.
#[test]
fn withdrawn_meanwhile() {
    let folder = Folder::new("meanwhile");
    let file = folder.file("register");
    run(&["register", "init", &file]);
    let mut child = Command::new(TOOL)
        .args(["withdrawn", &file])
        .stdin(Stdio::piped())
        .stdout(Stdio::piped())
        .spawn()
        .unwrap();
    let mut orders = child.stdin.take().unwrap();
    let mut answers = BufReader::new(child.stdout.take().unwrap()).lines();
    let mut ask = |text: &str| {
        writeln!(orders, "{text}").unwrap();
        answers.next().unwrap().unwrap()
    };
    assert_eq!(ask("OCC"), "1: clear");
    run(&["register", "withdraw", &file, "9", "CCO"]);
    assert_eq!(ask("OCC"), "2: withdrawn, entry 0, tag 9");
    fs::write(&file, b"rubbish").unwrap();
    writeln!(orders, "OCC").unwrap();
    drop(orders);
    assert!(answers.next().is_none());
    assert_eq!(child.wait().unwrap().code(), Some(2));
}

#[test]
fn withdrawn_in_json() {
    let folder = Folder::new("withdrawn-json");
    let file = folder.file("register");
    run(&["register", "init", &file]);
    run(&["register", "withdraw", &file, "9", "CCO"]);
    let at = |line: usize| format!(r#"{{"file": "<arguments>", "line": {line}"#);
    let bad = "\"message\": \"a bridge joins an atom to itself\"";
    let told = [
        format!("{}, \"answer\": \"clear\"}}\n", at(1)),
        format!(
            "{}, \"answer\": \"withdrawn\", \"entry\": 0, \"tag\": 9}}\n",
            at(2)
        ),
        format!("{}, \"refusal\": 7, \"place\": 2, {bad}}}\n", at(3)),
    ];
    assert_run(
        &["withdrawn", "--json", &file, "C", "OCC", "C11"],
        1,
        &told.concat(),
        "",
    );
    run(&["register", "add", &file, "3", "no text"]);
    let told = format!("{}, \"answer\": \"undecided\", \"entry\": 1}}\n", at(1));
    assert_run(&["withdrawn", "--json", &file, "C"], 1, &told, "");
}

/// A text that is refused is not withdrawn, and a register that is damaged answers nothing.
#[test]
fn withdrawals_refused() {
    let folder = Folder::new("withdrawals");
    let file = folder.file("register");
    let missing = format!("balsa: {file}: no register; `balsa register init` makes one\n");
    assert_run(&["register", "withdraw", &file, "7", "C"], 2, "", &missing);
    run(&["register", "init", &file]);
    let open =
        |place: &str| format!("{place}:1:2: refusal 10: a bridge is open at the end\n  C1\n   ^\n");
    assert_run(
        &["register", "withdraw", &file, "7", "C1"],
        1,
        "",
        &open("<arguments>"),
    );
    let piped = run_on(&["register", "withdraw", &file, "7"], b"C1\n");
    assert_eq!((piped.status, piped.err), (1, open("<stdin>")));
    assert_run(&["register", "withdraw", "-q", &file, "7", "C1"], 1, "", "");
    let long = "[CH2:1000]".repeat(500);
    let full = format!("{file}: refusal 18: the register has no room for the body\n");
    assert_run(&["register", "withdraw", &file, "7", &long], 1, "", &full);
    assert_run(&["register", "list", &file], 0, "", "");
    let bad = folder.with("bad", &[3; balsa::register::REGISTER]);
    let layout = "refusal 17: the layout of the register breaks a rule: byte 0 is 3 and not 1";
    let told = format!("{bad}: {layout}\n");
    assert_run(&["withdrawn", &bad, "C", "C11"], 1, "", &told);
    assert_run(&["register", "withdraw", &bad, "7", "C"], 1, "", &told);
    let short = folder.with("short", b"");
    let told = format!("{short}: refusal 1: a buffer is too short: 0 bytes are under 32768\n");
    assert_run(&["withdrawn", &short, "C"], 1, "", &told);
}

/// Each text of the corpus is withdrawn by its kekulized form.
#[test]
fn the_corpus_is_withdrawn() {
    let folder = Folder::new("corpus");
    let path = format!("{ROOT}/corpus/real.smi");
    let corpus = fs::read_to_string(&path).unwrap();
    let kekulized = run(&["kekulize", "-f", &path]).out;
    let texts: Vec<(&str, &str)> = corpus.lines().zip(kekulized.lines()).collect();
    for (round, texts) in texts.chunks(64).step_by(10).enumerate() {
        let file = folder.file(&round.to_string());
        let mut register = balsa::RegisterFile::create(&file).unwrap();
        for (tag, (_, drawn)) in (0..).zip(texts) {
            register.withdraw(tag, drawn.as_bytes()).unwrap();
        }
        let queries: String = texts.iter().map(|(text, _)| format!("{text}\n")).collect();
        let Run { status, out, err } = run_on(&["withdrawn", &file], queries.as_bytes());
        assert_eq!(
            (status, out.lines().count(), err.as_str()),
            (1, texts.len(), "")
        );
        assert!(
            out.lines().all(|line| line.contains(": withdrawn, ")),
            "{out}"
        );
    }
}
