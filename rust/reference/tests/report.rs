//! The report program.

use balsa_reference::report;

fn reported(input: impl AsRef<[u8]>) -> String {
    let mut output = Vec::new();
    // a small buffer, so that lines come in pieces
    let input = std::io::BufReader::with_capacity(7, input.as_ref());
    report(input, &mut output).unwrap();
    String::from_utf8(output).unwrap()
}

#[test]
fn the_sample_is_reported() {
    let expected = "balsa report\n\
        1: 0 6 6 0 101010 C1=CC=CC=C1\n\
        2: 7 2\n\
        3: 0 0 0 0 - -\n\
        accepted 2 refused 1\n";
    assert_eq!(reported("c1ccccc1\nC11\n\n"), expected);
}

#[test]
fn an_unfinished_last_line_counts_if_it_has_a_byte() {
    assert_eq!(reported(""), "balsa report\naccepted 0 refused 0\n");
    let one = "balsa report\n1: 0 1 0 0 - C\naccepted 1 refused 0\n";
    assert_eq!(reported("C"), one);
    assert_eq!(reported("C\n"), one);
    let two = "balsa report\n1: 0 1 0 0 - C\n2: 0 0 0 0 - -\naccepted 2 refused 0\n";
    assert_eq!(reported("C\n\n"), two);
}

#[test]
fn bytes_other_than_the_line_end_are_text() {
    let expected = "balsa report\n1: 3 1\n2: 3 0\n3: 3 1\naccepted 0 refused 3\n";
    assert_eq!(reported(b"C\r\n\0\nC\xff\n"), expected);
}

#[test]
fn long_lines_are_refused() {
    let input = [
        "x".repeat(16_384),
        "x".repeat(16_385),
        "C".repeat(1_000_000),
        "CO".to_string(),
        "x".repeat(20_000),
    ];
    let expected = "balsa report\n1: 3 0\n2: 2 16384\n3: 2 16384\n4: 0 2 1 0 0 CO\n5: 2 16384\n\
        accepted 1 refused 4\n";
    assert_eq!(reported(input.join("\n")), expected);
}

/// A hub with `children`, each joined to the one before: the walk goes from child to child, and
/// all but one of the hub's bonds become bridges.
fn fan(children: usize) -> String {
    let between: String = (1..children - 1)
        .map(|n| ["(C12)", "(C21)"][(n + 1) % 2])
        .collect();
    let last = if children.is_multiple_of(2) { "1" } else { "2" };
    format!("[*](C1){between}C{last}")
}

/// A spine whose `depth` leaves come after it: the walk puts each part of the spine in a branch.
fn spine(depth: usize) -> String {
    let spine: String = (0..depth).map(|n| format!("C%{}", 10 + n)).collect();
    let leaves: String = (0..depth).map(|n| format!(".C%{}", 10 + n)).collect();
    spine + "C" + &leaves
}

#[test]
fn a_writing_refusal_is_reported_with_place_0() {
    let output = reported([fan(100), fan(101), spine(64), spine(65)].join("\n"));
    let lines: Vec<&str> = output.lines().collect();
    assert!(lines[1].starts_with("1: 0 101 199 0 000"), "{output}");
    assert_eq!(lines[2], "2: 14 0");
    assert!(lines[3].starts_with("3: 0 129 128 0 000"), "{output}");
    assert_eq!(lines[4], "4: 15 0");
    assert_eq!(lines[5], "accepted 2 refused 2");
}
