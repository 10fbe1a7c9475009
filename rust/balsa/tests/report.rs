//! The report as a call: 01's sample, a buffer that is too short, and the bytes after the report.

use balsa::{report, report_into, Code};

const INPUT: &[u8] = b"c1ccccc1\nC11\n\n";
const REPORT: &[u8] = b"balsa report\n\
    1: 0 6 6 0 101010 C1=CC=CC=C1\n\
    2: 7 2\n\
    3: 0 0 0 0 - -\n\
    accepted 2 refused 1\n";

#[test]
fn the_sample() {
    assert_eq!(report(INPUT), REPORT);
}

#[test]
fn lines_end_with_byte_10_alone() {
    let empty = report(b"");
    assert_eq!(empty, b"balsa report\naccepted 0 refused 0\n");
    let unfinished = report(b"C\nC");
    assert!(unfinished.ends_with(b"2: 0 1 0 0 - C\naccepted 2 refused 0\n"));
    let carriage_return = report(b"C\r\n\r");
    assert_eq!(
        carriage_return,
        b"balsa report\n1: 3 1\n2: 3 0\naccepted 0 refused 2\n"
    );
}

#[test]
fn lines_over_the_limit_are_refused_whole() {
    let mut input = vec![b'C'; 16_385];
    input.extend_from_slice(b"\n");
    input.extend(vec![b'('; 100_000]);
    assert_eq!(
        report(&input),
        b"balsa report\n1: 2 16384\n2: 2 16384\naccepted 0 refused 2\n"
    );
}

#[test]
fn a_short_buffer_changes_nothing() {
    let mut out = vec![7; REPORT.len() - 1];
    assert_eq!(report_into(INPUT, &mut out), Err(Code::Short));
    assert!(out.iter().all(|&byte| byte == 7));
    assert_eq!(report_into(INPUT, &mut []), Err(Code::Short));
}

#[test]
fn zeros_follow_the_report() {
    for spare in [0, 1, 100] {
        let mut out = vec![7; REPORT.len() + spare];
        assert_eq!(report_into(INPUT, &mut out), Ok(REPORT.len()));
        let (text, rest) = out.split_at(REPORT.len());
        assert_eq!(text, REPORT);
        assert!(rest.iter().all(|&byte| byte == 0));
    }
}
