//! The report of an input in memory.

use crate::ffi;
use crate::refusal::Code;

/// The report of the lines of an input, as the program `report` writes it.
///
/// ```
/// let report = balsa::report(b"c1ccccc1\nC11\n\n");
/// let lines: Vec<_> = report.split(|&byte| byte == b'\n').collect();
/// assert_eq!(lines[1], b"1: 0 6 6 0 101010 C1=CC=CC=C1");
/// assert_eq!(lines[2], b"2: 7 2");
/// assert_eq!(lines[4], b"accepted 2 refused 1");
/// ```
pub fn report(input: &[u8]) -> Vec<u8> {
    let mut out = vec![0; ffi::report_length(input)];
    let reply = ffi::report(input, &mut out);
    debug_assert_eq!((reply.code, reply.length), (0, out.len()));
    out
}

/// Stores the report of the lines of an input in a buffer: its length, and zeros after it.
///
/// # Errors
/// 1 if it does not fit, and the buffer stays as it was.
pub fn report_into(input: &[u8], out: &mut [u8]) -> Result<usize, Code> {
    let reply = ffi::report(input, out);
    match reply.code {
        0 => Ok(reply.length),
        number => Err(Code::of(number)),
    }
}
