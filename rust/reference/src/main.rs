//! Reports the texts on the lines of standard input.

use std::io;

fn main() -> io::Result<()> {
    let output = io::BufWriter::new(io::stdout().lock());
    balsa_reference::report(io::stdin().lock(), output)
}
