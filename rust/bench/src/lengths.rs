//! Texts of a given length.

/// A text of this length: long atoms in pairs, then a chain.
pub fn text_of_length(length: usize) -> Vec<u8> {
    let pair = "[999CoH9-9:9999]=%10.[999CoH9-9:9999]=%10.";
    let mut text = pair.repeat(length / pair.len());
    text += &"C".repeat(length % pair.len());
    text.into_bytes()
}

/// A chain of long atoms in brackets, of at most this length.
#[allow(dead_code)] // one of the programs that have this file uses it
pub fn chain_of_brackets(length: usize) -> Vec<u8> {
    let atom = "-[999CoH9-9:9999]";
    let text = "C".to_string() + &atom.repeat((length - 1) / atom.len());
    text.into_bytes()
}
