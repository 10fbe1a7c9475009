//! The symbol at all 65,536 pairs of bytes and at all 256 last bytes, against the list searched from
//! the front.

use balsa::{symbol, Symbol};
use balsa_reference::element::{begins_symbol, searched};

/// The selected letters and their elements.
const SELECTED: [(u8, u8); 5] = [(b'c', 6), (b'n', 7), (b'o', 8), (b'p', 15), (b's', 16)];

/// What the rules say: `*`, a selected letter, the longer symbol, the shorter one, or none.
fn expected(first: u8, second: Option<u8>) -> Symbol {
    let found = |length, element, selected| Symbol::Found {
        length,
        element,
        selected,
    };
    if first == b'*' {
        return found(1, 0, false);
    }
    if let Some(&(_, element)) = SELECTED.iter().find(|&&(letter, _)| letter == first) {
        return found(1, element, true);
    }
    if let Some(element) = second.and_then(|second| searched(first, Some(second))) {
        return found(2, element, false);
    }
    if let Some(element) = searched(first, None) {
        return found(1, element, false);
    }
    let place = usize::from(begins_symbol(first));
    Symbol::None { place }
}

#[test]
fn every_pair_of_bytes() {
    for first in 0..=255 {
        for second in 0..=255 {
            let pair = (first, Some(second));
            assert_eq!(symbol(pair.0, pair.1), expected(pair.0, pair.1), "{pair:?}");
        }
    }
}

#[test]
fn every_last_byte() {
    for first in 0..=255 {
        assert_eq!(symbol(first, None), expected(first, None), "{first}");
    }
}
