//! The symbol of a bracket.

use crate::ffi;

/// What stands at the place of a bracket's symbol.
#[derive(Clone, Copy, Debug, PartialEq, Eq, Hash)]
pub enum Symbol {
    /// `*` (element 0), an element, or a selected letter, with its number of bytes.
    Found {
        /// 1 or 2.
        length: usize,
        /// The atomic number, 0 for `*`.
        element: u8,
        /// Whether it is one of `c n o p s`.
        selected: bool,
    },
    /// No symbol: the place of the byte with which none goes on, 0 or 1.
    None {
        /// 0: no symbol begins with the first byte; 1: the second is wrong or missing.
        place: usize,
    },
}

/// The symbol that begins with `first`; `second` is the byte after it, if there is one.
///
/// ```
/// use balsa::{symbol, Symbol};
/// let cobalt = Symbol::Found { length: 2, element: 27, selected: false };
/// assert_eq!(symbol(b'C', Some(b'o')), cobalt);
/// assert_eq!(symbol(b'X', None), Symbol::None { place: 1 });
/// assert_eq!(symbol(b'Q', None), Symbol::None { place: 0 });
/// ```
pub fn symbol(first: u8, second: Option<u8>) -> Symbol {
    let reply = ffi::symbol(first, second.unwrap_or(0));
    if reply.code == 0 {
        Symbol::Found {
            length: reply.length,
            element: reply.element as u8,
            selected: reply.selected == 1,
        }
    } else {
        Symbol::None { place: reply.place }
    }
}
