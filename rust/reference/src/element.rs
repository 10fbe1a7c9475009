//! The 118 element symbols.

const SYMBOLS: [&str; 119] = [
    "*", "H", "He", "Li", "Be", "B", "C", "N", "O", "F", "Ne", "Na", "Mg", "Al", "Si", "P", "S",
    "Cl", "Ar", "K", "Ca", "Sc", "Ti", "V", "Cr", "Mn", "Fe", "Co", "Ni", "Cu", "Zn", "Ga", "Ge",
    "As", "Se", "Br", "Kr", "Rb", "Sr", "Y", "Zr", "Nb", "Mo", "Tc", "Ru", "Rh", "Pd", "Ag", "Cd",
    "In", "Sn", "Sb", "Te", "I", "Xe", "Cs", "Ba", "La", "Ce", "Pr", "Nd", "Pm", "Sm", "Eu", "Gd",
    "Tb", "Dy", "Ho", "Er", "Tm", "Yb", "Lu", "Hf", "Ta", "W", "Re", "Os", "Ir", "Pt", "Au", "Hg",
    "Tl", "Pb", "Bi", "Po", "At", "Rn", "Fr", "Ra", "Ac", "Th", "Pa", "U", "Np", "Pu", "Am", "Cm",
    "Bk", "Cf", "Es", "Fm", "Md", "No", "Lr", "Rf", "Db", "Sg", "Bh", "Hs", "Mt", "Ds", "Rg", "Cn",
    "Nh", "Fl", "Mc", "Lv", "Ts", "Og",
];

/// The highest atomic number.
pub(crate) const MAX_ELEMENT: u8 = 118;

/// Atomic numbers by first letter and by second letter (column 0: no second letter); 0 is none.
const NUMBERS: [[u8; 27]; 26] = numbers();

const fn numbers() -> [[u8; 27]; 26] {
    let mut table = [[0; 27]; 26];
    let mut number = 1;
    while number < SYMBOLS.len() {
        let symbol = SYMBOLS[number].as_bytes();
        let column = if symbol.len() == 2 {
            (symbol[1] - b'a') as usize + 1
        } else {
            0
        };
        table[(symbol[0] - b'A') as usize][column] = number as u8;
        number += 1;
    }
    table
}

/// The symbol of an atomic number, `*` for 0.
pub fn symbol_of(element: u8) -> &'static str {
    SYMBOLS[usize::from(element)]
}

/// The atomic number of the symbol with this first letter and, perhaps, this second one.
pub fn number_of(first: u8, second: Option<u8>) -> Option<u8> {
    let row = NUMBERS.get(usize::from(first.checked_sub(b'A')?))?;
    let column = match second {
        None => 0,
        Some(letter) => usize::from(letter.checked_sub(b'a')?) + 1,
    };
    row.get(column).copied().filter(|&number| number != 0)
}

/// The same by a search of the list from the front, with no table.
pub fn searched(first: u8, second: Option<u8>) -> Option<u8> {
    let wanted = |symbol: &&str| {
        let bytes = symbol.as_bytes();
        bytes[0] == first && bytes.get(1).copied() == second
    };
    let place = SYMBOLS.iter().skip(1).position(|symbol| wanted(&symbol))?;
    Some(place as u8 + 1)
}

/// Whether some symbol begins with this byte.
pub fn begins_symbol(first: u8) -> bool {
    first.is_ascii_uppercase()
        && NUMBERS[usize::from(first - b'A')]
            .iter()
            .any(|&number| number != 0)
}

#[cfg(test)]
mod tests {
    use super::*;

    #[test]
    fn every_symbol_is_found_under_its_number() {
        for number in 1..=MAX_ELEMENT {
            let symbol = symbol_of(number).as_bytes();
            assert_eq!(number_of(symbol[0], symbol.get(1).copied()), Some(number));
        }
    }

    #[test]
    fn exactly_118_pairs_of_bytes_are_symbols() {
        let seconds = || std::iter::once(None).chain((0..=255).map(Some));
        let found = (0..=255)
            .flat_map(|first| seconds().map(move |second| number_of(first, second)))
            .flatten()
            .count();
        assert_eq!(found, 118);
    }

    #[test]
    fn no_symbol_begins_with_j_or_q() {
        let none: Vec<u8> = (b'A'..=b'Z').filter(|&b| !begins_symbol(b)).collect();
        assert_eq!(none, b"JQ");
    }
}
