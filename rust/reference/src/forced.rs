//! The pairs that are forced before any choice.
//!
//! The paper's rule, at each turn: there is no matching if an unpaired delocalized atom has no
//! unpaired neighbour along induced bonds; otherwise, while some such atom has exactly one, the
//! lowest of them is paired with it.

use crate::matching::has_matching;
use crate::molecule::{Kind, Molecule, Neighbour, Neighbours};
use crate::valence::delocalized;

/// The bonds of the pairs that are forced before any choice, in turn; none where the molecule has
/// no matching.
pub fn forced(molecule: &Molecule) -> Vec<u16> {
    if !has_matching(molecule) {
        return Vec::new();
    }
    let neighbours = molecule.neighbours();
    let mut unpaired = delocalized(molecule);
    let mut pairs = Vec::new();
    while let Some((atom, to)) = forced_pair(molecule, &neighbours, &unpaired) {
        unpaired[atom] = false;
        unpaired[to.atom] = false;
        pairs.push(to.bond as u16);
    }
    pairs
}

/// The lowest unpaired atom with exactly one unpaired neighbour along induced bonds, and that
/// neighbour; nothing if some unpaired atom has none.
fn forced_pair(
    molecule: &Molecule,
    neighbours: &Neighbours,
    unpaired: &[bool],
) -> Option<(usize, Neighbour)> {
    let mut lowest = None;
    for atom in (0..unpaired.len()).filter(|&atom| unpaired[atom]) {
        let mut free = neighbours.of(atom).iter().filter(|to| {
            let is_induced = molecule.bonds[to.bond].kind == Kind::Elided;
            is_induced && unpaired[to.atom]
        });
        match (free.next(), free.next()) {
            (None, _) => return None,
            (Some(&only), None) if lowest.is_none() => lowest = Some((atom, only)),
            _ => {}
        }
    }
    lowest
}

#[cfg(test)]
mod tests {
    use super::forced;
    use crate::read;

    fn forced_in(text: &str) -> Vec<u16> {
        forced(&read(text.as_bytes()).unwrap())
    }

    #[test]
    fn the_lowest_is_looked_for_anew_after_each_pair() {
        // both ends force: the lower atom first, then what is left in the middle
        assert_eq!(forced_in("CccccccC"), [1, 3, 5]);
        assert_eq!(forced_in("o1cccc1"), [1, 3]);
    }

    #[test]
    fn nothing_is_forced_in_a_ring() {
        assert_eq!(forced_in("c1ccccc1"), []);
        assert_eq!(forced_in("CC"), []);
        assert_eq!(forced_in(""), []);
    }

    #[test]
    fn a_chain_at_a_ring_is_forced() {
        // the chain's bond, then nothing in the ring
        assert_eq!(forced_in("Cccc1ccccc1"), [1]);
    }
}
