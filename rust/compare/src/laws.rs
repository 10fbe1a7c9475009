//! What the paper promises of a single implementation, checked on tables that it accepts.

use crate::buffers::Buffers;
use crate::implementation::{Answer, Implementation};
use balsa_reference::{ATOM_CELLS, BOND_CELLS};
use std::collections::BTreeMap;

/// The number of the refusal of a buffer that is too short.
const SHORT_BUFFER: u8 = 1;
/// The number of the refusal of a molecule without a matching.
const NO_MATCHING: u8 = 11;
/// The number of the refusal of two marked neighbours on the same side.
const CROWDED_END: u8 = 20;
/// The marks of bonds, as kinds.
const MARKS: [i32; 2] = [4, 5];
/// The place of the tetrahedral mark in an atom's row.
const MARK: usize = 6;

fn holds(law: bool, message: &str) -> Result<(), String> {
    law.then_some(()).ok_or_else(|| message.to_string())
}

/// Checks the list of matchings, kekulizing and reading back on tables, or tells what is wrong.
pub fn check(implementation: &dyn Implementation, buffers: &Buffers) -> Result<(), String> {
    let mut buffers = buffers.clone();
    check_read_back(implementation, &mut buffers)?;
    if implementation.first(&mut buffers).is_accepted() {
        check_list(implementation, &buffers)?;
        let before = buffers.clone();
        let answer = implementation.kekulize(&mut buffers);
        if answer.code == CROWDED_END {
            return holds(
                buffers == before,
                "a refusal of kekulizing changed something",
            );
        }
        if !answer.is_accepted() {
            return Err(format!("kekulizing by the first matching: {answer:?}"));
        }
        check_kekulized(&before, &buffers)?;
        check_read_back(implementation, &mut buffers)?;
    }
    Ok(())
}

/// Checks what is said of two molecules: it shows them to be the same, or all is zeroed; the other way
/// round the answer is the same; and a molecule with a matching is like itself.
pub fn check_same(
    implementation: &dyn Implementation,
    molecules: &[Buffers; 2],
) -> Result<(), String> {
    let [mut first, mut second] = molecules.clone();
    let answer = implementation.same(&mut first, &mut second);
    if answer == Answer::of(1) {
        check_shown(implementation, &first, &second)?;
    } else if answer.code != SHORT_BUFFER {
        let rows = first.row.iter().chain(&second.row);
        let is_zero = rows.copied().all(|cell| cell == 0)
            && first.renumbering.iter().all(|&number| number == 0);
        holds(is_zero, "something is left where they are not the same")?;
    }
    let [mut second, mut first] = molecules.clone();
    let back = implementation.same(&mut first, &mut second);
    // the renumbering is the first one's: another may be short
    let is_short = [answer.code, back.code].contains(&SHORT_BUFFER);
    holds(
        is_short || back == answer,
        "the other way round it is not so",
    )?;
    check_like_itself(implementation, &molecules[0])
}

/// The rows are matchings, by which both molecules become the same one under the renumbering.
fn check_shown(
    implementation: &dyn Implementation,
    first: &Buffers,
    second: &Buffers,
) -> Result<(), String> {
    for molecule in [first, second] {
        let is_matching = implementation.is_matching(&mut molecule.clone());
        holds(is_matching == Answer::of(1), "a row is no matching")?;
    }
    let numbers = &first.renumbering[..first.counts.atoms];
    let cells = |molecule: &Buffers, atom: usize| {
        let mut cells = molecule.atoms[ATOM_CELLS * atom..ATOM_CELLS * (atom + 1)].to_vec();
        cells[1] = 0;
        cells[MARK] = 0;
        cells
    };
    let mut atoms = numbers
        .iter()
        .map(|&number| usize::from(number))
        .enumerate();
    let has_cells = atoms.all(|(atom, number)| cells(first, atom) == cells(second, number));
    holds(has_cells, "atoms do not match")?;
    let identity: Vec<u16> = (0..second.counts.atoms as u16).collect();
    holds(
        bonds_by_order(first, numbers) == bonds_by_order(second, &identity),
        "bonds do not match",
    )
}

/// The ends and orders of the bonds after kekulizing by the row, renumbered and in order.
fn bonds_by_order(molecule: &Buffers, numbers: &[u16]) -> Vec<[i32; BOND_CELLS]> {
    let bonds = molecule.bonds.chunks_exact(BOND_CELLS).zip(&molecule.row);
    let moved = |(cells, &chosen): (&[i32], &u8)| {
        let [one, other] = [cells[0], cells[1]].map(|end| i32::from(numbers[end as usize]));
        let order = match cells[2] {
            _ if chosen == 1 => 2,
            2 | 3 => cells[2],
            _ => 1,
        };
        [one.min(other), one.max(other), order]
    };
    let mut moved: Vec<_> = bonds.take(molecule.counts.bonds).map(moved).collect();
    moved.sort_unstable();
    moved
}

/// A molecule is the same as itself exactly if it has a matching, unless it is refused.
fn check_like_itself(
    implementation: &dyn Implementation,
    molecule: &Buffers,
) -> Result<(), String> {
    let answer = implementation.same(&mut molecule.clone(), &mut molecule.clone());
    let matching = implementation.first(&mut molecule.clone());
    let is_right =
        !answer.is_accepted() || answer == Answer::of(usize::from(matching.is_accepted()));
    holds(
        is_right,
        "a molecule is like itself exactly if it has a matching",
    )
}

/// A written text, read back, has every atom and every bond under the renumbering, and written again
/// it has the same bytes; or it has no matching, and neither has the molecule.
fn check_read_back(
    implementation: &dyn Implementation,
    buffers: &mut Buffers,
) -> Result<(), String> {
    let written = implementation.write(buffers);
    if !written.is_accepted() {
        return Ok(());
    }
    let text = &buffers.text[..written.numbers[0]];
    let mut back = buffers.clone();
    let answer = implementation.read(text, &mut back);
    if answer.code == NO_MATCHING {
        let first = implementation.first(&mut buffers.clone());
        let is_right = [NO_MATCHING, SHORT_BUFFER].contains(&first.code);
        return holds(
            is_right,
            "a text without a matching, but its molecule has one",
        );
    }
    // the number of over-full atoms may change, since brackets hide them
    let overfull = answer.numbers[2];
    if answer != Answer::of_read(buffers.counts.atoms, buffers.counts.bonds, overfull) {
        return Err(format!("read back: {answer:?}"));
    }
    check_renumbered(buffers, &back)?;
    let again = implementation.write(&mut back);
    holds(
        again == written && back.text == buffers.text,
        "written otherwise when read back",
    )
}

/// The ends of the bonds, by ascending number.
fn ends(tables: &Buffers) -> impl Iterator<Item = [i32; 2]> + '_ {
    let rows = tables.bonds.chunks_exact(BOND_CELLS);
    let rows = rows.take(tables.counts.bonds);
    rows.map(|row| [row[0], row[1]])
}

/// For each atom the new numbers of its bonds, by ascending old number.
fn new_orders(buffers: &Buffers, back: &Buffers) -> Vec<Vec<Option<usize>>> {
    let renumber = |atom: i32| i32::from(buffers.renumbering[atom as usize]);
    let numbers: BTreeMap<[i32; 2], usize> = ends(back).zip(0..).collect();
    let mut orders = vec![Vec::new(); buffers.counts.atoms];
    for [first, second] in ends(buffers) {
        let (one, other) = (renumber(first), renumber(second));
        let number = numbers.get(&[one.min(other), one.max(other)]).copied();
        orders[first as usize].push(number);
        orders[second as usize].push(number);
    }
    orders
}

/// Whether an order is an odd number of swaps from the ascending one: its pairs out of order are odd.
fn is_odd<T: PartialOrd>(order: &[T]) -> bool {
    let items = order.iter().enumerate();
    let out_of_order = items.map(|(place, item)| {
        let later = order[place + 1..].iter();
        later.filter(|&other| other < item).count()
    });
    out_of_order.sum::<usize>() % 2 == 1
}

fn check_renumbered(buffers: &Buffers, back: &Buffers) -> Result<(), String> {
    let renumber = |atom: i32| i32::from(buffers.renumbering[atom as usize]);
    let orders = new_orders(buffers, back);
    let atoms = buffers
        .atoms
        .chunks_exact(ATOM_CELLS)
        .take(buffers.counts.atoms);
    for (number, cells) in atoms.enumerate() {
        let start = ATOM_CELLS * renumber(number as i32) as usize;
        let mut expected = cells.to_vec();
        if cells[MARK] != 0 && is_odd(&orders[number]) {
            expected[MARK] = 3 - cells[MARK];
        }
        if back.atoms[start..start + ATOM_CELLS] != expected {
            return Err(format!("atom {number} changed"));
        }
    }
    let count = buffers.counts.bonds;
    let bonds_of = |tables: &Buffers| -> Vec<[i32; BOND_CELLS]> {
        let rows = tables.bonds.chunks_exact(BOND_CELLS).take(count);
        rows.map(|row| [row[0], row[1], row[2]]).collect()
    };
    let renumbered = |[one, other, kind]: [i32; BOND_CELLS]| {
        let (one, other) = (renumber(one), renumber(other));
        let is_turned = one > other && MARKS.contains(&kind);
        let kind = if is_turned {
            MARKS[0] + MARKS[1] - kind
        } else {
            kind
        };
        [one.min(other), one.max(other), kind]
    };
    let mut moved: Vec<_> = bonds_of(buffers).into_iter().map(renumbered).collect();
    let mut read = bonds_of(back);
    moved.sort_unstable();
    read.sort_unstable();
    holds(moved == read, "bonds changed")
}

/// The rows from the first on are matchings and descend.
fn check_list(implementation: &dyn Implementation, first: &Buffers) -> Result<(), String> {
    let mut buffers = first.clone();
    for _ in 0..20 {
        if implementation.is_matching(&mut buffers) != Answer::of(1) {
            return Err("a listed row is no matching".to_string());
        }
        let before = buffers.row.clone();
        let answer = implementation.next(&mut buffers);
        if answer == Answer::of(1) {
            let is_zero = buffers.row.iter().all(|&cell| cell == 0);
            return holds(is_zero, "a row left at the end");
        }
        if !answer.is_accepted() || buffers.row >= before {
            return Err(format!("after a matching: {answer:?}"));
        }
    }
    Ok(())
}

/// Kekulizing makes the bonds of the row double, clears the selected cells and does nothing else.
fn check_kekulized(before: &Buffers, after: &Buffers) -> Result<(), String> {
    let mut expected = before.clone();
    for atom in 0..before.counts.atoms {
        expected.atoms[ATOM_CELLS * atom + 1] = 0;
    }
    for bond in 0..before.counts.bonds {
        if before.row[bond] == 1 {
            expected.bonds[BOND_CELLS * bond + 2] = 2;
        }
    }
    holds(expected == *after, "kekulized otherwise")
}
