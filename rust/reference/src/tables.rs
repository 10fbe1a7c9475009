//! The calls on tables: seven `i32` cells for an atom, three for a bond.
//!
//! Every call that gets a buffer that is too short gives [`Code::ShortBuffer`] and changes
//! nothing. Any other refusal fills the outputs with 0; an acceptance fills their unused rest.

use crate::conformation;
use crate::element::MAX_ELEMENT;
use crate::matching;
use crate::molecule::{Atom, Bond, Kind, Molecule};
use crate::pieces::Pieces;
use crate::read::Reading;
use crate::refusal::{Code, Refusal};
use crate::report::Accepted;
use crate::tetrahedral::Mark;
use crate::valence::is_selectable;
use crate::{ATOM_CELLS, BOND_CELLS, MAX_ATOMS, MAX_BONDS, MAX_TEXT};

/// The cells that a table of atoms has at least.
pub const ATOM_TABLE: usize = ATOM_CELLS * MAX_ATOMS;
/// The cells that a table of bonds has at least.
pub const BOND_TABLE: usize = BOND_CELLS * MAX_BONDS;
/// The cells that a row has at least.
pub const ROW: usize = MAX_BONDS;
/// The cells that a renumbering has at least.
pub const RENUMBERING: usize = MAX_ATOMS;
/// The bytes that the output of a text has at least.
pub const TEXT: usize = MAX_TEXT;

/// The used rows of the two tables.
#[derive(Clone, Copy, Debug, Default, PartialEq, Eq)]
pub struct Counts {
    /// The number of atoms.
    pub atoms: usize,
    /// The number of bonds.
    pub bonds: usize,
}

/// The answer to [`read`].
#[derive(Clone, Copy, Debug, Default, PartialEq, Eq)]
pub struct Read {
    /// The used rows of the two tables.
    pub counts: Counts,
    /// The number of over-full atoms outside brackets.
    pub overfull: usize,
}

/// The two tables of a molecule.
#[derive(Clone, Copy, Debug)]
pub struct Tables<'a> {
    /// The table of atoms.
    pub atoms: &'a [i32],
    /// The table of bonds.
    pub bonds: &'a [i32],
    /// Their used rows.
    pub counts: Counts,
}

impl Tables<'_> {
    fn is_short(&self) -> bool {
        are_short(self.atoms, self.bonds)
    }
}

/// Whether one of two tables is too short.
fn are_short(atoms: &[i32], bonds: &[i32]) -> bool {
    atoms.len() < ATOM_TABLE || bonds.len() < BOND_TABLE
}

/// The answer to [`next`].
#[derive(Clone, Copy, Debug, PartialEq, Eq)]
pub enum Step {
    /// The row is now the next matching.
    Matching,
    /// The row was the last matching.
    End,
}

/// Reads a text into tables.
pub fn read(text: &[u8], atoms: &mut [i32], bonds: &mut [i32]) -> Result<Read, Refusal> {
    if are_short(atoms, bonds) {
        return Err(Code::ShortBuffer.into());
    }
    read_out(crate::reading(text), atoms, bonds)
}

/// Stores what was read; a refusal fills the tables with 0.
fn read_out(
    answer: Result<Reading, Refusal>,
    atoms: &mut [i32],
    bonds: &mut [i32],
) -> Result<Read, Refusal> {
    let nothing = Reading::default();
    let Reading { molecule, .. } = answer.as_ref().unwrap_or(&nothing);
    fill(molecule, atoms, bonds);
    answer.map(|reading| Read {
        counts: counts(&reading.molecule),
        overfull: reading.overfull,
    })
}

/// Begins a text that comes in pieces: fills the tables with 0.
pub fn start(atoms: &mut [i32], bonds: &mut [i32]) -> Result<(), Code> {
    if are_short(atoms, bonds) {
        return Err(Code::ShortBuffer);
    }
    fill(&Molecule::default(), atoms, bonds);
    Ok(())
}

/// Takes a piece of a text. A refusal fills the tables with 0; what else they hold before the end is
/// not told here.
pub fn feed(
    pieces: &mut Pieces,
    piece: &[u8],
    atoms: &mut [i32],
    bonds: &mut [i32],
) -> Result<(), Refusal> {
    if are_short(atoms, bonds) {
        return Err(Code::ShortBuffer.into());
    }
    let answer = pieces.feed(piece);
    if answer.is_err_and(|refusal| refusal.code != Code::Ended) {
        fill(&Molecule::default(), atoms, bonds);
    }
    answer
}

/// Takes the end of a text that came in pieces, and stores what was read.
pub fn end(pieces: &mut Pieces, atoms: &mut [i32], bonds: &mut [i32]) -> Result<Read, Refusal> {
    if are_short(atoms, bonds) {
        return Err(Code::ShortBuffer.into());
    }
    match pieces.end() {
        Err(refusal) if refusal.code == Code::Ended => Err(refusal),
        answer => read_out(answer, atoms, bonds),
    }
}

/// The answer to [`standardize`].
#[derive(Clone, Copy, Debug, Default, PartialEq, Eq)]
pub struct Standard {
    /// The atoms and bonds of the molecule.
    pub counts: Counts,
    /// The number of over-full atoms outside brackets.
    pub overfull: usize,
    /// The bytes of the kekulized text.
    pub length: usize,
}

/// Reads a text, kekulizes it by its first matching and stores the text.
pub fn standardize(text: &[u8], out: &mut [u8]) -> Result<Standard, Refusal> {
    if out.len() < TEXT {
        return Err(Code::ShortBuffer.into());
    }
    let answer = crate::report_line(text);
    store(out, answer.as_ref().map_or(&[], |accepted| &accepted.text));
    let Accepted {
        atoms,
        bonds,
        overfull,
        text,
        ..
    } = answer?;
    Ok(Standard {
        counts: Counts { atoms, bonds },
        overfull,
        length: text.len(),
    })
}

/// Whether the tables are long enough and valid.
pub fn check(tables: Tables) -> Result<(), Code> {
    if tables.is_short() {
        return Err(Code::ShortBuffer);
    }
    molecule(tables).map(|_| ())
}

/// The first matching, stored in the row.
pub fn first(tables: Tables, row: &mut [u8]) -> Result<(), Code> {
    if tables.is_short() || row.len() < ROW {
        return Err(Code::ShortBuffer);
    }
    let matching =
        molecule(tables).and_then(|molecule| matching::first(&molecule).ok_or(Code::Unmatchable));
    store(row, matching.as_deref().unwrap_or(&[]));
    matching.map(|_| ())
}

/// The first matching, stored in the row, and the bonds of the pairs that are forced before any
/// choice, stored in the list. Gives their number.
pub fn first_forced(tables: Tables, row: &mut [u8], pairs: &mut [u16]) -> Result<usize, Code> {
    if tables.is_short() || row.len() < ROW || pairs.len() < ROW {
        return Err(Code::ShortBuffer);
    }
    let forced = molecule(tables).map_or_else(|_| Vec::new(), |molecule| crate::forced(&molecule));
    store(pairs, &forced);
    first(tables, row).map(|()| forced.len())
}

/// The matching after the one in the row, stored in the row.
pub fn next(tables: Tables, row: &mut [u8]) -> Result<Step, Code> {
    if tables.is_short() || row.len() < ROW {
        return Err(Code::ShortBuffer);
    }
    let later = molecule(tables).and_then(|molecule| {
        let used = &row[..molecule.bonds.len()];
        matching::next(&molecule, used).ok_or(Code::NotAMatching)
    });
    match later {
        Ok(Some(later)) => {
            store(row, &later);
            Ok(Step::Matching)
        }
        Ok(None) => {
            row.fill(0);
            Ok(Step::End)
        }
        Err(code) => {
            row.fill(0);
            Err(code)
        }
    }
}

/// The number of "end" among the codes of [`replay`].
pub const END: u8 = 255;

/// Makes calls on one row, 0 for the first matching and any other byte for the next, and stores the
/// number of each answer: 0, [`END`], or the refusal's. The rest of the codes is filled with 0.
pub fn replay(calls: &[u8], tables: Tables, row: &mut [u8], codes: &mut [u8]) -> Result<(), Code> {
    if codes.len() < calls.len() {
        return Err(Code::ShortBuffer);
    }
    codes.fill(0);
    for (call, code) in calls.iter().zip(codes) {
        let answer = match call {
            0 => first(tables, row).map(|()| Step::Matching),
            _ => next(tables, row),
        };
        *code = match answer {
            Ok(Step::Matching) => 0,
            Ok(Step::End) => END,
            Err(code) => code.number(),
        };
    }
    Ok(())
}

/// Whether the row is a matching.
pub fn is_matching(tables: Tables, row: &[u8]) -> Result<bool, Code> {
    if tables.is_short() || row.len() < ROW {
        return Err(Code::ShortBuffer);
    }
    let molecule = molecule(tables)?;
    Ok(matching::is_matching(
        &molecule,
        &row[..molecule.bonds.len()],
    ))
}

/// Makes the bonds of the matching in the row double and every atom unselected, in the tables. A
/// refusal leaves them as they were.
pub fn kekulize(
    atoms: &mut [i32],
    bonds: &mut [i32],
    counts: Counts,
    row: &[u8],
) -> Result<(), Code> {
    let tables = Tables {
        atoms,
        bonds,
        counts,
    };
    if !is_matching(tables, row)? {
        return Err(Code::NotAMatching);
    }
    let mut kekulized = molecule(tables)?;
    matching::kekulize(&mut kekulized, &row[..counts.bonds])?;
    for cells in atoms.chunks_exact_mut(ATOM_CELLS).take(counts.atoms) {
        cells[1] = 0;
    }
    for (cells, &cell) in bonds
        .chunks_exact_mut(BOND_CELLS)
        .zip(row)
        .take(counts.bonds)
    {
        if cell == 1 {
            cells[2] = Kind::Double as i32;
        }
    }
    Ok(())
}

/// The row of sides, stored in the row.
pub fn sides(tables: Tables, row: &mut [u8]) -> Result<(), Code> {
    if tables.is_short() || row.len() < ROW {
        return Err(Code::ShortBuffer);
    }
    let sides = molecule(tables).map(|molecule| conformation::sides(&molecule));
    store(row, sides.as_deref().unwrap_or(&[]));
    sides.map(|_| ())
}

/// Whether two molecules are the same compound, drawn differently: the row of each and the
/// renumbering from the first to the second are stored, or filled with 0.
pub fn same(
    one: Tables,
    other: Tables,
    row1: &mut [u8],
    row2: &mut [u8],
    renumbering: &mut [u16],
) -> Result<bool, Code> {
    let is_short = one.is_short() || other.is_short();
    if is_short || row1.len().min(row2.len()) < ROW || renumbering.len() < RENUMBERING {
        return Err(Code::ShortBuffer);
    }
    let answer = molecule(one).and_then(|one| crate::same(&one, &molecule(other)?));
    let sameness = answer.as_ref().ok().and_then(Option::as_ref);
    store(row1, sameness.map_or(&[], |sameness| &sameness.row1));
    store(row2, sameness.map_or(&[], |sameness| &sameness.row2));
    store(
        renumbering,
        sameness.map_or(&[], |sameness| &sameness.renumbering),
    );
    answer.map(|sameness| sameness.is_some())
}

/// Writes a molecule: its text and each atom's number in the text. Gives the text's length.
pub fn write(tables: Tables, text: &mut [u8], renumbering: &mut [u16]) -> Result<usize, Code> {
    if tables.is_short() || text.len() < TEXT || renumbering.len() < RENUMBERING {
        return Err(Code::ShortBuffer);
    }
    match molecule(tables).and_then(|molecule| crate::write(&molecule)) {
        Ok(written) => {
            store(text, &written.text);
            store(renumbering, &written.renumbering);
            Ok(written.text.len())
        }
        Err(code) => {
            text.fill(0);
            renumbering.fill(0);
            Err(code)
        }
    }
}

/// The molecule of tables that are long enough, if they are sound.
pub fn molecule(tables: Tables) -> Result<Molecule, Code> {
    let molecule = valid_molecule(tables).ok_or(Code::InvalidTables)?;
    match molecule.late_refusal() {
        None => Ok(molecule),
        Some(_) => Err(Code::InvalidTables),
    }
}

/// Whether tables that are long enough are sound, leaving aside what 20 to 23 refuse.
pub fn is_valid(tables: Tables) -> bool {
    valid_molecule(tables).is_some()
}

fn valid_molecule(tables: Tables) -> Option<Molecule> {
    let Counts { atoms, bonds } = tables.counts;
    if atoms > MAX_ATOMS || bonds > MAX_BONDS {
        return None;
    }
    let mut molecule = Molecule {
        atoms: Vec::with_capacity(atoms),
        bonds: Vec::with_capacity(bonds),
    };
    for cells in tables.atoms.chunks_exact(ATOM_CELLS).take(atoms) {
        molecule.atoms.push(atom_of_cells(cells)?);
    }
    for cells in tables.bonds.chunks_exact(BOND_CELLS).take(bonds) {
        molecule.bonds.push(bond_of_cells(cells, atoms)?);
    }
    (!has_repeated_bond(&molecule)).then_some(molecule)
}

fn atom_of_cells(cells: &[i32]) -> Option<Atom> {
    let element = within(cells[0], 0, MAX_ELEMENT.into())? as u8;
    let selected = within(cells[1], 0, 1)? == 1;
    if selected && !is_selectable(element) {
        return None;
    }
    Some(Atom {
        element,
        selected,
        isotope: within(cells[2], 0, 999)? as u16,
        hydrogens: within(cells[3], 0, 9)? as u8,
        charge: within(cells[4], -9, 9)? as i8,
        extension: within(cells[5], 0, 9999)? as u16,
        mark: mark_of_cell(cells[6])?,
    })
}

fn mark_of_cell(cell: i32) -> Option<Mark> {
    let marks = [Mark::None, Mark::Counterclockwise, Mark::Clockwise];
    marks.into_iter().find(|&mark| mark as i32 == cell)
}

fn bond_of_cells(cells: &[i32], atoms: usize) -> Option<Bond> {
    let first = usize::try_from(cells[0]).ok()?;
    let second = usize::try_from(cells[1]).ok()?;
    let kind = match cells[2] {
        0 => Kind::Elided,
        1 => Kind::Single,
        2 => Kind::Double,
        3 => Kind::Triple,
        4 => Kind::Up,
        5 => Kind::Down,
        _ => return None,
    };
    let bond = Bond {
        first,
        second,
        kind,
    };
    (first < second && second < atoms).then_some(bond)
}

fn within(cell: i32, low: i32, high: i32) -> Option<i32> {
    (low..=high).contains(&cell).then_some(cell)
}

fn has_repeated_bond(molecule: &Molecule) -> bool {
    let neighbours = molecule.neighbours();
    let mut seen_from = vec![usize::MAX; molecule.atoms.len()];
    (0..molecule.atoms.len()).any(|atom| {
        let mut ends = neighbours.of(atom).iter();
        ends.any(|to| std::mem::replace(&mut seen_from[to.atom], atom) == atom)
    })
}

/// The counts of a molecule.
pub fn counts(molecule: &Molecule) -> Counts {
    Counts {
        atoms: molecule.atoms.len(),
        bonds: molecule.bonds.len(),
    }
}

/// Stores a molecule in tables that are long enough, and fills their rest with 0.
pub fn fill(molecule: &Molecule, atoms: &mut [i32], bonds: &mut [i32]) {
    let rows = molecule.atoms.iter().map(cells_of_atom);
    for (cells, row) in atoms.chunks_exact_mut(ATOM_CELLS).zip(rows) {
        cells.copy_from_slice(&row);
    }
    let rows = molecule.bonds.iter().map(cells_of_bond);
    for (cells, row) in bonds.chunks_exact_mut(BOND_CELLS).zip(rows) {
        cells.copy_from_slice(&row);
    }
    atoms[ATOM_CELLS * molecule.atoms.len()..].fill(0);
    bonds[BOND_CELLS * molecule.bonds.len()..].fill(0);
}

fn cells_of_atom(atom: &Atom) -> [i32; ATOM_CELLS] {
    [
        atom.element.into(),
        atom.selected.into(),
        atom.isotope.into(),
        atom.hydrogens.into(),
        atom.charge.into(),
        atom.extension.into(),
        atom.mark as i32,
    ]
}

fn cells_of_bond(bond: &Bond) -> [i32; BOND_CELLS] {
    [bond.first as i32, bond.second as i32, bond.kind as i32]
}

/// Stores cells at the start of a buffer, and fills its rest with 0.
fn store<T: Copy + Default>(buffer: &mut [T], cells: &[T]) {
    let (used, rest) = buffer.split_at_mut(cells.len());
    used.copy_from_slice(cells);
    rest.fill(T::default());
}
