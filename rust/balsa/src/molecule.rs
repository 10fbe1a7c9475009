//! A molecule that owns its tables.

use crate::refusal::{Code, Refusal};
use crate::tables::{
    self, Counts, Read, Step, Tables, ATOM_CELLS, ATOM_TABLE, BOND_CELLS, BOND_TABLE, RENUMBERING,
    ROW, TEXT,
};

/// A molecule that was read.
///
/// ```
/// use balsa::Molecule;
///
/// let mut benzene = Molecule::read(b"c1ccccc1")?;
/// let drawings: Vec<_> = benzene.matchings().collect();
/// assert_eq!(drawings, [[1, 0, 1, 0, 1, 0], [0, 1, 0, 1, 0, 1]]);
/// benzene.kekulize(&drawings[0])?;
/// assert_eq!(benzene.write()?.text, b"C1=CC=CC=C1");
/// # Ok::<(), balsa::Refusal>(())
/// ```
#[derive(Clone, Debug, PartialEq, Eq)]
pub struct Molecule {
    atoms: Vec<i32>,
    bonds: Vec<i32>,
    counts: Counts,
    overfull: usize,
}

/// A written molecule.
#[derive(Clone, Debug, PartialEq, Eq)]
pub struct Written {
    /// The text.
    pub text: Vec<u8>,
    /// Each atom's number in the text.
    pub renumbering: Vec<u16>,
}

/// What shows that two molecules are the same compound.
#[derive(Clone, Debug, PartialEq, Eq)]
pub struct Sameness {
    /// The matching of the first molecule.
    pub row1: Vec<u8>,
    /// The matching of the second molecule.
    pub row2: Vec<u8>,
    /// For each atom of the first molecule its number in the second.
    pub renumbering: Vec<u16>,
}

impl Molecule {
    /// Reads a text.
    ///
    /// # Errors
    /// The refusals 2 to 11 and 20 to 23, with their places.
    ///
    /// ```
    /// use balsa::{Code, Molecule, Refusal};
    ///
    /// let refusal = Molecule::read(b"C11").unwrap_err();
    /// assert_eq!(refusal, Refusal { code: Code::SelfBridge, place: 2 });
    /// ```
    pub fn read(text: &[u8]) -> Result<Self, Refusal> {
        let mut atoms = vec![0; ATOM_TABLE];
        let mut bonds = vec![0; BOND_TABLE];
        let read = tables::read(text, &mut atoms, &mut bonds)?;
        Ok(Molecule::of_tables(atoms, bonds, read))
    }

    /// The molecule that was read into tables.
    pub(crate) fn of_tables(atoms: Vec<i32>, bonds: Vec<i32>, read: Read) -> Self {
        let Read { counts, overfull } = read;
        Molecule {
            atoms,
            bonds,
            counts,
            overfull,
        }
    }

    /// Seven cells for each atom: element, selected, isotope, hydrogens, charge, extension, mark. The
    /// mark is 1 for `@` and 2 for `@@`; it speaks of the hydrogen, if there is one, and then the bonds
    /// by ascending number.
    ///
    /// ```
    /// use balsa::Molecule;
    ///
    /// let alanine = Molecule::read(b"N[C@@H](C)C(=O)O")?;
    /// assert_eq!(alanine.atoms()[7..14], [6, 0, 0, 1, 0, 0, 1]);
    /// assert_eq!(alanine.write()?.text, b"N[C@@H](C)C(=O)O");
    /// # Ok::<(), balsa::Refusal>(())
    /// ```
    pub fn atoms(&self) -> &[i32] {
        &self.atoms[..ATOM_CELLS * self.counts.atoms]
    }

    /// Three cells for each bond: first end, second end, kind.
    pub fn bonds(&self) -> &[i32] {
        &self.bonds[..BOND_CELLS * self.counts.bonds]
    }

    /// How many atoms and bonds there are.
    pub fn counts(&self) -> Counts {
        self.counts
    }

    /// How many atoms outside brackets were over-full in the text: their bond sum is above every
    /// target valence.
    ///
    /// ```
    /// # use balsa::Molecule;
    /// assert_eq!(Molecule::read(b"FC(F)(F)(F)F")?.overfull(), 1);
    /// assert_eq!(Molecule::read(b"F[C](F)(F)(F)F")?.overfull(), 0);
    /// # Ok::<(), balsa::Refusal>(())
    /// ```
    pub fn overfull(&self) -> usize {
        self.overfull
    }

    /// All matchings in order, each a row of 0 and 1 over the bonds.
    pub fn matchings(&self) -> Matchings<'_> {
        Matchings {
            molecule: self,
            row: vec![0; ROW],
            begun: false,
            ended: false,
        }
    }

    /// The bonds of the pairs that are forced before any choice, in turn: each is in every matching.
    ///
    /// ```
    /// use balsa::Molecule;
    ///
    /// assert_eq!(Molecule::read(b"o1cccc1")?.forced(), [1, 3]);
    /// assert_eq!(Molecule::read(b"c1ccccc1")?.forced(), []);
    /// # Ok::<(), balsa::Refusal>(())
    /// ```
    pub fn forced(&self) -> Vec<u16> {
        let mut row = vec![0; ROW];
        let mut pairs = vec![0; ROW];
        let forced =
            tables::first_forced(&self.atoms, &self.bonds, self.counts, &mut row, &mut pairs);
        pairs.truncate(forced.unwrap_or(0));
        pairs
    }

    /// The row of sides, over the bonds: 1 at each double bond whose two ends have their lowest marked
    /// neighbours on the same side, 2 if on opposite sides, else 0.
    ///
    /// ```
    /// use balsa::Molecule;
    ///
    /// assert_eq!(Molecule::read(b"F/C=C/F")?.sides(), [0, 2, 0]);
    /// assert_eq!(Molecule::read(br"F/C=C\F")?.sides(), [0, 1, 0]);
    /// # Ok::<(), balsa::Refusal>(())
    /// ```
    pub fn sides(&self) -> Vec<u8> {
        let mut row = vec![0; ROW];
        tables::sides(&self.atoms, &self.bonds, self.counts, &mut row).expect("sound tables");
        row.truncate(self.counts.bonds);
        row
    }

    /// Makes the bonds of a matching double and every atom unselected.
    ///
    /// # Errors
    /// 12 if the row is not a matching; 20 if marks place two neighbours of an end of a new double
    /// bond on the same side.
    pub fn kekulize(&mut self, matching: &[u8]) -> Result<(), Refusal> {
        if matching.len() < self.counts.bonds {
            return Err(Code::NotMatching.into());
        }
        let mut row = matching.to_vec();
        row.resize(ROW.max(row.len()), 0);
        Ok(tables::kekulize(
            &mut self.atoms,
            &mut self.bonds,
            self.counts,
            &row,
        )?)
    }

    /// Whether another molecule is the same compound, drawn differently: some matching of this one and
    /// some matching of the other kekulize to the same molecule under some renumbering. Gives the first
    /// matching of this one that does, the first of the other that goes with it, and the smallest
    /// renumbering. Marks are left aside: only the constitution is compared.
    ///
    /// Two drawings without selected atoms whose double bonds lie differently are not the same, though
    /// both may be the same as one with selected atoms.
    ///
    /// Real pairs take microseconds; with many atoms or parts that are alike the time may grow
    /// exponentially (`docs/PERFORMANCE.md`).
    ///
    /// # Errors
    /// 19 if a molecule has over 64 atoms.
    ///
    /// ```
    /// use balsa::{Molecule, Sameness};
    ///
    /// let benzene = Molecule::read(b"c1ccccc1")?;
    /// let drawn = Molecule::read(b"C=1C=CC=CC1")?;
    /// let shown = Sameness {
    ///     row1: vec![1, 0, 1, 0, 1, 0],
    ///     row2: vec![0; 6],
    ///     renumbering: vec![0, 5, 4, 3, 2, 1],
    /// };
    /// assert_eq!(benzene.same_compound(&drawn)?, Some(shown));
    /// assert_eq!(benzene.same_compound(&Molecule::read(b"C1CCCCC1")?)?, None);
    /// # Ok::<(), balsa::Refusal>(())
    /// ```
    pub fn same_compound(&self, other: &Molecule) -> Result<Option<Sameness>, Refusal> {
        let mut row1 = vec![0; ROW];
        let mut row2 = vec![0; ROW];
        let mut renumbering = vec![0; RENUMBERING];
        let is_same = tables::same(
            self.tables(),
            other.tables(),
            &mut row1,
            &mut row2,
            &mut renumbering,
        )?;
        row1.truncate(self.counts.bonds);
        row2.truncate(other.counts.bonds);
        renumbering.truncate(self.counts.atoms);
        Ok(is_same.then_some(Sameness {
            row1,
            row2,
            renumbering,
        }))
    }

    /// The key: a number that all redrawings of the molecule have, of any size. Other numbers of atoms
    /// and bonds, other Kekulé forms or selected letters, hydrogens drawn as atoms, extensions and marks
    /// do not change it. Molecules with different keys are no redrawings; those with the same key need
    /// not be any.
    ///
    /// ```
    /// use balsa::Molecule;
    ///
    /// let key = |text: &[u8]| Molecule::read(text).map(|molecule| molecule.key());
    /// assert_eq!(key(b"CC1=C(C)C=CC=C1")?, key(b"CC=1C(C)=CC=CC1")?);
    /// assert_eq!(key(b"[H]C([H])([H])[NH2:7]")?, key(b"NC")?);
    /// assert_ne!(key(b"CCO")?, key(b"COC")?);
    /// # Ok::<(), balsa::Refusal>(())
    /// ```
    pub fn key(&self) -> u64 {
        tables::key(&self.atoms, &self.bonds, self.counts).expect("sound tables")
    }

    /// The tables, as long as the calls ask.
    fn tables(&self) -> Tables<'_> {
        Tables {
            atoms: &self.atoms,
            bonds: &self.bonds,
            counts: self.counts,
        }
    }

    /// Writes the molecule.
    ///
    /// # Errors
    /// 14, 15 or 16.
    pub fn write(&self) -> Result<Written, Refusal> {
        let mut text = vec![0; TEXT];
        let mut renumbering = vec![0; RENUMBERING];
        let length = tables::write(
            &self.atoms,
            &self.bonds,
            self.counts,
            &mut text,
            &mut renumbering,
        )?;
        text.truncate(length);
        renumbering.truncate(self.counts.atoms);
        Ok(Written { text, renumbering })
    }
}

/// An iterator over the matchings of a molecule.
#[derive(Debug)]
pub struct Matchings<'a> {
    molecule: &'a Molecule,
    row: Vec<u8>,
    begun: bool,
    ended: bool,
}

impl Iterator for Matchings<'_> {
    type Item = Vec<u8>;

    fn next(&mut self) -> Option<Vec<u8>> {
        if self.ended {
            return None;
        }
        let Molecule {
            atoms,
            bonds,
            counts,
            ..
        } = self.molecule;
        let given = if self.begun {
            tables::next(atoms, bonds, *counts, &mut self.row) == Ok(Step::Given)
        } else {
            tables::first(atoms, bonds, *counts, &mut self.row).is_ok()
        };
        self.begun = true;
        self.ended = !given;
        given.then(|| self.row[..counts.bonds].to_vec())
    }
}
