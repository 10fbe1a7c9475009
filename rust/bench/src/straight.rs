//! A straightforward search for matchings: one bond after the other is taken if it can be, and left
//! again where the rest gives nothing.

/// The search took more steps than it may.
#[derive(Clone, Copy, Debug, PartialEq, Eq)]
pub struct TooLong;

/// A search over bonds, by their ends; an atom that wants no partner counts as paired.
pub struct Search<'a> {
    ends: &'a [(usize, usize)],
    paired: Vec<bool>,
    row: Vec<u8>,
    steps: usize,
}

impl<'a> Search<'a> {
    /// A search for partners of the atoms that want one, which may take so many steps.
    pub fn new(wants: &[bool], ends: &'a [(usize, usize)], steps: usize) -> Self {
        Search {
            ends,
            paired: wants.iter().map(|&wants| !wants).collect(),
            row: vec![0; ends.len()],
            steps,
        }
    }

    /// The first matching, if there is one.
    pub fn first(mut self) -> Result<Option<Vec<u8>>, TooLong> {
        Ok(self.seek(0)?.then_some(self.row))
    }

    /// The matching after one that is handed in.
    pub fn next(mut self, row: &[u8]) -> Result<Option<Vec<u8>>, TooLong> {
        self.row.copy_from_slice(row);
        Ok(self.later(0)?.then_some(self.row))
    }

    fn set(&mut self, bond: usize, paired: bool) {
        let (one, other) = self.ends[bond];
        self.paired[one] = paired;
        self.paired[other] = paired;
        self.row[bond] = u8::from(paired);
    }

    fn seek(&mut self, bond: usize) -> Result<bool, TooLong> {
        self.steps = self.steps.checked_sub(1).ok_or(TooLong)?;
        let Some(&(one, other)) = self.ends.get(bond) else {
            return Ok(self.paired.iter().all(|&paired| paired));
        };
        if !self.paired[one] && !self.paired[other] {
            self.set(bond, true);
            if self.seek(bond + 1)? {
                return Ok(true);
            }
            self.set(bond, false);
        }
        self.row[bond] = 0;
        self.seek(bond + 1)
    }

    fn later(&mut self, bond: usize) -> Result<bool, TooLong> {
        if bond == self.ends.len() {
            return Ok(false);
        }
        if self.row[bond] == 0 {
            return self.later(bond + 1);
        }
        self.set(bond, true);
        if self.later(bond + 1)? {
            return Ok(true);
        }
        self.set(bond, false);
        self.seek(bond + 1)
    }
}
