//! Withdrawing and asking, by the proved library and by the reference: random registers of texts, and
//! questions about redrawings of these and about near relatives.

use crate::drawings::{change, redrawing};
use crate::molecules::{self, Effort};
use crate::random::Random;
use crate::{drawings, registers, spelling, texts};
use balsa::register::{MAX_ENTRIES, REGISTER};
use balsa::{Molecule as Read, Register, Withdrawn};
use balsa_reference::withdrawal::{self, Withdrawn as Expected};
use balsa_reference::{are_redrawings, read, register, Molecule};

/// What a question is answered with: an answer, or a refusal's number and place.
pub type Said = Result<Withdrawn, (u8, usize)>;

/// A register and a question.
#[derive(Clone, Debug)]
pub struct Question {
    /// The register.
    pub register: Vec<u8>,
    /// The text that is asked about.
    pub text: Vec<u8>,
}

impl Question {
    /// A register of texts of relatives of one molecule, sometimes with rubbish among them or damaged; a
    /// text of another relative, sometimes any text.
    pub fn random(random: &mut Random, effort: Effort) -> Self {
        let molecule = match random.percent(50) {
            true => drawings::small(random),
            false => molecules::molecule(random, effort),
        };
        let register = match random.percent(8) {
            true => registers::register(random),
            false => register_of(random, &molecule, effort),
        };
        let text = match random.percent(12) {
            true => texts::text(random, effort),
            false => relative(random, &molecule),
        };
        Question { register, text }
    }

    /// What the proved library says.
    pub fn proved(&self) -> Said {
        let said = Register::new(&self.register[..]).withdrawn(&self.text);
        said.map_err(|refusal| (refusal.code.number(), refusal.place))
    }

    /// What the reference says.
    pub fn reference(&self) -> Said {
        let said = withdrawal::withdrawn(&self.register, &self.text);
        let said = said.map_err(|refusal| (refusal.code.number(), refusal.place))?;
        Ok(match said {
            Expected::Clear => Withdrawn::Clear,
            Expected::Withdrawn { tag, entry } => Withdrawn::Withdrawn { tag, entry },
            Expected::Undecided { entry } => Withdrawn::Undecided { entry },
        })
    }

    /// Asks both: what the proved library says, and how many entries it left undecided for one key.
    pub fn compare(&self) -> Result<(Said, usize), String> {
        let said = self.proved();
        Ok((said, self.judge(said)?))
    }

    /// Whether what is said is what the reference says, but that an entry may be left undecided whose body
    /// has the text's key: how many such entries there are is told then, 0 where the same is said.
    pub fn judge(&self, said: Said) -> Result<usize, String> {
        let expected = self.reference();
        if said == expected {
            return Ok(0);
        }
        let alike = self.alike();
        let may_be = match (said, expected) {
            (Ok(Withdrawn::Undecided { entry }), Ok(_)) => alike.contains(&entry),
            _ => false,
        };
        match may_be {
            true => Ok(alike.len()),
            false => Err(format!("{said:?} is said, the reference says {expected:?}")),
        }
    }

    /// The entries whose bodies are read and have the text's key.
    fn alike(&self) -> Vec<usize> {
        let Ok(text) = Read::read(&self.text) else {
            return Vec::new();
        };
        let bodies = registers::listed(&self.register).unwrap_or_default();
        let has_key = |body: &[u8]| Read::read(body).is_ok_and(|read| read.key() == text.key());
        let entries = bodies.iter().enumerate();
        entries
            .filter(|(_, (_, body))| has_key(body))
            .map(|(entry, _)| entry)
            .collect()
    }
}

/// A register of texts of relatives, some bodies no texts.
fn register_of(random: &mut Random, molecule: &Molecule, effort: Effort) -> Vec<u8> {
    let mut bytes = vec![0xAA; REGISTER];
    register::empty(&mut bytes).expect("it is long enough");
    let rubbish = *random.pick(&[0, 0, 0, 10, 50]);
    let count = *random.pick(&[0, 1, 2, 5, MAX_ENTRIES]);
    for _ in 0..random.below(count + 1) {
        let body = match random.below(100) {
            chance if chance < rubbish => registers::body(random),
            20..30 => texts::text(random, effort),
            _ => relative(random, molecule),
        };
        let _ = register::add(&mut bytes, random.number() as u16, &body);
    }
    if random.percent(5) {
        registers::damage(random, &mut bytes);
    }
    bytes
}

/// A text of a redrawing of a molecule, or of one that is nearly so.
pub fn relative(random: &mut Random, molecule: &Molecule) -> Vec<u8> {
    let relative = match random.percent(40) {
        true => changed(random, molecule),
        false => molecule.clone(),
    };
    let relative = redrawing(random, &relative);
    spelling::text(random, &relative)
}

/// A molecule with a cell, an order or an end changed, and no atom selected that cannot be.
fn changed(random: &mut Random, molecule: &Molecule) -> Molecule {
    let mut changed = molecule.clone();
    change(random, &mut changed);
    for atom in &mut changed.atoms {
        atom.selected &= [6, 7, 8, 15, 16].contains(&atom.element);
    }
    changed
}

/// Whether the laws of keys hold of a molecule and a redrawing of it, and of a near relative: equal keys of
/// redrawings, and no redrawings where keys differ. None where a text is refused.
pub fn check_keys(random: &mut Random, molecule: &Molecule) -> Option<Result<(), String>> {
    let drawn = redrawing(random, molecule);
    let near = changed(random, molecule);
    let [one, other, third] = [molecule, &drawn, &near].map(|it| spelling::text(random, it));
    let key = |text: &[u8]| Read::read(text).ok().map(|read| read.key());
    let keys = (key(&one)?, key(&other)?);
    let shown = |text: &[u8]| String::from_utf8_lossy(text).into_owned();
    if keys.0 != keys.1 {
        let texts = format!("{} and {}", shown(&one), shown(&other));
        return Some(Err(format!("keys {keys:?} of redrawings {texts}")));
    }
    let third_key = key(&third)?;
    let are_one = are_redrawings(&read(&one).ok()?, &read(&third).ok()?);
    if are_one && third_key != keys.0 {
        let texts = format!("{} and {}", shown(&one), shown(&third));
        return Some(Err(format!(
            "keys {} and {third_key} of redrawings {texts}",
            keys.0
        )));
    }
    Some(Ok(()))
}
