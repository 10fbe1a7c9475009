//! The comparison itself: it is reproducible, it reaches every refusal, and it sees differences.

use balsa_reference::{delocalized, read, Atom, Bond, Kind, Mark, Molecule, ATOM_CELLS};
use compare::buffers::Buffers;
use compare::implementation::{Answer, Implementation, Reference};
use compare::laws;
use compare::molecules::{self, Effort};
use compare::pair::{compare_same, compare_tables, compare_text};
use compare::random::Random;
use compare::{drawings, spelling, texts};
use std::collections::BTreeSet;

#[test]
fn a_seed_gives_the_same_texts() {
    let texts = |seed| -> Vec<Vec<u8>> {
        let mut random = Random::new(seed);
        (0..200)
            .map(|_| texts::text(&mut random, Effort::Plain))
            .collect()
    };
    assert_eq!(texts(3), texts(3));
    assert_ne!(texts(3), texts(4));
    assert!(texts(3).iter().flatten().all(|&byte| byte != b'\n'));
}

#[test]
fn the_texts_reach_every_refusal() {
    let mut random = Random::new(1);
    let mut codes = BTreeSet::new();
    for _ in 0..20_000 {
        let text = texts::text(&mut random, Effort::Plain);
        let code = balsa_reference::report_line(&text).map_or_else(|no| no.code.number(), |_| 0);
        codes.insert(code);
    }
    let expected = (0..=16).filter(|code| ![1, 12, 13].contains(code));
    assert_eq!(codes, expected.chain([20, 21, 22, 23]).collect());
}

#[test]
fn the_tables_reach_every_refusal() {
    let mut random = Random::new(1);
    let mut codes = BTreeSet::new();
    for _ in 0..3000 {
        let mut buffers = Buffers::random(&mut random, Effort::Hard);
        codes.insert(Reference.write(&mut buffers).code);
        codes.insert(Reference.kekulize(&mut buffers.clone()).code);
        codes.insert(Reference.first(&mut buffers).code);
    }
    assert_eq!(codes, BTreeSet::from([0, 1, 11, 12, 13, 14, 15, 16, 20]));
}

/// Accepted texts have selected atoms of every element and charge; most are delocalized in one
/// text and pruned in another.
#[test]
fn selected_atoms_have_every_charge() {
    let mut random = Random::new(3);
    let (mut charged, mut judged) = (BTreeSet::new(), BTreeSet::new());
    for _ in 0..4000 {
        let molecule = molecules::molecule(&mut random, Effort::Hard);
        let Ok(molecule) = read(&spelling::text(&mut random, &molecule)) else {
            continue;
        };
        let flags = delocalized(&molecule);
        for (atom, flag) in molecule.atoms.iter().zip(flags) {
            if atom.selected {
                charged.insert((atom.element, atom.charge));
                judged.insert((atom.element, atom.charge, flag));
            }
        }
    }
    let elements = [6, 7, 8, 15, 16];
    let all = elements
        .iter()
        .flat_map(|&element| (-9..=9).map(move |charge| (element, charge)));
    assert_eq!(charged, all.collect());
    assert!(judged.len() > 120, "{}", judged.len());
}

/// A molecule in a random spelling is read as the same molecule, renumbered: its atoms and kinds
/// of bonds are the same ones.
#[test]
fn spellings_mean_the_molecule() {
    let mut random = Random::new(5);
    let mut accepted = 0;
    for _ in 0..3000 {
        let molecule = molecules::molecule(&mut random, Effort::Hard);
        let text = spelling::text(&mut random, &molecule);
        let Ok(back) = read(&text) else { continue };
        accepted += 1;
        let atoms = |molecule: &Molecule| {
            // a mark may be turned by the numbers of the bonds
            let cells = |&atom: &Atom| match atom.mark {
                Mark::None => format!("{atom:?}"),
                _ => {
                    let mark = Mark::Clockwise;
                    format!("{:?}", Atom { mark, ..atom })
                }
            };
            let mut atoms: Vec<_> = molecule.atoms.iter().map(cells).collect();
            atoms.sort();
            atoms
        };
        let kinds = |molecule: &Molecule| {
            let mut kinds: Vec<_> = molecule.bonds.iter().map(mark_or_kind).collect();
            kinds.sort_unstable();
            kinds
        };
        let shown = String::from_utf8_lossy(&text);
        assert_eq!(atoms(&back), atoms(&molecule), "{shown}");
        assert_eq!(kinds(&back), kinds(&molecule), "{shown}");
    }
    assert!(accepted > 1500, "{accepted}");
}

/// A molecule whose atoms are told apart by their extensions is read from any spelling with the same
/// drawing: a tetrahedral mark is turned exactly where the old and the new numbers of its atom's
/// bonds are an odd number of swaps apart.
#[test]
fn spellings_keep_the_drawing() {
    let mut random = Random::new(6);
    let mut seen = [0; 2];
    for _ in 0..3000 {
        let mut molecule = molecules::molecule(&mut random, Effort::Plain);
        for (number, atom) in molecule.atoms.iter_mut().enumerate() {
            atom.extension = 1 + number as u16;
        }
        let text = spelling::text(&mut random, &molecule);
        let Ok(back) = read(&text) else { continue };
        let shown = String::from_utf8_lossy(&text);
        let old_number = |atom: &Atom| usize::from(atom.extension) - 1;
        for atom in &back.atoms {
            let old = molecule.atoms[old_number(atom)];
            let new_numbers = bonds_at(&molecule, old_number(atom)).map(|ends| {
                let old_ends = |bond: &Bond| {
                    let ends = [bond.first, bond.second];
                    ends.map(|end| old_number(&back.atoms[end]))
                };
                let mut bonds = back.bonds.iter();
                bonds.position(|bond| old_ends(bond).iter().all(|end| ends.contains(end)))
            });
            let is_odd = pairs_out_of_order(&new_numbers.collect::<Vec<_>>()) % 2 == 1;
            let mark = if is_odd { old.mark.turned() } else { old.mark };
            assert_eq!(*atom, Atom { mark, ..old }, "{shown}");
            seen[usize::from(is_odd)] += usize::from(mark != Mark::None);
        }
    }
    assert!(seen[0] > 1000 && seen[1] > 1000, "{seen:?}");
}

/// The ends of the bonds at an atom, by ascending bond number.
fn bonds_at(molecule: &Molecule, atom: usize) -> impl Iterator<Item = [usize; 2]> + '_ {
    let ends = molecule.bonds.iter().map(|bond| [bond.first, bond.second]);
    ends.filter(move |ends| ends.contains(&atom))
}

fn pairs_out_of_order<T: PartialOrd>(order: &[T]) -> usize {
    let items = order.iter().enumerate();
    let later = |(place, item)| {
        order[place + 1..]
            .iter()
            .filter(|&other| other < item)
            .count()
    };
    items.map(later).sum()
}

/// The number of a kind; a mark may be turned by the numbers of its ends.
fn mark_or_kind(bond: &Bond) -> u8 {
    if bond.kind.is_mark() {
        Kind::Up as u8
    } else {
        bond.kind as u8
    }
}

/// The reference with one fault.
struct Faulty {
    fault: &'static str,
}

impl Faulty {
    fn has(&self, fault: &str) -> bool {
        self.fault == fault
    }
}

impl Implementation for Faulty {
    fn name(&self) -> &str {
        self.fault
    }

    fn read(&self, text: &[u8], buffers: &mut Buffers) -> Answer {
        let mut answer = Reference.read(text, buffers);
        if self.has("over-full at 11") && answer.code == 11 {
            answer.numbers[2] = 1;
        }
        if self.has("over-full once") {
            answer.numbers[2] = answer.numbers[2].min(1);
        }
        if self.has("place of 10") && answer.code == 10 {
            answer.place += 1;
        }
        if self.has("place of 23") && answer.code == 23 {
            answer.place = text.len();
        }
        if self.has("the hydrogen last") && answer.is_accepted() {
            put_hydrogens_last(buffers, answer.numbers[0]);
        }
        if self.has("dirty table") && answer.code == 3 {
            *buffers.bonds.last_mut().unwrap() = 1;
        }
        answer
    }

    fn standardize(&self, text: &[u8], buffers: &mut Buffers) -> Answer {
        let before = buffers.text.clone();
        let mut answer = Reference.standardize(text, buffers);
        if self.has("output kept") && answer.code == 3 {
            buffers.text = before;
        }
        if self.has("length at 14") && answer.code == 14 {
            answer.numbers[3] = 1;
        }
        if self.has("place after reading") && answer.code == 16 {
            answer.place = text.len();
        }
        answer
    }

    fn check(&self, buffers: &mut Buffers) -> Answer {
        let mut answer = Reference.check(buffers);
        if self.has("13 as 1") && answer.code == 13 {
            answer.code = 1;
        }
        answer
    }

    fn first(&self, buffers: &mut Buffers) -> Answer {
        Reference.first(buffers)
    }

    fn replay(&self, buffers: &mut Buffers) -> Answer {
        let answer = Reference.replay(buffers);
        if self.has("dirty codes") && buffers.codes.len() > buffers.calls.len() {
            *buffers.codes.last_mut().unwrap() = 1;
        }
        answer
    }

    fn next(&self, buffers: &mut Buffers) -> Answer {
        let before = buffers.row.clone();
        let mut answer = Reference.next(buffers);
        if self.has("row at the end") && answer == Answer::of(1) {
            buffers.row = before;
        } else if self.has("early end") && answer == Answer::of(0) {
            buffers.row.fill(0);
            answer = Answer::of(1);
        }
        answer
    }

    fn first_forced(&self, buffers: &mut Buffers) -> Answer {
        let before = buffers.pairs.clone();
        let answer = Reference.first_forced(buffers);
        if self.has("the highest first") && answer.is_accepted() {
            buffers.pairs[..answer.numbers[0]].reverse();
        } else if self.has("list kept") && answer.code == 11 {
            buffers.pairs = before;
        }
        answer
    }

    fn next_forced(&self, buffers: &mut Buffers) -> Answer {
        Reference.next_forced(buffers)
    }

    fn is_matching(&self, buffers: &mut Buffers) -> Answer {
        Reference.is_matching(buffers)
    }

    fn kekulize(&self, buffers: &mut Buffers) -> Answer {
        let answer = Reference.kekulize(buffers);
        if self.has("row cleared") && answer.code == 12 {
            buffers.row.fill(0);
        }
        answer
    }

    fn sides(&self, buffers: &mut Buffers) -> Answer {
        let answer = Reference.sides(buffers);
        if self.has("sides exchanged") && answer.is_accepted() {
            for cell in buffers.row.iter_mut().filter(|cell| **cell != 0) {
                *cell = 3 - *cell;
            }
        }
        answer
    }

    fn same(&self, first: &mut Buffers, second: &mut Buffers) -> Answer {
        let answer = Reference.same(first, second);
        if self.has("19 as no") && answer.code == 19 {
            return Answer::of(0);
        }
        if self.has("another renumbering") && answer == Answer::of(1) && first.counts.atoms > 1 {
            first.renumbering.swap(0, 1);
        }
        if self.has("row left at no") && answer == Answer::of(0) {
            first.row[0] = 1;
        }
        if self.has("marks compared") && answer == Answer::of(1) && !have_equal_marks(first, second)
        {
            return Answer::of(0);
        }
        if self.has("yes to all") && answer.is_accepted() {
            return Answer::of(1);
        }
        if self.has("no to all") && answer.is_accepted() {
            first.row.fill(0);
            second.row.fill(0);
            first.renumbering.fill(0);
            return Answer::of(0);
        }
        answer
    }

    fn write(&self, buffers: &mut Buffers) -> Answer {
        let answer = Reference.write(buffers);
        if self.has("15 before 14") && answer.code == 14 {
            return Answer { code: 15, ..answer };
        }
        if self.has("renumbering") && answer.is_accepted() && buffers.counts.atoms > 1 {
            buffers.renumbering.swap(0, 1);
        }
        answer
    }
}

/// Exchanges the tetrahedral marks of atoms with a hydrogen, as if it stood behind their three bonds.
fn put_hydrogens_last(buffers: &mut Buffers, atoms: usize) {
    for cells in buffers.atoms.chunks_exact_mut(ATOM_CELLS).take(atoms) {
        if cells[3] == 1 && cells[6] != 0 {
            cells[6] = 3 - cells[6];
        }
    }
}

/// Whether each atom has the tetrahedral mark of its image.
fn have_equal_marks(first: &Buffers, second: &Buffers) -> bool {
    let mark = |buffers: &Buffers, atom: usize| buffers.atoms[ATOM_CELLS * atom + 6];
    let atoms = 0..first.counts.atoms;
    let image = |atom: usize| usize::from(first.renumbering[atom]);
    atoms
        .into_iter()
        .all(|atom| mark(first, atom) == mark(second, image(atom)))
}

/// The number of cases in which a fault is seen by the comparison and by the laws.
fn seen(fault: &'static str) -> (usize, usize) {
    let faulty = Faulty { fault };
    let mut random = Random::new(11);
    let (mut differences, mut broken_laws) = (0, 0);
    for _ in 0..2000 {
        let text = texts::text(&mut random, Effort::Plain);
        let dirty = Buffers::dirty(&mut random);
        let buffers = Buffers::random(&mut random, Effort::Plain);
        differences += usize::from(compare_text(&Reference, &faulty, &text, &dirty).is_err());
        differences += usize::from(compare_tables(&Reference, &faulty, &buffers).is_err());
        broken_laws += usize::from(laws::check(&faulty, &buffers).is_err());
    }
    (differences, broken_laws)
}

/// The number of pairs of molecules in which a fault is seen by the comparison and by the laws.
fn seen_in_pairs(fault: &'static str) -> (usize, usize) {
    let faulty = Faulty { fault };
    let mut random = Random::new(13);
    let (mut differences, mut broken_laws) = (0, 0);
    for _ in 0..400 {
        let pair = drawings::pair(&mut random, Effort::Plain);
        let pair = pair.map(|molecule| Buffers::holding(&mut random, &molecule));
        differences += usize::from(compare_same(&Reference, &faulty, &pair).is_err());
        broken_laws += usize::from(laws::check_same(&faulty, &pair).is_err());
    }
    (differences, broken_laws)
}

#[test]
fn faults_in_pairs_are_seen() {
    assert_eq!(seen_in_pairs("none"), (0, 0));
    assert!(seen_in_pairs("19 as no").0 > 0);
    for fault in [
        "another renumbering",
        "row left at no",
        "marks compared",
        "yes to all",
        "no to all",
    ] {
        let (differences, broken_laws) = seen_in_pairs(fault);
        assert!(differences > 0 && broken_laws > 0, "{fault}");
    }
}

#[test]
fn the_pairs_reach_every_answer() {
    let mut random = Random::new(2);
    let mut answers = BTreeSet::new();
    for _ in 0..2000 {
        let pair = drawings::pair(&mut random, Effort::Hard);
        let [mut first, mut second] = pair.map(|molecule| Buffers::holding(&mut random, &molecule));
        let answer = Reference.same(&mut first, &mut second);
        answers.insert((answer.code, answer.numbers[0]));
    }
    let expected = [(0, 0), (0, 1), (1, 0), (13, 0), (19, 0)];
    assert_eq!(answers, BTreeSet::from(expected));
}

#[test]
fn faults_are_seen() {
    assert_eq!(seen("none"), (0, 0));
    let faults = [
        "over-full at 11",
        "over-full once",
        "place of 10",
        "dirty table",
        "row at the end",
        "early end",
        "13 as 1",
        "dirty codes",
        "the highest first",
        "list kept",
        "row cleared",
        "15 before 14",
        "renumbering",
        "sides exchanged",
        "place of 23",
        "the hydrogen last",
        "output kept",
        "length at 14",
        "place after reading",
    ];
    for fault in faults {
        let (differences, _) = seen(fault);
        assert!(differences > 0, "{fault}");
    }
    assert!(seen("row at the end").1 > 0);
    assert!(seen("renumbering").1 > 0);
    assert!(seen("the hydrogen last").1 > 0);
}
