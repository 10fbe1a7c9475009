//! Tetrahedral marks: the texts of the readings, all orders of four neighbours, and round trips.

use balsa_reference::tables::{self, Counts, Tables, ATOM_TABLE, BOND_TABLE, ROW};
use balsa_reference::{
    first, implied_hydrogens, kekulize, read, write, Atom, Bond, Code, Kind, Mark, Molecule,
    ATOM_CELLS,
};

fn molecule(text: &str) -> Molecule {
    read(text.as_bytes()).unwrap_or_else(|refusal| panic!("{text}: {refusal:?}"))
}

/// The numbers of the marks of a text's atoms that have one.
fn marks(text: &str) -> Vec<u8> {
    let atoms = molecule(text).atoms.into_iter();
    let marks = atoms.map(|atom| atom.mark as u8);
    marks.filter(|&mark| mark != 0).collect()
}

fn refusal(text: &str) -> (u8, usize) {
    let refusal = read(text.as_bytes()).expect_err(text);
    (refusal.code.number(), refusal.place)
}

fn written(molecule: &Molecule) -> String {
    String::from_utf8(write(molecule).unwrap().text).unwrap()
}

#[test]
fn marks_are_stored_by_the_bond_numbers() {
    for (text, mark) in [
        ("[C@](F)(Cl)(Br)I", 1),
        ("[C@@](F)(Cl)(Br)I", 2),
        ("F[C@](Cl)(Br)I", 1),
        ("N[C@@H](C)C(=O)O", 1),
        ("N[C@H](C)C(=O)O", 2),
        ("[C@H](F)(Cl)Br", 1),
        ("F[C@](Cl)1Br.I1", 1),
        ("F[C@]1(Cl)Br.I1", 1),
        ("F.[C@H](Cl)(Br)I", 1),
        ("F(.[C@H](Cl)(Br)I)", 1),
        ("F[C@H]12.Cl1.Br2", 2),
        ("F[C@H]12.Br2.Cl1", 1),
        ("F[C@H]21.Br2.Cl1", 2),
        ("Cl1.Br2.F[C@H]12", 2),
        ("Cl1.Br2.F[C@H]21", 2),
        // the number 1 is used twice at one atom
        ("F1.[C@]112Cl.Br1.I2", 1),
        ("F1.[C@]121Cl.Br1.I2", 2),
        ("C[S@](=O)(=O)C", 1),
        ("[*@](F)(Cl)(Br)I", 1),
        ("C[c@]1(C)CC1", 1),
        ("[13C@@H+:7](F)(Cl)Br", 2),
    ] {
        assert_eq!(marks(text), [mark], "{text}");
    }
}

#[test]
fn refusals_of_marks() {
    for text in [
        "[C@]",
        "[C@H]",
        "F[C@H]F",
        "F[C@](F)F",
        "F[C@](F)(F)(F)F",
        "F[C@H](F)(F)F",
        "C[S@](=O)C",
        "[C@H2](F)Cl",
        "[C@@H4]",
        "[C@].c1cccc1",
        "C[N@]1CC1",
    ] {
        assert_eq!(refusal(text), (23, 0), "{text}");
    }
    assert_eq!(refusal("C/C.[C@]"), (21, 0));
    assert_eq!(refusal("[C@].cc"), (22, 0));
    assert_eq!(refusal("[C@]1"), (10, 4));
    assert_eq!(refusal("[C@@@]"), (3, 4));
    assert_eq!(refusal("[C@TH1]"), (3, 3));
    assert_eq!(refusal("[CH@]"), (3, 3));
    assert!(read(b"[H][C@]([H])([H])[H]").is_ok());
    assert!(read(b"C[C@](C)(C)C").is_ok());
}

#[test]
fn marks_are_written_by_the_order_in_the_text() {
    for (text, expected) in [
        ("N[C@@H](C)C(=O)O", "N[C@@H](C)C(=O)O"),
        ("[C@](F)(Cl)(Br)I", "[C@](F)(Cl)(Br)I"),
        ("F[C@](Cl)1Br.I1", "F[C@](Cl)(Br)I"),
        ("F[C@H]12.Cl1.Br2", "F[C@H](Cl)Br"),
        ("F[C@H]12.Br2.Cl1", "F[C@@H](Br)Cl"),
        ("C1[C@H]2CC1C2", "C1[C@H]2CC1C2"),
        ("C[C@@H]1CO1", "C[C@@H]1CO1"),
        ("C(C1)[C@H]1F", "C1C[C@@H]1F"),
        ("C[C@](C)(C)C", "C[C@](C)(C)C"),
    ] {
        assert_eq!(written(&molecule(text)), expected, "{text}");
    }
}

/// Whether an order is an odd number of swaps from the ascending one: its pairs out of order are odd.
fn is_odd(order: &[usize]) -> bool {
    let pairs = order.iter().enumerate();
    let out_of_order = pairs.map(|(place, item)| {
        let later = &order[place + 1..];
        later.iter().filter(|&other| other < item).count()
    });
    out_of_order.sum::<usize>() % 2 == 1
}

fn turned_if(mark: Mark, is_odd: bool) -> Mark {
    if is_odd {
        mark.turned()
    } else {
        mark
    }
}

/// The mark of the only marked atom, whose neighbours differ in element or extension, as it refers to
/// them in ascending order of these.
fn hand(molecule: &Molecule) -> Mark {
    let is_marked = |atom: &Atom| atom.mark != Mark::None;
    let center = molecule.atoms.iter().position(is_marked).unwrap();
    let others = molecule.bonds.iter().filter_map(|bond| match bond.ends() {
        (one, other) if one == center => Some(other),
        (one, other) if other == center => Some(one),
        _ => None,
    });
    let name = |element: u8, extension: u16| 10_000 * usize::from(element) + usize::from(extension);
    let names = others.map(|other| {
        let Atom {
            element, extension, ..
        } = molecule.atoms[other];
        name(element, extension)
    });
    let hydrogen = (molecule.atoms[center].hydrogens == 1).then_some(name(1, 0));
    let order: Vec<usize> = hydrogen.into_iter().chain(names).collect();
    turned_if(molecule.atoms[center].mark, is_odd(&order))
}

/// Texts that are known as spellings of one drawing, those of OpenSMILES among them.
#[test]
fn spellings_of_one_drawing() {
    let drawings: [&[&str]; 4] = [
        &[
            "N[C@](Br)(O)C",
            "Br[C@](O)(N)C",
            "O[C@](Br)(C)N",
            "Br[C@](C)(O)N",
            "C[C@](Br)(N)O",
            "Br[C@](N)(C)O",
            "C[C@@](Br)(O)N",
            "Br[C@@](N)(O)C",
            "[C@@](C)(Br)(O)N",
            "[C@@](Br)(N)(O)C",
        ],
        &[
            "FC1[CH2:1][C@](Br)(Cl)[CH2:2]CC1",
            "[C@]1(Br)(Cl)[CH2:2]CCC(F)[CH2:1]1",
        ],
        // L-alanine
        &[
            "N[C@@H]([CH3:1])[C:2](=O)O",
            "[CH3:1][C@H](N)[C:2](=O)O",
            "O[C:2](=O)[C@@H](N)[CH3:1]",
            "[H][C@](N)([CH3:1])[C:2](=O)O",
            "[C@H](N)([CH3:1])[C:2](=O)O",
        ],
        &["[F:1][C@H](Cl)Br", "[C@]1(Cl)(Br)[H].[F:1]1"],
    ];
    for spellings in drawings {
        let hands: Vec<Mark> = spellings.iter().map(|text| hand(&molecule(text))).collect();
        assert!(hands.iter().all(|hand| *hand == hands[0]), "{hands:?}");
    }
}

/// All orders of some items.
fn orders<T: Copy>(items: &[T]) -> Vec<Vec<T>> {
    let Some((first, rest)) = items.split_first() else {
        return vec![Vec::new()];
    };
    let shorter = orders(rest).into_iter();
    let placed = shorter.flat_map(|order| {
        (0..=order.len()).map(move |place| {
            let mut order = order.clone();
            order.insert(place, *first);
            order
        })
    });
    placed.collect()
}

/// A text of an atom `[C@]` and four neighbours, and the elements of its neighbours in order.
struct Sample {
    text: String,
    elements: Vec<usize>,
}

const HALOGENS: [(&str, usize, &str); 4] = [
    ("F", 9, "1"),
    ("Cl", 17, "2"),
    ("Br", 35, "3"),
    ("I", 53, "%10"),
];

/// Texts with all orders of four neighbours: as children, behind a preceding atom, as bridges that
/// open there, that close there, or either, and mixed.
fn samples() -> Vec<Sample> {
    let mut samples = Vec::new();
    for order in orders(&HALOGENS) {
        let elements: Vec<usize> = order.iter().map(|(_, element, _)| *element).collect();
        let [a, b, c, d] = [0, 1, 2, 3].map(|place| order[place].0);
        let digits: Vec<&str> = order.iter().map(|(_, _, digit)| *digit).collect();
        let bridges = digits.concat();
        let (two, three) = (digits[..2].concat(), digits[1..].concat());
        let (first, second) = (digits[0], digits[1]);
        for text in [
            format!("[C@]({a})({b})({c}){d}"),
            format!("{a}[C@]({b})({c}){d}"),
            format!("{a}([C@]({b})({c})({d}))"),
            format!("[C@]{bridges}.F1.Cl2.Br3.I%10"),
            format!("F1.Cl2.Br3.I%10.[C@]{bridges}"),
            format!("I%10.Cl2.[C@]{bridges}.Br3.F1"),
            format!(
                "{a}[C@]{three}.{b}{second}.{d}{}.{c}{}",
                digits[3], digits[2]
            ),
            format!("[C@]{two}({c}){d}.{b}{second}.{a}{first}"),
            format!("[C@]({c}){two}{d}.{a}{first}.{b}{second}"),
            format!("{b}{second}.{a}[C@]{second}({c}){d}"),
            format!("{b}{second}.{a}[C@]({c}){second}{d}"),
        ] {
            let elements = elements.clone();
            samples.push(Sample { text, elements });
        }
    }
    samples
}

/// The same with a hydrogen, which stands first or behind the preceding atom.
fn samples_with_a_hydrogen() -> Vec<Sample> {
    let mut samples = Vec::new();
    for order in orders(&HALOGENS[..3]) {
        let [a, b, c] = [0, 1, 2].map(|place| order[place].0);
        let [one, two, three] = [0, 1, 2].map(|place| order[place].2);
        let elements = |place| {
            let mut elements: Vec<usize> = order.iter().map(|(_, element, _)| *element).collect();
            elements.insert(place, 1);
            elements
        };
        for (text, place) in [
            (format!("[C@H]({a})({b}){c}"), 0),
            (format!("{a}[C@H]({b}){c}"), 1),
            (format!("I.[C@H]({a})({b}){c}"), 0),
            (format!("I(.[C@H]({a})({b}){c})"), 0),
            (format!("[C@H]{one}{two}{three}.F1.Cl2.Br3"), 0),
            (format!("F1.Cl2.Br3.[C@H]{one}{two}{three}"), 0),
            (format!("{a}[C@H]{two}{three}.{b}{two}.{c}{three}"), 1),
            (format!("{a}[C@H]({c}){two}.{b}{two}"), 1),
            (format!("{b}{two}.{a}[C@H]{two}{c}"), 1),
        ] {
            let elements = elements(place);
            samples.push(Sample { text, elements });
        }
    }
    samples
}

/// Each text is read as its order says, and both marks survive writing and reading.
#[test]
fn every_order_of_four_neighbours() {
    let mut seen = [0; 2];
    for sample in samples().into_iter().chain(samples_with_a_hydrogen()) {
        for (symbol, mark) in [("@", Mark::Counterclockwise), ("@@", Mark::Clockwise)] {
            let text = sample.text.replace('@', symbol);
            let molecule = molecule(&text);
            let expected = turned_if(mark, is_odd(&sample.elements));
            assert_eq!(hand(&molecule), expected, "{text}");
            let again = written(&molecule);
            let back = read(again.as_bytes()).unwrap();
            assert_eq!(hand(&back), expected, "{text} {again}");
            assert_eq!(written(&back), again, "{text}");
            seen[usize::from(again.contains("@@"))] += 1;
        }
    }
    assert_eq!(seen, [24 * 11 + 6 * 9; 2]);
}

/// All orders of the four bonds in the table: the text tells the same drawing, and its mark turns
/// with the order.
#[test]
fn every_order_of_four_bonds() {
    for center in [0, 2, 4] {
        let others: Vec<usize> = (0..5).filter(|&atom| atom != center).collect();
        for order in orders(&others) {
            let bond = |&other: &usize| Bond::between(center, other, Kind::Elided);
            let mut molecule = Molecule {
                atoms: vec![Atom::default(); 5],
                bonds: order.iter().map(bond).collect(),
            };
            for (&other, (_, element, _)) in others.iter().zip(HALOGENS) {
                molecule.atoms[other].element = element as u8;
            }
            molecule.atoms[center].element = 6;
            molecule.atoms[center].mark = Mark::Counterclockwise;
            let expected = turned_if(Mark::Counterclockwise, is_odd(&order));
            assert_eq!(hand(&molecule), expected);
            let text = written(&molecule);
            assert_eq!(hand(&read(text.as_bytes()).unwrap()), expected, "{text}");
            // the walk begins at the center and goes by bond number: nothing turns
            assert!(center > 0 || !text.contains("@@"), "{text}");
        }
    }
}

/// A small generator of numbers.
struct Numbers(u64);

impl Numbers {
    fn below(&mut self, limit: usize) -> usize {
        self.0 ^= self.0 << 13;
        self.0 ^= self.0 >> 7;
        self.0 ^= self.0 << 17;
        (self.0 >> 33) as usize % limit
    }
}

/// A random molecule in one or more pieces, its bonds in any order, with a mark at every atom that
/// can have one.
fn random_molecule(numbers: &mut Numbers) -> Molecule {
    let atoms = 2 + numbers.below(12);
    let mut ends: Vec<(usize, usize)> = Vec::new();
    let mut degrees = vec![0; atoms];
    let tries = atoms + numbers.below(2 * atoms);
    for turn in 0..tries {
        let one = (turn + 1) % atoms;
        let other = match turn + 1 < atoms {
            true => numbers.below(turn + 1),
            false => numbers.below(atoms),
        };
        let pair = (one.min(other), one.max(other));
        let is_free = degrees[one] < 4 && degrees[other] < 4;
        if one != other && is_free && !ends.contains(&pair) && numbers.below(20) > 0 {
            degrees[one] += 1;
            degrees[other] += 1;
            ends.push(pair);
        }
    }
    for last in (1..ends.len()).rev() {
        ends.swap(last, numbers.below(last + 1));
    }
    let mut atom = |&degree: &u8| {
        let hydrogens = match degree {
            3 => 1,
            degree => implied_hydrogens(6, false, degree.into()),
        };
        let can_be_marked = degree + hydrogens == 4 && hydrogens < 2;
        let marks = [Mark::Counterclockwise, Mark::Clockwise, Mark::None];
        Atom {
            element: 6,
            hydrogens,
            mark: if can_be_marked {
                marks[numbers.below(3)]
            } else {
                Mark::None
            },
            ..Atom::default()
        }
    };
    Molecule {
        atoms: degrees.iter().map(&mut atom).collect(),
        bonds: ends
            .iter()
            .map(|&(one, other)| Bond::between(one, other, Kind::Elided))
            .collect(),
    }
}

/// A mark that is read back is turned exactly where the old and the new numbers of its atom's bonds
/// are an odd number of swaps apart; the text that is written then is the same.
#[test]
fn random_round_trips() {
    let mut numbers = Numbers(88_172_645_463_325_252);
    let mut seen = [0; 2];
    for _ in 0..30_000 {
        let molecule = random_molecule(&mut numbers);
        let written = write(&molecule).unwrap();
        let shown = String::from_utf8_lossy(&written.text);
        let back = read(&written.text).unwrap_or_else(|no| panic!("{shown}: {no:?}"));
        let renumber = |atom: usize| usize::from(written.renumbering[atom]);
        for (number, atom) in molecule.atoms.iter().enumerate() {
            let bonds = molecule.bonds.iter();
            let new_numbers: Vec<usize> = bonds
                .filter(|bond| bond.first == number || bond.second == number)
                .map(|bond| {
                    let (one, other) = (renumber(bond.first), renumber(bond.second));
                    let ends = (one.min(other), one.max(other));
                    let found = back.bonds.iter().position(|new| new.ends() == ends);
                    found.expect("the bond is there")
                })
                .collect();
            let is_odd = is_odd(&new_numbers);
            let expected = Atom {
                mark: turned_if(atom.mark, is_odd),
                ..*atom
            };
            assert_eq!(back.atoms[renumber(number)], expected, "{number} {shown}");
            seen[usize::from(is_odd)] += usize::from(atom.mark != Mark::None);
        }
        assert_eq!(write(&back).unwrap().text, written.text, "{shown}");
    }
    assert!(seen[0] > 20_000 && seen[1] > 20_000, "{seen:?}");
}

#[test]
fn kekulizing_keeps_the_mark() {
    let mut pyridine = molecule("C[C@@H](F)c1ccncc1");
    let before: Vec<Mark> = pyridine.atoms.iter().map(|atom| atom.mark).collect();
    let row = first(&pyridine).unwrap();
    kekulize(&mut pyridine, &row).unwrap();
    let after: Vec<Mark> = pyridine.atoms.iter().map(|atom| atom.mark).collect();
    assert_eq!(before[1], Mark::Counterclockwise);
    assert_eq!(before, after);
    assert_eq!(written(&pyridine), "C[C@@H](F)C1=CC=NC=C1");
}

/// The seventh cell is 0, 1 or 2, and the atom has four neighbours.
#[test]
fn soundness_of_marks() {
    let valid = |text: &str, mark: i32| {
        let molecule = molecule(text);
        let (mut atoms, mut bonds) = (vec![0; ATOM_TABLE], vec![0; BOND_TABLE]);
        tables::fill(&molecule, &mut atoms, &mut bonds);
        assert_eq!(atoms[ATOM_CELLS + 6], molecule.atoms[1].mark as i32);
        atoms[ATOM_CELLS + 6] = mark;
        let counts: Counts = tables::counts(&molecule);
        let tables = Tables {
            atoms: &atoms,
            bonds: &bonds,
            counts,
        };
        let answer = tables::check(tables);
        assert_eq!(tables::first(tables, &mut [9; ROW]), answer);
        assert!([Ok(()), Err(Code::InvalidTables)].contains(&answer));
        answer.is_ok()
    };
    for text in ["F[C@](Cl)(Br)I", "F[CH](Cl)Br", "CC(C)(C)C"] {
        for mark in 0..=2 {
            assert!(valid(text, mark), "{text} {mark}");
        }
        for mark in [-1, 3, i32::MIN, i32::MAX] {
            assert!(!valid(text, mark), "{text} {mark}");
        }
    }
    for text in ["FC", "FCF", "F[CH2]Br", "F[C](F)F", "FC(F)(F)(F)F", "FC=C"] {
        assert!(valid(text, 0), "{text}");
        assert!(!valid(text, 1) && !valid(text, 2), "{text}");
    }
}
