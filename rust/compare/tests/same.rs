//! The same compound, drawn differently: the second program's search against trying everything, the
//! proved library against the second program on the paper's edges, on buffers and on the corpus.

use balsa_reference::tables::{self, counts, fill, Tables, ATOM_TABLE, BOND_TABLE};
use balsa_reference::{read, same_by_search, same_by_trying, Molecule};
use compare::buffers::Buffers;
use compare::drawings::{other_drawing, pair, renumbered};
use compare::implementation::{Answer, Implementation, Reference};
use compare::molecules::Effort;
use compare::pair::compare_same;
use compare::proved::Proved;
use compare::random::Random;
use compare::{corpus, laws};

/// Whether tables of the molecule are sound.
fn is_sound(molecule: &Molecule) -> bool {
    let (mut atoms, mut bonds) = (vec![0; ATOM_TABLE], vec![0; BOND_TABLE]);
    fill(molecule, &mut atoms, &mut bonds);
    let tables = Tables {
        atoms: &atoms,
        bonds: &bonds,
        counts: counts(molecule),
    };
    tables::check(tables).is_ok()
}

#[test]
fn the_search_finds_what_trying_all_finds() {
    let mut random = Random::new(21);
    let (mut tried, mut same) = (0, 0);
    while tried < 4000 {
        let [one, other] = pair(&mut random, Effort::Plain);
        let is_small = one.atoms.len().max(other.atoms.len()) <= 6;
        if is_small && is_sound(&one) && is_sound(&other) {
            let all = same_by_trying(&one, &other);
            assert_eq!(same_by_search(&one, &other), all, "{one:?}\n{other:?}");
            tried += 1;
            same += usize::from(all.is_some());
        }
    }
    assert!(same > tried / 4 && same < 3 * tried / 4, "{same}");
}

/// Both implementations on two molecules, both ways round: their answer, if it is the same one.
fn asked(one: &Molecule, other: &Molecule) -> Answer {
    let molecules = [one, other].map(Buffers::clean);
    let answer = compare_same(&Reference, &Proved, &molecules);
    let answer = answer.unwrap_or_else(|differing| panic!("{differing:?}\n{one:?}\n{other:?}"));
    laws::check_same(&Proved, &molecules).unwrap_or_else(|law| panic!("{law}\n{one:?}\n{other:?}"));
    answer
}

const SAME: usize = 1;
const DIFFERENT: usize = 0;

fn molecule(text: &str) -> Molecule {
    read(text.as_bytes()).expect(text)
}

/// What is said of two texts, whatever their numbers.
fn assert_told(one: &str, other: &str, told: usize) {
    let (first, second) = (molecule(one), molecule(other));
    assert_eq!(asked(&first, &second), Answer::of(told), "{one} {other}");
    let mut random = Random::new(1);
    let (first, second) = (
        renumbered(&mut random, &first),
        renumbered(&mut random, &second),
    );
    assert_eq!(asked(&first, &second), Answer::of(told), "{one} {other}");
}

const FULLERENE: &str =
    "c12c3c4c5c1c1c6c7c2c2c8c3c3c9c4c4c%10c5c5c1c1c6c6c%11c7c2c2c7c8c3c3c8c9c4c4c9\
                         c%10c5c5c1c1c6c6c%11c2c2c7c3c3c8c4c4c9c5c1c1c6c2c3c41";

#[test]
fn texts_of_the_paper_and_its_edges() {
    assert_told("c1ccccc1", "C=1C=CC=CC1", SAME);
    assert_told("c1ccccc1", "C1CCCCC1", DIFFERENT);
    assert_told("CC", "C-C", SAME);
    assert_told("F/C=C/F", r"F/C=C\F", SAME);
    assert_told("F/C=C/F", "FC=CF", SAME);
    assert_told("N[C@@H](C)C(=O)O", "N[C@H](C)C(=O)O", SAME);
    assert_told("N[C@@H](C)C(=O)O", "NC(C)C(=O)O", SAME);
    assert_told("C[C@](N)(O)F", "[C@](C)(O)(N)F", SAME);
    assert_told(r"C=C/c(\C=C)cC", "C=CC(C=C)=CC", SAME);
    assert_told("", "", SAME);
    assert_told("", "C", DIFFERENT);
    assert_told("Cc1c(C)cccc1", "CC1=C(C)C=CC=C1", SAME);
    assert_told("Cc1c(C)cccc1", "CC=1C(C)=CC=CC1", SAME);
    assert_told("CC1=C(C)C=CC=C1", "CC=1C(C)=CC=CC1", DIFFERENT);
    assert_told(
        "[n+2]1[n+2][n+2][n+2]1",
        "[N+2]1#[N+2][N+2]#[N+2]1",
        DIFFERENT,
    );
    assert_told("[n+2]1[n+2][n+2][n+2]1", "[N+2]1=[N+2][N+2]=[N+2]1", SAME);
    assert_told("C=cc=C", "C=C=C=C", SAME);
    assert_told("C=cc=C", "C=CC=C", DIFFERENT);
    assert_told("[c]1=[c][c]=[c]1", "[c]1[c]=[c][c]=1", SAME);
    assert_told("[13CH4]", "C", DIFFERENT);
    assert_told("[CH4:1]", "C", DIFFERENT);
    assert_told("[CH3+]", "[CH3-]", DIFFERENT);
    assert_told("[CH3]", "C", DIFFERENT);
}

#[test]
fn many_alike_atoms() {
    let single = "C.".repeat(63) + "C";
    assert_told(&single, &single, SAME);
    assert_told(&single, &single.replacen("C", "N", 1), DIFFERENT);
    let ethane = "CC.".repeat(31) + "CC";
    assert_told(&ethane, &ethane, SAME);
    let chain = "C".repeat(64);
    assert_told(&chain, &chain, SAME);
    let star = format!("*{}*", "(*)".repeat(62));
    assert_told(&star, &star, SAME);
    assert_told(&star, &star.replacen("(*)", "([*+])", 1), DIFFERENT);
}

/// C60 against itself and against drawings of it, and two of these.
#[test]
fn a_fullerene() {
    let fullerene = molecule(FULLERENE);
    let mut random = Random::new(3);
    let drawn = other_drawing(&mut random, &fullerene);
    let mut numbered = renumbered(&mut random, &drawn);
    assert_eq!(asked(&fullerene, &fullerene), Answer::of(SAME));
    assert_eq!(asked(&fullerene, &drawn), Answer::of(SAME));
    assert_eq!(asked(&drawn, &numbered), Answer::of(SAME));
    numbered.atoms[0].charge = 1;
    assert_eq!(asked(&drawn, &numbered), Answer::of(DIFFERENT));
}

/// A ring of selected carbon atoms: with an odd number it has no matching.
fn ring(count: usize) -> Molecule {
    let mut ring = molecule(&format!("C1{}1", "C".repeat(count - 1)));
    for atom in &mut ring.atoms {
        atom.selected = true;
        atom.hydrogens = 1;
    }
    ring
}

#[test]
fn without_a_matching_there_is_no_like() {
    let mut drawn = ring(5);
    drawn
        .atoms
        .iter_mut()
        .for_each(|atom| atom.selected = false);
    for (one, other) in [
        (ring(5), ring(5)),
        (ring(5), drawn.clone()),
        (drawn.clone(), ring(5)),
    ] {
        assert_eq!(asked(&one, &other), Answer::of(DIFFERENT));
    }
    assert_eq!(asked(&drawn, &drawn), Answer::of(SAME));
}

fn refused(code: u8) -> Answer {
    Answer {
        code,
        ..Answer::default()
    }
}

#[test]
fn up_to_64_atoms() {
    assert_eq!(asked(&ring(64), &ring(64)), Answer::of(SAME));
    let nothing = Molecule::default();
    for (one, other) in [(65, 64), (64, 65), (65, 65), (1000, 3)] {
        assert_eq!(asked(&ring(one), &ring(other)), refused(19));
        assert_eq!(asked(&nothing, &ring(one.max(65))), refused(19));
    }
    // 13 comes before 19, for either molecule
    let mut invalid = ring(3);
    invalid.bonds[2].second = 3;
    assert_eq!(asked(&ring(65), &invalid), refused(13));
    assert_eq!(asked(&invalid, &ring(65)), refused(13));
    assert_eq!(asked(&invalid, &invalid), refused(13));
}

/// One cell too few in any of the seven buffers gives 1, whatever else is wrong.
#[test]
fn short_buffers_change_nothing() {
    let long = [Buffers::clean(&ring(65)), Buffers::clean(&ring(4))];
    for short in 0..7 {
        let mut lent = long.clone();
        let [first, second] = &mut lent;
        match short {
            0 => drop(first.atoms.pop()),
            1 => drop(first.bonds.pop()),
            2 => drop(second.atoms.pop()),
            3 => drop(second.bonds.pop()),
            4 => drop(first.row.pop()),
            5 => drop(second.row.pop()),
            _ => drop(first.renumbering.pop()),
        }
        first.row.fill(7);
        second.row.fill(7);
        first.renumbering.fill(7);
        let answer = compare_same(&Reference, &Proved, &lent).expect("no difference");
        assert_eq!(answer, refused(1), "{short}");
        let [mut first, mut second] = lent.clone();
        Proved.same(&mut first, &mut second);
        assert!([first, second] == lent, "{short}");
    }
}

#[test]
fn every_text_of_the_corpus_and_another_drawing() {
    let mut random = Random::new(2);
    for molecule in corpus::molecules() {
        let drawn = other_drawing(&mut random, &molecule);
        assert_eq!(asked(&molecule, &drawn), Answer::of(SAME));
    }
}

/// Marks are left aside.
#[test]
fn every_marked_text_and_its_mirror_image() {
    let mut random = Random::new(4);
    let molecules = corpus::marked();
    assert!(molecules.len() > 500, "{}", molecules.len());
    for molecule in molecules {
        let mut mirrored = other_drawing(&mut random, &molecule);
        for atom in &mut mirrored.atoms {
            atom.mark = atom.mark.turned();
        }
        assert_eq!(asked(&molecule, &mirrored), Answer::of(SAME));
    }
}

#[test]
fn texts_of_one_formula() {
    let mut random = Random::new(3);
    let molecules = corpus::molecules();
    let pairs = corpus::of_one_formula(&molecules, 3);
    let drawn = |place: usize, random: &mut Random| other_drawing(random, &molecules[place]);
    let mut same = 0;
    for &(one, other) in &pairs {
        let answer = asked(&molecules[one], &drawn(other, &mut random));
        same += usize::from(answer == Answer::of(SAME));
    }
    assert!(
        same > 0 && 2 * same < pairs.len(),
        "{same} of {}",
        pairs.len()
    );
}
