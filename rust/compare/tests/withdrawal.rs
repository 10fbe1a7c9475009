//! Withdrawn in any drawing: the second program's search against trying everything, the proved library
//! against the second program on the texts of the rules, on random registers and on the corpus.

use balsa::register::{MAX_ENTRIES, REGISTER};
use balsa::{Code, Molecule as Read, Refusal, Register, Withdrawn};
use balsa_reference::withdrawal;
use balsa_reference::{are_redrawings, delocalized, folded, read, register, Molecule};
use compare::drawings::{change, redrawing, small};
use compare::molecules::{self, Effort};
use compare::random::Random;
use compare::registers::{self, listed};
use compare::withdrawals::{check_keys, relative, Question};
use compare::{corpus, spelling, texts};
use std::collections::{BTreeMap, BTreeSet};

fn emptied() -> Vec<u8> {
    let mut bytes = vec![0xAA; REGISTER];
    Register::new(&mut bytes).empty().unwrap();
    bytes
}

/// A register of these texts, each with its place as tag.
fn register_of<'t>(texts: impl IntoIterator<Item = &'t [u8]>) -> Vec<u8> {
    let mut bytes = emptied();
    for (tag, text) in (0..).zip(texts) {
        Register::new(&mut bytes).withdraw(tag, text).unwrap();
    }
    bytes
}

fn listed_at(entry: usize) -> Withdrawn {
    let tag = entry as u16;
    Withdrawn::Withdrawn { tag, entry }
}

/// Asks the proved library and the reference; what both say, undecided by neither for want of steps.
fn asked(register: &[u8], text: &[u8]) -> Withdrawn {
    let question = Question {
        register: register.to_vec(),
        text: text.to_vec(),
    };
    let shown = String::from_utf8_lossy(text);
    let said = question.proved();
    assert_eq!(said, question.reference(), "{shown}");
    said.unwrap_or_else(|refusal| panic!("{shown}: {refusal:?}"))
}

/// What is compared of a folded molecule's atom.
fn label(molecule: &Molecule, atom: usize) -> (u8, u16, u8, i8, u32) {
    let sum = molecule.bond_sums()[atom] + u32::from(delocalized(molecule)[atom]);
    let atom = molecule.atoms[atom];
    (atom.element, atom.isotope, atom.hydrogens, atom.charge, sum)
}

/// Whether molecules are redrawings, by trying every renumbering.
fn by_trying(one: &Molecule, other: &Molecule) -> bool {
    let (one, other) = (folded(one), folded(other));
    let is_joined = |molecule: &Molecule, a: usize, b: usize| {
        let ends = (a.min(b), a.max(b));
        molecule.bonds.iter().any(|bond| bond.ends() == ends)
    };
    let mut found = vec![Vec::new()];
    for atom in 0..one.atoms.len() {
        let fits = |images: &Vec<usize>, image: usize| {
            !images.contains(&image)
                && label(&one, atom) == label(&other, image)
                && images
                    .iter()
                    .enumerate()
                    .all(|(a, &b)| is_joined(&one, a, atom) == is_joined(&other, b, image))
        };
        let longer = |images: Vec<usize>| -> Vec<Vec<usize>> {
            let all = 0..other.atoms.len();
            let fitting = all.filter(|&image| fits(&images, image));
            fitting
                .map(|image| [&images[..], &[image]].concat())
                .collect()
        };
        found = found.into_iter().flat_map(longer).collect();
    }
    one.atoms.len() == other.atoms.len() && !found.is_empty()
}

#[test]
fn the_search_finds_what_trying_all_finds() {
    let mut random = Random::new(31);
    let (mut tried, mut same) = (0, 0);
    while tried < 4000 {
        let one = small(&mut random);
        let mut other = one.clone();
        if random.percent(60) {
            change(&mut random, &mut other);
        }
        let other = redrawing(&mut random, &other);
        let all = by_trying(&one, &other);
        assert_eq!(are_redrawings(&one, &other), all, "{one:?}\n{other:?}");
        tried += 1;
        same += usize::from(all);
    }
    assert!(same > tried / 4 && same < 9 * tried / 10, "{same}");
}

/// What is said of the first text where the second is withdrawn, both ways round.
fn assert_told(one: &str, other: &str, is_withdrawn: bool) {
    let said = if is_withdrawn {
        listed_at(0)
    } else {
        Withdrawn::Clear
    };
    for (query, body) in [(one, other), (other, one)] {
        let register = register_of([body.as_bytes()]);
        assert_eq!(asked(&register, query.as_bytes()), said, "{query} {body}");
    }
    let keys = [one, other].map(|text| Read::read(text.as_bytes()).unwrap().key());
    assert_eq!(keys[0] == keys[1], is_withdrawn, "{one} {other}");
}

#[test]
fn texts_of_the_rules() {
    for (one, other) in [
        ("CC1=C(C)C=CC=C1", "CC=1C(C)=CC=CC1"),
        ("CC1=C(C)C=CC=C1", "Cc1c(C)cccc1"),
        ("Cc1ccccc1C", "[H]C([H])([H])c1ccccc1C"),
        ("[H]C", "C"),
        ("[CH4:1]", "C"),
        ("[H]C([H])([H])[H]", "C"),
        ("[H]c1ccccc1", "C1=CC=CC=C1"),
        ("N[C@@H](C)C(=O)O", "N[C@H](C)C(=O)O"),
        ("F/C=C/F", r"F/C=C\F"),
        ("[H]/C(F)=C/F", "C(F)=CF"),
        ("[NH3+]CC", "CC[N+]([H])([H])[H]"),
        ("C.O", "[OH2:3].[H]C"),
        ("", ""),
        ("c1ccc2ccccc2c1", "C1=CC=C2C=CC=CC2=C1"),
        ("n1ccccc1", "C1=NC=CC=C1"),
        ("CC1=C(C)C=C1", "CC=1C(C)=CC1"),
    ] {
        assert_told(one, other, true);
    }
    for (one, other) in [
        ("[2H]C", "C"),
        ("[2H]C", "[H]C"),
        ("[H+].C", "C"),
        ("[H]", "[H][H]"),
        ("[HH]", "[H][H]"),
        ("CC", "C=C"),
        ("CCO", "COC"),
        ("Cc1ccccc1C", "Cc1cccc(C)c1"),
        ("[NH4+].[Cl-]", "N.Cl"),
        ("C", "C.C"),
        ("C", ""),
        ("CC(=O)C", "CC(O)=C"),
        ("[13CH4]", "C"),
        ("C[N+](=O)[O-]", "CN(=O)=O"),
    ] {
        assert_told(one, other, false);
    }
}

/// A tenth hydrogen stays an atom; nine fit.
#[test]
fn at_most_nine_hydrogens() {
    assert_told("[UH8][H]", "[UH9]", true);
    assert_told("[UH9][H]", "[UH9]", false);
    assert_told("[UH8]([H])[H]", "[UH9][H]", true);
    assert_told(
        "[U]([H])([H])([H])([H])([H])([H])([H])([H])([H])[H]",
        "[H][UH9]",
        true,
    );
}

/// Folding, as the rules say it, twice is once; and it keeps bond sum and hydrogens together.
#[test]
fn folding() {
    let shown = |text: &str| {
        let folded = folded(&read(text.as_bytes()).unwrap());
        String::from_utf8(balsa_reference::write(&folded).unwrap().text).unwrap()
    };
    assert_eq!(shown("[H]C([H])([H])[CH2:5]O[H]"), "CCO");
    assert_eq!(shown("[2H]C([H])[3H]"), "[2H]C[3H]");
    assert_eq!(shown("[H][H].[H+].[HH]"), "[H][H].[H+].[HH]");
    assert_eq!(shown("C[H-]C"), "C[H-]C");
    assert_eq!(shown(r"[H]/C(F)=C(/[H])F"), "C(F)=CF");
    assert_eq!(shown("[H]1.[H]2.O12"), "O");
    let mut random = Random::new(32);
    for _ in 0..3000 {
        let molecule = molecules::molecule(&mut random, Effort::Plain);
        let molecule = redrawing(&mut random, &molecule);
        let once = folded(&molecule);
        assert_eq!(folded(&once), once);
        let total = |molecule: &Molecule| {
            let hydrogens = molecule
                .atoms
                .iter()
                .map(|atom| usize::from(atom.hydrogens));
            let alone = molecule.atoms.iter().filter(|atom| atom.element == 1);
            hydrogens.sum::<usize>() + alone.count()
        };
        assert_eq!(total(&once), total(&molecule));
        assert!(are_redrawings(&molecule, &once));
    }
}

/// Random registers and questions: both say the same, every answer and refusal among them.
#[test]
fn random_questions() {
    let mut random = Random::new(33);
    let mut told: BTreeMap<String, usize> = BTreeMap::new();
    let mut spent = 0;
    for case in 0..6000 {
        let question = Question::random(&mut random, Effort::Plain);
        let said = question.compare();
        let (said, alike) = said.unwrap_or_else(|why| panic!("case {case}: {why}\n{question:?}"));
        spent += usize::from(alike > 0);
        let name = match said {
            Err((number, _)) => number.to_string(),
            Ok(Withdrawn::Clear) => "clear".into(),
            Ok(Withdrawn::Withdrawn { .. }) => "withdrawn".into(),
            Ok(Withdrawn::Undecided { .. }) => "undecided".into(),
        };
        *told.entry(name).or_default() += 1;
    }
    println!("{told:?}, {spent} undecided for one key");
    for name in ["clear", "withdrawn", "undecided", "1", "3", "11", "17"] {
        assert!(told.get(name).is_some_and(|&count| count > 9), "{told:?}");
    }
    assert!(spent < 60, "{spent}");
}

/// A drawing does not matter: redrawings get the same answer of one register.
#[test]
fn redrawings_get_one_answer() {
    let mut random = Random::new(40);
    let mut told = [0; 2];
    for _ in 0..3000 {
        let Question { register, text } = Question::random(&mut random, Effort::Plain);
        let Ok(molecule) = read(&text) else {
            continue;
        };
        let drawn = redrawing(&mut random, &molecule);
        let drawn = spelling::text(&mut random, &drawn);
        let ask = |text: &[u8]| Register::new(&register[..]).withdrawn(text);
        if let (Ok(one), Ok(other)) = (ask(&text), ask(&drawn)) {
            let shown = [&text, &drawn].map(|text| String::from_utf8_lossy(text));
            assert_eq!(one, other, "{shown:?}");
            told[usize::from(one.is_clear())] += 1;
        }
    }
    assert!(told.iter().all(|&count| count > 200), "{told:?}");
}

/// Wrong answers are seen: the last entry left out, undecided told as clear, bodies that are not read
/// skipped, the last entry found in place of the first, a refusal told as clear.
#[test]
fn wrong_answers_are_seen() {
    let mut random = Random::new(39);
    let mut seen = [0; 5];
    for _ in 0..2000 {
        let question = Question::random(&mut random, Effort::Plain);
        let right = question.proved();
        let Ok(bodies) = listed(&question.register) else {
            continue;
        };
        let without = |keep: &dyn Fn(usize, &[u8]) -> bool| {
            let mut register = emptied();
            for (entry, (tag, body)) in bodies.iter().enumerate() {
                if keep(entry, body) {
                    register::add(&mut register, *tag, body).unwrap();
                }
            }
            let text = question.text.clone();
            Question { register, text }.proved()
        };
        let last = (1..bodies.len()).rev().find_map(|entry| {
            let found = without(&|other, _| other >= entry);
            match found {
                Ok(Withdrawn::Withdrawn { tag, .. }) => Some(Withdrawn::Withdrawn { tag, entry }),
                _ => None,
            }
        });
        let is_undecided = matches!(right, Ok(Withdrawn::Undecided { .. }));
        let wrong = [
            without(&|entry, _| entry + 1 < bodies.len()),
            if is_undecided {
                Ok(Withdrawn::Clear)
            } else {
                right
            },
            without(&|_, body| Read::read(body).is_ok()),
            last.map_or(right, Ok),
            right.or(Ok(Withdrawn::Clear)),
        ];
        for (seen, wrong) in seen.iter_mut().zip(wrong) {
            *seen += usize::from(wrong != right && question.judge(wrong).is_err());
        }
    }
    println!("{seen:?}");
    assert!(seen.iter().all(|&count| count > 20), "{seen:?}");
}

/// Redrawings have equal keys, and where keys differ the molecules are no redrawings.
#[test]
fn keys_of_random_redrawings() {
    let mut random = Random::new(34);
    let mut checked = 0;
    for case in 0..8000 {
        let molecule = match random.percent(50) {
            true => small(&mut random),
            false => molecules::molecule(&mut random, Effort::Plain),
        };
        if let Some(law) = check_keys(&mut random, &molecule) {
            assert_eq!(law, Ok(()), "case {case}");
            checked += 1;
        }
    }
    assert!(checked > 2000, "{checked}");
}

/// Withdrawing, by both: the same refusals in their order, and the same bytes; a refusal changes nothing.
#[test]
fn withdrawing() {
    let mut random = Random::new(35);
    let mut told = BTreeSet::new();
    for _ in 0..4000 {
        let mut bytes = registers::register(&mut random);
        for _ in 0..random.between(1, 8) {
            let text = match random.percent(60) {
                true => {
                    let molecule = molecules::molecule(&mut random, Effort::Plain);
                    relative(&mut random, &molecule)
                }
                false => texts::text(&mut random, Effort::Plain),
            };
            let tag = random.number() as u16;
            let (before, mut expected) = (bytes.clone(), bytes.clone());
            let done = Register::new(&mut bytes).withdraw(tag, &text);
            let should = withdrawal::withdraw(&mut expected, tag, &text);
            let number = |refusal: Refusal| (refusal.code.number(), refusal.place);
            let should = should.map_err(|refusal| (refusal.code.number(), refusal.place));
            assert_eq!(done.map_err(number), should);
            assert!(bytes == expected && (done.is_ok() || bytes == before));
            told.insert(done.map_or_else(|refusal| refusal.code.number(), |()| 0));
        }
    }
    for number in [0, 1, 3, 11, 17, 18] {
        assert!(told.contains(&number), "{told:?}");
    }
}

/// In a register made by emptying and withdrawing alone, with the power gone after any step of the last
/// withdrawal, every body is read, and what is said of any text is as before it or as after it.
#[test]
fn every_cut_of_a_withdrawal() {
    let mut random = Random::new(36);
    for _ in 0..25 {
        let molecule = small(&mut random);
        let mut bytes = emptied();
        for tag in 0..random.below(5) as u16 {
            let _ = Register::new(&mut bytes).withdraw(tag, &relative(&mut random, &molecule));
        }
        let text = relative(&mut random, &molecule);
        let mut whole = bytes.clone();
        if Register::new(&mut whole).withdraw(9, &text).is_err() {
            continue;
        }
        let queries = [0; 6].map(|_| relative(&mut random, &molecule));
        let said = |register: &[u8]| {
            let ask = |query| Register::new(register).withdrawn(query);
            queries.iter().map(|query| ask(query)).collect::<Vec<_>>()
        };
        let (old, new) = (said(&bytes), said(&whole));
        for k in 0..text.len() + 7 {
            Register::new(&mut bytes).step(9, &text, k).unwrap();
            let bodies = listed(&bytes).unwrap();
            assert!(bodies.iter().all(|(_, body)| Read::read(body).is_ok()));
            let expected = if k < text.len() + 6 { &old } else { &new };
            assert_eq!(&said(&bytes), expected, "step {k}");
        }
        assert!(bytes == whole);
    }
}

/// Bodies that are no texts: the first of them is told where no entry is a redrawing, and none where one is.
#[test]
fn bodies_that_are_not_read() {
    let mut random = Random::new(37);
    for _ in 0..400 {
        let mut bytes = emptied();
        let count = random.between(1, 20);
        let bad = random.below(count);
        for entry in 0..count {
            let body: &[u8] = if entry == bad || (entry > bad && random.percent(30)) {
                *random.pick(&[&b"C11"[..], b"\xff\x00", b"cc", b"c1cccc1", b"C "])
            } else {
                *random.pick(&[&b"CCC"[..], b"CO", b"c1ccccc1"])
            };
            register::add(&mut bytes, entry as u16, body).unwrap();
        }
        assert_eq!(asked(&bytes, b"CN"), Withdrawn::Undecided { entry: bad });
        let room = register::add(&mut bytes, count as u16, b"NC");
        assert_eq!(room, Ok(()));
        assert_eq!(asked(&bytes, b"C[NH2:5]"), listed_at(count));
    }
}

/// Every text of the corpus that is a body: the molecule and the text.
fn bodies() -> Vec<(Molecule, &'static [u8])> {
    let all = [corpus::TEXTS, corpus::MARKED].map(str::lines).into_iter();
    let texts = all.flatten().map(str::as_bytes);
    let read = texts.filter_map(|text| Some((read(text).ok()?, text)));
    read.collect()
}

/// Each text of the corpus against redrawings of itself, in a register of 64 texts: it is withdrawn, by the
/// first entry that is a redrawing; and nothing is undecided.
#[test]
fn redrawings_of_the_corpus() {
    let bodies = bodies();
    assert!(bodies.len() > 5406);
    let mut random = Random::new(38);
    let mut asked_for = 0;
    for group in bodies.chunks(MAX_ENTRIES) {
        let register = register_of(group.iter().map(|(_, text)| *text));
        for (entry, (molecule, text)) in group.iter().enumerate() {
            let drawn = redrawing(&mut random, molecule);
            let query = spelling::text(&mut random, &drawn);
            let Ok(drawn) = read(&query) else {
                continue; // a limit or a mark stands against this spelling
            };
            assert!(are_redrawings(molecule, &drawn));
            asked_for += 1;
            let same = |(other, _): &(Molecule, _)| are_redrawings(other, molecule);
            let first = group.iter().position(same).unwrap();
            assert!(first <= entry);
            let said = asked(&register, &query);
            assert_eq!(said, listed_at(first), "{}", String::from_utf8_lossy(text));
        }
    }
    println!("{asked_for} of {} texts", bodies.len());
    assert!(asked_for > 9 * bodies.len() / 10);
}

/// The elements in order and all hydrogens, of the folded molecule.
fn formula(molecule: &Molecule) -> (Vec<u8>, usize) {
    let molecule = folded(molecule);
    let mut elements: Vec<u8> = molecule.atoms.iter().map(|atom| atom.element).collect();
    elements.sort_unstable();
    let hydrogens = molecule
        .atoms
        .iter()
        .map(|atom| usize::from(atom.hydrogens));
    (elements, hydrogens.sum())
}

/// Each text of the corpus against the other texts of its formula: as the reference says, and nothing is
/// undecided.
#[test]
fn texts_of_one_formula() {
    let bodies = bodies();
    let mut groups: BTreeMap<_, Vec<&[u8]>> = BTreeMap::new();
    for (molecule, text) in &bodies {
        groups.entry(formula(molecule)).or_default().push(text);
    }
    let (mut asked_for, mut withdrawn) = (0, 0);
    for group in groups.values().filter(|group| group.len() > 1) {
        for text in group {
            let others = group.iter().copied().filter(|other| other != text);
            let register = register_of(others.take(MAX_ENTRIES));
            let said = asked(&register, text);
            assert!(!matches!(said, Withdrawn::Undecided { .. }));
            asked_for += 1;
            withdrawn += usize::from(!said.is_clear());
        }
    }
    println!("{asked_for} texts, {withdrawn} withdrawn by another of their formula");
    assert!(asked_for > 1500 && withdrawn > 0 && withdrawn < asked_for / 2);
}

/// How many compounds of the corpus share a key with another: none does, of some thousands.
#[test]
fn few_compounds_share_a_key() {
    let bodies = bodies();
    let mut classes: BTreeMap<u64, Vec<&Molecule>> = BTreeMap::new();
    for (molecule, text) in &bodies {
        let of_key = classes.entry(Read::read(text).unwrap().key()).or_default();
        if !of_key.iter().any(|other| are_redrawings(other, molecule)) {
            of_key.push(molecule);
        }
    }
    let keys = classes.len();
    let compounds: usize = classes.values().map(Vec::len).sum();
    println!("{} texts, {compounds} compounds, {keys} keys", bodies.len());
    assert!(
        keys > 4000 && compounds - keys <= 2,
        "{compounds} compounds, {keys} keys"
    );
}

/// A refusal of the register is told before one of the text, and short before damaged.
#[test]
fn the_order_of_refusals() {
    let refusal = |bytes: &[u8], text| Register::new(bytes).withdrawn(text).unwrap_err();
    let short = vec![3; REGISTER - 1];
    let damaged = vec![3; REGISTER];
    assert_eq!(refusal(&short, b"C11").code, Code::Short);
    assert_eq!(refusal(&damaged, b"C11").code, Code::InvalidRegister);
    let at = |code, place| Refusal { code, place };
    assert_eq!(refusal(&emptied(), b"C11"), at(Code::SelfBridge, 2));
    assert_eq!(refusal(&emptied(), b"cc"), at(Code::LooseAtom, 0));
    let withdraw = |bytes: &[u8], text: &[u8]| {
        let mut bytes = bytes.to_vec();
        Register::new(&mut bytes).withdraw(7, text).unwrap_err()
    };
    assert_eq!(withdraw(&short, b"C11"), at(Code::Short, 0));
    assert_eq!(withdraw(&damaged, b"C11"), at(Code::SelfBridge, 2));
    assert_eq!(withdraw(&damaged, b"C"), at(Code::InvalidRegister, 0));
    let mut full = emptied();
    for tag in 0..MAX_ENTRIES {
        Register::new(&mut full).withdraw(tag as u16, b"C").unwrap();
    }
    assert_eq!(withdraw(&full, b"C11"), at(Code::SelfBridge, 2));
    assert_eq!(withdraw(&full, b"C"), at(Code::FullRegister, 0));
    assert_eq!(asked(&full, b"C"), listed_at(0));
}
