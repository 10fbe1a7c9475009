//! The proved library and the reference say the same of every text of the corpus.

use compare::buffers::Buffers;
use compare::implementation::Reference;
use compare::pair::compare_text;
use compare::proved::Proved;
use compare::random::Random;

const CORPUS: [&str; 2] = [
    include_str!("../../../corpus/real.smi"),
    include_str!("../../../corpus/marked.smi"),
];

#[test]
fn every_text_of_the_corpus() {
    let mut random = Random::new(1);
    for text in CORPUS.iter().flat_map(|texts| texts.lines()) {
        let dirty = Buffers::dirty(&mut random);
        let compared = compare_text(&Reference, &Proved, text.as_bytes(), &dirty);
        assert!(compared.is_ok(), "{text}: {compared:?}");
    }
}
