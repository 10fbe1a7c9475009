//! The pairs on which a comparison has much to search: all families are asked, each pair within a limit
//! that leaves room for a slow machine.

use compare::buffers::Buffers;
use compare::hard::{families, many_rows};
use compare::implementation::{Answer, Implementation, Reference};
use compare::proved::Proved;
use compare::random::Random;
use std::sync::mpsc;
use std::thread;
use std::time::Duration;

/// No pair takes as long; the slowest takes about a fiftieth of it.
const LIMIT: Duration = Duration::from_secs(5);

#[test]
fn no_pair_takes_long() {
    for family in families() {
        let name = family.name;
        for (number, (one, other, is_same)) in family.pairs.iter().enumerate() {
            let (mut first, mut second) = (Buffers::clean(one), Buffers::clean(other));
            let (sender, receiver) = mpsc::channel();
            thread::spawn(move || sender.send(Proved.same(&mut first, &mut second)));
            let answer = receiver.recv_timeout(LIMIT);
            let told = Ok(Answer::of(usize::from(*is_same)));
            assert_eq!(answer, told, "{name}, pair {number}");
        }
    }
}

#[test]
fn both_programs_hand_out_the_same_where_there_are_many_rows() {
    let mut random = Random::new(31);
    for number in 0..400 {
        let pair = many_rows(&mut random);
        let [proved, told] = [&Proved as &dyn Implementation, &Reference].map(|program| {
            let [mut one, mut other] = pair.each_ref().map(Buffers::clean);
            let answer = program.same(&mut one, &mut other);
            (answer, one.row, other.row, one.renumbering)
        });
        assert_eq!(proved, told, "pair {number}");
    }
}
