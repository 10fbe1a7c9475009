//! The lease beside a plain look at the whole history, over random ones.

use balsa::{Lease, Release, Verdict};

/// What may befall a follower.
#[derive(Clone, Copy, Debug)]
enum Event {
    Heard { asked: u64, head: u64 },
    Stored(u64),
    Failed,
}

/// Numbers that look random.
struct Numbers(u64);

impl Numbers {
    fn below(&mut self, end: u64) -> u64 {
        self.0 = self.0.wrapping_mul(6364136223846793005).wrapping_add(1);
        (self.0 >> 33) % end
    }
}

/// A history, mostly without fault: the next number, and heads that go up.
fn history(numbers: &mut Numbers) -> Vec<Event> {
    let (mut held, mut head, mut time) = (0, 0, 0);
    let events = numbers.below(12);
    (0..events)
        .map(|_| {
            time += numbers.below(20);
            match numbers.below(40) {
                0 => Event::Failed,
                1 => Event::Stored(numbers.below(10)),
                2 => Event::Heard {
                    asked: time,
                    head: numbers.below(10),
                },
                kind if kind % 2 == 0 => {
                    held += 1;
                    Event::Stored(held)
                }
                _ => {
                    head = head.max(held) + numbers.below(3) / 2;
                    Event::Heard { asked: time, head }
                }
            }
        })
        .collect()
}

/// The answer, by the words of docs/SIDECAR.md.
fn told(history: &[Event], now: u64, limit: u64, verdict: Verdict) -> Release {
    let (mut held, mut heard): (u64, Option<(u64, u64)>) = (0, None);
    for event in history {
        match *event {
            Event::Failed => return Release::Halted,
            Event::Stored(number) if number != held + 1 => return Release::Halted,
            Event::Stored(number) => held = number,
            Event::Heard { head, .. } if head < held => return Release::Halted,
            Event::Heard { head, .. } if heard.is_some_and(|(_, before)| head < before) => {
                return Release::Halted;
            }
            Event::Heard { asked, head } => heard = Some((asked, head)),
        }
    }
    let (asked, head) = heard.unwrap_or_default();
    let age = now.saturating_sub(asked);
    let fresh = heard.is_some() && head <= held && asked <= now && age <= limit;
    match verdict {
        Verdict::Withdrawn => Release::Withdrawn,
        Verdict::Undecided => Release::Undecided,
        Verdict::Clear if fresh => Release::Yes { held, age },
        Verdict::Clear => Release::Stale { age },
    }
}

#[test]
fn random_histories() {
    let mut numbers = Numbers(7);
    let mut yes = 0;
    for _ in 0..50_000 {
        let history = history(&mut numbers);
        let mut lease = Lease::new(0);
        for event in &history {
            match *event {
                Event::Heard { asked, head } => lease.heard(asked, head),
                Event::Stored(number) => lease.stored(number),
                Event::Failed => lease.halt(),
            }
        }
        let (now, limit) = (numbers.below(200), numbers.below(60));
        let verdicts = [Verdict::Clear, Verdict::Withdrawn, Verdict::Undecided];
        let verdict = verdicts[numbers.below(5).saturating_sub(2) as usize];
        let answer = told(&history, now, limit, verdict);
        assert_eq!(
            lease.release(now, limit, verdict),
            answer,
            "{history:?} at {now}, {limit}"
        );
        yes += u32::from(matches!(answer, Release::Yes { .. }));
    }
    assert!(yes > 1000, "{yes}");
}

#[test]
fn the_largest_numbers() {
    let mut lease = Lease::new(u64::MAX);
    lease.heard(0, u64::MAX);
    assert_eq!(
        lease.release(u64::MAX, u64::MAX, Verdict::Clear),
        Release::Yes {
            held: u64::MAX,
            age: u64::MAX
        }
    );
    lease.stored(0);
    assert_eq!(lease.release(0, 0, Verdict::Clear), Release::Halted);
}
