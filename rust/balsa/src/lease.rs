//! Whether a follower of a numbered feed of withdrawals may release.

use crate::ffi::lease::{self as calls, Numbers};

/// What a follower has stored and heard.
///
/// It stores withdrawals 1, 2, 3, .. as they come; it notes the time and then asks for the head, the
/// number of the newest. Times are numbers of one clock of its own. That a yes is given only while the
/// last head is wholly stored and young enough, and never after a fault, a gap or a head that went back,
/// is proved of every history.
///
/// ```
/// use balsa::{Lease, Release, Verdict};
///
/// let mut lease = Lease::new(0);
/// lease.stored(1);
/// lease.heard(1_000, 1);                      // asked at 1,000: the newest is number 1
/// let at = |now| lease.release(now, 60, Verdict::Clear);
/// assert_eq!(at(1_060), Release::Yes { held: 1, age: 60 });
/// assert_eq!(at(1_061), Release::Stale { age: 61 });
/// lease.stored(3);                            // 2 is missing
/// assert_eq!(lease.release(1_060, 60, Verdict::Clear), Release::Halted);
/// ```
#[derive(Clone, Copy, Debug, PartialEq, Eq)]
pub struct Lease(Numbers);

/// What all that is stored says of a text.
#[derive(Clone, Copy, Debug, PartialEq, Eq)]
pub enum Verdict {
    /// It is a redrawing of nothing that is stored.
    Clear,
    /// It is a redrawing of something that is stored.
    Withdrawn,
    /// That could not be decided of something that is stored.
    Undecided,
}

/// Whether a text may be released.
#[derive(Clone, Copy, Debug, PartialEq, Eq)]
pub enum Release {
    /// Yes.
    Yes {
        /// Every withdrawal up to this number is stored.
        held: u64,
        /// How long ago the head was asked for.
        age: u64,
    },
    /// No: it is withdrawn.
    Withdrawn,
    /// No: it may be withdrawn.
    Undecided,
    /// No: there is no head that is wholly stored and young enough.
    Stale {
        /// How long ago the last head was asked for.
        age: u64,
    },
    /// No, for good.
    Halted,
}

impl Lease {
    /// The lease of a follower that has stored everything up to a number, and has heard nothing.
    pub fn new(held: u64) -> Self {
        Lease(calls::new(held))
    }

    /// After a fault: halted for good.
    pub fn halt(&mut self) {
        self.0 = calls::halt(self.0);
    }

    /// A head was heard that was asked for at a time. One below an earlier head, or below what is
    /// stored, halts.
    pub fn heard(&mut self, asked: u64, head: u64) {
        self.0 = calls::heard(self.0, asked, head);
    }

    /// The withdrawal with a number was stored. Any but the next one halts.
    pub fn stored(&mut self, number: u64) {
        self.0 = calls::stored(self.0, number);
    }

    /// Every withdrawal up to this number is stored.
    pub fn held(&self) -> u64 {
        self.0.held
    }

    /// Whether no release will be given any more.
    pub fn is_halted(&self) -> bool {
        self.0.phase > 1
    }

    /// Whether a text may be released at a time, the head at most a limit old.
    pub fn release(&self, now: u64, limit: u64, verdict: Verdict) -> Release {
        let verdict = match verdict {
            Verdict::Clear => 0,
            Verdict::Withdrawn => 1,
            Verdict::Undecided => 2,
        };
        let reply = calls::release(self.0, now, limit, verdict);
        match reply.answer {
            0 => Release::Yes {
                held: reply.held,
                age: reply.age,
            },
            1 => Release::Withdrawn,
            2 => Release::Undecided,
            3 => Release::Stale { age: reply.age },
            _ => Release::Halted,
        }
    }
}
