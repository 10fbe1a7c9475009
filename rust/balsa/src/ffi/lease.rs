//! The lease's calls: numbers in, numbers out.

/// A lease as it is handed on from call to call. Any numbers are one.
#[repr(C)]
#[derive(Clone, Copy, Debug, PartialEq, Eq)]
pub struct Numbers {
    pub phase: u32,
    pub held: u64,
    pub head: u64,
    pub asked: u64,
}

/// What `balsa_lease_release` hands back.
#[repr(C)]
pub struct ReleaseReply {
    pub answer: u32,
    pub held: u64,
    pub age: u64,
}

mod linked {
    use super::{Numbers, ReleaseReply};

    extern "C" {
        pub fn balsa_lease_new(held: u64) -> Numbers;
        pub fn balsa_lease_halt(lease: Numbers) -> Numbers;
        pub fn balsa_lease_heard(lease: Numbers, asked: u64, head: u64) -> Numbers;
        pub fn balsa_lease_stored(lease: Numbers, number: u64) -> Numbers;
        pub fn balsa_lease_release(
            lease: Numbers,
            now: u64,
            limit: u64,
            verdict: u32,
        ) -> ReleaseReply;
    }
}

pub fn new(held: u64) -> Numbers {
    // SAFETY: the call takes and hands back numbers, which may be any; so for those below.
    unsafe { linked::balsa_lease_new(held) }
}

pub fn halt(lease: Numbers) -> Numbers {
    // SAFETY: as for `new`.
    unsafe { linked::balsa_lease_halt(lease) }
}

pub fn heard(lease: Numbers, asked: u64, head: u64) -> Numbers {
    // SAFETY: as for `new`.
    unsafe { linked::balsa_lease_heard(lease, asked, head) }
}

pub fn stored(lease: Numbers, number: u64) -> Numbers {
    // SAFETY: as for `new`.
    unsafe { linked::balsa_lease_stored(lease, number) }
}

pub fn release(lease: Numbers, now: u64, limit: u64, verdict: u32) -> ReleaseReply {
    // SAFETY: as for `new`.
    unsafe { linked::balsa_lease_release(lease, now, limit, verdict) }
}
