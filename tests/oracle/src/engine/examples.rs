//! Document 01's drill examples, which tests of several calls start from.

use super::{Register, MEMBERS, MISSING_RANK};
use crate::generate::example_register;

pub fn example() -> Register {
    Register::open(&example_register(), 22_000).unwrap()
}

/// These ranks by member, and no other.
pub fn ranks(given: &[(usize, u8)]) -> [u8; MEMBERS] {
    let mut ranks = [MISSING_RANK; MEMBERS];
    for &(member, rank) in given {
        ranks[member - 1] = rank;
    }
    ranks
}
