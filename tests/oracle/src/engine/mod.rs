//! The rules of the default fund and its loss waterfall, written for speed: nothing here allocates.

#[cfg(test)]
mod examples;
mod page;
mod pools;
mod range;
mod register;
mod sheet;
mod sizing;
mod split;
mod stress;
mod waterfall;

#[cfg(test)]
pub use page::FIRST_PAGE;
pub use page::{print_page, PAGE_BYTES};
pub use range::{Placed, RangeAnswer, RANGE_SLIP};
pub use register::{Call, Register};
pub use sheet::{MEMBER_SHEET_BYTES, RECORD, STRESS_SHEET_BYTES};
pub use sizing::{review, size};
pub use split::Split;
pub use stress::cover;
pub use waterfall::DefaultAnswer;

/// Members are numbered 1 to this; arrays hold member m at m - 1.
pub const MEMBERS: usize = 64;
/// The greatest amount, in thousands of rupees.
pub const MAX_AMOUNT: u32 = 400_000_000;
/// The greatest sum handed alone: a loss, own contribution, prevailing minimum.
pub const MAX_SUM: u64 = 25_600_000_000;
/// The least contribution and the least requirement.
pub const LEAST_CONTRIBUTION: u32 = 10_000;
/// How a sheet writes a missing amount.
pub const MISSING: u32 = u32::MAX;
/// The most junior rank; 1 is the most senior.
pub const MOST_JUNIOR: u8 = 24;
/// How ranks write a missing rank.
pub const MISSING_RANK: u8 = 255;
/// A default names at most so many auction pools, and at least one.
pub const MOST_POOLS: usize = 4;
/// A default slip holds a layer 4 charge and then a call for each member.
pub const DEFAULT_SLIP: usize = 2 * MEMBERS;

/// A refusal: its number and, for 4 to 8, the place of the record counted from 1.
#[derive(Clone, Copy, Debug, PartialEq, Eq)]
pub struct Refusal {
    pub number: u8,
    pub record: usize,
}

impl Refusal {
    pub fn plain(number: u8) -> Self {
        Refusal { number, record: 0 }
    }
}

/// The member places (number - 1) whose bits are set, in rising order.
#[derive(Clone, Copy)]
pub struct Places(pub u64);

impl Iterator for Places {
    type Item = usize;

    #[inline]
    fn next(&mut self) -> Option<usize> {
        if self.0 == 0 {
            return None;
        }
        let place = self.0.trailing_zeros() as usize;
        self.0 &= self.0 - 1;
        Some(place)
    }
}
