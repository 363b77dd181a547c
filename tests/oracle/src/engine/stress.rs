//! The stress sheet: checks and cover in one pass.

use super::sheet::{check_amounts, each_record, RECORD};
use super::{Places, Refusal, MEMBERS};
use std::mem::take;

const DAYS: u64 = 184;
const SCENARIOS: u64 = 64;
const GROUPS: usize = 64;
const MOST_FLAGS: u32 = 5;

/// The greatest cover sum C and the flagged losses W of its block.
#[derive(Clone, Copy, Default)]
pub struct Cover {
    pub c: u64,
    pub w: u64,
}

/// The block of one day and scenario being read.
///
/// `highest` and `second` are of the members alone until it settles: a group's sum counts when all its members have been read.
struct Block {
    highest: u64,
    second: u64,
    flagged: u64,
    flags: u32,
    groups: [u64; GROUPS],
    /// A bit for each group that the block has, group 1 lowest.
    grouped: u64,
}

impl Block {
    fn new() -> Self {
        Block {
            highest: 0,
            second: 0,
            flagged: 0,
            flags: 0,
            groups: [0; GROUPS],
            grouped: 0,
        }
    }

    #[inline]
    fn add(&mut self, group: usize, loss: u64, flag: bool) -> Result<(), u8> {
        if flag {
            if self.flags == MOST_FLAGS {
                return Err(8);
            }
            self.flags += 1;
            self.flagged += loss;
        }
        if group == 0 {
            self.count(loss);
        } else {
            self.groups[group - 1] += loss;
            self.grouped |= 1 << (group - 1);
        }
        Ok(())
    }

    #[inline]
    fn count(&mut self, sum: u64) {
        self.second = self.second.max(self.highest.min(sum));
        self.highest = self.highest.max(sum);
    }

    /// Equal cover sums leave the earlier block standing. The block is then a new one, its groups back at zero.
    #[inline]
    fn settle(&mut self, best: &mut Cover) {
        for place in Places(take(&mut self.grouped)) {
            let sum = take(&mut self.groups[place]);
            self.count(sum);
        }
        let c = self.highest + self.second;
        if c > best.c {
            *best = Cover { c, w: self.flagged };
        }
        (self.highest, self.second, self.flagged, self.flags) = (0, 0, 0, 0);
    }
}

/// One record: its day, scenario and member as one rising key, its group, its flag and its loss.
#[inline]
fn read(record: &[u8; RECORD]) -> Result<(u64, usize, bool, u64), u8> {
    let (head, tail) = record.split_at(8);
    let head = u64::from_le_bytes(head.try_into().expect("8 bytes"));
    let tail = u64::from_le_bytes(tail.try_into().expect("8 bytes"));
    let (day, scenario) = (head & 0xffff, head >> 16 & 0xffff);
    let (member, flag) = (head >> 32 & 0xff, head >> 40 & 0xff);
    let outside = |value: u64, most: u64| value.wrapping_sub(1) >= most;
    if outside(day, DAYS)
        || outside(scenario, SCENARIOS)
        || outside(member, MEMBERS as u64)
        || flag > 1
        || head >> 48 > GROUPS as u64
        || tail >> 32 != 0
    {
        return Err(4);
    }
    let loss = tail as u32;
    check_amounts(&[loss])?;
    let key = day << 24 | scenario << 8 | member;
    Ok((key, (head >> 48) as usize, flag == 1, loss as u64))
}

/// Refusals 4 to 8 record by record, and the cover of a whole stress sheet.
pub fn cover(sheet: &[u8]) -> Result<Cover, Refusal> {
    let mut best = Cover::default();
    let mut block = Block::new();
    let mut last = 0;
    each_record(sheet, |record| {
        let (key, group, flag, loss) = read(record)?;
        if key <= last {
            return Err(7);
        }
        if key >> 8 != last >> 8 {
            block.settle(&mut best);
        }
        last = key;
        block.add(group, loss, flag)
    })?;
    block.settle(&mut best);
    Ok(best)
}
