//! Good sheets.

use crate::engine::{LEAST_CONTRIBUTION, MAX_AMOUNT, RECORD};
use crate::rng::Rng;

/// How large the amounts of a column are.
#[derive(Clone, Copy)]
pub enum Scale {
    Zero,
    Tiny,
    Small,
    Middle,
    Large,
    Limits,
    Mixed,
}

const LIMITS: [u32; 7] = [0, 1, 9_999, 10_000, 10_001, 399_999_999, MAX_AMOUNT];

impl Scale {
    /// A scale for one column, each as likely as its weight in the order above.
    pub fn any(rng: &mut Rng, weights: [u64; 7]) -> Scale {
        use Scale::*;
        let place = rng.weighted(&weights);
        [Zero, Tiny, Small, Middle, Large, Limits, Mixed][place]
    }

    pub fn amount(self, rng: &mut Rng) -> u32 {
        let bound = match self {
            Scale::Zero => return 0,
            Scale::Tiny => 12,
            Scale::Small => 3_000,
            Scale::Middle => 1_000_000,
            Scale::Large => MAX_AMOUNT as u64 + 1,
            Scale::Limits => return rng.pick(&LIMITS),
            Scale::Mixed => return Scale::any(rng, [1, 1, 1, 1, 1, 1, 0]).amount(rng),
        };
        rng.below(bound) as u32
    }

    /// A contribution: the least one and so much more.
    fn contribution(self, rng: &mut Rng) -> u32 {
        (self.amount(rng) + LEAST_CONTRIBUTION).min(MAX_AMOUNT)
    }
}

/// Rising member numbers: few or many, in one run or with gaps.
pub fn members(rng: &mut Rng) -> Vec<u8> {
    let count = match rng.weighted(&[8, 30, 36, 14, 12]) {
        0 => 1,
        1 => rng.range(2, 4),
        2 => rng.range(5, 12),
        3 => rng.range(13, 40),
        _ => 64,
    };
    let mut all: Vec<u8> = (1..=64).collect();
    if rng.chance(60) {
        rng.shuffle(&mut all);
    }
    all.truncate(count as usize);
    all.sort_unstable();
    all
}

pub fn member_record(member: u8, amounts: [u32; 3]) -> [u8; RECORD] {
    let mut record = [0; RECORD];
    record[0] = member;
    for (bytes, amount) in record[4..].chunks_exact_mut(4).zip(amounts) {
        bytes.copy_from_slice(&amount.to_le_bytes());
    }
    record
}

/// The register of the drill examples.
pub fn example_register() -> Vec<u8> {
    let records = [
        member_record(1, [50_000, 20_000, 10_000]),
        member_record(2, [0, 30_000, 15_000]),
        member_record(3, [0, 10_000, 5_000]),
        member_record(4, [0, 20_000, 0]),
    ];
    records.concat()
}

pub fn register_sheet(rng: &mut Rng) -> Vec<u8> {
    let margin = Scale::any(rng, [20, 15, 20, 20, 5, 10, 10]);
    let contribution = Scale::any(rng, [5, 30, 20, 20, 5, 10, 10]);
    let cap = Scale::any(rng, [5, 30, 20, 20, 5, 10, 10]);
    let mut sheet = Vec::new();
    for member in members(rng) {
        let amounts = [
            margin.amount(rng),
            contribution.contribution(rng),
            cap.amount(rng),
        ];
        sheet.extend(member_record(member, amounts));
    }
    sheet
}

pub fn shares_sheet(rng: &mut Rng) -> Vec<u8> {
    let columns = [(); 3].map(|()| Scale::any(rng, [4, 20, 22, 22, 12, 10, 10]));
    let equal = rng.chance(10);
    let mut amounts = columns.map(|scale| scale.amount(rng));
    let mut sheet = Vec::new();
    for member in members(rng) {
        if !equal {
            amounts = columns.map(|scale| scale.amount(rng));
        }
        sheet.extend(member_record(member, amounts));
    }
    sheet
}

/// The record of a member alone.
pub fn stress_record(block: u64, member: u8, flag: bool, loss: u32) -> [u8; RECORD] {
    grouped_record(block, member, flag, 0, loss)
}

pub fn grouped_record(block: u64, member: u8, flag: bool, group: u8, loss: u32) -> [u8; RECORD] {
    let (day, scenario) = (1 + block / 64, 1 + block % 64);
    let mut record = [0; RECORD];
    record[..2].copy_from_slice(&(day as u16).to_le_bytes());
    record[2..4].copy_from_slice(&(scenario as u16).to_le_bytes());
    record[4] = member;
    record[5] = flag as u8;
    record[6] = group;
    record[8..12].copy_from_slice(&loss.to_le_bytes());
    record
}

const BLOCKS: u64 = 184 * 64;

/// Which members are of one group.
#[derive(Clone, Copy)]
enum Grouping {
    Alone,
    Together,
    Pairs,
    Among(u64),
    Mixed(u64),
}

impl Grouping {
    fn any(rng: &mut Rng) -> Grouping {
        use Grouping::*;
        let groups = rng.pick(&[1, 2, 3, 8, 64]);
        [Alone, Together, Pairs, Among(groups), Mixed(groups)][rng.weighted(&[30, 5, 15, 20, 30])]
    }

    /// Alone, together and in pairs, members keep their group through a sheet; else each record takes any of so many, and mixed, half of them none.
    fn group(self, rng: &mut Rng, member: u8) -> u8 {
        match self {
            Grouping::Alone => 0,
            Grouping::Together => 64,
            Grouping::Pairs => member.div_ceil(2),
            Grouping::Among(groups) => rng.range(1, groups) as u8,
            Grouping::Mixed(groups) if rng.chance(50) => rng.range(1, groups) as u8,
            Grouping::Mixed(_) => 0,
        }
    }
}

/// A stress sheet; now and then it is overlong or carries a sixth flag in a block.
pub fn stress_sheet(rng: &mut Rng) -> Vec<u8> {
    let records = match rng.weighted(&[400, 450, 120, 20, 10]) {
        0 => rng.range(1, 8),
        1 => rng.range(9, 100),
        2 => rng.range(101, 1_000),
        3 => 4_096,
        _ => 4_097,
    } as usize;
    let widest = rng.pick(&[1, 2, 3, 8, 16, 24, 64]);
    let gap = (BLOCKS / records as u64).max(1);
    let gap = rng.pick(&[1, gap]);
    let loss = Scale::any(rng, [2, 25, 13, 30, 12, 8, 10]);
    let flagged = rng.pick(&[0, 5, 30, 90]);
    let most_flags = if rng.chance(15) { 64 } else { 5 };
    let grouping = Grouping::any(rng);
    let mut sheet = Vec::new();
    let mut block = rng.below(gap);
    while sheet.len() < records * RECORD {
        let room = records - sheet.len() / RECORD;
        let width = rng.range(1, widest) as usize;
        let mut flags = 0;
        for member in block_members(rng, width.min(room)) {
            let flag = flags < most_flags && rng.chance(flagged);
            flags += flag as u32;
            let group = grouping.group(rng, member);
            let loss = loss.amount(rng);
            sheet.extend(grouped_record(block, member, flag, group, loss));
        }
        block += rng.range(1, gap);
    }
    sheet
}

fn block_members(rng: &mut Rng, width: usize) -> Vec<u8> {
    let mut all: Vec<u8> = (1..=64).collect();
    rng.shuffle(&mut all);
    all.truncate(width);
    all.sort_unstable();
    all
}
