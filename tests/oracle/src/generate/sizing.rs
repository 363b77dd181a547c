//! Random sizings.

use super::damage::{damage_member_sheet, damage_stress_sheet};
use super::sheets::{grouped_record, member_record, shares_sheet, stress_record, stress_sheet};
use super::SizingCase;
use crate::engine::{MAX_AMOUNT, MAX_SUM};
use crate::rng::Rng;

pub fn sizing(seed: u64) -> SizingCase {
    let mut rng = Rng::new(seed);
    match rng.weighted(&[80, 10, 10]) {
        0 => common(&mut rng),
        1 => at_the_limit(&mut rng),
        _ => small_sums(&mut rng),
    }
}

fn common(rng: &mut Rng) -> SizingCase {
    let mut case = SizingCase {
        stress: stress_sheet(rng),
        shares: shares_sheet(rng),
        prevailing: handed(rng),
        available: handed(rng),
    };
    let faults = rng.weighted(&[75, 15, 10]);
    let in_stress = rng.below(faults as u64 + 1) as usize;
    damage_stress_sheet(rng, &mut case.stress, in_stress);
    damage_member_sheet(rng, &mut case.shares, faults - in_stress);
    case
}

/// A sum handed alone: none, small, middling, at its limit or past it.
fn handed(rng: &mut Rng) -> u64 {
    match rng.weighted(&[25, 10, 30, 20, 5, 4, 2, 1]) {
        0 => 0,
        1 => rng.pick(&[1, 22, 99, 100, 101]),
        2 => rng.below(2_000_000),
        3 => rng.below(1_000_000_000),
        4 => rng.below(MAX_SUM + 1),
        5 => MAX_SUM,
        6 => MAX_SUM + 1,
        _ => u64::MAX,
    }
}

/// Requirements at 400,000,000 and about it: one member alone, or all 64 alike.
fn at_the_limit(rng: &mut Rng) -> SizingCase {
    if rng.chance(30) {
        return refused_for_b_alone(rng);
    }
    if rng.chance(30) {
        return all_in_groups(rng);
    }
    if rng.chance(30) {
        let shares = (1..=64).flat_map(|m| member_record(m, [7, 7, 7])).collect();
        return SizingCase {
            stress: stress_record(0, 1, false, rng.pick(&[0, 1, MAX_AMOUNT])).to_vec(),
            shares,
            prevailing: MAX_SUM - rng.below(3),
            available: rng.pick(&[0, 5_000_000_000, MAX_SUM]),
        };
    }
    let quarter = MAX_AMOUNT as u64 / 4;
    SizingCase {
        stress: stress_record(5, 9, false, MAX_AMOUNT - rng.below(3) as u32).to_vec(),
        shares: member_record(rng.range(1, 64) as u8, [1, 2, 3]).to_vec(),
        prevailing: rng.pick(&[0, 470_588_234, 470_588_235, 470_588_236]),
        available: quarter + rng.below(5) - 2,
    }
}

/// Sums about the place where a requirement is too high for B and not for D.
///
/// From Q = 4k + 3 to 4k + 4 the volume part falls by one.
fn refused_for_b_alone(rng: &mut Rng) -> SizingCase {
    let loss = MAX_AMOUNT - rng.below(3) as u32;
    let stress = [
        stress_record(0, 1, false, MAX_AMOUNT),
        stress_record(0, 2, false, loss),
    ];
    let shares = [member_record(1, [1, 0, 0]), member_record(2, [0, 1, 1])];
    SizingCase {
        stress: stress.concat(),
        shares: shares.concat(),
        prevailing: 0,
        available: MAX_AMOUNT as u64 / 2 - rng.below(4),
    }
}

/// All 64 members in one group or in two, with the highest losses or about them, shared over equal columns.
///
/// C is up to 25,600,000,000, C + W up to 27,600,000,000. Where the last five lose as much less as the flagged add, C + W is
/// just what 64 requirements can come to.
fn all_in_groups(rng: &mut Rng) -> SizingCase {
    let (flags, groups) = (rng.range(0, 5) as u8, rng.range(1, 2) as u8);
    let less = MAX_AMOUNT / 5 * rng.pick(&[0, flags as u32, 5]);
    let stress = (1..=64).flat_map(|member| {
        let loss = if member < 60 {
            MAX_AMOUNT
        } else {
            MAX_AMOUNT - less
        };
        grouped_record(0, member, member <= flags, member % groups + 1, loss)
    });
    SizingCase {
        stress: stress.collect(),
        shares: (1..=64).flat_map(|m| member_record(m, [7, 7, 7])).collect(),
        prevailing: rng.pick(&[0, MAX_SUM]),
        available: rng.pick(&[0, 6_400_000_000, MAX_SUM]),
    }
}

/// Sums of a few thousand, where a part of the quantum may be zero and so may a column.
fn small_sums(rng: &mut Rng) -> SizingCase {
    let columns = [(); 3].map(|()| rng.chance(70));
    let mut shares = Vec::new();
    for member in 1..=rng.range(1, 5) as u8 {
        let amounts = columns.map(|some| if some { rng.below(4) as u32 } else { 0 });
        shares.extend(member_record(member, amounts));
    }
    let mut stress = Vec::new();
    for member in 1..=rng.range(1, 4) as u8 {
        let (flag, loss) = (rng.chance(30), rng.below(4) as u32);
        let group = rng.below(3) as u8;
        stress.extend(grouped_record(rng.below(2), member, flag, group, loss));
    }
    SizingCase {
        stress,
        shares,
        prevailing: rng.below(6),
        available: rng.below(4),
    }
}
