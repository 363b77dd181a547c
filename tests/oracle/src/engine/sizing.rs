//! Month-end fund sizing and the review trigger.

use super::sheet::{check_whole, MemberSheet};
use super::split::Split;
use super::stress::cover;
use super::{
    Places, Refusal, LEAST_CONTRIBUTION, MAX_AMOUNT, MAX_SUM, MEMBERS, MEMBER_SHEET_BYTES,
    STRESS_SHEET_BYTES,
};

/// The answer of a sizing.
#[derive(Clone, Copy, Debug, Default, PartialEq, Eq)]
pub struct Sizing {
    pub c: u64,
    pub w: u64,
    pub a: u64,
    pub b: u64,
    pub b1: u64,
    pub own: u64,
    pub d: u64,
}

/// A review is triggered when 100C is more than 80A.
pub fn review(c: u64, a: u64) -> bool {
    100 * c as u128 > 80 * a as u128
}

fn percent_up(percent: u64, sum: u64) -> u64 {
    (percent * sum).div_ceil(100)
}

/// A and the minimum B for C+W and the prevailing minimum.
fn totals(stress_sum: u64, prevailing: u64) -> (u64, u64) {
    let a = percent_up(125, stress_sum);
    (a, stress_sum.max(percent_up(85, prevailing)))
}

/// Own contribution and the quantum D.
fn own_and_quantum(a: u64, b: u64, b1: u64, available: u64) -> (u64, u64) {
    let own = available.min(percent_up(25, b).max(b1));
    (own, b.max(a.saturating_sub(own)))
}

/// A shares sheet ready for sharing a quantum.
struct Shares {
    sheet: MemberSheet,
    totals: [u64; 3],
}

impl Shares {
    fn read(sheet: &[u8]) -> Result<Self, Refusal> {
        let sheet = MemberSheet::read(sheet, 0)?;
        let totals = sheet
            .columns
            .map(|column| column.iter().map(|&w| w as u64).sum());
        Ok(Shares { sheet, totals })
    }

    /// The requirements by member place when `quantum` is shared, or refusals 9 and 10.
    fn requirements(&self, quantum: u64) -> Result<[u64; MEMBERS], Refusal> {
        let quarter = quantum / 4;
        let parts = [quantum - 2 * quarter, quarter, quarter];
        if (0..3).any(|k| self.totals[k] == 0 && parts[k] > 0) {
            return Err(Refusal::plain(9));
        }
        let mut splits: [Split; 3] = std::array::from_fn(|k| Split::new(parts[k], self.totals[k]));
        let mut requirements = [0; MEMBERS];
        for place in Places(self.sheet.present) {
            let mut sum = 0;
            for (split, column) in splits.iter_mut().zip(&self.sheet.columns) {
                sum += split.share(column[place] as u64);
            }
            requirements[place] = sum.max(LEAST_CONTRIBUTION as u64);
        }
        if requirements.iter().any(|&r| r > MAX_AMOUNT as u64) {
            return Err(Refusal::plain(10));
        }
        Ok(requirements)
    }
}

/// Sizes the fund; the slip's first 64 numbers receive the requirements.
pub fn size(
    stress: &[u8],
    shares: &[u8],
    prevailing: u64,
    available: u64,
    slip: &mut [u64],
) -> Result<Sizing, Refusal> {
    check_whole(stress, STRESS_SHEET_BYTES)?;
    check_whole(shares, MEMBER_SHEET_BYTES)?;
    if prevailing > MAX_SUM || available > MAX_SUM {
        return Err(Refusal::plain(2));
    }
    let slip = slip.get_mut(..MEMBERS).ok_or(Refusal::plain(3))?;
    let cover = cover(stress)?;
    let shares = Shares::read(shares)?;
    let (a, b) = totals(cover.c + cover.w, prevailing);
    let b1 = shares.requirements(b)?.into_iter().max().unwrap_or(0);
    let (own, d) = own_and_quantum(a, b, b1, available);
    slip.copy_from_slice(&shares.requirements(d)?);
    Ok(Sizing {
        c: cover.c,
        w: cover.w,
        a,
        b,
        b1,
        own,
        d,
    })
}

#[cfg(test)]
mod tests {
    use super::*;
    use crate::generate::{grouped_record, member_record, stress_record};

    #[test]
    fn annex_as_bare_numbers() {
        assert_eq!(totals(100, 0), (125, 100));
        assert_eq!(own_and_quantum(125, 100, 10, 22), (22, 103));
        assert_eq!(totals(100, 200), (125, 170));
        assert_eq!(own_and_quantum(125, 170, 10, 50), (43, 170));
    }

    #[test]
    fn review_examples() {
        assert!(!review(100, 125));
        assert!(review(101, 125));
        assert!(!review(0, 0));
        assert!(review(u64::MAX, u64::MAX));
        assert!(!review(4 * (u64::MAX / 5), 5 * (u64::MAX / 5)));
    }

    #[test]
    fn earliest_block_wins_and_slip_is_filled() {
        let stress = [
            stress_record(0, 1, true, 60_000),
            stress_record(0, 2, false, 40_000),
            stress_record(1, 1, true, 50_000),
            stress_record(1, 2, true, 50_000),
        ]
        .concat();
        let shares = [member_record(3, [1, 1, 1]), member_record(9, [2, 1, 0])].concat();
        let mut slip = [7; 65];
        let sizing = size(&stress, &shares, 0, 0, &mut slip).unwrap();
        assert_eq!((sizing.c, sizing.w), (100_000, 60_000));
        assert_eq!((sizing.a, sizing.b, sizing.d), (200_000, 160_000, 200_000));
        assert_eq!(slip[2], 100_000 / 3 + 25_000 + 50_000);
        assert_eq!(slip[2] + slip[8], 200_000);
        assert_eq!((slip[0], slip[64]), (0, 7));
    }

    fn c_and_w(records: &[[u8; 16]]) -> (u64, u64) {
        let cover = cover(&records.concat()).unwrap();
        (cover.c, cover.w)
    }

    /// Document 02's example, with a member 4 alone who loses 45 where there is one.
    #[test]
    fn groups_count_as_one() {
        let block = |groups: [u8; 4], members: usize| {
            let records = [
                grouped_record(0, 1, false, groups[0], 30),
                grouped_record(0, 2, true, groups[1], 40),
                grouped_record(0, 3, false, groups[2], 50),
                grouped_record(0, 4, false, groups[3], 45),
            ];
            c_and_w(&records[..members])
        };
        assert_eq!(block([0, 0, 0, 0], 3), (90, 40));
        assert_eq!(block([1, 1, 0, 0], 3), (120, 40));
        assert_eq!(block([1, 1, 0, 0], 4), (120, 40));
        assert_eq!(block([3, 0, 3, 0], 4), (125, 40));
        assert_eq!(block([0, 2, 2, 0], 4), (135, 40));
        assert_eq!(block([64, 64, 64, 0], 4), (165, 40));
        assert_eq!(block([1, 2, 2, 1], 4), (165, 40));
        assert_eq!(block([9, 9, 9, 9], 4), (165, 40));
        assert_eq!(block([1, 2, 3, 4], 4), (95, 40));
    }

    #[test]
    fn groups_end_with_their_block() {
        let records = [
            grouped_record(0, 1, true, 7, 60),
            grouped_record(0, 2, false, 7, 10),
            grouped_record(1, 1, false, 7, 50),
            grouped_record(1, 2, true, 7, 30),
        ];
        assert_eq!(c_and_w(&records), (80, 30));
        assert_eq!(c_and_w(&records[..2]), (70, 60));
    }

    #[test]
    fn refusals_in_number_order() {
        let stress = stress_record(0, 1, false, 5);
        let shares = member_record(1, [1, 1, 1]);
        let number = |stress: &[u8], shares: &[u8], p, v, slip: &mut [u64]| {
            size(stress, shares, p, v, slip).unwrap_err().number
        };
        let over = MAX_SUM + 1;
        assert_eq!(number(&[], &shares, over, 0, &mut []), 1);
        assert_eq!(number(&stress, &[0; 15], over, 0, &mut []), 1);
        assert_eq!(number(&stress, &shares, over, 0, &mut []), 2);
        assert_eq!(number(&stress, &shares, 0, over, &mut []), 2);
        assert_eq!(number(&[0; 16], &shares, 0, 0, &mut [0; 63]), 3);
        let mut slip = [0; 64];
        assert_eq!(number(&[0; 16], &shares, 0, 0, &mut slip), 4);
        let group = grouped_record(0, 1, false, 65, 5);
        assert_eq!(number(&group, &shares, 0, 0, &mut slip), 4);
        let empty_volume = member_record(1, [0, 1, 1]);
        assert_eq!(number(&stress, &empty_volume, 0, 0, &mut slip), 9);
        assert_eq!(number(&stress, &shares, MAX_SUM, 0, &mut slip), 10);
        assert_eq!(slip, [0; 64]);
    }

    #[test]
    fn zero_column_found_only_with_the_quantum() {
        let stress = stress_record(0, 1, false, 3);
        let shares = member_record(1, [1, 0, 1]);
        let mut slip = [0; 64];
        let refusal = size(&stress, &shares, 0, 0, &mut slip).unwrap_err();
        assert_eq!(refusal, Refusal::plain(9));
        assert!(size(&stress, &shares, 0, 1, &mut slip).is_ok());
    }
}
