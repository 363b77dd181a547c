//! Layer 4: the contributions of the others, charged pool by pool and then in one tie.

use super::register::Register;
use super::split::Split;
use super::waterfall::draw;
use super::{Places, MEMBERS, MOST_JUNIOR};

/// Members sorted by juniorisation rank: for each rank the bits of its members.
#[derive(Clone)]
pub struct Ranked {
    members: [u64; MOST_JUNIOR as usize],
    /// The bits of the ranks not yet charged.
    ranks: u32,
}

const _: () = assert!(MOST_JUNIOR as u32 <= u32::BITS);

impl Ranked {
    pub const NONE: Ranked = Ranked {
        members: [0; MOST_JUNIOR as usize],
        ranks: 0,
    };

    /// Puts members in by their ranks in one pool, and reads no other ranks; refusal 15.
    #[inline]
    pub fn sort(&mut self, who: Places, ranks: &[u8; MEMBERS]) -> Result<(), u8> {
        for place in who {
            let rank = ranks[place].wrapping_sub(1) as usize;
            let members = self.members.get_mut(rank).ok_or(15)?;
            *members |= 1 << place;
            self.ranks |= 1 << rank;
        }
        Ok(())
    }

    /// Takes out the most junior rank not yet charged.
    #[inline]
    fn next(&mut self) -> Option<Places> {
        let rank = self.ranks.checked_ilog2()?;
        self.ranks ^= 1 << rank;
        Some(Places(self.members[rank as usize]))
    }

    /// Charges what members have in a pool, the most junior rank first.
    #[inline]
    fn charge(&mut self, standing: &mut [u32; MEMBERS], left: &mut u64, charges: &mut [u64]) {
        while *left > 0 {
            let Some(who) = self.next() else { break };
            charge_tie(who, standing, left, charges);
        }
    }
}

/// Charges some members together: all they have or all that is left, by the split over what they have.
#[inline]
fn charge_tie(who: Places, standing: &mut [u32; MEMBERS], left: &mut u64, charges: &mut [u64]) {
    let total = Register::sum(who, standing);
    let part = total.min(*left);
    let mut split = Split::new(part, total);
    for place in who {
        let share = split.share(standing[place] as u64);
        standing[place] -= share as u32;
        charges[place] += share;
    }
    *left -= part;
}

/// What each pool has to place after layers 1 to 3.
///
/// They meet the fallen call first, then the pools in order. What is left of the fallen call joins the
/// first pool with loss left, or the first of all.
#[inline]
pub fn pool_sums<const POOLS: usize>(
    mut fallen: u64,
    mut losses: [u64; POOLS],
    mut given: u64,
) -> [u64; POOLS] {
    draw(&mut given, &mut fallen);
    for loss in &mut losses {
        draw(&mut given, loss);
    }
    let joined = losses.iter().position(|&loss| loss > 0);
    losses[joined.unwrap_or(0)] += fallen;
    losses
}

impl Register {
    /// Layer 4: the pools charge their portions, and what they cannot meet falls on all in one tie.
    #[inline]
    pub fn charge<const POOLS: usize>(
        &mut self,
        others: Places,
        ranked: &mut [Ranked; POOLS],
        mut sums: [u64; POOLS],
        left: &mut u64,
        charges: &mut [u64],
    ) -> u64 {
        let before = *left;
        if POOLS == 1 {
            // The one pool's portions are the contributions: where it cannot meet its sum, none stands.
            ranked[0].charge(&mut self.contribution, left, charges);
        } else if before > 0 {
            let mut portions = self.portions(others, &sums);
            for ((ranked, portions), sum) in ranked.iter_mut().zip(&mut portions).zip(&mut sums) {
                ranked.charge(portions, sum, charges);
            }
            for place in others {
                self.contribution[place] -= charges[place] as u32;
            }
            *left = sums.iter().sum();
            if *left > 0 {
                charge_tie(others, &mut self.contribution, left, charges);
            }
        }
        before - *left
    }

    /// The contributions of the others divided among the pools, by the split over the pools' sums.
    fn portions<const POOLS: usize>(
        &self,
        others: Places,
        sums: &[u64; POOLS],
    ) -> [[u32; MEMBERS]; POOLS] {
        let total = sums.iter().sum();
        let mut portions = [[0; MEMBERS]; POOLS];
        for place in others {
            let mut split = Split::new(self.contribution[place] as u64, total);
            for (portions, &sum) in portions.iter_mut().zip(sums) {
                portions[place] = split.share(sum) as u32;
            }
        }
        portions
    }
}

#[cfg(test)]
mod tests {
    use super::*;
    use crate::engine::{DefaultAnswer, DEFAULT_SLIP, MAX_SUM, MISSING_RANK};
    use crate::generate::{drill, member_record};
    use crate::rng::Rng;

    /// A pool: its loss and the ranks of members 2 and on.
    type Pool<'a> = (u64, &'a [u8]);

    /// A register of members 1 and on: margin, contribution and cap of each.
    fn open(members: &[[u32; 3]], own: u64) -> Register {
        let records = (1..).zip(members).map(|(m, &a)| member_record(m, a));
        Register::open(&records.collect::<Vec<_>>().concat(), own).unwrap()
    }

    /// What a default answers, and its slip.
    fn declare(
        register: &mut Register,
        member: u64,
        pools: &[Pool],
    ) -> (DefaultAnswer, [u64; DEFAULT_SLIP]) {
        let losses: Vec<u64> = pools.iter().map(|pool| pool.0).collect();
        let mut ranks = vec![MISSING_RANK; pools.len() * MEMBERS];
        for (all, pool) in ranks.chunks_mut(MEMBERS).zip(pools) {
            all[1..=pool.1.len()].copy_from_slice(pool.1);
        }
        let mut slip = [7; DEFAULT_SLIP];
        let answer = register.default(member, &losses, &ranks, &mut slip);
        (answer.unwrap(), slip)
    }

    /// Layers, shortfall and the charges of members 2 and on, as many as are given.
    fn gives(
        mut register: Register,
        member: u64,
        pools: &[Pool],
        layers: [u64; 6],
        short: u64,
        charges: &[u64],
    ) {
        let before = register.contribution;
        let (answer, slip) = declare(&mut register, member, pools);
        assert_eq!((answer.layers, answer.short), (layers, short));
        assert_eq!(slip[1..=charges.len()], *charges);
        assert_eq!(slip[..MEMBERS].iter().sum::<u64>(), layers[3]);
        assert_eq!(slip[MEMBERS..].iter().sum::<u64>(), layers[5]);
        for place in Places(register.live) {
            let standing = before[place] as u64 - slip[place];
            assert_eq!(register.contribution[place] as u64, standing);
        }
    }

    /// Its losses after layers 1 to 3, in thousands; what these layers give is all in pool 1 here.
    #[test]
    fn the_fourth_annexure() {
        let contributions = [100, 200, 300, 400, 500, 600, 400];
        let others = contributions.map(|c| [0, c * 1_000, 0]);
        let register = open(&[&[[190_000, 10_000, 0]], &others[..]].concat(), 625_000);
        let pools: [Pool; 4] = [
            (1_475_000, &[5, 6, 1, 2, 4, 7, 3]),
            (675_000, &[2, 5, 4, 3, 7, 1, 6]),
            (112_500, &[5, 3, 1, 2, 4, 7, 6]),
            (37_500, &[1, 7, 6, 3, 2, 4, 5]),
        ];
        let layers = [190_000, 10_000, 375_000, 1_725_000, 0, 0];
        let charges = [58_695, 195_108, 123_913, 132_064, 489_130, 365_217, 360_873];
        gives(register, 1, &pools, layers, 0, &charges);
    }

    /// Member 2 owes a call of 25,000, and has a contribution of 4,000 to meet it.
    fn with_a_call() -> Register {
        let mut register = open(
            &[
                [0, 10_000, 0],
                [0, 10_000, 30_000],
                [0, 20_000, 0],
                [0, 30_000, 0],
            ],
            0,
        );
        let (answer, slip) = declare(&mut register, 1, &[(95_000, &[1, 1, 1])]);
        assert_eq!(answer.layers, [0, 10_000, 0, 60_000, 0, 25_000]);
        assert_eq!(slip[MEMBERS..MEMBERS + 4], [0, 25_000, 0, 0]);
        for (member, amount) in [(2, 4_000), (3, 12_345), (4, 20_001)] {
            assert_eq!(register.replenishment(member, amount), Ok(()));
        }
        register
    }

    #[test]
    fn a_fallen_call_joins_the_first_pool_with_loss() {
        let pools: [Pool; 3] = [(0, &[0, 2, 1]), (5_000, &[0, 1, 2]), (3_000, &[0, 2, 1])];
        let layers = [0, 4_000, 0, 29_000, 0, 0];
        gives(with_a_call(), 2, &pools, layers, 0, &[0, 9_347, 19_653]);
        let pools: [Pool; 2] = [(1_000, &[0, 1, 2]), (9_000, &[0, 2, 1])];
        let layers = [0, 4_000, 0, 31_000, 0, 0];
        gives(with_a_call(), 2, &pools, layers, 0, &[0, 11_391, 19_609]);
    }

    #[test]
    fn a_fallen_call_without_a_loss_joins_pool_1() {
        let pools: [Pool; 3] = [(0, &[0, 1, 2]), (0, &[0, 2, 1]), (0, &[0, 2, 1])];
        let layers = [0, 4_000, 0, 21_000, 0, 0];
        gives(with_a_call(), 2, &pools, layers, 0, &[0, 999, 20_001]);
    }

    /// The portions of two pools add to less than the pools' sums, and all of them are given.
    #[test]
    fn a_fallen_call_and_a_shortfall() {
        let pools: [Pool; 4] = [
            (0, &[0, 1, 2]),
            (12_000, &[0, 2, 1]),
            (0, &[0, 1, 1]),
            (15_000, &[0, 1, 1]),
        ];
        let layers = [0, 4_000, 0, 32_346, 0, 0];
        gives(
            with_a_call(),
            2,
            &pools,
            layers,
            15_654,
            &[0, 12_345, 20_001],
        );
    }

    #[test]
    fn sums_of_pools() {
        assert_eq!(pool_sums(5, [0, 3, 4], 0), [0, 8, 4]);
        assert_eq!(pool_sums(5, [0, 3, 4], 4), [0, 4, 4]);
        assert_eq!(pool_sums(5, [2, 3, 4], 5), [2, 3, 4]);
        assert_eq!(pool_sums(5, [2, 3, 4], 8), [0, 2, 4]);
        assert_eq!(pool_sums(5, [2, 3, 4], 14), [0, 0, 0]);
        assert_eq!(pool_sums(5, [0, 0, 0], 4), [1, 0, 0]);
        assert_eq!(pool_sums(5, [0, 0, 0], 5), [0, 0, 0]);
        assert_eq!(pool_sums(5, [2], 3), [4]);
    }

    /// Members 2 to 5 have 100,048 together, and layer 2 meets 10,000.
    fn odd(own: u64) -> Register {
        open(
            &[
                [0, 10_000, 0],
                [0, 10_007, 0],
                [0, 20_011, 5_000],
                [0, 30_013, 3],
                [0, 40_017, 0],
            ],
            own,
        )
    }

    const RISING: &[u8] = &[1, 2, 3, 4];
    const FALLING: &[u8] = &[4, 3, 2, 1];

    /// Rounding leaves pool 1 or 2 a little to place, and pool 3 as much unspent.
    #[test]
    fn what_the_pools_cannot_meet_is_one_tie() {
        let last: &[u8] = &[1, 1, 2, 2];
        let pools: [Pool; 3] = [(43_349, RISING), (33_349, FALLING), (33_349, last)];
        let layers = [0, 10_000, 0, 100_047, 0, 0];
        let charges = [10_006, 20_011, 30_013, 40_017];
        gives(odd(0), 1, &pools, layers, 0, &charges);
        // all that they have
        let pools: [Pool; 3] = [(43_349, RISING), (33_349, FALLING), (33_350, last)];
        let layers = [0, 10_000, 0, 100_048, 0, 0];
        let charges = [10_007, 20_011, 30_013, 40_017];
        gives(odd(0), 1, &pools, layers, 0, &charges);
        // and layers 5 and 6 after it
        let pools: [Pool; 3] = [(43_349, RISING), (33_349, FALLING), (33_362, last)];
        let layers = [0, 10_000, 4, 100_048, 3, 5];
        gives(odd(7), 1, &pools, layers, 0, &charges);
    }

    /// No portion of pools 1 to 3 is as much as 1, so that 3 fall on what pool 4 leaves standing.
    #[test]
    fn pools_too_small_for_a_portion() {
        let pools: [Pool; 4] = [
            (10_001, RISING),
            (1, FALLING),
            (1, &[1, 1, 1, 1]),
            (50_000, &[1, 24, 1, 1]),
        ];
        let layers = [0, 10_000, 0, 50_003, 0, 0];
        let charges = [3_749, 20_011, 11_246, 14_997];
        gives(odd(0), 1, &pools, layers, 0, &charges);
    }

    #[test]
    fn two_of_four_pools_without_a_loss() {
        let pools: [Pool; 4] = [
            (0, &[1, 1, 1, 1]),
            (40_000, FALLING),
            (0, &[24, 1, 1, 1]),
            (35_701, &[1, 2, 2, 1]),
        ];
        let layers = [0, 10_000, 600, 65_101, 0, 0];
        let charges = [6_172, 20_011, 30_013, 8_905];
        gives(odd(1_000), 1, &pools, layers, 0, &charges);
    }

    /// One pool answers as it does among others without a loss, wherever it stands.
    #[test]
    fn pools_without_a_loss_alter_nothing() {
        let mut rng = Rng::new(3);
        for seed in 0..300 {
            let case = drill(seed);
            let Ok(register) = Register::open(&case.sheet, case.own) else {
                continue;
            };
            let member = register.live.trailing_zeros() as u64 + 1;
            let ranks: Vec<u8> = (1..64).map(|_| rng.range(1, 24) as u8).collect();
            let most = Register::sum(Places(register.live), &register.contribution) + case.own;
            let one = (rng.below(2 * most).min(MAX_SUM), &ranks[..]);
            let mut alone = register.clone();
            let answer = declare(&mut alone, member, &[one]);
            for count in 2..=4 {
                for at in 0..count {
                    let mut pools: [Pool; 4] = [(0, &[5; 63]); 4];
                    pools[at] = one;
                    let mut among = register.clone();
                    assert_eq!(declare(&mut among, member, &pools[..count]), answer);
                    assert_eq!(among, alone);
                }
            }
        }
    }

    #[test]
    fn no_loss_in_any_pool() {
        for count in 1..=4 {
            let pools: &[Pool] = &[(0, RISING); 4][..count];
            gives(odd(0), 1, pools, [0; 6], 0, &[0; 4]);
        }
    }

    /// Nobody is left to give anything.
    #[test]
    fn pools_of_the_last_member() {
        let pools: [Pool; 2] = [(15_000, &[]), (7_000, &[])];
        let register = open(&[[0, 10_000, 0]], 0);
        gives(register, 1, &pools, [0, 10_000, 0, 0, 0, 0], 12_000, &[]);
    }

    /// The largest sums of all: no product of the split is past its 64 bits.
    #[test]
    fn the_largest_pools() {
        let register = open(&[[400_000_000; 3]; 64], 0);
        let ranks = &[1; 63];
        let pools: [Pool; 2] = [(25_599_999_999, ranks), (1, ranks)];
        let layers = [400_000_000, 400_000_000, 0, 24_800_000_000, 0, 0];
        gives(register, 1, &pools, layers, 0, &[]);
    }
}
