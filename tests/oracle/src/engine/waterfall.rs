//! Declaring a default: the six layers.

use super::pools::{pool_sums, Ranked};
use super::register::Register;
use super::split::Split;
use super::{Places, DEFAULT_SLIP, MAX_SUM, MEMBERS};

/// The answer of an accepted default.
#[derive(Clone, Copy, Debug, Default, PartialEq, Eq)]
pub struct DefaultAnswer {
    pub fallen: u64,
    pub layers: [u64; 6],
    pub short: u64,
}

/// Takes from a pocket all it has or all that is left to place.
pub fn draw(pocket: &mut u64, left: &mut u64) -> u64 {
    let taken = (*pocket).min(*left);
    *pocket -= taken;
    *left -= taken;
    taken
}

fn draw_amount(pocket: &mut u32, left: &mut u64) -> u64 {
    let mut sum = *pocket as u64;
    let taken = draw(&mut sum, left);
    *pocket = sum as u32;
    taken
}

/// Refusal 13 for the loss of any pool, 22 for the losses together.
#[inline]
pub fn check_losses(losses: &[u64]) -> Result<(), u8> {
    if losses.iter().any(|&loss| loss > MAX_SUM) {
        return Err(13);
    }
    if losses.iter().sum::<u64>() > MAX_SUM {
        return Err(22);
    }
    Ok(())
}

/// The ranks of each pool, if there are 64 of each.
#[inline]
pub fn split_ranks<const POOLS: usize>(ranks: &[u8]) -> Option<&[[u8; MEMBERS]; POOLS]> {
    let (pools, rest) = ranks.as_chunks();
    pools.try_into().ok().filter(|_| rest.is_empty())
}

impl Register {
    /// Declares a default of 1 to 4 pools, with 64 ranks for each; refusals leave register and slip untouched.
    pub fn default(
        &mut self,
        member: u64,
        losses: &[u64],
        ranks: &[u8],
        slip: &mut [u64],
    ) -> Result<DefaultAnswer, u8> {
        let place = self.live_place(member)?;
        // The count of pools becomes a constant, so that one pool costs what one pool needs.
        match *losses {
            [a] => self.declare(place, [a], ranks, slip),
            [a, b] => self.declare(place, [a, b], ranks, slip),
            [a, b, c] => self.declare(place, [a, b, c], ranks, slip),
            [a, b, c, d] => self.declare(place, [a, b, c, d], ranks, slip),
            _ => Err(21),
        }
    }

    fn declare<const POOLS: usize>(
        &mut self,
        place: usize,
        losses: [u64; POOLS],
        ranks: &[u8],
        slip: &mut [u64],
    ) -> Result<DefaultAnswer, u8> {
        check_losses(&losses)?;
        let ranks = split_ranks::<POOLS>(ranks).ok_or(14)?;
        let slip = slip.first_chunk_mut().ok_or(14)?;
        let others = self.others(place);
        let mut ranked = [const { Ranked::NONE }; POOLS];
        for (ranked, ranks) in ranked.iter_mut().zip(ranks) {
            ranked.sort(others, ranks)?;
        }
        Ok(self.allocate(place, losses, &mut ranked, slip))
    }

    /// The live members but the one at `place`.
    #[inline]
    pub fn others(&self, place: usize) -> Places {
        Places(self.live & !(1 << place))
    }

    /// What each layer holds for a default of the member at `place`.
    pub fn layer_sums(&self, place: usize) -> [u64; 6] {
        let others = self.others(place);
        [
            self.margin[place] as u64,
            self.contribution[place] as u64,
            self.tranche1,
            Register::sum(others, &self.contribution),
            self.tranche2,
            Register::sum(others, &self.cap) - Register::sum(others, &self.called),
        ]
    }

    /// Takes a default whose checks are past down the layers.
    #[inline]
    pub fn allocate<const POOLS: usize>(
        &mut self,
        place: usize,
        losses: [u64; POOLS],
        ranked: &mut [Ranked; POOLS],
        slip: &mut [u64; DEFAULT_SLIP],
    ) -> DefaultAnswer {
        let others = self.others(place);
        slip.fill(0);
        let (charges, calls) = slip.split_at_mut(MEMBERS);
        let fallen = std::mem::take(&mut self.outstanding[place]) as u64;
        let mut left = losses.iter().sum::<u64>() + fallen;
        self.live = others.0;
        let margin = draw_amount(&mut self.margin[place], &mut left);
        let contribution = draw_amount(&mut self.contribution[place], &mut left);
        let tranche1 = draw(&mut self.tranche1, &mut left);
        let sums = pool_sums(fallen, losses, margin + contribution + tranche1);
        let layers = [
            margin,
            contribution,
            tranche1,
            self.charge(others, ranked, sums, &mut left, charges),
            draw(&mut self.tranche2, &mut left),
            self.call(others, &mut left, calls),
        ];
        DefaultAnswer {
            fallen,
            layers,
            short: left,
        }
    }

    /// Layer 6: calls on the others over the rest of their caps.
    fn call(&mut self, others: Places, left: &mut u64, calls: &mut [u64]) -> u64 {
        if *left == 0 {
            return 0;
        }
        let total = Register::sum(others, &self.cap) - Register::sum(others, &self.called);
        let part = total.min(*left);
        let mut split = Split::new(part, total);
        for place in others {
            let share = split.share((self.cap[place] - self.called[place]) as u64);
            self.called[place] += share as u32;
            self.outstanding[place] += share as u32;
            calls[place] = share;
        }
        *left -= part;
        part
    }
}

#[cfg(test)]
mod tests {
    use super::*;
    use crate::engine::examples::{example, ranks};
    use crate::generate::member_record;

    #[test]
    fn tranches_of_22() {
        let register = Register::open(&member_record(1, [0, 10_000, 0]), 22).unwrap();
        assert_eq!((register.tranche1, register.tranche2), (13, 9));
    }

    #[test]
    fn three_defaults() {
        let mut register = example();
        let mut slip = [7; 130];
        let first = register.default(1, &[100_000], &ranks(&[(2, 1), (3, 2), (4, 2)]), &mut slip);
        let first = first.unwrap();
        assert_eq!(first.layers, [50_000, 20_000, 13_200, 16_800, 0, 0]);
        assert_eq!((first.fallen, first.short), (0, 0));
        assert_eq!(slip[..4], [0, 0, 5_600, 11_200]);
        assert_eq!(slip[128..], [7, 7]);

        let second = register.default(3, &[60_000], &ranks(&[(2, 1), (4, 1)]), &mut slip);
        let second = second.unwrap();
        assert_eq!(second.layers, [0, 4_400, 0, 38_800, 8_800, 8_000]);
        assert_eq!((second.fallen, second.short), (0, 0));
        assert_eq!(slip[64..68], [0, 8_000, 0, 0]);

        let third = register
            .default(2, &[0], &ranks(&[(4, 1)]), &mut slip)
            .unwrap();
        assert_eq!((third.fallen, third.short), (8_000, 8_000));
        assert_eq!(third.layers, [0; 6]);
        assert_eq!(register.close(), Ok(()));
    }

    #[test]
    fn blank_ranks() {
        let mut slip = [0; DEFAULT_SLIP];
        let for_four = ranks(&[(2, 1), (3, 2)]);
        let before = example();
        let mut register = example();
        assert_eq!(
            register.default(1, &[100_000], &for_four, &mut slip),
            Err(15)
        );
        assert_eq!((register, slip), (before, [0; DEFAULT_SLIP]));
        let for_one = ranks(&[(1, 255), (2, 1), (3, 2), (4, 2)]);
        assert!(example()
            .default(1, &[100_000], &for_one, &mut slip)
            .is_ok());
    }

    #[test]
    fn ranks_stop_at_24() {
        let with = |rank| ranks(&[(2, rank), (3, 2), (4, 2)]);
        let mut slip = [7; 130];
        let answer = example().default(1, &[100_000], &with(24), &mut slip);
        assert_eq!(answer.unwrap().layers[3], 16_800);
        assert_eq!(slip[..4], [0, 16_800, 0, 0]);
        for rank in [25, 64, 65, 0, 255] {
            let (mut register, mut slip) = (example(), [7; 130]);
            let answer = register.default(1, &[100_000], &with(rank), &mut slip);
            assert_eq!(answer, Err(15), "rank {rank}");
            assert_eq!((register, slip), (example(), [7; 130]), "rank {rank}");
        }
    }

    /// Member 1 is the defaulter and then in default; 5 and 64 are not in the register.
    #[test]
    fn ranks_that_are_not_read_are_anything() {
        let mut slip = [0; DEFAULT_SLIP];
        for rank in [24, 25, 64, 65, 0, 255] {
            for member in [1, 5, 64] {
                let ranks = ranks(&[(2, 1), (3, 2), (4, 2), (member, rank)]);
                let mut register = example();
                let first = register.default(1, &[100_000], &ranks, &mut slip).unwrap();
                assert_eq!(first.layers, [50_000, 20_000, 13_200, 16_800, 0, 0]);
                let second = register.default(3, &[60_000], &ranks, &mut slip).unwrap();
                assert_eq!(second.layers, [0, 4_400, 0, 38_800, 8_800, 8_000]);
            }
        }
    }

    #[test]
    fn all_others_of_64_may_share_rank_24() {
        let sheet: Vec<u8> = (1..=64)
            .flat_map(|member| member_record(member, [0, 10_000, 0]))
            .collect();
        let mut register = Register::open(&sheet, 0).unwrap();
        let mut slip = [0; DEFAULT_SLIP];
        let answer = register
            .default(1, &[16_300], &[24; 64], &mut slip)
            .unwrap();
        assert_eq!(answer.layers, [0, 10_000, 0, 6_300, 0, 0]);
        assert_eq!((slip[0], &slip[1..64]), (0, &[100; 63][..]));
    }

    #[test]
    fn caps_at_the_limit() {
        assert!(Register::open(&member_record(1, [0, 10_000, 400_000_000]), 0).is_ok());
        let refusal = Register::open(&member_record(1, [0, 10_000, 400_000_001]), 0).unwrap_err();
        assert_eq!((refusal.number, refusal.record), (6, 1));
    }

    #[test]
    fn refusals_in_order() {
        let mut slip = [0; DEFAULT_SLIP];
        let mut register = example();
        let good = ranks(&[(2, 1), (3, 2), (4, 2)]);
        assert_eq!(register.default(5, &[MAX_SUM + 1], &[], &mut []), Err(11));
        assert_eq!(register.default(1, &[MAX_SUM + 1], &[], &mut []), Err(13));
        assert_eq!(
            register.default(1, &[MAX_SUM], &good[1..], &mut slip),
            Err(14)
        );
        assert_eq!(register.default(1, &[0], &[0; 64], &mut slip[1..]), Err(14));
        assert_eq!(register.default(1, &[0], &[0; 64], &mut slip), Err(15));
        assert_eq!(register, example());
        assert!(register.default(1, &[0], &good, &mut slip).is_ok());
        assert_eq!(register.default(1, &[MAX_SUM + 1], &[], &mut []), Err(12));
    }

    /// 21 straight after 12, and 22 straight after 13; 13 to 15 are tried on each pool.
    #[test]
    fn refusals_of_pools() {
        let mut slip = [7; DEFAULT_SLIP];
        let mut register = example();
        let good = ranks(&[(2, 1), (3, 2), (4, 2)]);
        let mut refused = |member, losses: &[u64], ranks: &[u8], slip: &mut [u64]| {
            let answer = register.default(member, losses, ranks, slip);
            assert_eq!(register, example());
            answer.unwrap_err()
        };
        for count in [0, 5, 6, 64] {
            assert_eq!(refused(5, &vec![MAX_SUM + 1; count], &[], &mut []), 11);
            assert_eq!(refused(1, &vec![MAX_SUM + 1; count], &[], &mut []), 21);
            let all = good.repeat(count);
            assert_eq!(refused(1, &vec![0; count], &all, &mut slip), 21);
        }
        let most = [MAX_SUM; 4];
        for count in 2..=4 {
            for at in 0..count {
                let mut losses = most;
                losses[at] += 1;
                assert_eq!(refused(1, &losses[..count], &[], &mut []), 13);
            }
            assert_eq!(refused(1, &most[..count], &[], &mut []), 22);
            let losses = &[MAX_SUM, 0, 0, 0][..count];
            let all = good.repeat(count);
            for length in [0, 64, all.len() - 64, all.len() - 1] {
                assert_eq!(refused(1, losses, &all[..length], &mut slip), 14);
            }
            assert_eq!(refused(1, losses, &good.repeat(count + 1), &mut slip), 14);
            assert_eq!(refused(1, losses, &all, &mut slip[1..]), 14);
            for pool in 0..count {
                for rank in [0, 25, 255] {
                    let mut faulty = all.clone();
                    faulty[pool * MEMBERS + 2] = rank;
                    assert_eq!(refused(1, losses, &faulty, &mut slip[1..]), 14);
                    assert_eq!(refused(1, losses, &faulty, &mut slip), 15);
                }
            }
        }
        assert_eq!(refused(1, &[MAX_SUM, 0, 0, 1], &[], &mut []), 22);
        assert_eq!(refused(1, &[1, MAX_SUM], &[], &mut []), 22);
        assert_eq!(slip, [7; DEFAULT_SLIP]);
        for count in 1..=4 {
            let losses = &[0, 0, 1, MAX_SUM - 1][4 - count..];
            let answer = example().default(1, losses, &good.repeat(count), &mut slip);
            assert!(answer.is_ok());
        }
        assert!(register.default(1, &[1], &good, &mut slip).is_ok());
        let five = [MAX_SUM + 1; 5];
        assert_eq!(register.default(1, &five, &[], &mut []), Err(12));
    }

    #[test]
    fn a_payment_does_not_reopen_the_cap() {
        let mut register = example();
        let mut slip = [0; DEFAULT_SLIP];
        let everything = 50_000 + 20_000 + 22_000 + 60_000 + 20_000;
        let answer = register.default(1, &[everything], &[1; 64], &mut slip);
        assert_eq!(answer.unwrap().layers[5], 20_000);
        assert_eq!(register.payment(2, 15_001), Err(16));
        assert_eq!(register.payment(2, 0), Err(16));
        assert_eq!(register.payment(2, 15_000), Ok(()));
        assert_eq!(register.close(), Err(18));
        assert_eq!(register.replenishment(2, 30_001), Err(17));
        assert_eq!(register.replenishment(2, u64::MAX), Err(17));
        assert_eq!(register.replenishment(2, 0), Err(17));
        let second = register.default(3, &[10], &[1; 64], &mut slip).unwrap();
        assert_eq!((second.fallen, second.short), (5_000, 5_010));
        assert_eq!(register.close(), Ok(()));
        assert_eq!(register.replenishment(2, 30_000), Ok(()));
    }
}
