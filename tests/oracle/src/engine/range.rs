//! A range of losses: the lowest and the highest of all that a default of one pool places.

use super::pools::Ranked;
use super::register::Register;
use super::waterfall::{check_losses, split_ranks, DefaultAnswer};
use super::DEFAULT_SLIP;

/// A range slip holds two default slips, the lows and then the highs.
pub const RANGE_SLIP: usize = 2 * DEFAULT_SLIP;

/// The lows and the highs of a range slip.
type Halves = [[u64; DEFAULT_SLIP]; 2];

/// What a default places: its layers and its shortfall.
#[derive(Clone, Copy, Debug, PartialEq, Eq)]
pub struct Placed {
    pub layers: [u64; 6],
    pub short: u64,
}

impl From<DefaultAnswer> for Placed {
    fn from(answer: DefaultAnswer) -> Self {
        Placed {
            layers: answer.layers,
            short: answer.short,
        }
    }
}

/// The answer of an accepted range.
#[derive(Clone, Copy, Debug, PartialEq, Eq)]
pub struct RangeAnswer {
    pub low: Placed,
    pub high: Placed,
}

/// Of a range of at most so many losses, all are tried.
const FEW: u64 = 16;
/// Else so many steps lead from the low to the high.
const STEPS: u64 = 9;

/// Keeps the lesser or the greater of every two numbers.
fn keep(kept: &mut [u64], tried: &[u64], which: fn(u64, u64) -> u64) {
    for (kept, &tried) in kept.iter_mut().zip(tried) {
        *kept = which(*kept, tried);
    }
}

impl Placed {
    fn keep(&mut self, tried: &Placed, which: fn(u64, u64) -> u64) {
        keep(&mut self.layers, &tried.layers, which);
        self.short = which(self.short, tried.short);
    }
}

/// A default that is only tried: the register, the defaulter's place, its lowest and highest loss, and
/// the ranks of the others.
struct Trial<'a> {
    register: &'a Register,
    place: usize,
    losses: [u64; 2],
    ranked: Ranked,
}

impl Trial<'_> {
    /// Declares the default with this loss, on a register of its own.
    fn declare(&self, loss: u64, slip: &mut [u64; DEFAULT_SLIP]) -> Placed {
        let mut register = self.register.clone();
        let mut ranked = [self.ranked.clone()];
        register
            .allocate(self.place, [loss], &mut ranked, slip)
            .into()
    }

    /// What the default comes to with its lowest loss, and with its highest.
    #[inline]
    fn ends(&self, [lows, highs]: &mut Halves) -> RangeAnswer {
        let [low, high] = self.losses;
        RangeAnswer {
            low: self.declare(low, lows),
            high: self.declare(high, highs),
        }
    }

    /// Widens an answer, and the halves of its slip, by all that is tried.
    fn widen(&self, answer: &mut RangeAnswer, [lows, highs]: &mut Halves) {
        let mut tried = [0; DEFAULT_SLIP];
        self.each_loss(|loss| {
            let placed = self.declare(loss, &mut tried);
            answer.low.keep(&placed, u64::min);
            answer.high.keep(&placed, u64::max);
            keep(lows, &tried, u64::min);
            keep(highs, &tried, u64::max);
        });
    }

    /// Losses of the range: all where they are few, else both ends and their neighbours, steps between
    /// them, and those that just use up a layer or begin the next.
    fn each_loss(&self, try_loss: impl FnMut(u64)) {
        let [low, high] = self.losses;
        let apart = high - low;
        if apart < FEW {
            return (low..=high).for_each(try_loss);
        }
        let steps = (0..=STEPS).map(|step| low + apart * step / STEPS);
        let within = |loss: &u64| (low..=high).contains(loss);
        let about_layers = self.about_layers().filter(within);
        steps
            .chain([low + 1, high - 1])
            .chain(about_layers)
            .for_each(try_loss)
    }

    fn about_layers(&self) -> impl Iterator<Item = u64> {
        let sums = self.register.layer_sums(self.place);
        let fallen = self.register.outstanding[self.place] as u64;
        (1..=sums.len()).flat_map(move |count| {
            let used_up = sums[..count].iter().sum::<u64>().saturating_sub(fallen);
            [used_up, used_up + 1]
        })
    }
}

impl Register {
    /// The lowest and the highest of every number over a range of losses; the register is only read.
    ///
    /// Nothing is assumed of how a number moves with the loss: losses are tried, at both ends and
    /// between them, and the least and the greatest seen are the answer.
    pub fn range(
        &self,
        member: u64,
        losses: [u64; 2],
        ranks: &[u8],
        slip: &mut [u64],
    ) -> Result<RangeAnswer, u8> {
        let (trial, halves) = self.trial(member, losses, ranks, slip)?;
        let mut answer = trial.ends(halves);
        trial.widen(&mut answer, halves);
        Ok(answer)
    }

    /// What the two ends of a range alone come to, for the benchmark.
    pub fn ends(
        &self,
        member: u64,
        losses: [u64; 2],
        ranks: &[u8],
        slip: &mut [u64],
    ) -> Result<RangeAnswer, u8> {
        let (trial, halves) = self.trial(member, losses, ranks, slip)?;
        Ok(trial.ends(halves))
    }

    /// The checks of a range, and both halves of its slip.
    #[inline]
    fn trial<'a>(
        &self,
        member: u64,
        losses: [u64; 2],
        ranks: &[u8],
        slip: &'a mut [u64],
    ) -> Result<(Trial<'_>, &'a mut Halves), u8> {
        let place = self.live_place(member)?;
        let [low, high] = losses;
        if low > high {
            return Err(23);
        }
        check_losses(&[high])?;
        let [ranks] = split_ranks(ranks).ok_or(14)?;
        // A slip below RANGE_SLIP has no two whole halves.
        let (halves, _) = slip.as_chunks_mut::<DEFAULT_SLIP>();
        let halves = halves.first_chunk_mut::<2>().ok_or(24)?;
        let mut ranked = Ranked::NONE;
        ranked.sort(self.others(place), ranks)?;
        let trial = Trial {
            register: self,
            place,
            losses,
            ranked,
        };
        Ok((trial, halves))
    }
}

#[cfg(test)]
mod tests {
    use super::*;
    use crate::engine::examples::{example, ranks};
    use crate::engine::{MAX_SUM, MEMBERS};
    use crate::generate::drill;
    use crate::rng::Rng;
    use crate::text::{Console, Lines};

    /// Those of document 01's first default.
    fn first_ranks() -> [u8; MEMBERS] {
        ranks(&[(2, 1), (3, 2), (4, 2)])
    }

    #[test]
    fn the_example_as_a_range() {
        let register = example();
        let mut slip = [7; 260];
        let answer = register.range(1, [80_000, 100_000], &first_ranks(), &mut slip);
        let low = Placed {
            layers: [50_000, 20_000, 10_000, 0, 0, 0],
            short: 0,
        };
        let high = Placed {
            layers: [50_000, 20_000, 13_200, 16_800, 0, 0],
            short: 0,
        };
        assert_eq!(answer, Ok(RangeAnswer { low, high }));
        assert_eq!(slip[..128], [0; 128]);
        assert_eq!(slip[128..132], [0, 0, 5_600, 11_200]);
        assert_eq!(slip[132..256], [0; 124]);
        assert_eq!(slip[256..], [7; 4]);
        assert_eq!(register, example());
    }

    #[test]
    fn a_range_over_all_there_is() {
        let mut slip = [7; 256];
        let answer = example().range(1, [0, 200_000], &first_ranks(), &mut slip);
        let answer = answer.unwrap();
        assert_eq!((answer.low.layers, answer.low.short), ([0; 6], 0));
        let most = [50_000, 20_000, 13_200, 60_000, 8_800, 20_000];
        assert_eq!((answer.high.layers, answer.high.short), (most, 28_000));
        assert_eq!(slip[..128], [0; 128]);
        assert_eq!(slip[128..132], [0, 30_000, 10_000, 20_000]);
        assert_eq!(slip[192..196], [0, 15_000, 5_000, 0]);
    }

    /// The number that refuses a range, and its ends alone; a slip of this length stays as it was.
    fn refused(
        register: &Register,
        member: u64,
        losses: [u64; 2],
        ranks: &[u8],
        length: usize,
    ) -> u8 {
        let mut slip = vec![7; length];
        let ends = register.ends(member, losses, ranks, &mut slip);
        let answer = register.range(member, losses, ranks, &mut slip);
        assert_eq!(ends, answer);
        assert_eq!(slip, vec![7; length]);
        answer.unwrap_err()
    }

    /// Those of document 01's first default, but for member 3's.
    fn ranks_with(rank: u8) -> [u8; MEMBERS] {
        ranks(&[(2, 1), (3, rank), (4, 2)])
    }

    const OVER: u64 = MAX_SUM + 1;

    #[test]
    fn refusals_of_the_member_come_first() {
        let mut register = example();
        let all_losses = [[1, 0], [OVER + 1, OVER], [0, OVER], [0, 0]];
        for losses in all_losses {
            for member in [0, 5, 64, 65, u64::MAX] {
                assert_eq!(refused(&register, member, losses, &[], 0), 11);
            }
        }
        let mut slip = [0; DEFAULT_SLIP];
        register
            .default(1, &[0], &first_ranks(), &mut slip)
            .unwrap();
        for losses in all_losses {
            assert_eq!(refused(&register, 1, losses, &[], 0), 12);
            assert_eq!(refused(&register, 1, losses, &ranks_with(25), 256), 12);
        }
    }

    /// 23 just before 13, which tests the high; both before what is lent.
    #[test]
    fn refusals_of_the_losses() {
        for (losses, number) in [
            ([1, 0], 23),
            ([OVER + 1, OVER], 23),
            ([u64::MAX, 0], 23),
            ([0, OVER], 13),
            ([OVER, OVER], 13),
            ([MAX_SUM, u64::MAX], 13),
        ] {
            assert_eq!(refused(&example(), 1, losses, &[], 0), number);
            assert_eq!(refused(&example(), 1, losses, &ranks_with(25), 256), number);
        }
    }

    /// 14 for the ranks, 24 in the place of its slip, and 15.
    #[test]
    fn refusals_of_what_is_lent() {
        let (good, most) = (first_ranks(), [MAX_SUM; 2]);
        for length in [0, 128, 255, 256, 300] {
            for ranks in [&[], &good[1..], &good.repeat(2)] {
                assert_eq!(refused(&example(), 1, most, ranks, length), 14);
            }
        }
        for length in [0, 128, 255] {
            for ranks in [good, ranks_with(25)] {
                assert_eq!(refused(&example(), 1, most, &ranks, length), 24);
            }
        }
        for rank in [0, 25, 64, 255] {
            for length in [256, 300] {
                let number = refused(&example(), 1, most, &ranks_with(rank), length);
                assert_eq!(number, 15);
            }
        }
    }

    /// Member 1 defaults, 5 and 64 are not in the register, and 24 is the most junior rank.
    #[test]
    fn ranks_that_are_not_read_are_anything() {
        let losses = [0, 100_000];
        let mut slip = [0; RANGE_SLIP];
        let plain = example().range(1, losses, &first_ranks(), &mut slip);
        let plain = plain.unwrap();
        assert_eq!(slip[128..132], [0, 0, 5_600, 11_200]);
        for rank in [0, 25, 255] {
            let ranks = ranks(&[(2, 1), (3, 24), (4, 24), (1, rank), (5, rank), (64, rank)]);
            let mut other = [0; RANGE_SLIP];
            let answer = example().range(1, losses, &ranks, &mut other);
            assert_eq!(answer, Ok(plain));
            assert_eq!(other, slip);
        }
    }

    fn losses_tried(register: &Register, member: u64, losses: [u64; 2]) -> Vec<u64> {
        let mut slip = [0; RANGE_SLIP];
        let ranks = [1; MEMBERS];
        let (trial, _) = register.trial(member, losses, &ranks, &mut slip).unwrap();
        let mut tried = Vec::new();
        trial.each_loss(|loss| tried.push(loss));
        tried
    }

    #[test]
    fn losses_that_are_tried() {
        let tried = |losses| losses_tried(&example(), 1, losses);
        assert_eq!(tried([5, 5]), [5]);
        assert_eq!(tried([5, 6]), [5, 6]);
        assert_eq!(tried([5, 20]), Vec::from_iter(5..=20));
        let steps = [5, 6, 8, 10, 12, 13, 15, 17, 19, 21, 6, 20];
        assert_eq!(tried([5, 21]), steps);
        let all = tried([0, MAX_SUM]);
        assert_eq!(all.len(), 24);
        for loss in [0, 1, MAX_SUM - 1, MAX_SUM, 50_000, 50_001, 70_000, 83_200] {
            assert!(all.contains(&loss), "{loss}");
        }
        for loss in [83_201, 143_200, 152_000, 152_001, 172_000, 172_001] {
            assert!(all.contains(&loss), "{loss}");
        }
        let few_layers = tried([70_001, 143_200]);
        assert_eq!(few_layers[12..], [70_001, 83_200, 83_201, 143_200]);
    }

    /// Member 2 owes 7,500, and the one other live member has 7,777: of these a loss of 277 uses up all.
    #[test]
    fn losses_that_are_tried_beside_a_fallen_call() {
        let mut register = example();
        let mut slip = [0; DEFAULT_SLIP];
        for (member, loss) in [(1, 100_000), (3, 60_000)] {
            let answer = register.default(member, &[loss], &first_ranks(), &mut slip);
            answer.unwrap();
        }
        register.payment(2, 500).unwrap();
        register.replenishment(4, 7_777).unwrap();
        let tried = losses_tried(&register, 2, [0, 9_000]);
        assert_eq!(
            tried[..12],
            [0, 1_000, 2_000, 3_000, 4_000, 5_000, 6_000, 7_000, 8_000, 9_000, 1, 8_999]
        );
        assert_eq!(tried[12..18], [0, 1, 0, 1, 0, 1]);
        assert_eq!(tried[18..], [277, 278, 277, 278, 277, 278]);
    }

    /// With each register of some random drills, for a few of its live members: ranks, and a loss eight
    /// below that which just uses up some layers, or below any other.
    fn each_register(mut with: impl FnMut(&Register, u64, &[u8], u64)) {
        let mut rng = Rng::new(7);
        for seed in 0..60 {
            let case = drill(seed);
            let mut console = Console::open(&case.sheet, case.own, &mut Vec::new()).unwrap();
            let mut lines = Lines::new(&case.calls[..]);
            while let Some((at, line)) = lines.next().unwrap() {
                console.answer(at, line, &mut Vec::new()).unwrap();
                let register = console.register();
                for _ in 0..register.live.count_ones().min(2) {
                    let place = rng.range(0, 63) as u32;
                    let place = (register.live.rotate_right(place).trailing_zeros() + place) % 64;
                    let ranks: Vec<u8> = (0..MEMBERS).map(|_| rng.range(1, 24) as u8).collect();
                    let loss = loss_below(&mut rng, register, place as usize);
                    with(register, place as u64 + 1, &ranks, loss);
                }
            }
        }
    }

    fn loss_below(rng: &mut Rng, register: &Register, place: usize) -> u64 {
        let sums = register.layer_sums(place);
        let fallen = register.outstanding[place] as u64;
        let whole: u64 = sums[..rng.range(1, 6) as usize].iter().sum();
        let part = rng.below(whole + 1);
        let sum = rng.pick(&[whole, part]);
        sum.saturating_sub(fallen + 8).min(MAX_SUM - 60)
    }

    fn declared(register: &Register, member: u64, loss: u64, ranks: &[u8]) -> (Placed, Vec<u64>) {
        let mut slip = vec![0; DEFAULT_SLIP];
        let answer = register.clone().default(member, &[loss], ranks, &mut slip);
        (answer.unwrap().into(), slip)
    }

    /// The least and the greatest of every number over all losses of a range.
    fn one_by_one(
        register: &Register,
        member: u64,
        [low, high]: [u64; 2],
        ranks: &[u8],
    ) -> (RangeAnswer, Vec<u64>) {
        let (low_end, mut lows) = declared(register, member, low, ranks);
        let mut answer = RangeAnswer {
            low: low_end,
            high: low_end,
        };
        let mut highs = lows.clone();
        for loss in low..=high {
            let (placed, slip) = declared(register, member, loss, ranks);
            answer.low.keep(&placed, u64::min);
            answer.high.keep(&placed, u64::max);
            keep(&mut lows, &slip, u64::min);
            keep(&mut highs, &slip, u64::max);
        }
        (answer, [lows, highs].concat())
    }

    /// How many of the layers and the shortfall differ over a range.
    fn moved(answer: &RangeAnswer) -> usize {
        let RangeAnswer { low, high } = answer;
        let layers = low.layers.iter().zip(&high.layers);
        layers.filter(|(low, high)| low != high).count() + (low.short != high.short) as usize
    }

    /// Every loss of some ranges, many of which lie across the place where a layer is used up.
    #[test]
    fn every_loss_falls_between_and_each_end_is_reached() {
        let mut across = [0; 2];
        each_register(|register, member, ranks, low| {
            let owes = register.outstanding[member as usize - 1] > 0;
            for apart in [0, 1, 9, 15, 16, 60] {
                let losses = [low, low + apart];
                let mut slip = [0; RANGE_SLIP];
                let answer = register.range(member, losses, ranks, &mut slip).unwrap();
                let expected = one_by_one(register, member, losses, ranks);
                assert_eq!((answer, slip.to_vec()), expected);
                across[owes as usize] += (moved(&answer) > 1) as u64;
            }
        });
        assert!(across.iter().all(|&times| times > 2_000), "{across:?}");
    }

    #[test]
    fn the_ends_alone_come_to_as_much() {
        each_register(|register, member, ranks, low| {
            for high in [low, low + 1, low + 1_000, 2 * low, MAX_SUM] {
                let losses = [low, high.min(MAX_SUM)];
                let (mut tried, mut ends) = ([7; RANGE_SLIP], [7; RANGE_SLIP]);
                let answer = register.range(member, losses, ranks, &mut tried);
                assert_eq!(register.ends(member, losses, ranks, &mut ends), answer);
                assert_eq!(ends, tried);
            }
        });
    }
}
