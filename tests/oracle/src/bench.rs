//! What the benchmarks repeat. Each case gives a checksum of its answers, which the engine's must equal.

use crate::bench_files::{register_sheet, OWN};
use crate::engine::{
    print_page, size, DefaultAnswer, Placed, Register, Split, DEFAULT_SLIP, MEMBERS, MOST_JUNIOR,
    PAGE_BYTES, RANGE_SLIP,
};
use std::ffi::OsString;
use std::fs;
use std::hint::black_box;
use std::io;

/// The cases by name; `sizing` reads its two sheets from files.
pub const CASES: &str =
    "ranked, tied, calls, pools, range, page, whole, alone, ordinary, sizing STRESS SHARES";

const DEFAULTER: u64 = 17;
const PREVAILING: u64 = 70_000_000;
const AVAILABLE: u64 = 5_000_000;

/// Runs one case so many times and gives the checksum; none where there is no such case.
pub fn bench(case: &str, repetitions: u64, files: &[OsString]) -> io::Result<Option<u64>> {
    Ok(match (case, files) {
        ("ranked" | "tied" | "calls" | "pools", []) => {
            Some(repeat_default(&DefaultCase::named(case), repetitions))
        }
        ("range", []) => Some(repeat_range(&DefaultCase::named("ranked"), repetitions)),
        ("page", []) => Some(repeat_page(repetitions)),
        ("whole" | "alone" | "ordinary", []) => Some(repeat_split(case, repetitions)),
        ("sizing", [stress, shares]) => {
            let (stress, shares) = (fs::read(stress)?, fs::read(shares)?);
            Some(repeat_sizing(&stress, &shares, repetitions))
        }
        _ => None,
    })
}

/// Folds one number into a checksum.
fn fold(sum: u64, number: u64) -> u64 {
    sum.rotate_left(7).wrapping_add(number)
}

/// One default of a register of 64 members, with the losses and ranks of its pools.
struct DefaultCase {
    register: Register,
    losses: Vec<u64>,
    ranks: Vec<u8>,
}

impl DefaultCase {
    /// `ranked`, `tied` and `pools` end inside layer 4, `calls` inside layer 6.
    ///
    /// `ranked` and `calls` spread the members over all ranks. `pools` has the loss of `ranked` in four pools.
    fn named(case: &str) -> Self {
        let register = Register::open(&register_sheet(), OWN).expect("a good sheet");
        let place = DEFAULTER as usize - 1;
        let all = |column: &[u32; MEMBERS]| column.iter().map(|&a| a as u64).sum::<u64>();
        let contributions = register.margin[place] as u64 + all(&register.contribution);
        let to_layer_4 = contributions + register.tranche1;
        let loss = if case == "calls" {
            to_layer_4 + register.tranche2 + all(&register.cap) / 2
        } else {
            to_layer_4 - 777_777
        };
        let (losses, ranks) = match case {
            "tied" => (vec![loss], vec![9; MEMBERS]),
            "pools" => (in_four(loss), ranks_of_four()),
            _ => (vec![loss], (0..MEMBERS).map(|p| rank(p * 29)).collect()),
        };
        DefaultCase {
            register,
            losses,
            ranks,
        }
    }
}

/// A half, a quarter and an eighth, rounded down, and the rest.
fn in_four(loss: u64) -> Vec<u64> {
    let parts = [loss / 2, loss / 4, loss / 8];
    let rest = loss - parts.iter().sum::<u64>();
    [&parts[..], &[rest]].concat()
}

/// The rank that a number falls on, counted round and round.
fn rank(number: usize) -> u8 {
    (number % MOST_JUNIOR as usize) as u8 + 1
}

/// In each of four pools by the member's number times the pool's.
fn ranks_of_four() -> Vec<u8> {
    let pool = |pool| (1..=MEMBERS).map(move |member| rank(member * pool));
    (1..=4).flat_map(pool).collect()
}

/// The six layers, the call that falls, and the shortfall.
fn fold_placed(sum: u64, placed: Placed, fallen: u64) -> u64 {
    let sum = placed.layers.into_iter().fold(sum, fold);
    fold(fold(sum, fallen), placed.short)
}

/// One member's charges and calls stand for the slip, another's each turn, so that folding stays cheap.
fn fold_slip<const N: usize>(sum: u64, slip: &[u64; N], place: usize) -> u64 {
    let parts = black_box(slip).chunks_exact(MEMBERS);
    parts.fold(sum, |sum, part| fold(sum, part[place]))
}

fn fold_default(sum: u64, answer: &DefaultAnswer, slip: &[u64; DEFAULT_SLIP], place: usize) -> u64 {
    let sum = fold_placed(sum, (*answer).into(), answer.fallen);
    fold_slip(sum, slip, place)
}

/// The first pool's loss rises a little with the turn, so that no turn is like the one before.
fn repeat_default(case: &DefaultCase, repetitions: u64) -> u64 {
    let mut slip = [0; DEFAULT_SLIP];
    let mut losses = case.losses.clone();
    (0..repetitions).fold(0, |sum, turn| {
        let mut register = black_box(&case.register).clone();
        losses[0] = case.losses[0] + turn % 8;
        let answer = register
            .default(DEFAULTER, &losses, &case.ranks, &mut slip)
            .expect("a good default");
        black_box(&register);
        fold_default(sum, &answer, &slip, turn as usize % MEMBERS)
    })
}

/// How far the low loss of a range is below its high.
const APART: u64 = 1_000_000;

/// The range ends at the loss, and both its ends rise a little with the turn. One slip is lent to every turn.
fn repeat_range(case: &DefaultCase, repetitions: u64) -> u64 {
    let mut slip = [0; RANGE_SLIP];
    (0..repetitions).fold(0, |sum, turn| {
        let register = black_box(&case.register);
        let high = case.losses[0] + turn % 8;
        let answer = register
            .ends(DEFAULTER, [high - APART, high], &case.ranks, &mut slip)
            .expect("a good range");
        let fallen = register.outstanding[DEFAULTER as usize - 1] as u64;
        let sum = fold_placed(sum, answer.low, fallen);
        let sum = fold_placed(sum, answer.high, fallen);
        fold_slip(sum, &slip, turn as usize % MEMBERS)
    })
}

/// The place of the weight that is alone.
const ALONE: usize = 40;

/// Amounts that all differ, in `alone` all but one of them zero.
fn weights(case: &str) -> [u64; MEMBERS] {
    std::array::from_fn(|place| match case {
        "alone" if place != ALONE => 0,
        _ => 1_000_000 + 37 * place as u64,
    })
}

/// One split of the weights' whole total in `whole`, else of half of it and a little more from turn to turn.
fn repeat_split(case: &str, repetitions: u64) -> u64 {
    let weights = weights(case);
    let whole = weights.iter().sum();
    (0..repetitions).fold(0, |checksum, turn| {
        let sum = if case == "whole" {
            whole
        } else {
            whole / 2 + turn % 8
        };
        let mut split = Split::new(sum, whole);
        let shares = weights.map(|weight| split.share(weight));
        let shared = [shares[ALONE], shares[turn as usize % MEMBERS]];
        shared.into_iter().fold(checksum, fold)
    })
}

/// The answer that a turn prints; it too rises a little with the turn.
fn page_answer(turn: u64) -> DefaultAnswer {
    let layers = [50_629, 1_004_403, 600_001, 62_756_540, 400_002, 17_601_059];
    DefaultAnswer {
        fallen: 0,
        layers: layers.map(|layer| layer + turn % 8),
        short: 25_518_000_000 + turn % 8,
    }
}

/// One page is lent to every turn; one byte stands for it, another one each turn, so that all have to be there.
fn repeat_page(repetitions: u64) -> u64 {
    let mut page = [0; PAGE_BYTES];
    (0..repetitions).fold(0, |sum, turn| {
        let answer = page_answer(turn);
        print_page(black_box(&answer), black_box(&mut page)).expect("a good answer");
        fold(sum, black_box(&page)[turn as usize % PAGE_BYTES] as u64)
    })
}

fn repeat_sizing(stress: &[u8], shares: &[u8], repetitions: u64) -> u64 {
    let mut slip = [0; MEMBERS];
    (0..repetitions).fold(0, |sum, turn| {
        let (stress, shares) = (black_box(stress), black_box(shares));
        let prevailing = PREVAILING + turn % 8;
        let s = size(stress, shares, prevailing, AVAILABLE, &mut slip).expect("good sheets");
        let figures = [s.c, s.w, s.a, s.b, s.b1, s.own, s.d];
        let numbers = figures.iter().chain(&slip);
        numbers.fold(sum, |sum, &number| fold(sum, number))
    })
}

#[cfg(test)]
mod tests {
    use super::*;

    /// The engine's program has these losses as numbers.
    #[test]
    fn losses() {
        assert_eq!(DefaultCase::named("ranked").losses, [64_411_573]);
        assert_eq!(DefaultCase::named("tied").losses, [64_411_573]);
        assert_eq!(DefaultCase::named("calls").losses, [82_012_632]);
        assert_eq!(
            DefaultCase::named("pools").losses,
            [32_205_786, 16_102_893, 8_051_446, 8_051_448]
        );
    }

    #[test]
    fn ranks() {
        for case in ["ranked", "calls"] {
            let mut ranks = DefaultCase::named(case).ranks;
            assert_eq!(ranks[..6], [1, 6, 11, 16, 21, 2]);
            ranks.sort_unstable();
            ranks.dedup();
            assert_eq!(ranks, Vec::from_iter(1..=24));
        }
        assert_eq!(DefaultCase::named("tied").ranks, [9; 64]);
        let pools = DefaultCase::named("pools").ranks;
        assert_eq!(pools.len(), 4 * 64);
        for (pool, first) in [[2, 3, 4], [3, 5, 7], [4, 7, 10], [5, 9, 13]]
            .iter()
            .enumerate()
        {
            assert_eq!(pools[pool * 64..pool * 64 + 3], *first);
        }
        assert_eq!(
            [pools[63], pools[127], pools[191], pools[255]],
            [17, 9, 1, 17]
        );
    }

    #[test]
    fn layers_that_the_cases_end_in() {
        let layers = |case| {
            let case = DefaultCase::named(case);
            let mut slip = [0; DEFAULT_SLIP];
            let answer = { case.register }.default(DEFAULTER, &case.losses, &case.ranks, &mut slip);
            answer
                .expect("a good default")
                .layers
                .map(|layer| layer > 0)
        };
        for case in ["ranked", "tied", "pools"] {
            assert_eq!(layers(case), [true, true, true, true, false, false]);
        }
        assert_eq!(layers("calls"), [true; 6]);
    }

    /// Each end is what a default of that loss comes to.
    #[test]
    fn the_ends_of_the_range_in_turn() {
        let case = DefaultCase::named("ranked");
        assert_eq!(repeat_range(&case, 0), 0);
        let mut sum = 0;
        for turn in 0..70 {
            let high = 64_411_573 + turn % 8;
            let mut folded = Vec::new();
            for loss in [high - 1_000_000, high] {
                let mut slip = [0; DEFAULT_SLIP];
                let mut register = case.register.clone();
                let answer = register.default(17, &[loss], &case.ranks, &mut slip);
                let answer = answer.expect("a good default");
                sum = answer.layers.iter().fold(sum, |sum, &l| fold(sum, l));
                sum = fold(fold(sum, answer.fallen), answer.short);
                let place = turn as usize % 64;
                folded.extend([slip[place], slip[64 + place]]);
            }
            sum = folded.into_iter().fold(sum, fold);
            assert_eq!(repeat_range(&case, turn + 1), sum);
        }
    }

    #[test]
    fn weights_of_the_splits() {
        assert_eq!(weights("whole").iter().filter(|&&w| w > 0).count(), 64);
        assert_eq!(weights("ordinary"), weights("whole"));
        let alone = weights("alone");
        assert_eq!(alone.iter().sum::<u64>(), 1_001_480);
        assert_eq!(alone[ALONE], 1_001_480);
    }

    #[test]
    fn the_bytes_of_the_page_in_turn() {
        let bytes = |sum, text: &str| text.bytes().fold(sum, |sum, byte| fold(sum, byte as u64));
        assert_eq!(repeat_page(0), 0);
        assert_eq!(
            repeat_page(40),
            bytes(0, "LAYER                        Rs THOUSAND")
        );
        assert_eq!(repeat_page(47), bytes(repeat_page(40), "\nMARGIN"));
        // 50,632 to 50,636, then 50,629 again
        assert_eq!(repeat_page(81), bytes(repeat_page(75), "50,639"));
    }
}
