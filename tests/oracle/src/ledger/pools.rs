//! What the pools of a default charge, counted by the rules on plain sums.

use super::{ensure, Counted, Sum};
use crate::engine::{MAX_SUM, MEMBERS, MOST_POOLS};
use std::collections::BTreeMap;

/// Amounts by member, in rising order.
pub type ByMember = BTreeMap<u64, Sum>;

/// What a default finds in the register before it.
pub struct Found {
    /// The defaulter's outstanding call, which falls.
    pub fallen: Sum,
    /// What layers 1 to 3 hold.
    pub first_layers: Sum,
    /// The contributions of the other live members.
    pub contributions: ByMember,
}

/// One pool: its portions and what it charges them.
struct Pool {
    ranks: Vec<u8>,
    portions: ByMember,
    charges: ByMember,
    /// Whether a rank gives a part that one member alone has to give.
    alone: bool,
}

/// The charges of a whole layer 4.
pub struct Charged {
    pools: Vec<Pool>,
    tie: ByMember,
    /// How many contributions are just the sums of several pools together.
    pub just_sums: u64,
    /// The pool that a fallen call joined, and whether that had a loss left.
    pub joined: Option<(usize, bool)>,
}

/// The shares of a sum over weights, in their order.
fn split(mut sum: Sum, weights: &[Sum]) -> Vec<Sum> {
    let mut left: Sum = weights.iter().sum();
    let mut shares = Vec::new();
    for weight in weights {
        let share = (weight * sum).checked_div(left).unwrap_or(0);
        sum -= share;
        left -= weight;
        shares.push(share);
    }
    shares
}

/// The shares of some members: all they have, or a sum that is less.
fn split_over(sum: Sum, have: &ByMember) -> ByMember {
    let weights: Vec<Sum> = have.values().copied().collect();
    let sum = sum.min(weights.iter().sum());
    have.keys().copied().zip(split(sum, &weights)).collect()
}

fn total(amounts: &ByMember) -> Sum {
    amounts.values().sum()
}

/// Only 1 to 4 pools are accepted, with losses that together are no more than one loss may be.
pub fn within_limits(losses: &[u64]) -> Counted {
    let count = losses.len();
    let sum: Sum = losses.iter().map(|&loss| loss as Sum).sum();
    ensure((1..=MOST_POOLS).contains(&count), || {
        format!("accepted with {count} pools")
    })?;
    ensure(sum <= MAX_SUM as Sum, || {
        format!("accepted with losses of {sum}")
    })
}

/// Layer 4 of a default by the rules.
pub fn charge(found: &Found, losses: &[u64], ranks: &[u8]) -> Charged {
    let (sums, joined) = sums_of_pools(found, losses);
    let mut pools: Vec<Pool> = Vec::new();
    for ranks in ranks.chunks(MEMBERS) {
        let at = pools.len();
        let portion = |contribution: &Sum| split(*contribution, &sums)[at];
        let portions = found.contributions.iter();
        let portions = portions.map(|(&m, c)| (m, portion(c))).collect();
        pools.push(Pool::charge(sums[at], ranks, portions));
    }
    let met: Sum = pools.iter().map(|pool| total(&pool.charges)).sum();
    let mut standing = found.contributions.clone();
    for (member, standing) in &mut standing {
        *standing -= pools.iter().map(|pool| pool.charges[member]).sum::<Sum>();
    }
    let tie = split_over(sums.iter().sum::<Sum>() - met, &standing);
    Charged {
        pools,
        tie,
        just_sums: just_sums(&sums, &found.contributions),
        joined,
    }
}

/// Contributions that the split over the pools' sums divides into those sums themselves.
fn just_sums(sums: &[Sum], contributions: &ByMember) -> u64 {
    if sums.iter().filter(|&&sum| sum > 0).count() < 2 {
        return 0;
    }
    let whole: Sum = sums.iter().sum();
    contributions.values().filter(|&&c| c == whole).count() as u64
}

/// What each pool has to place, and which of them a fallen call joined.
fn sums_of_pools(found: &Found, losses: &[u64]) -> (Vec<Sum>, Option<(usize, bool)>) {
    let mut given = found.first_layers;
    let mut left_of = |sum: Sum| {
        let met = sum.min(given);
        given -= met;
        sum - met
    };
    let fallen = left_of(found.fallen);
    let mut sums: Vec<Sum> = losses.iter().map(|&loss| left_of(loss as Sum)).collect();
    if fallen == 0 {
        return (sums, None);
    }
    let with_loss = sums.iter().position(|&sum| sum > 0);
    let joined = with_loss.unwrap_or(0);
    sums[joined] += fallen;
    (sums, Some((joined, with_loss.is_some())))
}

impl Pool {
    /// Charges portions by rank, the greatest first.
    fn charge(mut left: Sum, ranks: &[u8], portions: ByMember) -> Self {
        let mut by_rank = BTreeMap::<u8, ByMember>::new();
        for (&member, &portion) in &portions {
            let tied = by_rank.entry(ranks[member as usize - 1]).or_default();
            tied.insert(member, portion);
        }
        let mut charges = ByMember::new();
        let mut alone = false;
        for tied in by_rank.into_values().rev() {
            let with_some = tied.values().filter(|&&portion| portion > 0).count();
            alone |= with_some == 1 && 0 < left && left < total(&tied);
            let shares = split_over(left, &tied);
            left -= total(&shares);
            charges.extend(shares);
        }
        Pool {
            ranks: ranks.to_vec(),
            portions,
            charges,
            alone,
        }
    }

    /// A member that is charged, and a more junior one that is not charged its whole portion.
    fn out_of_order(&self) -> Option<(u64, u64)> {
        let rank = |member: u64| self.ranks[member as usize - 1];
        let spared = |member: u64| self.charges[&member] < self.portions[&member];
        let charged = self.charges.iter().filter(|(_, &charge)| charge > 0);
        for (&senior, _) in charged {
            let mut others = self.portions.keys();
            if let Some(&junior) = others.find(|&&m| rank(m) > rank(senior) && spared(m)) {
                return Some((senior, junior));
            }
        }
        None
    }
}

impl Charged {
    /// Within each pool the junior give all before the senior give anything.
    pub fn in_order(&self) -> Counted {
        for (at, pool) in self.pools.iter().enumerate() {
            let out_of_order = pool.out_of_order();
            ensure(out_of_order.is_none(), || {
                format!("pool {}: {out_of_order:?} out of order", at + 1)
            })?;
        }
        Ok(())
    }

    /// How many pools have a rank that gives a part by one member alone.
    pub fn alone(&self) -> u64 {
        self.pools.iter().filter(|pool| pool.alone).count() as u64
    }

    /// The pools' charges and the tie's add to what the slip shows.
    pub fn adds_to(&self, slip: &ByMember) -> Counted {
        for (member, tie) in &self.tie {
            let charge = tie + self.pools.iter().map(|p| p.charges[member]).sum::<Sum>();
            let shown = slip.get(member).copied().unwrap_or(0);
            ensure(charge == shown, || {
                format!("member {member} is charged {shown}, and {charge} by pools and tie")
            })?;
        }
        Ok(())
    }

    /// Whether the pools charged anything.
    pub fn charged(&self) -> bool {
        self.pools.iter().any(|pool| total(&pool.charges) > 0)
    }

    /// Whether anything fell on the tie.
    pub fn tied(&self) -> bool {
        total(&self.tie) > 0
    }
}

#[cfg(test)]
mod tests {
    use super::*;

    fn by_member(amounts: &[Sum]) -> ByMember {
        (2..).zip(amounts.iter().copied()).collect()
    }

    fn ranks(given: [u8; 3]) -> Vec<u8> {
        let mut ranks = vec![255; MEMBERS];
        ranks[1..4].copy_from_slice(&given);
        ranks
    }

    #[test]
    fn splits() {
        assert_eq!(split(5, &[3, 3, 4]), [1, 1, 3]);
        assert_eq!(split(6, &[3, 3, 4]), [1, 2, 3]);
        assert_eq!(split(5, &[0, 5]), [0, 5]);
        assert_eq!(split(5, &[0, 0]), [0, 0]);
        assert_eq!(split_over(5, &by_member(&[1, 2])), by_member(&[1, 2]));
    }

    #[test]
    fn a_tie_after_the_pools() {
        let found = Found {
            fallen: 3,
            first_layers: 1,
            contributions: by_member(&[10, 10, 10]),
        };
        let ranks = [ranks([1, 2, 3]), ranks([1, 2, 3])].concat();
        let charged = charge(&found, &[0, 25], &ranks);
        assert_eq!((charged.joined, charged.tied()), (Some((1, true)), false));
        assert_eq!(charged.adds_to(&by_member(&[7, 10, 10])), Ok(()));
        let charged = charge(&found, &[1, 25], &ranks);
        // 3 of 28 are pool 1's: each portion is 1, and the other is 9
        assert_eq!(charged.pools[0].charges, by_member(&[1, 1, 1]));
        assert_eq!(charged.pools[1].charges, by_member(&[7, 9, 9]));
        assert_eq!((charged.joined, charged.tied()), (Some((0, true)), false));
        let charged = charge(&found, &[0, 0], &ranks);
        assert_eq!((charged.joined, charged.tied()), (Some((0, false)), false));
        assert_eq!(charged.adds_to(&by_member(&[0, 0, 2])), Ok(()));
        let charged = charge(&found, &[2, 24], &ranks);
        // 4 of 28 are pool 1's, and each portion is 1: the fourth falls on what stands, 2 of member 2's
        assert_eq!((charged.joined, charged.tied()), (Some((0, true)), true));
        assert_eq!(charged.tie, by_member(&[1, 0, 0]));
        assert_eq!(charged.adds_to(&by_member(&[8, 10, 10])), Ok(()));
        assert!(charged.adds_to(&by_member(&[9, 9, 10])).is_err());
    }

    #[test]
    fn plain_splits_are_told() {
        let found = Found {
            fallen: 0,
            first_layers: 0,
            contributions: by_member(&[10, 4, 10]),
        };
        let told = |losses: &[u64], pool: [u8; 3]| {
            let charged = charge(&found, losses, &ranks(pool).repeat(losses.len()));
            (charged.just_sums, charged.alone())
        };
        assert_eq!(told(&[3, 0, 7], [1, 2, 3]), (2, 0));
        assert_eq!(told(&[0, 10], [1, 2, 3]), (0, 0));
        assert_eq!(told(&[5], [1, 2, 3]), (0, 1));
        assert_eq!(told(&[10], [1, 2, 3]), (0, 0));
        assert_eq!(told(&[5], [1, 2, 2]), (0, 0));
        // of two members of one rank, one has something
        let found = Found {
            contributions: by_member(&[10, 0, 10]),
            ..found
        };
        assert_eq!(charge(&found, &[5], &ranks([1, 2, 2])).alone(), 1);
    }

    #[test]
    fn seniors_before_juniors_are_seen() {
        let pool = |charges: &[Sum]| Pool {
            ranks: ranks([1, 2, 2]),
            portions: by_member(&[4, 0, 5]),
            charges: by_member(charges),
            alone: false,
        };
        assert_eq!(pool(&[0, 0, 4]).out_of_order(), None);
        assert_eq!(pool(&[3, 0, 5]).out_of_order(), None);
        assert_eq!(pool(&[1, 0, 4]).out_of_order(), Some((2, 4)));
        let charged = Charged {
            pools: vec![pool(&[0, 0, 1]), pool(&[1, 0, 0])],
            tie: by_member(&[0, 0, 0]),
            just_sums: 0,
            joined: None,
        };
        assert!(charged
            .in_order()
            .is_err_and(|why| why.starts_with("pool 2:")));
    }
}
