//! What a default prints, or either end of a range, read back, and two such answers side by side.

use super::{add, ensure, Counted, Printed, Sum, DEFAULT_ANSWER, MEMBER_LINE};
use std::collections::BTreeMap;

/// Layers, shortfall, and the members' layer 4 charges and calls by number.
pub struct Answer {
    pub layers: [Sum; 6],
    pub short: Sum,
    pub members: BTreeMap<Sum, [Sum; 2]>,
}

impl Answer {
    /// The fallen call of an accepted default, and its answer.
    pub(super) fn read_default(printed: &mut Printed) -> Counted<(Sum, Answer)> {
        let [fallen, layers @ .., short] = printed.take::<8>(DEFAULT_ANSWER)?;
        let mut members = BTreeMap::new();
        while let Some([member, given @ ..]) = printed.take_if::<3>(MEMBER_LINE) {
            members.insert(member, given);
        }
        let answer = Answer {
            layers,
            short,
            members,
        };
        Ok((fallen, answer))
    }

    pub fn of(&self, member: Sum) -> [Sum; 2] {
        self.members.get(&member).copied().unwrap_or_default()
    }

    /// All charges and the shortfall.
    pub fn total(&self) -> Sum {
        self.layers.iter().sum::<Sum>() + self.short
    }

    /// Holds that no number is above another answer's; `why` gets the first that is, and both values.
    pub fn at_most(&self, other: &Answer, why: impl Fn(&str, Sum, Sum) -> String) -> Counted {
        let not_above =
            |what: &str, mine: Sum, other: Sum| ensure(mine <= other, || why(what, mine, other));
        for (layer, (&mine, &other)) in self.layers.iter().zip(&other.layers).enumerate() {
            not_above(&format!("layer {}", layer + 1), mine, other)?;
        }
        for (&member, &[charge, call]) in &self.members {
            let [charged, called] = other.of(member);
            not_above(&format!("member {member}'s charge"), charge, charged)?;
            not_above(&format!("member {member}'s call"), call, called)?;
        }
        not_above("the shortfall", self.short, other.short)
    }
}

/// How many pairs of answers there were, to one default with a smaller and a larger loss, and what
/// the larger answers of them came to beside the smaller.
#[derive(Clone, Copy, Debug, Default)]
pub struct Apart {
    pub pairs: u64,
    /// Two equal losses.
    pub equal: u64,
    /// Losses one thousand apart.
    pub by_one: u64,
    /// Where a call falls.
    pub fallen: u64,
    /// By the layer, where it gives more.
    pub layers: [u64; 6],
    pub shorter: u64,
    /// Where a member that is charged, or called, is so for more.
    pub more: [u64; 2],
    /// Where a member is charged, or called, for as much, though its layer gives more.
    pub same: [u64; 2],
}

impl Apart {
    pub fn add(&mut self, more: Apart) {
        self.pairs += more.pairs;
        self.equal += more.equal;
        self.by_one += more.by_one;
        self.fallen += more.fallen;
        add(&mut self.layers, more.layers);
        self.shorter += more.shorter;
        add(&mut self.more, more.more);
        add(&mut self.same, more.same);
    }

    /// One pair, whose losses are `apart`.
    pub fn tally(apart: u64, fallen: Sum, low: &Answer, high: &Answer) -> Self {
        let grew = |layer: usize| low.layers[layer] < high.layers[layer];
        let any = |kind: usize, holds: fn(&Sum, &Sum) -> bool| {
            let mut members = low.members.iter();
            members.any(|(&m, given)| given[kind] > 0 && holds(&given[kind], &high.of(m)[kind]))
        };
        Apart {
            pairs: 1,
            equal: (apart == 0) as u64,
            by_one: (apart == 1) as u64,
            fallen: (fallen > 0) as u64,
            layers: [0, 1, 2, 3, 4, 5].map(|layer| grew(layer) as u64),
            shorter: (low.short < high.short) as u64,
            more: [0, 1].map(|kind| any(kind, Sum::lt) as u64),
            same: [(0, 3), (1, 5)].map(|(kind, layer)| (grew(layer) && any(kind, Sum::eq)) as u64),
        }
    }
}
