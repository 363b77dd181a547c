//! What the expected answers reached, for a reader who wants to know how deep a run went.

use crate::engine::{cover, MAX_AMOUNT, MOST_JUNIOR, RECORD};
use crate::generate::SizingCase;
use crate::ledger::{add, Apart, Tally, RANGE_REFUSALS};

#[derive(Clone, Default)]
pub struct Coverage {
    refusals: [u64; 25],
    layers: [u64; 6],
    fallen: u64,
    shortfalls: u64,
    all_layers: u64,
    openings: u64,
    sizings: u64,
    groups: Groups,
    unreadable: u64,
    pages: u64,
    no_pages: u64,
    tally: Tally,
    raised: Apart,
}

/// What groups did in sizings.
#[derive(Clone, Copy, Default)]
struct Groups {
    /// C is more than it would be if all members were alone.
    raised: u64,
    /// C is more, and W differs: another block sets them.
    moved: u64,
    /// C is more than any two members can lose.
    beyond_two: u64,
    /// The record that is refused with 4 has a group above 64.
    outside: u64,
    /// The record that is refused with 8 has a group.
    sixth: u64,
}

impl Groups {
    fn add(&mut self, other: Groups) {
        self.raised += other.raised;
        self.moved += other.moved;
        self.beyond_two += other.beyond_two;
        self.outside += other.outside;
        self.sixth += other.sixth;
    }

    fn add_accepted(&mut self, stress: &[u8]) {
        let mut apart = stress.to_vec();
        for record in apart.chunks_exact_mut(RECORD) {
            record[6] = 0;
        }
        let [together, alone] = [stress, &apart].map(|sheet| cover(sheet).expect("a good sheet"));
        let raised = together.c > alone.c;
        self.raised += raised as u64;
        self.moved += (raised && together.w != alone.w) as u64;
        self.beyond_two += (together.c > 2 * MAX_AMOUNT as u64) as u64;
    }

    fn add_refused(&mut self, number: &str, group: u8) {
        self.outside += (number == "4" && group > 64) as u64;
        self.sixth += (number == "8" && group > 0) as u64;
    }
}

impl Coverage {
    /// Adds what one expected output reached.
    pub fn add_output(&mut self, output: &str) {
        let mut reached = [false; 6];
        for line in output.lines() {
            let mut words = line.strip_prefix("opening ").unwrap_or(line).split(' ');
            match (words.next(), words.next()) {
                (Some("refused"), Some(number)) => self.add_refusal(number),
                (Some("accepted"), Some("fallen")) => self.add_default(line, &mut reached),
                (Some("accepted"), Some("C")) => self.sizings += 1,
                (Some("unreadable"), _) => self.unreadable += 1,
                (Some("LAYER"), _) => self.pages += 1,
                (Some("no"), Some("page")) => self.no_pages += 1,
                _ => self.openings += (line == "opening accepted") as u64,
            }
        }
        self.all_layers += reached.iter().all(|&r| r) as u64;
    }

    /// Adds what groups did in one sizing, by its expected output.
    pub fn add_groups(&mut self, case: &SizingCase, output: &str) {
        let words: Vec<&str> = output.lines().next().unwrap_or("").split(' ').collect();
        match words[..] {
            ["accepted", ..] => self.groups.add_accepted(&case.stress),
            ["refused", number @ ("4" | "8"), "record", place] => {
                let group = place.parse().ok().and_then(|place| group_at(case, place));
                self.groups.add_refused(number, group.unwrap_or(0));
            }
            _ => {}
        }
    }

    pub fn add_tally(&mut self, tally: Tally) {
        self.tally.defaults += tally.defaults;
        self.tally.payments += tally.payments;
        self.tally.replenishments += tally.replenishments;
        self.tally.closes += tally.closes;
        self.tally.most_junior += tally.most_junior;
        self.tally.too_junior += tally.too_junior;
        add(&mut self.tally.pools, tally.pools);
        add(&mut self.tally.pools_accepted, tally.pools_accepted);
        self.tally.tied += tally.tied;
        add(&mut self.tally.joined, tally.joined);
        self.tally.just_sums += tally.just_sums;
        self.tally.alone += tally.alone;
        self.tally.all_called += tally.all_called;
        add(&mut self.tally.drained, tally.drained);
        self.tally.later_loss += tally.later_loss;
        self.tally.later_rank += tally.later_rank;
        self.tally.ranges.add(tally.ranges);
    }

    pub fn add_raised(&mut self, tally: Apart) {
        self.raised.add(tally);
    }

    pub fn merge(&mut self, other: &Coverage) {
        add(&mut self.refusals, other.refusals);
        add(&mut self.layers, other.layers);
        self.fallen += other.fallen;
        self.shortfalls += other.shortfalls;
        self.all_layers += other.all_layers;
        self.openings += other.openings;
        self.sizings += other.sizings;
        self.groups.add(other.groups);
        self.unreadable += other.unreadable;
        self.pages += other.pages;
        self.no_pages += other.no_pages;
        self.add_tally(other.tally);
        self.add_raised(other.raised);
    }

    /// What many drills come to in their pools and splits, and these never did.
    pub fn unreached(&self) -> Vec<&'static str> {
        let t = &self.tally;
        let times = [
            ("one pool", t.pools_accepted[0]),
            ("two pools", t.pools_accepted[1]),
            ("three pools", t.pools_accepted[2]),
            ("four pools", t.pools_accepted[3]),
            ("five pools", t.pools[4]),
            ("the last tie", t.tied),
            ("a fallen call that joins pool 1", t.joined[0]),
            ("a fallen call that joins a later pool", t.joined[1]),
            ("a fallen call where no loss is left", t.joined[2]),
            ("a contribution that is just the pools' sums", t.just_sums),
            ("a rank that gives a part by one member alone", t.alone),
            (
                "a default that calls all there is, and is short",
                t.all_called,
            ),
            ("a contribution that layer 4 takes whole", t.drained[0]),
            ("a member called all that its cap leaves", t.drained[1]),
            ("refusal 13 for a later pool", t.later_loss),
            ("refusal 15 for a later pool", t.later_rank),
            ("refusal 21", self.refusals[21]),
            ("refusal 22", self.refusals[22]),
        ];
        never(&times)
    }

    /// What many sizings come to in their groups, and these never did.
    pub fn unreached_groups(&self) -> Vec<&'static str> {
        never(&[
            ("a group that raises C", self.groups.raised),
            (
                "a group that makes another block's W count",
                self.groups.moved,
            ),
            ("a C above two members' losses", self.groups.beyond_two),
            ("refusal 4 for a group", self.groups.outside),
            ("refusal 8 of a record with a group", self.groups.sixth),
        ])
    }

    /// What many pairs come to in their two losses, and these never did.
    pub fn unreached_raised(&self) -> Vec<&'static str> {
        let r = &self.raised;
        never(&[
            ("two equal losses", r.equal),
            ("losses one thousand apart", r.by_one),
            ("two losses beside a fallen call", r.fallen),
            ("a larger loss that draws more on layer 1", r.layers[0]),
            ("a larger loss that draws more on layer 2", r.layers[1]),
            ("a larger loss that draws more on layer 3", r.layers[2]),
            ("a larger loss that draws more on layer 4", r.layers[3]),
            ("a larger loss that draws more on layer 5", r.layers[4]),
            ("a larger loss that draws more on layer 6", r.layers[5]),
            ("a larger loss that leaves more short", r.shorter),
            ("a member charged more", r.more[0]),
            ("a member called for more", r.more[1]),
            (
                "a member charged as much by a layer 4 that gives more",
                r.same[0],
            ),
            (
                "a member called for as much by a layer 6 that gives more",
                r.same[1],
            ),
        ])
    }

    /// What many drills come to in their ranges, and these never did.
    pub fn unreached_ranges(&self) -> Vec<&'static str> {
        let r = &self.tally.ranges;
        let e = &r.ends;
        never(&[
            ("an accepted range", e.pairs),
            ("a range of one loss", e.equal),
            ("a range of two losses", e.by_one),
            ("a range beside a fallen call", e.fallen),
            ("a range over which layer 1 differs", e.layers[0]),
            ("a range over which layer 2 differs", e.layers[1]),
            ("a range over which layer 3 differs", e.layers[2]),
            ("a range over which layer 4 differs", e.layers[3]),
            ("a range over which layer 5 differs", e.layers[4]),
            ("a range over which layer 6 differs", e.layers[5]),
            ("a range over which the shortfall differs", e.shorter),
            ("a member's charge of two ends above zero", e.more[0]),
            ("a member's call of two ends above zero", e.more[1]),
            (
                "a member's charge of one end where layer 4 has two",
                e.same[0],
            ),
            (
                "a member's call of one end where layer 6 has two",
                e.same[1],
            ),
            ("a range refused 11", r.refused[0]),
            ("a range refused 12", r.refused[1]),
            ("a range refused 23", r.refused[2]),
            ("a range refused 13", r.refused[3]),
            ("a range refused 15", r.refused[4]),
            (
                "a range refused 23 with too high a high",
                r.crossed_too_high,
            ),
            ("a register before and after a range", r.registers),
            ("a page after a range", r.pages),
            ("no page after a range", r.no_pages),
            ("a default after its range with the low loss", r.followed[0]),
            (
                "a default after its range with the high loss",
                r.followed[1],
            ),
            (
                "a default after its range with a loss between",
                r.followed[2],
            ),
            ("a default refused as its range was", r.refused_alike),
        ])
    }

    fn add_refusal(&mut self, number: &str) {
        if let Ok(number) = number.parse::<usize>() {
            self.refusals[number] += 1;
        }
    }

    fn add_default(&mut self, line: &str, reached: &mut [bool; 6]) {
        let numbers: Vec<u64> = line.split(' ').filter_map(|w| w.parse().ok()).collect();
        self.fallen += (numbers[0] > 0) as u64;
        self.shortfalls += (numbers[7] > 0) as u64;
        for (layer, &total) in numbers[1..7].iter().enumerate() {
            self.layers[layer] += (total > 0) as u64;
            reached[layer] |= total > 0;
        }
    }

    pub fn print(&self) {
        println!("refusal  times");
        for number in numbers() {
            println!("{number:>7}  {}{}", self.refusals[number], remark(number));
        }
        println!("layer    accepted defaults that drew on it");
        for (layer, times) in self.layers.iter().enumerate() {
            println!("{:>7}  {times}", layer + 1);
        }
        println!("  short  {}", self.shortfalls);
        println!(" fallen  {}", self.fallen);
        println!("drills that drew on all six layers: {}", self.all_layers);
        let t = &self.tally;
        println!(
            "accepted: {} openings, {} defaults, {} payments, {} replenishments, {} closes, {} sizings",
            self.openings, t.defaults, t.payments, t.replenishments, t.closes, self.sizings
        );
        let groups = &self.groups;
        println!(
            "sizings whose C a group raised: {}, with another block's W: {}; with a C above what two members can lose: {}",
            groups.raised, groups.moved, groups.beyond_two
        );
        println!(
            "sizings refused 4 for a group: {}; 8 for a record with a group: {}",
            groups.outside, groups.sixth
        );
        println!(
            "defaults that read rank {MOST_JUNIOR}, accepted: {}; rank {}, refused 15: {}",
            t.most_junior,
            MOST_JUNIOR + 1,
            t.too_junior
        );
        println!("    pools  defaults, accepted ones");
        for (place, (times, accepted)) in t.pools.iter().zip(t.pools_accepted).enumerate() {
            let pools = ["1", "2", "3", "4", "5 or more"][place];
            println!("{pools:>9}  {times}, {accepted}");
        }
        println!("defaults that came to the last tie: {}", t.tied);
        println!(
            "fallen calls that joined pool 1: {}; a later pool: {}; pool 1 where no loss was left: {}",
            t.joined[0], t.joined[1], t.joined[2]
        );
        println!(
            "contributions that were just the sums of several pools: {}; ranks that gave a part by one member alone: {}; defaults that called all there was, and were short: {}",
            t.just_sums, t.alone, t.all_called
        );
        println!(
            "members whose contribution layer 4 took whole: {}; that were called all that their cap left: {}",
            t.drained[0], t.drained[1]
        );
        println!(
            "refused for a later pool alone, 13: {}; 15: {}",
            t.later_loss, t.later_rank
        );
        let r = &self.raised;
        println!(
            "pairs of defaults, both accepted: {}; with equal losses: {}, one thousand apart: {}, beside a fallen call: {}",
            r.pairs, r.equal, r.by_one, r.fallen
        );
        println!(
            "of them by layer, where the larger loss drew more: {:?}; where it left more short: {}",
            r.layers, r.shorter
        );
        println!(
            "of them where a member was charged more: {}, called for more: {}; as much, though its layer gave more: {}, {}",
            r.more[0], r.more[1], r.same[0], r.same[1]
        );
        self.print_ranges();
        println!("unreadable lines: {}", self.unreadable);
        println!("pages: {}, no page: {}", self.pages, self.no_pages);
    }

    fn print_ranges(&self) {
        let r = &self.tally.ranges;
        let e = &r.ends;
        println!(
            "accepted ranges: {}; of one loss: {}, of two: {}, beside a fallen call: {}",
            e.pairs, e.equal, e.by_one, e.fallen
        );
        println!(
            "of them by layer, where its ends differ: {:?}; where those of the shortfall do: {}",
            e.layers, e.shorter
        );
        println!(
            "of them where a member's charge has two ends above zero: {}, its call: {}; one end, though its layer has two: {}, {}",
            e.more[0], e.more[1], e.same[0], e.same[1]
        );
        println!(
            "refused ranges by number, {RANGE_REFUSALS:?}: {:?}; 23 with too high a high: {}",
            r.refused, r.crossed_too_high
        );
        println!(
            "after accepted ranges, registers: {}, pages: {}, no page: {}; their defaults with the low loss, the high, one between: {:?}; refused alike: {}",
            r.registers, r.pages, r.no_pages, r.followed, r.refused_alike
        );
    }
}

fn never(times: &[(&'static str, u64)]) -> Vec<&'static str> {
    let never = times.iter().filter(|&&(_, times)| times == 0);
    never.map(|&(what, _)| what).collect()
}

/// The group of a record of the stress sheet, counted from 1.
fn group_at(case: &SizingCase, place: usize) -> Option<u8> {
    let at = place.checked_sub(1)? * RECORD;
    case.stress.get(at + 6).copied()
}

/// The numbers of the refusals there are: one is retired.
fn numbers() -> impl Iterator<Item = usize> {
    (1..=18).chain(20..=24)
}

/// Refusals that no program can be brought to print.
fn remark(number: usize) -> &'static str {
    match number {
        3 | 14 => "  (the programs always hand whole slips and ranks)",
        20 => "  (the programs always hand a whole page, and no drill's amount is above its limit)",
        24 => "  (run_drill always hands a whole range slip)",
        _ => "",
    }
}

#[cfg(test)]
mod tests {
    use super::*;
    use crate::generate::{drill, raised, sizing, DrillCase};
    use crate::ledger::{count, count_raised};
    use crate::text::run_sizing;

    fn drilled(seed: u64) -> String {
        printed(&drill(seed))
    }

    fn printed(case: &DrillCase) -> String {
        String::from_utf8(case.expected()).unwrap()
    }

    #[test]
    fn the_generator_reaches_all_that_can_be_printed() {
        let mut coverage = Coverage::default();
        for seed in 0..1_000 {
            let case = drill(seed);
            let text = printed(&case);
            coverage.add_output(&text);
            coverage.add_tally(count(&case, &text).unwrap());
            let case = sizing(seed);
            let out = run_sizing(&case.stress, &case.shares, case.prevailing, case.available);
            let text = String::from_utf8(out).unwrap();
            coverage.add_output(&text);
            coverage.add_groups(&case, &text);
            let case = raised(seed);
            let [low, high] = case.drills().map(|drill| printed(&drill));
            coverage.add_raised(count_raised(&case, [&low, &high]).unwrap());
        }
        for number in numbers() {
            let reached = coverage.refusals[number] > 0;
            assert_eq!(reached, remark(number).is_empty(), "refusal {number}");
        }
        let listed: u64 = numbers().map(|number| coverage.refusals[number]).sum();
        assert_eq!(listed, coverage.refusals.iter().sum::<u64>());
        assert!(coverage.layers.iter().all(|&times| times > 100));
        assert!(coverage.shortfalls > 100 && coverage.fallen > 100);
        assert!(coverage.all_layers > 100 && coverage.sizings > 100);
        assert!(coverage.pages > 100 && coverage.no_pages > 100);
        let tally = &coverage.tally;
        assert!(tally.most_junior > 100 && tally.too_junior > 50);
        assert_eq!(coverage.unreached(), [""; 0]);
        assert!(tally.pools.iter().all(|&times| times > 100));
        let (more, accepted) = tally.pools_accepted.split_last().unwrap();
        assert!(*more == 0 && accepted.iter().all(|&times| times > 100));
        assert!(tally.tied > 50 && tally.joined.iter().all(|&times| times > 5));
        assert!(coverage.refusals[21] > 100 && coverage.refusals[22] > 20);
        assert!(tally.later_loss > 10 && tally.later_rank > 50);
        assert!(tally.just_sums > 10 && tally.alone > 100 && tally.all_called > 100);
        assert!(tally.drained.iter().all(|&times| times > 100));
        assert_eq!(coverage.unreached_groups(), [""; 0]);
        assert!(coverage.groups.raised > 100 && coverage.groups.beyond_two > 5);
        assert_eq!(coverage.unreached_raised(), [""; 0]);
        assert!(coverage.raised.pairs > 500 && coverage.raised.fallen > 20);
        assert_eq!(coverage.unreached_ranges(), [""; 0]);
        let ranges = &coverage.tally.ranges;
        assert!(ranges.ends.pairs > 500 && ranges.ends.fallen > 20);
        assert!(ranges.refused.iter().all(|&times| times > 20));
        assert!(ranges.followed.iter().all(|&times| times > 50));
    }

    #[test]
    fn what_a_run_did_not_reach() {
        let mut coverage = Coverage::default();
        assert_eq!(coverage.unreached().len(), 18);
        assert_eq!(coverage.unreached_groups().len(), 5);
        assert_eq!(coverage.unreached_raised().len(), 14);
        assert_eq!(coverage.unreached_ranges().len(), 28);
        coverage.add_output("refused 21\nrefused 22\n");
        coverage.add_tally(Tally {
            pools: [1; 5],
            pools_accepted: [1, 1, 0, 1, 0],
            joined: [1; 3],
            just_sums: 1,
            alone: 1,
            all_called: 1,
            drained: [1; 2],
            later_loss: 1,
            later_rank: 1,
            ..Tally::default()
        });
        assert_eq!(coverage.unreached(), ["three pools", "the last tie"]);
    }

    /// Before any default, straight after one and after refused ones, twice, later, and after ranges.
    #[test]
    fn the_generator_asks_for_pages_everywhere() {
        let all: String = (0..1_000).map(drilled).collect();
        let places = [
            "opening accepted\nno page\n",
            "opening refused 1\nno page\n",
            "refused 15\nno page\n",
            "no page\nno page\n",
            " short 0\nLAYER",
            " called 0\nLAYER",
            "refused 11\nLAYER",
            "refused 12\nLAYER",
            "refused 13\nLAYER",
            "refused 15\nLAYER",
            "SHORT                                  0\nLAYER",
            "\naccepted\nLAYER",
            " to 0\nLAYER",
            " to 0\nno page\n",
            "refused 23\nLAYER",
            "refused 23\nno page\n",
        ];
        for place in places {
            assert!(all.contains(place), "{place}");
        }
    }
}
