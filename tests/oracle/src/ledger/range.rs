//! Counts document 02's request 7, "Losses known only as a range", from what was printed of ranges and
//! of the defaults after them.

use super::answer::{Answer, Apart};
use super::{add, ensure, outside, Counted, Ledger, Printed, Sum};
use crate::engine::{Call, MAX_SUM};
use std::collections::BTreeMap;

/// What ranges came to, and the defaults after them.
#[derive(Clone, Copy, Debug, Default)]
pub struct RangeTally {
    /// Accepted ranges, and what their highs come to beside their lows.
    pub ends: Apart,
    /// Refused ranges by their number, in the order of the checks.
    pub refused: [u64; 5],
    /// Those refused with 23 whose high is above its limit as well.
    pub crossed_too_high: u64,
    /// Registers shown both before and after an accepted range, with no call accepted between.
    pub registers: u64,
    /// Pages shown after an accepted range, with no call accepted between, and times there was none.
    pub pages: u64,
    pub no_pages: u64,
    /// Accepted ranges beside an accepted default of their member and ranks, with no call accepted
    /// between: with their low loss, with their high loss, and with one between.
    pub followed: [u64; 3],
    /// Refused ranges beside a default of their member, their ranks and a loss of theirs that was
    /// refused with the same number.
    pub refused_alike: u64,
}

impl RangeTally {
    pub fn add(&mut self, more: RangeTally) {
        self.ends.add(more.ends);
        add(&mut self.refused, more.refused);
        self.crossed_too_high += more.crossed_too_high;
        self.registers += more.registers;
        self.pages += more.pages;
        self.no_pages += more.no_pages;
        add(&mut self.followed, more.followed);
        self.refused_alike += more.refused_alike;
    }
}

/// The numbers a range can be refused with, in the order of the checks; the console's ranks and slip are whole.
pub const RANGE_REFUSALS: [u64; 5] = [11, 12, 23, 13, 15];

/// A range, and what it answered.
pub struct Asked {
    member: u64,
    losses: [u64; 2],
    ranks: Vec<u8>,
    /// Whether a register was shown before it, with no call accepted between.
    pub shown: bool,
    answered: Answered<[Answer; 2]>,
}

/// An answer, or the number of a refusal.
type Answered<T> = Result<T, Sum>;

/// How an accepted range is printed, and then each member that its high charges or calls.
const RANGE_ANSWER: &str =
    "accepted low layers # # # # # # short # high layers # # # # # # short #";
const RANGE_LINE: &str = "member # charged # to # called # to #";

fn read_range(printed: &mut Printed) -> Counted<Answered<[Answer; 2]>> {
    if let Some([number]) = printed.take_if("refused #") {
        return Ok(Err(number));
    }
    let numbers: [Sum; 14] = printed.take(RANGE_ANSWER)?;
    let mut members = [BTreeMap::new(), BTreeMap::new()];
    while let Some([member, low_charge, high_charge, low_call, high_call]) =
        printed.take_if(RANGE_LINE)
    {
        ensure(members[1].keys().all(|&shown| shown < member), || {
            format!("member {member} is shown out of rising order")
        })?;
        ensure(high_charge > 0 || high_call > 0, || {
            format!("member {member} is neither charged nor called, and shown")
        })?;
        members[0].insert(member, [low_charge, low_call]);
        members[1].insert(member, [high_charge, high_call]);
    }
    let [lows, highs] = members;
    let end = |at: usize, members| Answer {
        layers: std::array::from_fn(|layer| numbers[at + layer]),
        short: numbers[at + 6],
        members,
    };
    Ok(Ok([end(0, lows), end(7, highs)]))
}

fn read_default(printed: &mut Printed) -> Counted<Answered<Answer>> {
    if let Some([number]) = printed.take_if("refused #") {
        return Ok(Err(number));
    }
    Ok(Ok(Answer::read_default(printed)?.1))
}

/// Holds an answer to the refusal that is due, or to none.
fn hold_refusal<T>(answered: &Answered<T>, due: Option<Sum>) -> Counted {
    ensure(answered.as_ref().err() == due.as_ref(), || {
        due.map_or("no refusal is due".into(), |number| {
            format!("refusal {number} is due")
        })
    })
}

/// Each end adds up: all of it to its loss and the call that falls, and its members to their layers.
fn adds_up(losses: [u64; 2], fallen: Sum, ends: &[Answer; 2]) -> Counted {
    for (loss, end) in losses.into_iter().zip(ends) {
        let total = end.total();
        ensure(total == loss as Sum + fallen, || {
            format!("{total} placed and short of loss {loss} and fallen {fallen}")
        })?;
        let sums = [0, 1].map(|kind| end.members.values().map(|given| given[kind]).sum::<Sum>());
        ensure(sums == [end.layers[3], end.layers[5]], || {
            format!("members add to {sums:?} charged and called of loss {loss}")
        })?;
    }
    Ok(())
}

impl Ledger {
    /// Reads a range's answer. It counts for nothing but the tally and the defaults to come.
    pub fn range(
        &mut self,
        member: u64,
        losses: [u64; 2],
        ranks: Vec<u8>,
        printed: &mut Printed,
    ) -> Counted {
        let answered = read_range(printed)?;
        hold_refusal(&answered, self.due_refusal(member, losses, &ranks))?;
        match &answered {
            Ok(ends) => self.hold_ends(member, losses, ends)?,
            Err(number) => self.tally_refused(losses, *number),
        }
        self.ranges.push(Asked {
            member,
            losses,
            ranks,
            shown: self.shown,
            answered,
        });
        Ok(())
    }

    /// The first of the checks that refuses a range, or a default of one pool as a range of its loss alone.
    fn due_refusal(&self, member: u64, [low, high]: [u64; 2], ranks: &[u8]) -> Option<Sum> {
        let account = self.accounts.get(&member);
        let refused = [
            account.is_none(),
            !account.is_some_and(|account| account.live),
            low > high,
            high > MAX_SUM,
            outside(&self.ranks_read(member, ranks).concat()).is_some(),
        ];
        let place = refused.iter().position(|&refused| refused)?;
        Some(RANGE_REFUSALS[place] as Sum)
    }

    fn tally_refused(&mut self, [_, high]: [u64; 2], number: Sum) {
        let tally = &mut self.tally.ranges;
        let times = RANGE_REFUSALS.map(|refusal| (refusal as Sum == number) as u64);
        add(&mut tally.refused, times);
        tally.crossed_too_high += (number == 23 && high > MAX_SUM) as u64;
    }

    /// By request 6 the lows are all those of the low loss, and the highs those of the high: no low is
    /// above its high, and each end adds up as a default's answer does.
    fn hold_ends(&mut self, member: u64, losses: [u64; 2], ends: &[Answer; 2]) -> Counted {
        let [low, high] = ends;
        low.at_most(high, |what, low, high| {
            format!("{what} is {low} at the lowest, and {high} at the highest")
        })?;
        let fallen = self.found(member)?.fallen;
        adds_up(losses, fallen, ends)?;
        self.others_only(member, high)?;
        let apart = Apart::tally(losses[1] - losses[0], fallen, low, high);
        self.tally.ranges.ends.add(apart);
        Ok(())
    }

    /// Only live members other than the defaulter are charged or called.
    fn others_only(&mut self, member: u64, high: &Answer) -> Counted {
        for &other in high.members.keys() {
            ensure(other != member as Sum, || {
                format!("member {other} is charged for its own default")
            })?;
            self.account(other as u64)?;
        }
        Ok(())
    }

    /// Holds the default answered next to each range of the same member and ranks that has its loss.
    pub fn within_ranges(&mut self, call: &Call, printed: &Printed) -> Counted {
        let Call::Default {
            member,
            losses,
            ranks,
        } = call
        else {
            return Ok(());
        };
        let [loss] = losses[..] else { return Ok(()) };
        let beside = |range: &&Asked| range.has(*member, loss, ranks);
        let beside: Vec<&Asked> = self.ranges.iter().filter(beside).collect();
        if beside.is_empty() {
            return Ok(());
        }
        let answered = read_default(&mut printed.clone())?;
        hold_refusal(&answered, self.due_refusal(*member, [loss; 2], ranks))?;
        for range in beside {
            let tally = &mut self.tally.ranges;
            match (&range.answered, &answered) {
                (Ok(ends), Ok(default)) => {
                    range.hold(loss, ends, default)?;
                    add(&mut tally.followed, range.where_is(loss));
                }
                (Err(one), Err(other)) => tally.refused_alike += (one == other) as u64,
                // the range is refused for its high alone
                _ => {}
            }
        }
        Ok(())
    }

    /// Whether such a range was accepted since a call last was.
    pub fn after_range(&self, such: impl Fn(&Asked) -> bool) -> bool {
        let mut ranges = self.ranges.iter();
        ranges.any(|range| range.answered.is_ok() && such(range))
    }
}

impl Asked {
    /// Whether it is of this member and these ranks, and has this loss.
    fn has(&self, member: u64, loss: u64, ranks: &[u8]) -> bool {
        let [low, high] = self.losses;
        self.member == member && self.ranks == ranks && low <= loss && loss <= high
    }

    /// Whether a loss is the low, the high, or one between.
    fn where_is(&self, loss: u64) -> [u64; 3] {
        let [low, high] = self.losses.map(|end| end == loss);
        [low, high, !low && !high].map(u64::from)
    }

    /// A default with a loss of the range falls between its ends; with the loss of an end it is that
    /// end, by request 6.
    fn hold(&self, loss: u64, [lows, highs]: &[Answer; 2], default: &Answer) -> Counted {
        let [low, high] = self.losses;
        let with = || format!("with loss {loss} of {low} to {high}");
        let least = if loss == high { highs } else { lows };
        let most = if loss == low { lows } else { highs };
        least.at_most(default, |what, least, given| {
            format!("{} {what} is {given}, below {least}", with())
        })?;
        default.at_most(most, |what, given, most| {
            format!("{} {what} is {given}, above {most}", with())
        })
    }
}

#[cfg(test)]
mod tests {
    use super::*;
    use crate::generate::{drill, example_register, DrillCase};
    use crate::ledger::{count, unaltered};

    fn printed(case: &DrillCase) -> String {
        String::from_utf8(case.expected()).unwrap()
    }

    /// Document 01's register with these lines.
    fn example(lines: &[&str]) -> DrillCase {
        DrillCase {
            sheet: example_register(),
            own: 22_000,
            calls: lines.concat().into(),
        }
    }

    fn tallied(lines: &[&str]) -> RangeTally {
        let case = example(lines);
        count(&case, &printed(&case)).unwrap().ranges
    }

    /// What does not hold of the lines, once something printed of them is changed.
    fn fault(lines: &[&str], changes: &[(&str, &str)]) -> String {
        let case = example(lines);
        let mut text = printed(&case);
        for (from, to) in changes {
            assert!(text.contains(from), "{text}");
            text = text.replacen(from, to, 1);
        }
        count(&case, &text).err().unwrap_or_default()
    }

    const RANKS: &str = "2:1 3:2 4:2\n";

    #[test]
    fn random_ranges_hold() {
        let mut ranges = RangeTally::default();
        for seed in 0..500 {
            let case = drill(seed);
            let printed = printed(&case);
            let counted = count(&case, &printed).map(|tally| ranges.add(tally.ranges));
            assert_eq!(counted, Ok(()), "seed {seed}");
            assert_eq!(unaltered(&printed), Ok(()), "seed {seed}");
        }
        assert!(ranges.ends.pairs > 200, "{ranges:?}");
        assert!(ranges.followed.iter().all(|&times| times > 20));
        assert!(ranges.registers > 20 && ranges.pages > 20);
    }

    #[test]
    fn ranges_are_tallied() {
        let t = tallied(&["range 1 0 83200 ", RANKS]).ends;
        assert_eq!((t.pairs, t.equal, t.by_one), (1, 0, 0));
        assert_eq!((t.layers, t.shorter), ([1, 1, 1, 0, 0, 0], 0));
        let t = tallied(&["range 1 152000 172001 ", RANKS]).ends;
        assert_eq!((t.layers, t.shorter), ([0, 0, 0, 0, 0, 1], 1));
        let t = tallied(&["range 1 100000 100001 ", RANKS]).ends;
        assert_eq!((t.by_one, t.more, t.same), (1, [1, 0], [1, 0]));
        let t = tallied(&["range 1 160000 160001 ", RANKS]).ends;
        assert_eq!((t.by_one, t.more, t.same), (1, [0, 1], [0, 1]));
        let t = tallied(&["range 1 5 5 ", RANKS, "range 1 6 6 ", RANKS]).ends;
        assert_eq!((t.pairs, t.equal), (2, 2));
    }

    #[test]
    fn a_range_beside_a_fallen_call_is_tallied() {
        let lines = [
            "default 1 160000 ",
            RANKS,
            "register\nrange 2 0 5 3:1 4:1\n",
        ];
        assert_eq!(tallied(&lines).ends.fallen, 1);
        assert_eq!(
            fault(&lines, &[("short 3000 high", "short 0 high")]),
            "line 3: request 7: 3000 placed and short of loss 0 and fallen 6000"
        );
    }

    #[test]
    fn refused_ranges_are_tallied() {
        let lines = [
            "range 5 1 0\nrange 0 0 0\n",
            "range 1 1 0\nrange 1 25600000002 25600000001\n",
            "range 1 0 25600000001\nrange 1 0 25600000000 2:1 3:1\n",
            "range 1 0 1 2:1 3:1 4:25\nrange 1 0 1 2:0 3:1 4:1\n",
            "default 1 0 ",
            RANKS,
            "register\nrange 1 1 0\n",
        ];
        let t = tallied(&lines);
        assert_eq!((t.refused, t.crossed_too_high), ([2, 1, 2, 1, 3], 1));
        assert_eq!((t.ends.pairs, t.registers, t.pages), (0, 0, 0));
    }

    #[test]
    fn registers_and_pages_after_ranges_are_tallied() {
        let times = |before: &str, range: &str, after: &str| {
            let t = tallied(&[before, range, " 2:1 3:1 4:1\n", after]);
            (t.registers, t.pages, t.no_pages)
        };
        let (both, twice) = ("register\npage\n", "page\nregister\npage\n");
        assert_eq!(times(both, "range 1 0 1", twice), (1, 0, 2));
        assert_eq!(times("page\n", "range 1 0 1", twice), (0, 0, 2));
        assert_eq!(times(both, "range 1 1 0", twice), (0, 0, 0));
        assert_eq!(
            times(both, "range 1 0 1", "close\nregister\npage\n"),
            (0, 0, 0)
        );
        assert_eq!(times("register\nclose\n", "range 1 0 1", twice), (0, 0, 2));
        let default = "default 1 0 2:1 3:1 4:1\npage\nregister\n";
        assert_eq!(times(default, "range 2 0 1", twice), (1, 2, 0));
        assert_eq!(times(default, "range 1 0 1", twice), (0, 0, 0));
    }

    /// A default of member 1 after these lines, a range from 80,000 to 100,000, and a register before it.
    fn followed(between: &str, default: &str) -> RangeTally {
        let range = ["register\nrange 1 80000 100000 ", RANKS, between, default];
        tallied(&[&range[..], &[" ", RANKS, "register\n"]].concat())
    }

    #[test]
    fn defaults_after_ranges_are_tallied() {
        let times = |default| followed("", default).followed;
        assert_eq!(times("default 1 80000"), [1, 0, 0]);
        assert_eq!(times("default 1 100000"), [0, 1, 0]);
        assert_eq!(times("default 1 80001"), [0, 0, 1]);
        assert_eq!(times("default 1 79999"), [0; 3]);
        assert_eq!(times("default 1 100001"), [0; 3]);
        assert_eq!(times("default 1 80000 5:1"), [0; 3]);
        assert_eq!(times("default 1 80000 2:1 3:2 4:2 / 0"), [0; 3]);
        let between = "page\nregister\nclose now\npayment 2 5\nrange 1 0 90000 2:1 3:2 4:2\n";
        let t = followed(between, "default 1 90000");
        assert_eq!((t.followed, t.registers), ([0, 1, 1], 1));
        let t = followed("close\n", "default 1 80000");
        assert_eq!(t.followed, [0; 3]);
        let t = followed("default 3 0 1:1 2:1 4:1\nregister\n", "default 1 80000");
        assert_eq!(t.followed, [0; 3]);
        let lines = ["range 1 5 5 ", RANKS, "default 1 5 ", RANKS, "register\n"];
        assert_eq!(tallied(&lines).followed, [1, 1, 0]);
    }

    #[test]
    fn refused_defaults_after_refused_ranges_are_tallied() {
        let times = |lines: &[&str]| {
            let t = tallied(lines);
            (t.followed, t.refused_alike)
        };
        let alike = "range 1 5 9\ndefault 1 6\nrange 7 5 9\ndefault 7 9\n";
        assert_eq!(times(&[alike]), ([0; 3], 2));
        let too_high = "range 1 0 25600000002\ndefault 1 25600000001\n";
        assert_eq!(times(&[too_high]), ([0; 3], 1));
        // the default has a rank too few, and a good loss
        let unlike = "range 1 0 25600000002\ndefault 1 5\n";
        assert_eq!(times(&[unlike]), ([0; 3], 0));
        let range = ["range 1 0 25600000002 ", RANKS];
        let accepted = [&range[..], &["default 1 0 ", RANKS, "register\n"]].concat();
        assert_eq!(times(&accepted), ([0; 3], 0));
    }

    /// At either end of it all layers and all members give all they have, and a thousand is short.
    #[test]
    fn every_low_above_its_high_is_seen() {
        let changes = [
            ("low layers 50000", "low layers 50001", "layer 1", 50_000),
            ("20000 132", "20001 132", "layer 2", 20_000),
            ("13200", "13201", "layer 3", 13_200),
            ("60000", "60001", "layer 4", 60_000),
            ("8800", "8801", "layer 5", 8_800),
            ("20000 short", "20001 short", "layer 6", 20_000),
            ("short 1", "short 2", "the shortfall", 1),
            (
                "charged 30000",
                "charged 30001",
                "member 2's charge",
                30_000,
            ),
            ("called 5000", "called 5001", "member 3's call", 5_000),
        ];
        for (from, to, what, high) in changes {
            let why = fault(&["range 1 172001 172001 ", RANKS], &[(from, to)]);
            let low = high + 1;
            let expected = format!(
                "line 1: request 7: {what} is {low} at the lowest, and {high} at the highest"
            );
            assert_eq!(why, expected);
        }
    }

    #[test]
    fn ends_that_do_not_add_up_are_seen() {
        let lines = ["range 1 80000 172001 ", RANKS];
        let seen = |changes: &[(&str, &str)], why: &str| {
            assert_eq!(fault(&lines, changes), format!("line 1: request 7: {why}"));
        };
        seen(
            &[("10000 0 0 0 short 0", "9999 0 0 0 short 0")],
            "79999 placed and short of loss 80000 and fallen 0",
        );
        seen(
            &[("short 1\n", "short 2\n")],
            "172002 placed and short of loss 172001 and fallen 0",
        );
        seen(
            &[("0 to 5000", "0 to 4999")],
            "members add to [60000, 19999] charged and called of loss 172001",
        );
        seen(
            &[("to 30000", "to 30001")],
            "members add to [60001, 20000] charged and called of loss 172001",
        );
        seen(
            &[("charged 0 to 30000", "charged 1 to 30000")],
            "members add to [1, 0] charged and called of loss 80000",
        );
        seen(
            &[("\n  member 4 charged 0 to 20000 called 0 to 0", "")],
            "members add to [40000, 20000] charged and called of loss 172001",
        );
    }

    /// Every number of a range, with both ends above zero and with the low at zero, changed by one.
    #[test]
    fn a_changed_number_is_seen() {
        for range in ["range 1 160000 160900 ", "range 1 80000 172001 "] {
            let case = example(&[range, RANKS]);
            let good = printed(&case);
            let words: Vec<&str> = good.split_inclusive([' ', '\n']).collect();
            for at in 2..words.len() {
                let Ok(number) = words[at].trim().parse::<u64>() else {
                    continue;
                };
                let changed = words[at].replace(&number.to_string(), &(number + 1).to_string());
                let text = [words[..at].concat(), changed, words[at + 1..].concat()].concat();
                assert!(count(&case, &text).is_err(), "{text}");
            }
        }
    }

    #[test]
    fn members_that_are_none_of_the_others_are_seen() {
        let lines = ["range 1 80000 100000 ", RANKS];
        let own = fault(&lines, &[("member 3", "member 1")]);
        assert_eq!(
            own,
            "line 1: request 7: member 1 is charged for its own default"
        );
        let nobody = fault(&lines, &[("member 4", "member 5")]);
        assert_eq!(nobody, "line 1: request 7: member 5 is not live");
        let shown = "  member 2 charged 0 to 0 called 0 to 0\n  member 3";
        assert_eq!(
            fault(&lines, &[("  member 3", shown)]),
            "line 1: request 7: member 2 is neither charged nor called, and shown"
        );
    }

    /// By their numbers alone they add up as before.
    #[test]
    fn members_twice_or_out_of_rising_order_are_seen() {
        let lines = ["range 1 80000 100000 ", RANKS];
        let third = "\n  member 3 charged 0 to 5600 called 0 to 0";
        let fourth = "\n  member 4 charged 0 to 11200 called 0 to 0";
        let members = [third, fourth].concat();
        for (shown, member) in [
            ([fourth, third].concat(), 3),
            ([third, third, fourth].concat(), 3),
            ([third, fourth, fourth].concat(), 4),
            ([third, fourth, third].concat(), 3),
        ] {
            let why = fault(&lines, &[(&members, &shown)]);
            let expected =
                format!("line 1: request 7: member {member} is shown out of rising order");
            assert_eq!(why, expected);
        }
    }

    #[test]
    fn a_refusal_that_is_not_due_is_seen() {
        let range = "accepted low layers 5 0 0 0 0 0 short 0 high layers 5 0 0 0 0 0 short 0";
        let lines = [
            ("range 5 1 0\n", "refused 11", 11),
            ("range 1 25600000002 25600000001\n", "refused 23", 23),
            ("range 1 0 25600000001\n", "refused 13", 13),
            ("range 1 5 5 2:1 3:1\n", "refused 15", 15),
        ];
        for (line, answer, due) in lines {
            for other in [
                range,
                "refused 11",
                "refused 12",
                "refused 13",
                "refused 14",
            ] {
                if other != answer {
                    let why = fault(&[line], &[(answer, other)]);
                    assert_eq!(why, format!("line 1: request 7: refusal {due} is due"));
                }
            }
        }
        for number in ["refused 11", "refused 15", "refused 24"] {
            let why = fault(&["range 1 5 5 ", RANKS], &[(range, number)]);
            assert_eq!(why, "line 1: request 7: no refusal is due");
        }
    }

    /// What does not hold of a default with this loss after a range from 80,000 to 100,001.
    fn fault_after_range(loss: &str, changes: &[(&str, &str)]) -> String {
        let default = format!("default 1 {loss} ");
        let lines = [
            "range 1 80000 100001 ",
            RANKS,
            &default,
            RANKS,
            "register\n",
        ];
        fault(&lines, changes)
    }

    /// A thousand moved from one layer to another, and from one member to another.
    #[test]
    fn ends_that_are_not_those_of_their_losses_are_seen() {
        let low = [(
            "low layers 50000 20000 10000",
            "low layers 49999 20000 10001",
        )];
        assert_eq!(
            fault_after_range("80000", &low),
            "line 2: request 7: with loss 80000 of 80000 to 100001 layer 3 is 10000, below 10001"
        );
        assert_eq!(fault_after_range("80001", &low), "");
        assert_eq!(fault_after_range("100001", &low), "");
        let high = [("13200 16801 0", "13200 16800 1"), ("to 11201", "to 11200")];
        assert_eq!(
            fault_after_range("100001", &high),
            "line 2: request 7: with loss 100001 of 80000 to 100001 layer 5 is 0, below 1"
        );
        assert_eq!(fault_after_range("100000", &high), "");
        let members = [("to 5600", "to 5601"), ("to 11201", "to 11200")];
        assert_eq!(
            fault_after_range("100001", &members),
            "line 2: request 7: with loss 100001 of 80000 to 100001 member 3's charge is 5600, below 5601"
        );
        assert_eq!(fault_after_range("80000", &members), "");
    }

    #[test]
    fn a_default_that_is_not_the_end_of_its_loss_is_seen() {
        let low = (
            "accepted fallen 0 layers 50000 20000 10000",
            "accepted fallen 0 layers 50000 20000 10001",
        );
        assert_eq!(
            fault_after_range("80000", &[low]),
            "line 2: request 7: with loss 80000 of 80000 to 100001 layer 3 is 10001, above 10000"
        );
        let high = ("charged 5600 called", "charged 5599 called");
        assert_eq!(
            fault_after_range("100001", &[high]),
            "line 2: request 7: with loss 100001 of 80000 to 100001 member 3's charge is 5599, below 5600"
        );
    }

    #[test]
    fn a_default_past_the_ends_is_seen() {
        let high = [("to 5600", "to 2265"), ("to 11201", "to 14536")];
        assert_eq!(
            fault_after_range("90000", &high),
            "line 2: request 7: with loss 90000 of 80000 to 100001 member 3's charge is 2266, above 2265"
        );
        assert_eq!(fault_after_range("89000", &high), "");
        let low = [
            ("10000 0 0 0 short 0", "9999 1 0 0 short 0"),
            ("0 to 5600", "1 to 5600"),
        ];
        assert_eq!(
            fault_after_range("83200", &low),
            "line 2: request 7: with loss 83200 of 80000 to 100001 layer 4 is 0, below 1"
        );
        assert_eq!(fault_after_range("83300", &low), "");
    }

    #[test]
    fn a_default_accepted_or_refused_unlike_its_range_is_seen() {
        let answer = "accepted fallen 0 layers 50000 20000 10000 0 0 0 short 0";
        assert_eq!(
            fault_after_range("80000", &[(answer, "refused 15")]),
            "line 2: request 7: no refusal is due"
        );
        let lines = ["range 1 80000 80000 2:1\ndefault 1 80000 2:1\nregister\n"];
        for other in [answer, "refused 11", "refused 13"] {
            let other = format!("{other}\nregister");
            assert_eq!(
                fault(&lines, &[("refused 15\nregister", &other)]),
                "line 2: request 7: refusal 15 is due"
            );
        }
    }

    /// The range's high alone is above its limit.
    #[test]
    fn a_default_of_a_range_refused_for_its_high_has_its_own_checks() {
        let after = |default: &str, changes: &[(&str, &str)]| {
            let range = ["range 1 0 25600000002 ", RANKS];
            let lines = [&range[..], &[default, RANKS, "register\n"]].concat();
            fault(&lines, changes)
        };
        assert_eq!(after("default 1 5 ", &[]), "");
        assert_eq!(after("default 1 25600000001 ", &[]), "");
        let answer = "accepted fallen 0 layers 5 0 0 0 0 0 short 0\nregister";
        assert_eq!(
            after("default 1 5 ", &[(answer, "refused 13\nregister")]),
            "line 2: request 7: no refusal is due"
        );
        let default = "refused 13\nregister";
        assert_eq!(
            after(
                "default 1 25600000001 ",
                &[(default, "refused 15\nregister")]
            ),
            "line 2: request 7: refusal 13 is due"
        );
    }

    /// One number of the register after a range is another than before it; statement 3 does not count all.
    #[test]
    fn a_register_that_a_range_altered_is_seen() {
        let lines = ["register\nrange 1 0 5 ", RANKS, "register\n"];
        let case = example(&lines);
        let good = printed(&case);
        assert_eq!(unaltered(&good), Ok(()));
        for (from, to, counted) in [
            ("live margin 50000", "live margin 49995", true),
            ("1 live", "1 default", true),
            ("tranche2 8800", "tranche2 8795", true),
            ("requirement 20000", "requirement 19999", false),
            ("cap 10000", "cap 9999", false),
            ("called 0", "called 5", false),
        ] {
            let (before, after) = good.split_once("accepted low").unwrap();
            assert!(after.contains(from));
            let changed = [before, "accepted low", &after.replacen(from, to, 1)].concat();
            assert_eq!(count(&case, &changed).is_err(), counted, "{changed}");
            assert!(unaltered(&changed).is_err(), "{changed}");
        }
    }
}
