//! Counts document 02's request 6, "A larger loss, member by member", from what was printed of two
//! drills that differ in the loss of their last default alone.

use super::answer::{Answer, Apart};
use super::{ensure, Counted, Printed, Sum};
use crate::generate::RaisedCase;

/// Counts one pair, whose drills were each counted before; an error says what does not hold.
///
/// What stands before the last default, the range of the two losses among it, is the same in both.
pub fn count_raised(case: &RaisedCase, printed: [&str; 2]) -> Counted<Apart> {
    let [(before, low), (still, high)] = [last_default(printed[0])?, last_default(printed[1])?];
    ensure(before == still, || {
        "the drills differ before their last default".into()
    })?;
    let (Some((fallen, low)), Some((_, high))) = (read_answer(low)?, read_answer(high)?) else {
        return Ok(Apart::default());
    };
    let apart = case.losses[1] - case.losses[0];
    low.at_most(&high, |what, low, high| {
        format!("{what} is {low}, and {high} with the larger loss")
    })?;
    let (less, most) = (low.total(), high.total());
    ensure(most == less + apart as Sum, || {
        format!("charges and shortfall are {less} and {most}, the losses {apart} apart")
    })?;
    Ok(Apart::tally(apart, fallen, &low, &high))
}

/// What stands before the answer to a drill's last default, and the answer, which a register follows.
fn last_default(printed: &str) -> Counted<(&str, &str)> {
    let end = printed
        .rfind("\nregister ")
        .ok_or("no register at the end")?;
    // members are printed behind two spaces, and the answer before them is not
    let mut starts = printed[..end].rmatch_indices('\n').map(|(at, _)| at + 1);
    let start = starts
        .find(|&at| !printed[at..].starts_with("  "))
        .ok_or("no answer is printed")?;
    Ok((&printed[..start], &printed[start..end]))
}

/// The fallen call and the answer, if the default was accepted.
fn read_answer(text: &str) -> Counted<Option<(Sum, Answer)>> {
    let mut printed = Printed(text.lines().peekable());
    if printed.take_if::<1>("refused #").is_some() {
        return Ok(None);
    }
    let answer = Answer::read_default(&mut printed)?;
    ensure(printed.0.next().is_none(), || "more is printed".into())?;
    Ok(Some(answer))
}

#[cfg(test)]
mod tests {
    use super::*;
    use crate::generate::{example_register, raised};
    use crate::ledger::count;

    fn printed(case: &RaisedCase) -> [String; 2] {
        case.drills()
            .map(|drill| String::from_utf8(drill.expected()).unwrap())
    }

    fn counted(case: &RaisedCase, [low, high]: &[String; 2]) -> Counted<Apart> {
        count_raised(case, [low, high])
    }

    fn tallied(case: &RaisedCase) -> Apart {
        counted(case, &printed(case)).unwrap()
    }

    /// What does not hold of each drill by itself.
    fn faults(case: &RaisedCase, texts: &[String; 2]) -> [Option<String>; 2] {
        let drills = case.drills();
        [0, 1].map(|at| count(&drills[at], &texts[at]).err())
    }

    /// Document 01's register, and its first default with these losses.
    fn example(losses: [u64; 2]) -> RaisedCase {
        RaisedCase {
            sheet: example_register(),
            own: 22_000,
            calls: "page\nregister\n".into(),
            member: 1,
            ranks: "2:1 3:2 4:2".into(),
            losses,
        }
    }

    #[test]
    fn random_pairs_hold() {
        for seed in 0..500 {
            let case = raised(seed);
            let texts = printed(&case);
            assert_eq!(counted(&case, &texts).err(), None, "seed {seed}");
            assert_eq!(faults(&case, &texts), [None, None], "seed {seed}");
        }
    }

    #[test]
    fn pairs_are_tallied() {
        let t = tallied(&example([0, 83_200]));
        assert_eq!((t.layers, t.shorter), ([1, 1, 1, 0, 0, 0], 0));
        let t = tallied(&example([80_000, 100_000]));
        assert_eq!((t.pairs, t.equal, t.by_one, t.fallen), (1, 0, 0, 0));
        assert_eq!(t.layers, [0, 0, 1, 1, 0, 0]);
        assert_eq!((t.more, t.same), ([0, 0], [0, 0]));
        // of one thousand more member 4 gives all; further on member 3 is called for it
        let t = tallied(&example([100_000, 100_001]));
        assert_eq!((t.by_one, t.more, t.same), (1, [1, 0], [1, 0]));
        let t = tallied(&example([160_000, 160_001]));
        assert_eq!((t.layers[5], t.more, t.same), (1, [0, 1], [0, 1]));
        let t = tallied(&example([152_000, 172_001]));
        assert_eq!((t.layers, t.shorter), ([0, 0, 0, 0, 0, 1], 1));
        let t = tallied(&example([143_200, 143_201]));
        assert_eq!((t.layers, t.shorter), ([0, 0, 0, 0, 1, 0], 0));
        let t = tallied(&example([172_000, 172_000]));
        assert_eq!((t.equal, t.layers, t.shorter), (1, [0; 6], 0));
    }

    #[test]
    fn a_fallen_call_is_tallied() {
        let case = RaisedCase {
            calls: "default 1 160000 2:1 3:2 4:2\nregister\n".into(),
            member: 2,
            ranks: "3:1 4:1".into(),
            ..example([0, 5])
        };
        let t = tallied(&case);
        assert_eq!((t.pairs, t.fallen, t.shorter), (1, 1, 1));
    }

    #[test]
    fn refused_defaults_are_no_pair() {
        assert_eq!(tallied(&example([0, 25_600_000_000])).pairs, 1);
        assert_eq!(tallied(&example([0, 25_600_000_001])).pairs, 0);
        let nobody = RaisedCase {
            member: 5,
            ..example([0, 1])
        };
        assert_eq!(tallied(&nobody).pairs, 0);
    }

    /// Changes the answer to the last default.
    fn changed(printed: &str, from: &str, to: &str) -> String {
        let (before, answer) = last_default(printed).unwrap();
        assert!(answer.contains(from), "{answer}");
        let behind = &printed[before.len() + answer.len()..];
        [before, &answer.replacen(from, to, 1), behind].concat()
    }

    /// With either loss all six layers and all members give all they have, and a thousand is short.
    #[test]
    fn every_number_that_falls_is_seen() {
        let case = example([172_001; 2]);
        let [low, high] = printed(&case);
        let changes = [
            (
                "layers 50000",
                "layers 49999",
                "layer 1 is 50000, and 49999",
            ),
            (" 20000 132", " 19999 132", "layer 2 is 20000, and 19999"),
            ("13200", "13199", "layer 3 is 13200, and 13199"),
            ("60000", "59999", "layer 4 is 60000, and 59999"),
            ("8800", "8799", "layer 5 is 8800, and 8799"),
            ("20000 short", "19999 short", "layer 6 is 20000, and 19999"),
            ("short 1", "short 0", "the shortfall is 1, and 0"),
            (
                "charged 30000",
                "charged 29999",
                "member 2's charge is 30000, and 29999",
            ),
            (
                "called 15000",
                "called 14999",
                "member 2's call is 15000, and 14999",
            ),
            (
                "\n  member 4 charged 20000 called 0",
                "",
                "member 4's charge is 20000, and 0",
            ),
        ];
        for (from, to, why) in changes {
            let pair = [low.clone(), changed(&high, from, to)];
            let why = format!("{why} with the larger loss");
            assert_eq!(counted(&case, &pair).err(), Some(why));
        }
        let pair = [changed(&low, "called 5000", "called 5001"), high.clone()];
        assert!(counted(&case, &pair).is_err());
        let pair = [low, changed(&high, "short 1", "short 2")];
        assert_eq!(
            counted(&case, &pair).unwrap_err(),
            "charges and shortfall are 172001 and 172002, the losses 0 apart"
        );
    }

    #[test]
    fn another_difference_than_that_of_the_losses_is_seen() {
        let case = example([100_000, 160_000]);
        let [low, high] = printed(&case);
        for apart in [60_001, 59_999] {
            let case = example([100_000, 100_000 + apart]);
            let pair = [low.clone(), high.clone()];
            let why =
                format!("charges and shortfall are 100000 and 160000, the losses {apart} apart");
            assert_eq!(counted(&case, &pair).err(), Some(why));
        }
        // all numbers are as large as they must be, and their sum is not
        let pair = [low.clone(), changed(&high, "8000 short", "7999 short")];
        assert!(counted(&case, &pair).is_err());
        // and the two losses the other way about
        assert!(counted(&case, &[high, low]).is_err());
    }

    /// A thousand of one member's end on another's: all sums hold, and both defaults fall between.
    #[test]
    fn an_end_that_no_loss_reaches_is_seen() {
        let case = example([90_000, 160_000]);
        let good = printed(&case);
        let with = |changes: [(&str, &str); 2]| {
            let texts = good.clone().map(|text| {
                changes.iter().fold(text, |text, (from, to)| {
                    assert!(text.contains(from), "{text}");
                    text.replacen(from, to, 1)
                })
            });
            assert!(counted(&case, &texts).is_ok());
            faults(&case, &texts)
        };
        let range = "line 4: request 7: with loss";
        assert_eq!(
            with([
                ("charged 2266 to", "charged 2265 to"),
                ("charged 4534 to", "charged 4535 to")
            ]),
            [
                Some(format!(
                    "{range} 90000 of 90000 to 160000 member 4's charge is 4534, below 4535"
                )),
                None,
            ]
        );
        assert_eq!(
            with([
                ("called 0 to 6000", "called 0 to 6001"),
                ("called 0 to 2000", "called 0 to 1999")
            ]),
            [
                None,
                Some(format!(
                    "{range} 160000 of 90000 to 160000 member 2's call is 6000, below 6001"
                )),
            ]
        );
    }

    #[test]
    fn two_answers_of_the_range_are_seen() {
        let case = example([90_000, 160_000]);
        let [low, high] = printed(&case);
        let other = high.replacen("charged 2266 to", "charged 2267 to", 1);
        assert_ne!(high, other);
        assert_eq!(
            counted(&case, &[low, other]).unwrap_err(),
            "the drills differ before their last default"
        );
    }

    #[test]
    fn two_registers_are_seen() {
        let case = example([100_000, 160_000]);
        let [low, high] = printed(&case);
        let other = high.replacen("tranche2 8800", "tranche2 8801", 1);
        assert_ne!(high, other);
        assert_eq!(
            counted(&case, &[low, other]).unwrap_err(),
            "the drills differ before their last default"
        );
    }

    #[test]
    fn an_answer_that_cannot_be_read_is_seen() {
        let case = example([100_000; 2]);
        let good = printed(&case);
        let spoilt = [
            String::new(),
            "accepted fallen 0 layers 1 0 0 0 0 0 short 0\n".into(),
            "\nregister tranche1 1 tranche2 0\n".into(),
            changed(&good[0], "fallen", "falls"),
            changed(&good[0], "member 3 charged", "member 3 charges"),
        ];
        for text in spoilt {
            assert!(counted(&case, &[text.clone(), text]).is_err());
        }
        assert!(counted(&case, &good).is_ok());
    }
}
