//! Counts statement 3 on a drill, request 7 on its ranges, and request 6 on two drills, from what was
//! handed in and what was printed.
//!
//! Nothing here asks the engine: sums come from the calls and the printed answers,
//! and what is held or outstanding from the printed registers. What each pool charges is not
//! printed, and is counted by the rules. A printed page is held to the printed answer of the
//! latest accepted default.

mod answer;
mod page;
mod pools;
mod raised;
mod range;

pub use self::answer::Apart;
use self::page::read_page;
use self::pools::{ByMember, Charged, Found};
pub use self::raised::count_raised;
pub use self::range::RANGE_REFUSALS;
use self::range::{Asked, RangeTally};
use crate::engine::{Call, MAX_SUM, MEMBERS, MOST_JUNIOR, RECORD};
use crate::generate::DrillCase;
use crate::text::{read_line, Lines, Reading};
use std::collections::BTreeMap;
use std::iter::Peekable;

/// How many calls of each kind were accepted, how many defaults read ranks about the limit, and
/// what their pools came to.
#[derive(Clone, Copy, Default)]
pub struct Tally {
    pub defaults: u64,
    pub payments: u64,
    pub replenishments: u64,
    pub closes: u64,
    /// Accepted defaults that read the most junior rank.
    pub most_junior: u64,
    /// Defaults refused with 15 that read the rank after it.
    pub too_junior: u64,
    /// Defaults by their count of pools, five and more in the last place.
    pub pools: [u64; 5],
    /// Those of them that were accepted.
    pub pools_accepted: [u64; 5],
    /// Accepted defaults with charges of the last tie.
    pub tied: u64,
    /// Accepted defaults of several pools, with charges, whose fallen call joined pool 1, a later one,
    /// or pool 1 for want of any loss left.
    pub joined: [u64; 3],
    /// Contributions in accepted defaults that are just the sums of several pools together.
    pub just_sums: u64,
    /// Ranks that in accepted defaults give a part, and have it of one member alone.
    pub alone: u64,
    /// Accepted defaults that call all that the caps leave, and are still short.
    pub all_called: u64,
    /// Members that gave all of their contribution in layer 4, and that were called all that their
    /// cap left.
    pub drained: [u64; 2],
    /// Defaults refused with 13 for a later pool alone.
    pub later_loss: u64,
    /// Defaults refused with 15 for a later pool alone.
    pub later_rank: u64,
    pub ranges: RangeTally,
}

/// A member: its sheet figures and what has been added up for it.
struct Account {
    live: bool,
    margin: Sum,
    contribution: Sum,
    cap: Sum,
    margin_charged: Sum,
    contribution_charged: Sum,
    replenished: Sum,
    calls: Sum,
    calls_since_close: Sum,
    paid: Sum,
    fallen: Sum,
}

/// An accepted default whose register has still to be printed.
struct Accepted {
    member: u64,
    /// 64 for each pool.
    ranks: Vec<u8>,
    layers: [Sum; 6],
    short: Sum,
    charged: Vec<u64>,
}

/// A register as printed: by member its margin, contribution and outstanding call.
struct Shown {
    tranches: [Sum; 2],
    rows: BTreeMap<u64, [Sum; 3]>,
}

#[derive(Default)]
struct Ledger {
    accounts: BTreeMap<u64, Account>,
    tranches: [Sum; 2],
    tranches_charged: [Sum; 2],
    losses: Sum,
    fallen: Sum,
    charges: Sum,
    shortfalls: Sum,
    awaiting: Option<Accepted>,
    /// The layers and the shortfall of the latest accepted default.
    latest: Option<[Sum; 7]>,
    unseen: bool,
    /// Whether a register was shown since a call was last accepted.
    shown: bool,
    /// The ranges since a call was last accepted.
    ranges: Vec<Asked>,
    tally: Tally,
}

/// Adds numbers to others, place by place.
pub fn add<const N: usize>(sums: &mut [u64; N], more: [u64; N]) {
    sums.iter_mut()
        .zip(more)
        .for_each(|(sum, more)| *sum += more);
}

/// How an accepted default is printed.
const DEFAULT_ANSWER: &str = "accepted fallen # layers # # # # # # short #";
/// And then each member that is charged or called.
const MEMBER_LINE: &str = "member # charged # called #";

/// Wide enough for whatever a faulty program prints.
type Sum = u128;
type Counted<T = ()> = Result<T, String>;

/// Counts a whole drill; an error says what does not hold and at which line.
pub fn count(case: &DrillCase, printed: &str) -> Counted<Tally> {
    let mut printed = Printed(printed.lines().peekable());
    let mut ledger = Ledger::open(case, &mut printed)?;
    let mut lines = Lines::new(&case.calls[..]);
    while let Some((at, line)) = lines.next().map_err(|e| e.to_string())? {
        ledger
            .step(read_line(line), &mut printed)
            .map_err(|why| format!("line {at}: {why}"))?;
    }
    ensure(printed.0.next().is_none(), || "more is printed".into())?;
    ensure(!ledger.unseen, || "no register at the end".into())?;
    Ok(ledger.tally)
}

/// Refused calls, ranges and unreadable lines alter no printed register, and only defaults the page.
pub fn unaltered(printed: &str) -> Counted {
    let (mut register, mut page) = (None, None);
    let mut lines = printed.lines().peekable();
    while let Some(line) = lines.next() {
        if line.starts_with("accepted") && !line.starts_with("accepted low ") {
            register = None;
        }
        if line.starts_with("accepted fallen ") {
            page = None;
        }
        if line.starts_with("register ") {
            let mut shown = vec![line];
            while let Some(row) = lines.next_if(|row| row.starts_with("  ")) {
                shown.push(row);
            }
            hold(
                &mut register,
                shown,
                "the register altered without an accepted call",
            )?;
        } else if line == "no page" || line.starts_with("LAYER ") {
            let rows = if line == "no page" { 0 } else { 7 };
            let shown = lines.by_ref().take(rows).collect();
            hold(
                &mut page,
                shown,
                "the page altered without an accepted default",
            )?;
        }
    }
    Ok(())
}

/// Holds what is shown to what was shown last, where nothing may have altered it since.
fn hold<'a>(last: &mut Option<Vec<&'a str>>, shown: Vec<&'a str>, why: &str) -> Counted {
    let same = last.as_ref().is_none_or(|last| *last == shown);
    *last = Some(shown);
    ensure(same, || why.into())
}

fn ensure(holds: bool, why: impl FnOnce() -> String) -> Counted {
    if holds {
        Ok(())
    } else {
        Err(why())
    }
}

/// Says of what it is that something does not hold.
fn fault_of(what: &str, counted: Counted) -> Counted {
    counted.map_err(|why| format!("{what}: {why}"))
}

/// The printed answers, read line by line against patterns.
#[derive(Clone)]
struct Printed<'a>(Peekable<std::str::Lines<'a>>);

impl Printed<'_> {
    /// The numbers of the next line, if it has this pattern with `#` for each number.
    fn take_if<const N: usize>(&mut self, pattern: &str) -> Option<[Sum; N]> {
        let numbers = scan(self.0.peek()?, pattern)?;
        self.0.next();
        Some(numbers)
    }

    fn take<const N: usize>(&mut self, pattern: &str) -> Counted<[Sum; N]> {
        self.take_if(pattern)
            .ok_or_else(|| format!("`{pattern}` is not printed"))
    }
}

fn scan<const N: usize>(line: &str, pattern: &str) -> Option<[Sum; N]> {
    let mut numbers = [0; N];
    let mut found = numbers.iter_mut();
    let mut words = line.split_ascii_whitespace();
    for wanted in pattern.split(' ') {
        let word = words.next()?;
        if wanted == "#" {
            *found.next()? = word.parse::<u64>().ok()? as Sum;
        } else if wanted != word {
            return None;
        }
    }
    words.next().is_none().then_some(numbers)
}

impl Ledger {
    /// Opening sums are the sheet's and G's tranches; all 0 after a refused opening.
    fn open(case: &DrillCase, printed: &mut Printed) -> Counted<Self> {
        let mut ledger = Ledger::default();
        if printed.take_if::<0>("opening accepted").is_none() {
            let refused = printed.take_if::<1>("opening refused #").is_some();
            if !refused {
                printed.take::<2>("opening refused # record #")?;
            }
            return Ok(ledger);
        }
        let own = case.own as Sum;
        ledger.tranches = [own * 60 / 100, own - own * 60 / 100];
        for record in case.sheet.chunks(RECORD) {
            let amount = |at: usize| {
                let bytes = record.get(at..at + 4)?.try_into().ok()?;
                Some(u32::from_le_bytes(bytes) as Sum)
            };
            let figures = (amount(4), amount(8), amount(12));
            let (Some(margin), Some(contribution), Some(cap)) = figures else {
                return Err("a sheet of broken records is accepted".into());
            };
            let member = record[0] as u64;
            ensure((1..=MEMBERS as u64).contains(&member), || {
                format!("member {member} is accepted")
            })?;
            let account = Account::open(margin, contribution, cap);
            ledger.accounts.insert(member, account);
        }
        Ok(ledger)
    }

    fn step(&mut self, reading: Reading, printed: &mut Printed) -> Counted {
        match reading {
            Reading::Nothing => Ok(()),
            Reading::Unreadable => printed.take::<1>("unreadable line #").map(drop),
            Reading::Register => fault_of("statement 3", self.show(printed)),
            Reading::Page => fault_of("request 1", self.show_page(printed)),
            Reading::Range {
                member,
                losses,
                ranks,
            } => fault_of("request 7", self.range(member, losses, ranks, printed)),
            Reading::Call(call) => {
                fault_of("request 7", self.within_ranges(&call, printed))?;
                fault_of("statement 3", self.call(call, printed))
            }
        }
    }

    fn call(&mut self, call: Call, printed: &mut Printed) -> Counted {
        if let Call::Default { losses, .. } = &call {
            self.tally.pools[pools_place(losses)] += 1;
        }
        if let Some([number]) = printed.take_if::<1>("refused #") {
            self.refused(&call, number);
            return Ok(());
        }
        ensure(self.awaiting.is_none(), || {
            "no register since the default".into()
        })?;
        (self.unseen, self.shown) = (true, false);
        self.ranges.clear();
        match call {
            Call::Default {
                member,
                losses,
                ranks,
            } => return self.declare(member, &losses, ranks, printed),
            Call::Payment { member, amount } => {
                self.account(member)?.paid += amount as Sum;
                self.tally.payments += 1;
            }
            Call::Replenishment { member, amount } => {
                self.account(member)?.replenished += amount as Sum;
                self.tally.replenishments += 1;
            }
            Call::Close => {
                for account in self.accounts.values_mut() {
                    account.calls_since_close = 0;
                }
                self.tally.closes += 1;
            }
        }
        printed.take::<0>("accepted").map(drop)
    }

    /// A refused call counts for nothing but the tally.
    fn refused(&mut self, call: &Call, number: Sum) {
        let Call::Default {
            member,
            losses,
            ranks,
        } = call
        else {
            return;
        };
        if number == 13 {
            self.tally.later_loss += (losses[0] <= MAX_SUM) as u64;
        }
        if number == 15 {
            let read = self.ranks_read(*member, ranks);
            let too_junior = read.iter().flatten().any(|&rank| rank == MOST_JUNIOR + 1);
            self.tally.too_junior += too_junior as u64;
            self.tally.later_rank += outside(&read[0]).is_none() as u64;
        }
    }

    /// The ranks that a default of `member` reads in each pool: those of the other live members.
    fn ranks_read(&self, member: u64, ranks: &[u8]) -> Vec<Vec<u8>> {
        let others = || {
            let accounts = self.accounts.iter();
            accounts.filter(|(&other, account)| account.live && other != member)
        };
        ranks
            .chunks(MEMBERS)
            .map(|pool| others().map(|(&m, _)| pool[m as usize - 1]).collect())
            .collect()
    }

    /// What the register holds before a default of `member`, by what has been counted so far.
    fn found(&self, member: u64) -> Counted<Found> {
        let live = || self.accounts.iter().filter(|(_, account)| account.live);
        let (_, defaulter) = live()
            .find(|(&other, _)| other == member)
            .ok_or_else(|| format!("member {member} is not live"))?;
        let others = live().filter(|(&other, _)| other != member);
        let contributions = others.map(|(&other, account)| Ok((other, account.standing()?)));
        let tranche1 = rest(self.tranches[0], self.tranches_charged[0])?;
        let margin = rest(defaulter.margin, defaulter.margin_charged)?;
        Ok(Found {
            fallen: rest(defaulter.calls, defaulter.paid + defaulter.fallen)?,
            first_layers: margin + defaulter.standing()? + tranche1,
            contributions: contributions.collect::<Counted<_>>()?,
        })
    }

    fn account(&mut self, member: u64) -> Counted<&mut Account> {
        self.accounts
            .get_mut(&member)
            .filter(|account| account.live)
            .ok_or_else(|| format!("member {member} is not live"))
    }

    fn declare(
        &mut self,
        member: u64,
        losses: &[u64],
        ranks: Vec<u8>,
        printed: &mut Printed,
    ) -> Counted {
        pools::within_limits(losses)?;
        let by_rule = pools::charge(&self.found(member)?, losses, &ranks);
        let [fallen, figures @ ..] = printed.take::<8>(DEFAULT_ANSWER)?;
        self.latest = Some(figures);
        let [layers @ .., short] = figures;
        let layers: [Sum; 6] = layers;
        let defaulter = self.account(member)?;
        defaulter.live = false;
        defaulter.fallen += fallen;
        defaulter.margin_charged += layers[0];
        defaulter.contribution_charged += layers[1];
        self.tranches_charged[0] += layers[2];
        self.tranches_charged[1] += layers[4];
        let slip = self.slip(&layers, printed)?;
        let placed: Sum = layers.iter().sum();
        let loss: Sum = losses.iter().map(|&loss| loss as Sum).sum();
        self.losses += loss;
        self.fallen += fallen;
        self.charges += placed;
        self.shortfalls += short;
        self.tally_accepted(member, losses, &ranks, &by_rule);
        self.tally.all_called += (layers[5] > 0 && short > 0) as u64;
        ensure(loss + fallen == placed + short, || {
            format!("losses {loss} and fallen {fallen}, but {placed} placed and {short} short")
        })?;
        by_rule.in_order()?;
        by_rule.adds_to(&slip)?;
        let charged = slip.into_iter().filter(|&(_, charge)| charge > 0);
        self.awaiting = Some(Accepted {
            member,
            ranks,
            layers,
            short,
            charged: charged.map(|(member, _)| member).collect(),
        });
        Ok(())
    }

    fn tally_accepted(&mut self, member: u64, losses: &[u64], ranks: &[u8], by_rule: &Charged) {
        let read = self.ranks_read(member, ranks);
        let most_junior = read.iter().flatten().any(|&rank| rank == MOST_JUNIOR);
        let tally = &mut self.tally;
        tally.defaults += 1;
        tally.pools_accepted[pools_place(losses)] += 1;
        tally.most_junior += most_junior as u64;
        tally.tied += by_rule.tied() as u64;
        tally.just_sums += by_rule.just_sums;
        tally.alone += by_rule.alone();
        match by_rule.joined {
            _ if losses.len() == 1 || !by_rule.charged() => {}
            Some((0, true)) => tally.joined[0] += 1,
            Some((0, false)) => tally.joined[2] += 1,
            Some(_) => tally.joined[1] += 1,
            None => {}
        }
    }

    /// The printed slip: layer 4 charges and calls of live members, within contributions and caps.
    fn slip(&mut self, layers: &[Sum; 6], printed: &mut Printed) -> Counted<ByMember> {
        let (mut charges, mut calls) = (0, 0);
        let mut charged = ByMember::new();
        while let Some([member, charge, call]) = printed.take_if(MEMBER_LINE) {
            let member = member as u64;
            let account = self.account(member)?;
            account.contribution_charged += charge;
            account.calls += call;
            account.calls_since_close += call;
            let standing = account.standing();
            let standing = standing.map_err(|why| format!("contribution of {member}: {why}"))?;
            let (called, cap) = (account.calls_since_close, account.cap);
            ensure(called <= cap, || {
                format!("member {member} is called {called} over its cap {cap}")
            })?;
            let drained = [charge > 0 && standing == 0, call > 0 && called == cap];
            add(&mut self.tally.drained, drained.map(u64::from));
            charges += charge;
            calls += call;
            *charged.entry(member).or_default() += charge;
        }
        ensure((charges, calls) == (layers[3], layers[5]), || {
            format!("slips add to {charges} charged and {calls} called")
        })?;
        Ok(charged)
    }

    /// Reads a printed page and holds it to the latest accepted default.
    fn show_page(&mut self, printed: &mut Printed) -> Counted {
        let after_range = self.after_range(|_| true);
        let Some(latest) = self.latest else {
            self.tally.ranges.no_pages += after_range as u64;
            return printed.take::<0>("no page").map(drop);
        };
        let shown = read_page(&mut printed.0)?;
        self.tally.ranges.pages += after_range as u64;
        ensure(shown == latest, || {
            format!("the page shows {shown:?}, and the latest default {latest:?}")
        })
    }

    /// Reads a printed register and holds every sum against it.
    fn show(&mut self, printed: &mut Printed) -> Counted {
        let shown = self.read_register(printed)?;
        self.tally.ranges.registers += self.after_range(|range| range.shown) as u64;
        (self.unseen, self.shown) = (false, true);
        let (handed, placed) = (self.losses + self.fallen, self.charges + self.shortfalls);
        ensure(handed == placed, || {
            format!("losses and fallen calls {handed}, charges and shortfalls {placed}")
        })?;
        for k in 0..2 {
            let (opening, charged) = (self.tranches[k], self.tranches_charged[k]);
            let held = shown.tranches[k];
            ensure(opening == charged + held, || {
                format!("tranche {}: {opening} is not {charged} + {held}", k + 1)
            })?;
        }
        for (member, account) in &self.accounts {
            account
                .balance(shown.rows[member])
                .map_err(|why| format!("member {member} {why}"))?;
        }
        match self.awaiting.take() {
            Some(default) => self.order(&default, &shown),
            None => Ok(()),
        }
    }

    fn read_register(&self, printed: &mut Printed) -> Counted<Shown> {
        let tranches = printed.take("register tranche1 # tranche2 #")?;
        let mut rows = BTreeMap::new();
        for (&member, account) in &self.accounts {
            let state = if account.live { "live" } else { "default" };
            let pattern = format!(
                "member # {state} margin # contribution # requirement # cap # outstanding # called #"
            );
            let [shown, margin, contribution, _, _, outstanding, _] = printed.take(&pattern)?;
            ensure(shown == member as Sum, || {
                format!("member {member} is not shown")
            })?;
            rows.insert(member, [margin, contribution, outstanding]);
        }
        Ok(Shown { tranches, rows })
    }

    /// The order of layers and ranks, against the register this default gave back.
    fn order(&self, default: &Accepted, shown: &Shown) -> Counted {
        let own = shown.rows[&default.member];
        let live = || self.accounts.iter().filter(|(_, account)| account.live);
        let contribution = |member: u64| shown.rows[&member][1];
        let empty = [
            own[0] == 0,
            own[1] == 0,
            shown.tranches[0] == 0,
            live().all(|(&member, _)| contribution(member) == 0),
            shown.tranches[1] == 0,
            live().all(|(_, account)| account.calls_since_close == account.cap),
        ];
        for (layer, &total) in default.layers.iter().enumerate() {
            ensure(total == 0 || empty[..layer].iter().all(|&e| e), || {
                format!("layer {} gives before an earlier one is empty", layer + 1)
            })?;
        }
        ensure(default.short == 0 || empty.iter().all(|&e| e), || {
            "a shortfall over a layer that is not empty".into()
        })?;
        for read in self.ranks_read(default.member, &default.ranks) {
            ensure(outside(&read).is_none(), || {
                format!("accepted with ranks {read:?}, which go from 1 to {MOST_JUNIOR}")
            })?;
        }
        // Of several pools the slip shows sums alone, and their ranks are held to what each charges.
        if default.ranks.len() > MEMBERS {
            return Ok(());
        }
        let rank = |member: u64| default.ranks[member as usize - 1];
        for &charged in &default.charged {
            let junior =
                live().find(|(&other, _)| rank(other) > rank(charged) && contribution(other) > 0);
            ensure(junior.is_none(), || {
                format!("member {charged} is charged before a more junior one is empty")
            })?;
        }
        Ok(())
    }
}

/// A rank that is none of 1 to the most junior.
fn outside(ranks: &[u8]) -> Option<&u8> {
    ranks.iter().find(|rank| !(1..=MOST_JUNIOR).contains(rank))
}

/// Where a tally by count of pools puts these.
fn pools_place(losses: &[u64]) -> usize {
    losses.len().min(5) - 1
}

/// What is left where so much was taken.
fn rest(opening: Sum, taken: Sum) -> Counted<Sum> {
    let rest = opening.checked_sub(taken);
    rest.ok_or_else(|| format!("{taken} were taken of {opening}"))
}

impl Account {
    fn open(margin: Sum, contribution: Sum, cap: Sum) -> Self {
        Account {
            live: true,
            margin,
            contribution,
            cap,
            margin_charged: 0,
            contribution_charged: 0,
            replenished: 0,
            calls: 0,
            calls_since_close: 0,
            paid: 0,
            fallen: 0,
        }
    }

    /// The contribution that stands.
    fn standing(&self) -> Counted<Sum> {
        rest(
            self.contribution + self.replenished,
            self.contribution_charged,
        )
    }

    /// Both pockets and the calls add up with what the register shows.
    fn balance(&self, [margin, contribution, outstanding]: [Sum; 3]) -> Counted {
        ensure(self.margin == self.margin_charged + margin, || {
            format!(
                "margin: {} is not {} charged + {margin} held",
                self.margin, self.margin_charged
            )
        })?;
        let opening = self.contribution + self.replenished;
        ensure(opening == self.contribution_charged + contribution, || {
            format!(
                "contribution: {opening} is not {} charged + {contribution} held",
                self.contribution_charged
            )
        })?;
        let accounted = self.paid + self.fallen + outstanding;
        ensure(self.calls == accounted, || {
            format!(
                "calls: {} made, {accounted} paid, fallen or outstanding",
                self.calls
            )
        })
    }
}

#[cfg(test)]
mod tests {
    use super::*;
    use crate::engine::PAGE_BYTES;
    use crate::generate::{drill, example_register, member_record};
    use std::ops::Range;

    fn printed(case: &DrillCase) -> String {
        String::from_utf8(case.expected()).unwrap()
    }

    fn example() -> DrillCase {
        let calls = "page\n\
            default 1 100000 2:1 3:2 4:2\npage\nregister\n\
            default 3 60000 2:1 4:1\nregister\npayment 2 500\npage\n\
            default 2 0 4:1\nregister\npage\n";
        DrillCase {
            sheet: example_register(),
            own: 22_000,
            calls: calls.into(),
        }
    }

    /// Two pools with a last tie, four, and three with a fallen call that joins the second.
    fn example_of_pools() -> DrillCase {
        let calls = "\
            default 1 83201 2:1 3:2 4:2 / 31000 2:2 3:1 4:1\npage\nregister\n\
            replenishment 2 500\n\
            default 3 2 2:1 4:1 / 4401 2:2 4:1 / 3 2:1 4:2 / 40000 2:1 4:1\nregister\n\
            replenishment 4 7777\npayment 2 100\n\
            default 2 0 4:1 / 10 4:24 / 20 4:1\nregister\npage\n";
        DrillCase {
            calls: calls.into(),
            ..example()
        }
    }

    #[test]
    fn random_drills_hold() {
        for seed in 0..200 {
            let case = drill(seed);
            let printed = printed(&case);
            assert_eq!(count(&case, &printed).err(), None, "seed {seed}");
            assert_eq!(unaltered(&printed), Ok(()), "seed {seed}");
        }
    }

    /// Every number of the example that statement 3 speaks of, changed by one.
    #[test]
    fn a_changed_number_is_seen() {
        changed_numbers_are_seen(example());
        changed_numbers_are_seen(example_of_pools());
    }

    fn changed_numbers_are_seen(case: DrillCase) {
        let good = printed(&case);
        assert!(count(&case, &good).is_ok());
        let words: Vec<&str> = good.split_inclusive([' ', '\n']).collect();
        for at in 1..words.len() {
            let not_counted = matches!(words[at - 1].trim(), "requirement" | "cap" | "called");
            let Ok(number) = words[at].trim().parse::<u64>() else {
                continue;
            };
            if not_counted && words[at - 3].trim() != "charged" {
                continue;
            }
            let mut changed: Vec<String> = words.iter().map(|w| w.to_string()).collect();
            changed[at] = words[at].replace(&number.to_string(), &(number + 1).to_string());
            let changed = changed.concat();
            assert!(count(&case, &changed).is_err(), "{changed}");
        }
    }

    /// Two defaults that charge no other member, so that they print alike for all good ranks.
    fn with_rank(member: u64, rank: u8) -> DrillCase {
        let ranks: String = (1..=5)
            .map(|m| format!(" {m}:{}", if m == member { rank } else { 1 }))
            .collect();
        let calls = format!("default 1 5{ranks}\nregister\ndefault 2 5{ranks}\nregister\n");
        DrillCase {
            calls: calls.into(),
            ..example()
        }
    }

    /// Member 1 defaults first, 2 next, and 5 is not in the register.
    #[test]
    fn an_accepted_rank_outside_its_values_is_seen() {
        let good = printed(&with_rank(1, 1));
        for member in 1..=5 {
            for rank in 0..=255 {
                let bad = (2..=4).contains(&member) && !(1..=24).contains(&rank);
                let seen = count(&with_rank(member, rank), &good).is_err();
                assert_eq!(seen, bad, "member {member} with rank {rank}");
            }
        }
    }

    /// The first pool's ranks are good.
    #[test]
    fn an_accepted_rank_of_a_later_pool_is_seen() {
        let good = printed(&with_rank(1, 1));
        let with_rank = |member, rank| {
            let case = with_rank(member, rank);
            let calls = String::from_utf8(case.calls).unwrap();
            let pools = " 2 2:1 3:1 4:1 / 2 2:1 3:1 4:1 / 1 ";
            let calls = calls.replace(" 5 ", pools).into();
            DrillCase { calls, ..case }
        };
        assert_eq!(count(&with_rank(1, 1), &good).err(), None);
        for rank in 0..=255 {
            for member in 1..=5 {
                let bad = (2..=4).contains(&member) && !(1..=24).contains(&rank);
                let seen = count(&with_rank(member, rank), &good).is_err();
                assert_eq!(seen, bad, "member {member} with rank {rank}");
            }
        }
    }

    #[test]
    fn accepted_pools_past_their_limits_are_seen() {
        let accepted = |pools: &str, loss: u64| {
            let ranks = " 2:1 3:1 4:1";
            let calls = format!("default 1 {}{ranks}\nregister\n", pools);
            let case = |calls: String| DrillCase {
                calls: calls.replace(" /", &format!("{ranks} /")).into(),
                ..example()
            };
            let one = case(format!("default 1 {loss}{ranks}\nregister\n"));
            count(&case(calls), &printed(&one))
        };
        assert!(accepted("5", 5).is_ok());
        assert!(accepted("1 / 1 / 1 / 2", 5).is_ok());
        assert!(accepted("1 / 1 / 1 / 1 / 1", 5).is_err());
        assert!(accepted("1 / 1 / 1 / 1 / 0 / 1", 5).is_err());
        assert!(accepted("1 / 1 / 1 / 1", 5).is_err());
        assert!(accepted("50000 / 10 / 50", 50_060).is_ok());
        assert!(accepted("25600000000 / 0", 25_600_000_000).is_ok());
        assert!(accepted("25600000000 / 1", 25_600_000_000).is_err());
        assert!(accepted("0 / 25600000001", 25_600_000_000).is_err());
    }

    /// A thousand of one member's charge on another: all sums hold, and so does the register.
    #[test]
    fn a_charge_moved_to_another_member_is_seen() {
        let case = example_of_pools();
        let good = printed(&case);
        let changes = [
            ("member 3 charged 333 ", "member 3 charged 334 "),
            ("member 4 charged 668 ", "member 4 charged 667 "),
            ("contribution 9667 ", "contribution 9666 "),
            ("contribution 19332 ", "contribution 19333 "),
        ];
        let (first, rest) = good.split_once("\naccepted\n").unwrap();
        let mut moved = first.to_string();
        for (from, to) in changes {
            assert!(moved.contains(from), "{moved}");
            moved = moved.replace(from, to);
        }
        let why = count(&case, &[&moved, "\naccepted\n", rest].concat()).err();
        let why = why.unwrap_or_default();
        assert!(
            why.contains("charged 334, and 333 by pools and tie"),
            "{why}"
        );
    }

    /// A share above what it is drawn from, though layer and slip agree: member 2 has a
    /// contribution of 30,000, and its cap is 15,000.
    #[test]
    fn a_share_above_its_pocket_is_seen() {
        let case = DrillCase {
            calls: "default 1 172000 2:1 3:1 4:1\nregister\n".into(),
            ..example()
        };
        let good = printed(&case);
        let tally = count(&case, &good).unwrap();
        assert_eq!(tally.drained, [3, 2]);
        let with = |changes: [(&str, &str); 2]| {
            let mut changed = good.clone();
            for (from, to) in changes {
                assert!(changed.contains(from), "{changed}");
                changed = changed.replace(from, to);
            }
            count(&case, &changed).err().unwrap_or_default()
        };
        let charged = [
            (" 60000 8800 20000 short 0", " 60001 8799 20000 short 0"),
            ("member 2 charged 30000 ", "member 2 charged 30001 "),
        ];
        assert!(with(charged).contains("contribution of 2: 30001 were taken of 30000"));
        let called = [
            (" 8800 20000 short 0", " 8799 20001 short 0"),
            (
                "member 2 charged 30000 called 15000",
                "member 2 charged 30000 called 15001",
            ),
        ];
        assert!(with(called).contains("member 2 is called 15001 over its cap 15000"));
    }

    #[test]
    fn pools_are_tallied() {
        let case = example_of_pools();
        let tally = count(&case, &printed(&case)).unwrap();
        assert_eq!(tally.pools, [0, 1, 1, 1, 0]);
        assert_eq!(tally.pools_accepted, tally.pools);
        assert_eq!((tally.tied, tally.joined), (1, [0, 1, 0]));
        let calls = "default 1 25600000001 / 1\ndefault 1 1 / 25600000001\n\
            default 1 1 2:1 3:1 / 1 2:1 3:1 4:1\ndefault 1 1 2:1 3:1 4:1 / 1 2:1 3:1\n\
            default 1 1 / 1 / 1 / 1 / 1\ndefault 9 1 / 1 / 1 / 1 / 1 / 1\nregister\n";
        let case = DrillCase {
            calls: calls.into(),
            ..example()
        };
        let tally = count(&case, &printed(&case)).unwrap();
        assert_eq!(tally.pools, [0, 4, 0, 0, 2]);
        assert_eq!(tally.pools_accepted, [0; 5]);
        assert_eq!((tally.later_loss, tally.later_rank), (1, 1));
    }

    /// Member 1's default calls on the others, 20,000 in all; of them member 4 has no cap.
    #[test]
    fn defaults_that_call_all_there_is_are_tallied() {
        let all_called = |loss: u64| {
            let case = DrillCase {
                calls: format!("default 1 {loss} 2:1 3:1 4:1\nregister\n").into(),
                ..example()
            };
            count(&case, &printed(&case)).unwrap().all_called
        };
        let to_layer_6 = 50_000 + 20_000 + 22_000 + 60_000;
        assert_eq!(all_called(to_layer_6), 0);
        assert_eq!(all_called(to_layer_6 + 19_999), 0);
        assert_eq!(all_called(to_layer_6 + 20_000), 0);
        assert_eq!(all_called(to_layer_6 + 20_001), 1);
        // short, where nobody is left to be called
        let case = DrillCase {
            sheet: member_record(1, [0, 10_000, 0]).to_vec(),
            own: 0,
            calls: "default 1 10001\nregister\n".into(),
        };
        assert_eq!(count(&case, &printed(&case)).unwrap().all_called, 0);
    }

    #[test]
    fn ranks_about_the_limit_are_tallied() {
        let tally = |member, rank| {
            let case = with_rank(member, rank);
            let tally = count(&case, &printed(&case)).unwrap();
            (tally.defaults, tally.most_junior, tally.too_junior)
        };
        assert_eq!(tally(3, 23), (2, 0, 0));
        assert_eq!(tally(3, 24), (2, 2, 0));
        assert_eq!(tally(3, 25), (0, 0, 2));
        assert_eq!(tally(3, 26), (0, 0, 0));
        assert_eq!(tally(2, 24), (2, 1, 0));
        assert_eq!(tally(2, 25), (1, 0, 1));
        assert_eq!(tally(1, 24), (2, 0, 0));
        assert_eq!(tally(5, 25), (2, 0, 0));
    }

    /// Where the pages of a drill are in what it prints.
    fn pages(printed: &str) -> Vec<Range<usize>> {
        let starts = printed.match_indices("LAYER ");
        starts.map(|(at, _)| at..at + PAGE_BYTES).collect()
    }

    /// Every byte of every page, its newlines among them.
    #[test]
    fn a_changed_page_is_seen() {
        let case = example();
        let good = printed(&case);
        for page in pages(&good) {
            for at in page {
                for byte in "0123456789, \nX".chars() {
                    let changed = [&good[..at], &byte.to_string(), &good[at + 1..]].concat();
                    let seen = count(&case, &changed).is_err();
                    assert_eq!(seen, changed != good, "{changed}");
                }
            }
        }
    }

    #[test]
    fn a_stale_page_is_seen() {
        let case = example();
        let good = printed(&case);
        let pages = pages(&good);
        assert_eq!(pages.len(), 3);
        for at in &pages {
            let with = |text: &str| [&good[..at.start], text, &good[at.end..]].concat();
            for other in &pages {
                let changed = with(&good[other.clone()]);
                assert_eq!(count(&case, &changed).is_err(), at != other, "{changed}");
            }
            assert!(count(&case, &with("no page\n")).is_err());
            assert!(count(&case, &with("")).is_err());
        }
        let early = good.replacen("no page\n", &good[pages[0].clone()], 1);
        assert!(count(&case, &early).is_err());
    }

    #[test]
    fn an_unasked_change_is_seen() {
        let shown = "register tranche1 1 tranche2 2\n";
        let changed = "register tranche1 1 tranche2 3\n";
        assert!(unaltered(&[shown, "refused 16\n", shown].concat()).is_ok());
        assert!(unaltered(&[shown, "refused 16\n", changed].concat()).is_err());
        assert!(unaltered(&[shown, "accepted\n", changed].concat()).is_ok());
        let range = "accepted low layers 0 0 0 0 0 0 short 0 high layers 0 0 0 0 0 0 short 5\n  \
              member 3 charged 0 to 0 called 0 to 5\n";
        assert!(unaltered(&[shown, range, shown].concat()).is_ok());
        assert!(unaltered(&[shown, range, changed].concat()).is_err());
    }

    #[test]
    fn an_unasked_change_of_the_page_is_seen() {
        let good = printed(&example());
        let pages: Vec<&str> = pages(&good).into_iter().map(|at| &good[at]).collect();
        let default = "accepted fallen 0 layers 0 0 0 0 0 0 short 0\n";
        let range = "accepted low layers 0 0 0 0 0 0 short 0 high layers 0 0 0 0 0 0 short 5\n";
        for between in ["refused 16\n", "unreadable line 2\n", "accepted\n", range] {
            for (first, second) in [(pages[0], pages[1]), ("no page\n", pages[0])] {
                assert!(unaltered(&[first, between, first].concat()).is_ok());
                assert!(unaltered(&[first, between, second].concat()).is_err());
                assert!(unaltered(&[second, between, first].concat()).is_err());
                assert!(unaltered(&[first, default, between, second].concat()).is_ok());
            }
        }
    }
}
