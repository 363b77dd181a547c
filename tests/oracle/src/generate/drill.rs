//! Random drills, and pairs that differ in their last loss. The maker keeps a console of its own so that it can aim at boundaries.

use super::damage::damage_member_sheet;
use super::sheets::register_sheet;
use super::{DrillCase, RaisedCase};
use crate::engine::{Places, Register, MAX_SUM, MISSING_RANK, MOST_JUNIOR};
use crate::rng::Rng;
use crate::text::{Console, Line};

/// Lines that are nothing, or (all but one) that no console can read.
pub const NOISE: [&str; 91] = [
    "",
    "   ",
    "# a remark",
    "  # close",
    "close now",
    "Close",
    "close\r",
    "close\t",
    "open",
    "payment",
    "payment 1",
    "payment 1 2 3",
    "payment x 1",
    "payment 1 -5",
    "payment 1 +5",
    "payment 1 5.0",
    "payment 1 1,000",
    "payment 1 18446744073709551616",
    "payment 99999999999999999999 1",
    "replenishment 1",
    "replenishment 1 1 #\u{e9}\u{e8} 1",
    "replenishment 1 1\u{e9}",
    "default 1",
    "default 1 x",
    "default 1 5 2",
    "default 1 5 2:256",
    "default 1 5 2:x",
    "default 1 5 2:1:1",
    "default 1 5 :1",
    "default 1 5 0:1",
    "default 1 5 65:1",
    "default 1 5 2:1 2:1",
    "default 1 5 2: 2:",
    "default 1 5 /",
    "default 1 5 2:1 /",
    "default 1 5 / # 6",
    "default 1 5 / / 6 2:1",
    "default 1 5 // 6 2:1",
    "default 1 5 2:1 / 2:1",
    "default 1 / 5 2:1",
    "default / 1 5 2:1",
    "/ default 1 5 2:1",
    "default 1 5/6 2:1",
    "default 1 5 /6 2:1",
    "default 1 5 2:1/ 6",
    "default 1 5 2:/ 6",
    "default 1 5 / x 2:1",
    "default 1 5 / 6 7",
    "default 1 5 / 18446744073709551616",
    "default 1 5 2:1 / 6 2:1 2:1",
    "default 1 5 2:1 / 6 3: 3:",
    "default 1 5 2:1 / 6 2:256",
    "default 1 5 2:1 / 6 65:1",
    "default 1 5 / 6 / 7 / 8 /",
    "default 1 5 / 6 / 7 / 8 / x",
    "default 1 5 / 6 / 7 / 8 / 9 2:256",
    "default 1 5 / 6 / 7 / 8 / 9 / 10 2:1 2:1",
    "payment 1 / 5",
    "close /",
    "register all",
    "page 1",
    "pages",
    "Page",
    "range",
    "range 1",
    "range 1 5",
    "range 1 5 # 6",
    "range 1 5 2:1",
    "range 1 5 x",
    "range 1 -5 6",
    "range 1 5-6 2:1",
    "range 1 5 .. 6 2:1",
    "range 1 18446744073709551616 6",
    "range 1 5 18446744073709551616",
    "range x 5 6",
    "range 1 5 6 7",
    "range 1 5 6 2",
    "range 1 5 6 2:256",
    "range 1 5 6 0:1",
    "range 1 5 6 65:1",
    "range 1 5 6 2:1 2:1",
    "range 1 5 6 2: 2:",
    "range 1 5 6 /",
    "range 1 5 6 2:1 /",
    "range 1 5 / 6 2:1",
    "range 1 5 6 2:1 / 7 2:1",
    "range 1 5 6 2:1 / 7 8 2:1",
    "range / 1 5 6",
    "ranges 1 5 6",
    "Range 1 5 6",
    "default 1 5 6 2:1",
];

/// What a step of the drill does; tempers weigh these in this order.
#[derive(Clone, Copy)]
enum Step {
    Default,
    Payment,
    Replenishment,
    Close,
    Settle,
    Refill,
    TopUp,
    Noise,
    Show,
    Page,
    Range,
}

const STEPS: [Step; 11] = [
    Step::Default,
    Step::Payment,
    Step::Replenishment,
    Step::Close,
    Step::Settle,
    Step::Refill,
    Step::TopUp,
    Step::Noise,
    Step::Show,
    Step::Page,
    Step::Range,
];

const TEMPERS: [[u64; 11]; 4] = [
    [30, 15, 12, 6, 10, 6, 6, 8, 3, 4, 12],
    [60, 5, 5, 2, 5, 2, 10, 3, 1, 2, 12],
    [30, 2, 2, 2, 25, 20, 10, 2, 1, 2, 12],
    [20, 15, 15, 10, 5, 5, 5, 25, 5, 6, 8],
];

pub fn drill(seed: u64) -> DrillCase {
    let mut rng = Rng::new(seed);
    let mut sheet = register_sheet(&mut rng);
    let faults = rng.weighted(&[88, 6, 6]);
    damage_member_sheet(&mut rng, &mut sheet, faults);
    let own = own_contribution(&mut rng);
    let mut maker = Maker::new(rng, &sheet, own);
    maker.make();
    DrillCase {
        sheet,
        own,
        calls: maker.calls,
    }
}

/// Calls, and then a default of one pool with a smaller and with a larger loss.
pub fn raised(seed: u64) -> RaisedCase {
    let mut rng = Rng::new(seed);
    let sheet = register_sheet(&mut rng);
    let own = own_contribution(&mut rng);
    let mut maker = Maker::new(rng, &sheet, own);
    let temper = maker.rng.pick(&TEMPERS);
    let most = maker.rng.pick(&[0, 3, 9, 30]);
    maker.steps(&temper, most);
    maker.say(vec!["register".into()]);
    let member = maker.defaulter();
    RaisedCase {
        sheet,
        own,
        member,
        losses: maker.two_losses(member),
        ranks: maker.ranks(member, false).join(" "),
        calls: maker.calls,
    }
}

fn own_contribution(rng: &mut Rng) -> u64 {
    match rng.weighted(&[10, 10, 20, 40, 8, 6, 2, 1]) {
        0 => 0,
        1 => rng.pick(&[1, 2, 22]),
        2 => rng.below(200),
        3 => rng.below(100_000),
        4 => rng.below(MAX_SUM + 1),
        5 => MAX_SUM,
        6 => MAX_SUM + 1,
        _ => u64::MAX,
    }
}

struct Maker {
    rng: Rng,
    console: Console,
    calls: Vec<u8>,
    lines: u64,
    /// Whether spaces, leading zeros and remarks are strewn about.
    loose: bool,
    /// How many defaults in a hundred carry a faulty rank.
    faults: u64,
}

impl Maker {
    fn new(mut rng: Rng, sheet: &[u8], own: u64) -> Self {
        let console = Console::open(sheet, own, &mut Vec::new()).expect("memory takes all");
        Maker {
            loose: rng.chance(20),
            faults: rng.pick(&[0, 5, 5, 30]),
            rng,
            console,
            calls: Vec::new(),
            lines: 0,
        }
    }

    fn register(&self) -> &Register {
        self.console.register()
    }

    fn make(&mut self) {
        let temper = self.rng.pick(&TEMPERS);
        let members = self.register().present.count_ones() as u64;
        let most = match members {
            0 => 8,
            _ if self.rng.chance(12) => 4 * members,
            _ => 30,
        };
        self.perhaps_page(10);
        self.steps(&temper, most);
        self.say(vec!["register".into()]);
        self.perhaps_page(10);
        if self.rng.chance(20) {
            self.calls.pop(); // the last line may lack its newline
        }
    }

    fn steps(&mut self, temper: &[u64], most: u64) {
        for _ in 0..self.rng.range(0, most) {
            match STEPS[self.rng.weighted(temper)] {
                Step::Default => self.declare(),
                Step::Payment => self.pay(),
                Step::Replenishment => self.replenish(),
                Step::Close => self.say(vec!["close".into()]),
                Step::Settle => self.settle(),
                Step::Refill => self.refill(u64::MAX),
                Step::TopUp => self.refill(9),
                Step::Noise => self.noise(),
                Step::Show => self.say(vec!["register".into()]),
                Step::Page => self.say(vec!["page".into()]),
                Step::Range => self.ask_range(),
            }
        }
    }

    /// Writes one line and lets the own console follow it.
    fn line(&mut self, line: &str) {
        self.lines += 1;
        self.calls.extend_from_slice(line.as_bytes());
        self.calls.push(b'\n');
        let line = Line::Text(line.as_bytes());
        self.console
            .answer(self.lines, line, &mut std::io::sink())
            .expect("a sink takes all");
    }

    fn say(&mut self, words: Vec<String>) {
        if !self.loose {
            return self.line(&words.join(" "));
        }
        let mut line = " ".repeat(self.rng.below(3) as usize);
        for word in words {
            line += &word;
            line += &" ".repeat(self.rng.range(1, 3) as usize);
        }
        match self.rng.below(4) {
            0 => line += "# said so",
            1 => line += self.rng.pick(&["#2:1", "# / 5"]),
            2 => line.truncate(line.trim_end().len()),
            _ => {}
        }
        self.line(&line);
    }

    /// So many times in a hundred a page is asked for, now and then once more.
    fn perhaps_page(&mut self, mut percent: u64) {
        while self.rng.chance(percent) {
            self.say(vec!["page".into()]);
            percent = 20;
        }
    }

    fn number(&mut self, number: u64) -> String {
        if self.loose && self.rng.chance(10) {
            return format!("000{number}");
        }
        number.to_string()
    }

    fn call(&mut self, word: &str, member: u64, amount: u64) {
        let (member, amount) = (self.number(member), self.number(amount));
        self.say(vec![word.into(), member, amount]);
    }

    fn noise(&mut self) {
        let line = self.rng.pick(&NOISE);
        self.line(line);
    }

    /// A live member where there is one, else any number at all.
    fn member(&mut self) -> u64 {
        let live: Vec<usize> = Places(self.register().live).collect();
        if live.is_empty() || self.rng.chance(4) {
            return self.odd_member();
        }
        self.rng.pick(&live) as u64 + 1
    }

    fn odd_member(&mut self) -> u64 {
        match self.rng.below(4) {
            0 => self.rng.pick(&[0, 65, 256, 257, 1 << 32, u64::MAX]),
            1 => {
                let gone = self.register().present & !self.register().live;
                Places(gone).last().map_or(1, |place| place as u64 + 1)
            }
            _ => self.rng.range(1, 64),
        }
    }

    fn pay(&mut self) {
        let owing: Vec<usize> = self.places(|r, place| r.outstanding[place] > 0);
        if owing.is_empty() || self.rng.chance(15) {
            let (member, amount) = (self.member(), self.rng.below(3));
            return self.call("payment", member, amount);
        }
        let place = self.rng.pick(&owing);
        let amount = self.about(self.register().outstanding[place] as u64);
        self.call("payment", place as u64 + 1, amount);
    }

    fn replenish(&mut self) {
        let short: Vec<usize> = self.places(|r, place| room(r, place) > 0);
        if short.is_empty() || self.rng.chance(15) {
            let member = self.member();
            let amount = self.rng.pick(&[0, 1, 10_000, u64::MAX]);
            return self.call("replenishment", member, amount);
        }
        let place = self.rng.pick(&short);
        let amount = self.about(room(self.register(), place));
        self.call("replenishment", place as u64 + 1, amount);
    }

    fn places(&self, which: impl Fn(&Register, usize) -> bool) -> Vec<usize> {
        let register = self.register();
        Places(register.live)
            .filter(|&place| which(register, place))
            .collect()
    }

    /// An amount at, under or over a limit.
    fn about(&mut self, limit: u64) -> u64 {
        match self.rng.weighted(&[30, 30, 15, 4, 10, 2]) {
            0 => limit,
            1 => self.rng.range(1, limit),
            2 => limit.min(self.rng.range(1, 9)),
            3 => 0,
            4 => limit + 1,
            _ => u64::MAX - self.rng.below(2),
        }
    }

    /// Pays every outstanding call, some in two parts, and closes.
    fn settle(&mut self) {
        for place in self.places(|r, place| r.outstanding[place] > 0) {
            let owed = self.register().outstanding[place] as u64;
            let first = if self.rng.chance(20) {
                self.rng.below(owed)
            } else {
                0
            };
            if first > 0 {
                self.call("payment", place as u64 + 1, first);
            }
            self.call("payment", place as u64 + 1, owed - first);
        }
        self.say(vec!["close".into()]);
    }

    /// Replenishes every live member by at most `most`.
    fn refill(&mut self, most: u64) {
        for place in self.places(|r, place| room(r, place) > 0) {
            let most = most.min(room(self.register(), place));
            let amount = if most > 9 {
                most
            } else {
                self.rng.range(1, most)
            };
            self.call("replenishment", place as u64 + 1, amount);
        }
    }

    fn declare(&mut self) {
        let member = self.defaulter();
        let losses = self.losses(member);
        let faulty = if self.rng.chance(self.faults) {
            self.rng.below(losses.len() as u64) as usize
        } else {
            losses.len()
        };
        let mut words = vec!["default".into(), self.number(member)];
        for (pool, loss) in losses.into_iter().enumerate() {
            if pool > 0 {
                words.push("/".into());
            }
            words.push(self.number(loss));
            words.extend(self.ranks(member, pool == faulty));
        }
        self.say_default(words);
    }

    fn say_default(&mut self, mut words: Vec<String>) {
        if self.rng.chance(4) {
            self.spoil(&mut words);
        }
        self.say(words);
        self.perhaps_page(25);
        self.say(vec!["register".into()]);
    }

    /// Asks for a range, and often declares the default straight after it.
    fn ask_range(&mut self) {
        let member = self.defaulter();
        let [low, high] = self.ends(member);
        let faulty = self.rng.chance(self.faults);
        let ranks = self.ranks(member, faulty);
        let mut words = vec!["range".into(), self.number(member)];
        words.extend([self.number(low), self.number(high)]);
        words.extend_from_slice(&ranks);
        if self.rng.chance(4) {
            self.spoil(&mut words);
        }
        self.say(words);
        self.perhaps_page(10);
        if self.rng.chance(15) {
            self.say(vec!["register".into()]);
        }
        if self.rng.chance(60) {
            let loss = self.loss_between(low, high);
            let mut words = vec!["default".into(), self.number(member), self.number(loss)];
            words.extend(ranks);
            self.say_default(words);
        }
    }

    /// The ends of a range, in a few the low above the high, or the high above its limit, or both.
    fn ends(&mut self, member: u64) -> [u64; 2] {
        let [low, high] = self.two_losses(member);
        let over = self.rng.pick(&[MAX_SUM + 1, MAX_SUM + 2, u64::MAX - 1]);
        match self.rng.weighted(&[84, 7, 4, 2, 3]) {
            0 => [low, high],
            1 => [high.saturating_add(1), low],
            2 => [low, over],
            3 => [over, over],
            _ => [over + 1, self.rng.pick(&[low, over])],
        }
    }

    /// A loss of a range: its low, its high, or any.
    fn loss_between(&mut self, low: u64, high: u64) -> u64 {
        match self.rng.below(3) {
            0 => low,
            1 => high,
            _ => low + self.rng.below(high.saturating_sub(low).saturating_add(1)),
        }
    }

    /// Now and then a member that owes a call, which then falls.
    fn defaulter(&mut self) -> u64 {
        let owing = self.places(|r, place| r.outstanding[place] > 0);
        if owing.is_empty() || self.rng.chance(75) {
            return self.member();
        }
        self.rng.pick(&owing) as u64 + 1
    }

    /// Two losses, the larger behind: alike, a little apart, or any.
    fn two_losses(&mut self, member: u64) -> [u64; 2] {
        let Ok(place) = self.register().live_place(member) else {
            return [self.rng.below(1_000), 1_000];
        };
        let loss = self.loss(place);
        let mut losses = match self.rng.weighted(&[10, 20, 20, 50]) {
            0 => [loss, loss],
            1 => [loss, loss.saturating_add(1)],
            2 => [loss, loss.saturating_add(self.rng.below(100))],
            _ => [loss, self.loss(place)],
        };
        losses.sort_unstable();
        losses
    }

    /// The losses of one or several pools.
    fn losses(&mut self, member: u64) -> Vec<u64> {
        let pools = match self.rng.weighted(&[40, 20, 15, 17, 6, 2]) {
            5 => self.rng.range(6, 9) as usize,
            less => less + 1,
        };
        let place = self.register().live_place(member);
        let sum = match place {
            Ok(place) if pools > 1 && self.rng.chance(10) => self.nearly_all(place),
            Ok(place) if pools > 1 && self.rng.chance(10) => self.just_one(place),
            Ok(place) => self.loss(place),
            Err(_) => self.rng.below(1_000),
        };
        if pools == 1 {
            return vec![sum];
        }
        let mut losses = self.divide(sum, pools);
        match place {
            Ok(place) if self.register().outstanding[place] > 0 => self.beside(place, &mut losses),
            _ if self.rng.chance(5) => losses[0] = 0,
            _ => {}
        }
        if self.rng.chance(3) {
            let pool = self.rng.below(pools as u64) as usize;
            losses[pool] = self.rng.pick(&[MAX_SUM, MAX_SUM + 1, u64::MAX]);
        }
        losses
    }

    /// A loss that takes nearly all of layer 4: rounding leaves a little of it to the last tie.
    fn nearly_all(&mut self, place: usize) -> u64 {
        let sums = self.register().layer_sums(place);
        let fallen = self.register().outstanding[place] as u64;
        let loss = sums[..4].iter().sum::<u64>().saturating_sub(fallen);
        loss.saturating_sub(self.rng.below(9)).min(MAX_SUM)
    }

    /// A loss that leaves to the pools together just what another member has contributed.
    fn just_one(&mut self, place: usize) -> u64 {
        let others = self.places(|_, other| other != place);
        if others.is_empty() {
            return self.loss(place);
        }
        let other = self.rng.pick(&others);
        let register = self.register();
        let to_layer_4 = register.layer_sums(place)[..3].iter().sum::<u64>();
        let loss = to_layer_4 + register.contribution[other] as u64;
        loss.saturating_sub(register.outstanding[place] as u64)
            .min(MAX_SUM)
    }

    /// Losses beside a call that falls: none at all, about as much as others have, none in pool 1.
    fn beside(&mut self, place: usize, losses: &mut Vec<u64>) {
        let theirs = self.register().layer_sums(place)[3];
        match self.rng.weighted(&[15, 40, 45]) {
            0 => losses.fill(0),
            1 => {
                let sum = self.rng.below(theirs + 10);
                *losses = self.divide(sum, losses.len());
            }
            _ => {}
        }
        if self.rng.chance(30) {
            losses[0] = 0;
        }
    }

    /// A sum in so many parts: any, about alike, small but one, or halves of what is left; some are 0.
    fn divide(&mut self, sum: u64, parts: usize) -> Vec<u64> {
        let style = self.rng.below(4);
        let mut left = sum;
        let mut divided = Vec::new();
        for to_come in (2..=parts as u64).rev() {
            let part = match style {
                _ if self.rng.chance(15) => 0,
                0 => self.rng.below(left),
                1 => left / to_come,
                2 => left.min(self.rng.below(10)),
                _ => left / 2,
            };
            divided.push(part);
            left -= part;
        }
        divided.push(left);
        if self.rng.chance(50) {
            self.rng.shuffle(&mut divided);
        }
        divided
    }

    /// Spoils the words of a default or a range about a `/` of theirs, or anywhere.
    fn spoil(&mut self, words: &mut Vec<String>) {
        let last = words.len() - 1;
        let slashes: Vec<usize> = (0..last).filter(|&at| words[at] == "/").collect();
        let at = if slashes.is_empty() || self.rng.chance(20) {
            self.rng.below(last as u64) as usize
        } else {
            self.rng.pick(&slashes)
        };
        match self.rng.below(9) {
            0 => words.push("/".into()),
            1 => words.insert(at, "/".into()),
            2 => words[at] += "/",
            3 => drop(words.remove(at)),
            4 => drop(words.remove(at + 1)), // behind a `/`, the loss
            5 => words.swap(at, at + 1),
            6 => words.push(words[last].clone()), // a second rank of one member
            7 => words.insert(0, "/".into()),
            _ => {
                let next = words.remove(at + 1);
                words[at] += &next;
            }
        }
    }

    /// A loss aimed at a layer: at its boundary, inside it, near its ends, or past all.
    fn loss(&mut self, place: usize) -> u64 {
        let sums = self.register().layer_sums(place);
        let layer = self.rng.weighted(&[4, 6, 8, 30, 12, 30]);
        let floor: u64 = sums[..layer].iter().sum();
        let ceiling = floor + sums[layer];
        let target = match self.rng.weighted(&[20, 40, 12, 12, 8, 4, 3, 2, 1]) {
            0 => (ceiling + self.rng.below(3)).saturating_sub(1),
            1 => self.rng.range(floor, ceiling),
            2 => floor + self.rng.below(10),
            3 => ceiling.saturating_sub(self.rng.below(200)),
            4 => sums.iter().sum::<u64>() + self.rng.below(1_000),
            5 => return self.rng.pick(&[0, 0, 1, 2, 99]),
            6 => return MAX_SUM,
            7 => return MAX_SUM + 1,
            _ => return u64::MAX,
        };
        let fallen = self.register().outstanding[place] as u64;
        target.saturating_sub(fallen).min(MAX_SUM)
    }

    /// The words `M:R` of one pool in a default of `member`.
    fn ranks(&mut self, member: u64, faulty: bool) -> Vec<String> {
        let live = self.register().live;
        let read: Vec<u64> = Places(live).map(|p| p as u64 + 1).collect();
        let read: Vec<u64> = read.into_iter().filter(|&m| m != member).collect();
        let fault = if faulty && !read.is_empty() {
            self.rng.pick(&read)
        } else {
            0
        };
        let mut order: Vec<u8> = (1..=MOST_JUNIOR).collect();
        self.rng.shuffle(&mut order);
        let style = self.rng.below(6);
        let spare = self.rng.pick(&[0, 0, 20, 100]);
        let mut words = Vec::new();
        for m in 1..=64 {
            if m == fault {
                words.extend(self.faulty_rank(m));
            } else if read.contains(&m) {
                words.push(format!("{m}:{}", self.good_rank(style, &order, m)));
            } else if self.rng.chance(spare) {
                words.extend(self.spare_rank(m));
            }
        }
        if self.rng.chance(30) {
            self.rng.shuffle(&mut words);
        }
        words
    }

    /// Ranks spread over all, all tied, in a few ties, among the senior, at the ends, or any.
    fn good_rank(&mut self, style: u64, order: &[u8], member: u64) -> u8 {
        match style {
            0 => order[member as usize % order.len()],
            1 => order[0],
            2 => order[self.rng.below(3) as usize],
            3 => self.rng.range(1, 8) as u8,
            4 => self.rng.pick(&[1, 2, MOST_JUNIOR - 1, MOST_JUNIOR]),
            _ => self.rng.pick(order),
        }
    }

    /// A rank that is read and must be refused.
    fn faulty_rank(&mut self, member: u64) -> Option<String> {
        let above = MOST_JUNIOR + 1;
        let rank = match self.rng.below(8) {
            0 => return None,
            1 => return Some(format!("{member}:")),
            2 => 0,
            3 => MISSING_RANK,
            4 | 5 => above,
            6 => self.rng.pick(&[64, 65]), // about the count of members
            _ => self.rng.range(above as u64, 255) as u8,
        };
        Some(format!("{member}:{rank}"))
    }

    /// A rank that is not read: anything that fits a byte.
    fn spare_rank(&mut self, member: u64) -> Option<String> {
        if self.rng.chance(50) {
            return Some(format!("{member}:{}", self.rng.below(256)));
        }
        self.faulty_rank(member)
    }
}

fn room(register: &Register, place: usize) -> u64 {
    (register.requirement[place] - register.contribution[place]) as u64
}
