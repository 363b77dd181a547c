//! The drill console: one call a line.

use super::lines::{number, words, Line, Lines};
use super::refused;
use crate::engine::{
    print_page, Call, DefaultAnswer, Placed, Places, RangeAnswer, Register, DEFAULT_SLIP, MEMBERS,
    MISSING_RANK, PAGE_BYTES, RANGE_SLIP,
};
use std::io::{self, BufRead, Write};

/// What a line of the drill says.
#[derive(Debug, PartialEq, Eq)]
pub enum Reading {
    Nothing,
    Call(Call),
    Register,
    Page,
    /// The lowest and the highest loss, and the ranks of one pool.
    Range {
        member: u64,
        losses: [u64; 2],
        ranks: Vec<u8>,
    },
    Unreadable,
}

/// Reads one line of the drill.
pub fn read_line(line: Line) -> Reading {
    let Line::Text(line) = line else {
        return Reading::Unreadable;
    };
    let mut words = words(line);
    let Some(first) = words.next() else {
        return Reading::Nothing;
    };
    let reading = match first {
        b"default" => read_default(&mut words).map(Reading::Call),
        b"payment" => read_pair(&mut words)
            .map(|(member, amount)| Reading::Call(Call::Payment { member, amount })),
        b"replenishment" => read_pair(&mut words)
            .map(|(member, amount)| Reading::Call(Call::Replenishment { member, amount })),
        b"close" => Some(Reading::Call(Call::Close)),
        b"register" => Some(Reading::Register),
        b"page" => Some(Reading::Page),
        b"range" => read_range(&mut words),
        _ => None,
    };
    match reading {
        Some(reading) if words.next().is_none() => reading,
        _ => Reading::Unreadable,
    }
}

fn read_pair<'a>(words: &mut impl Iterator<Item = &'a [u8]>) -> Option<(u64, u64)> {
    Some((number(words.next()?)?, number(words.next()?)?))
}

/// A member and its pools: a word `/` begins each further one.
fn read_default<'a>(words: &mut impl Iterator<Item = &'a [u8]>) -> Option<Call> {
    let (member, loss) = read_pair(words)?;
    let (mut losses, mut ranks) = (vec![loss], Vec::with_capacity(MEMBERS));
    while read_ranks(words, &mut ranks)? {
        losses.push(number(words.next()?)?);
    }
    Some(Call::Default {
        member,
        losses,
        ranks,
    })
}

/// A member, a lowest and a highest loss, and one pool's ranks.
fn read_range<'a>(words: &mut impl Iterator<Item = &'a [u8]>) -> Option<Reading> {
    let (member, low) = read_pair(words)?;
    let losses = [low, number(words.next()?)?];
    let mut ranks = Vec::with_capacity(MEMBERS);
    let further = read_ranks(words, &mut ranks)?;
    (!further).then_some(Reading::Range {
        member,
        losses,
        ranks,
    })
}

/// Adds the 64 ranks of one pool, and says whether a further pool follows.
fn read_ranks<'a>(words: &mut impl Iterator<Item = &'a [u8]>, all: &mut Vec<u8>) -> Option<bool> {
    let mut ranks = [MISSING_RANK; MEMBERS];
    let mut named = 0u64;
    let further = loop {
        let word = match words.next() {
            None => break false,
            Some(b"/") => break true,
            Some(word) => word,
        };
        let (place, rank) = read_rank(word)?;
        if named >> place & 1 == 1 {
            return None;
        }
        named |= 1 << place;
        ranks[place] = rank;
    };
    all.extend(ranks);
    Some(further)
}

/// A word `M:R`, or `M:` for a blank rank.
fn read_rank(word: &[u8]) -> Option<(usize, u8)> {
    let colon = word.iter().position(|&b| b == b':')?;
    let (member, rank) = (number(&word[..colon])?, &word[colon + 1..]);
    if member == 0 || member > MEMBERS as u64 {
        return None;
    }
    let rank = if rank.is_empty() {
        MISSING_RANK
    } else {
        u8::try_from(number(rank)?).ok()?
    };
    Some((member as usize - 1, rank))
}

/// The console keeps one register through the whole drill.
pub struct Console {
    register: Register,
    slip: [u64; DEFAULT_SLIP],
    range_slip: [u64; RANGE_SLIP],
    /// What the latest accepted default answered, for its page.
    latest: Option<DefaultAnswer>,
}

impl Console {
    /// Opens the register and says whether that was accepted.
    pub fn open(sheet: &[u8], own: u64, out: &mut dyn Write) -> io::Result<Self> {
        let register = match Register::open(sheet, own) {
            Ok(register) => {
                writeln!(out, "opening accepted")?;
                register
            }
            Err(refusal) => {
                writeln!(out, "opening {}", refused(refusal))?;
                Register::empty()
            }
        };
        Ok(Console {
            register,
            slip: [0; DEFAULT_SLIP],
            range_slip: [0; RANGE_SLIP],
            latest: None,
        })
    }

    pub fn register(&self) -> &Register {
        &self.register
    }

    /// Answers the line with this number.
    pub fn answer(&mut self, at: u64, line: Line, out: &mut dyn Write) -> io::Result<()> {
        match read_line(line) {
            Reading::Nothing => Ok(()),
            Reading::Unreadable => writeln!(out, "unreadable line {at}"),
            Reading::Register => self.print_register(out),
            Reading::Page => self.print_latest_page(out),
            Reading::Call(call) => match self.register.make(&call, &mut self.slip) {
                Ok(None) => writeln!(out, "accepted"),
                Ok(Some(answer)) => {
                    self.latest = Some(answer);
                    self.print_default(&answer, out)
                }
                Err(number) => writeln!(out, "refused {number}"),
            },
            Reading::Range {
                member,
                losses,
                ranks,
            } => {
                let slip = &mut self.range_slip;
                match self.register.range(member, losses, &ranks, slip) {
                    Ok(answer) => self.print_range(&answer, out),
                    Err(number) => writeln!(out, "refused {number}"),
                }
            }
        }
    }

    fn print_default(&self, answer: &DefaultAnswer, out: &mut dyn Write) -> io::Result<()> {
        write!(out, "accepted fallen {}", answer.fallen)?;
        print_placed((*answer).into(), out)?;
        writeln!(out)?;
        let (charges, calls) = self.slip.split_at(MEMBERS);
        for (place, (charge, call)) in charges.iter().zip(calls).enumerate() {
            if *charge > 0 || *call > 0 {
                writeln!(out, "  member {} charged {charge} called {call}", place + 1)?;
            }
        }
        Ok(())
    }

    fn print_range(&self, answer: &RangeAnswer, out: &mut dyn Write) -> io::Result<()> {
        write!(out, "accepted")?;
        for (end, placed) in [("low", answer.low), ("high", answer.high)] {
            write!(out, " {end}")?;
            print_placed(placed, out)?;
        }
        writeln!(out)?;
        let (lows, highs) = self.range_slip.split_at(DEFAULT_SLIP);
        for place in 0..MEMBERS {
            let [charges, calls] = [place, MEMBERS + place].map(|at| [lows[at], highs[at]]);
            if charges[1] > 0 || calls[1] > 0 {
                writeln!(
                    out,
                    "  member {} charged {} to {} called {} to {}",
                    place + 1,
                    charges[0],
                    charges[1],
                    calls[0],
                    calls[1]
                )?;
            }
        }
        Ok(())
    }

    fn print_latest_page(&self, out: &mut dyn Write) -> io::Result<()> {
        let Some(answer) = &self.latest else {
            return writeln!(out, "no page");
        };
        let mut page = [0; PAGE_BYTES];
        print_page(answer, &mut page).expect("a whole page and amounts within its limit");
        out.write_all(&page)
    }

    fn print_register(&self, out: &mut dyn Write) -> io::Result<()> {
        let r = &self.register;
        writeln!(
            out,
            "register tranche1 {} tranche2 {}",
            r.tranche1, r.tranche2
        )?;
        for i in Places(r.present) {
            let state = if r.live >> i & 1 == 1 {
                "live"
            } else {
                "default"
            };
            writeln!(
                out,
                "  member {} {state} margin {} contribution {} requirement {} cap {} outstanding {} called {}",
                i + 1, r.margin[i], r.contribution[i], r.requirement[i], r.cap[i], r.outstanding[i], r.called[i]
            )?;
        }
        Ok(())
    }
}

/// Six layers and the shortfall, on one line.
fn print_placed(placed: Placed, out: &mut dyn Write) -> io::Result<()> {
    write!(out, " layers")?;
    for layer in placed.layers {
        write!(out, " {layer}")?;
    }
    write!(out, " short {}", placed.short)
}

/// The whole drill; each answer is out before the next line is read.
pub fn run_drill(
    sheet: &[u8],
    own: u64,
    input: impl BufRead,
    out: &mut dyn Write,
) -> io::Result<()> {
    let mut text = Vec::new();
    let mut console = Console::open(sheet, own, &mut text)?;
    let mut lines = Lines::new(input);
    loop {
        out.write_all(&text)?;
        out.flush()?;
        text.clear();
        let Some((at, line)) = lines.next()? else {
            return Ok(());
        };
        console.answer(at, line, &mut text)?;
    }
}

#[cfg(test)]
mod tests {
    use super::*;
    use crate::engine::FIRST_PAGE;

    fn reading(line: &str) -> Reading {
        read_line(Line::Text(line.as_bytes()))
    }

    #[test]
    fn readable_lines() {
        assert_eq!(reading("  # nothing"), Reading::Nothing);
        assert_eq!(reading(" close# now"), Reading::Call(Call::Close));
        assert_eq!(reading("register "), Reading::Register);
        assert_eq!(reading("  page # for the wall"), Reading::Page);
        let (member, amount) = (0, u64::MAX);
        assert_eq!(
            reading("payment  000 18446744073709551615"),
            Reading::Call(Call::Payment { member, amount })
        );
        assert_eq!(
            reading("default 1 5 2:07 3:#4"),
            default_of_1(&[(5, &[(2, 7)])])
        );
    }

    /// A default of member 1 with these losses and ranks of its pools.
    fn default_of_1(pools: &[(u64, &[(usize, u8)])]) -> Reading {
        let mut ranks = Vec::new();
        for (_, given) in pools {
            let mut pool = [255; MEMBERS];
            for &(member, rank) in *given {
                pool[member - 1] = rank;
            }
            ranks.extend(pool);
        }
        Reading::Call(Call::Default {
            member: 1,
            losses: pools.iter().map(|pool| pool.0).collect(),
            ranks,
        })
    }

    #[test]
    fn ranks_that_fit_a_byte() {
        for rank in [0, 24, 25, 64, 65, 255] {
            let line = format!("default 1 5 2:{rank}");
            assert_eq!(reading(&line), default_of_1(&[(5, &[(2, rank)])]));
        }
    }

    #[test]
    fn readable_pools() {
        assert_eq!(
            reading("default 1 5 / 6"),
            default_of_1(&[(5, &[]), (6, &[])])
        );
        assert_eq!(
            reading(" default  1 5 2:1 3:2  /  06 3: 2:4   / 18446744073709551615 64:255 # / 7"),
            default_of_1(&[
                (5, &[(2, 1), (3, 2)]),
                (6, &[(2, 4)]),
                (u64::MAX, &[(64, 255)])
            ])
        );
        assert_eq!(
            reading("default 1 5 2:1# / x"),
            default_of_1(&[(5, &[(2, 1)])])
        );
        assert_eq!(
            reading("default 1 0 / 1 2:1 / 2 / 3 / 4 2:5 / 5"),
            default_of_1(&[
                (0, &[]),
                (1, &[(2, 1)]),
                (2, &[]),
                (3, &[]),
                (4, &[(2, 5)]),
                (5, &[])
            ])
        );
    }

    #[test]
    fn unreadable_pools() {
        let lines = [
            "/",
            "/ default 1 5",
            "default / 1 5",
            "default 1 / 5",
            "default 1 /",
            "default 1 5 /",
            "default 1 5 2:1 /",
            "default 1 5 / #6",
            "default 1 5 / / 6",
            "default 1 5 // 6",
            "default 1 5/6",
            "default 1 5 /6",
            "default 1 5/ 6",
            "default 1 5 2:1/ 6",
            "default 1 5 2:/ 6",
            "default 1 5 /\t6",
            "default 1 5 / 2:1",
            "default 1 5 / x",
            "default 1 5 / 6 7",
            "default 1 5 / 18446744073709551616",
            "default 1 5 2:1 / 6 2:1 2:1",
            "default 1 5 2:1 / 6 2: 2:",
            "default 1 5 2:1 2:1 / 6",
            "default 1 5 / 6 2:256",
            "default 1 5 / 6 65:1",
            "default 1 1 / 2 / 3 / 4 /",
            "default 1 1 / 2 / 3 / 4 / 2:1",
            "default 1 1 / 2 / 3 / 4 / 18446744073709551616",
            "default 1 1 / 2 / 3 / 4 / 5 2:256",
            "default 1 1 / 2 / 3 / 4 / 5 / 6 2:1 2:1",
            "payment 1 / 5",
            "payment 1 5 /",
            "close /",
            "register /",
            "page /",
        ];
        for line in lines {
            assert_eq!(reading(line), Reading::Unreadable, "{line}");
        }
    }

    /// A range of member 1 with these ranks.
    fn range_of_1(low: u64, high: u64, given: &[(usize, u8)]) -> Reading {
        let mut ranks = vec![255; MEMBERS];
        for &(member, rank) in given {
            ranks[member - 1] = rank;
        }
        Reading::Range {
            member: 1,
            losses: [low, high],
            ranks,
        }
    }

    #[test]
    fn readable_ranges() {
        assert_eq!(reading("range 1 5 6"), range_of_1(5, 6, &[]));
        assert_eq!(reading("range 1 6 5"), range_of_1(6, 5, &[]));
        assert_eq!(
            reading(" range  001 5  18446744073709551615 3:24  2: 64:255 4:0 # / 7"),
            range_of_1(5, u64::MAX, &[(3, 24), (64, 255), (4, 0)])
        );
        assert_eq!(reading("range 1 5 6 2:1# 2:1"), range_of_1(5, 6, &[(2, 1)]));
    }

    #[test]
    fn unreadable_ranges() {
        let lines = [
            "range",
            "range 1",
            "range 1 5",
            "range 1 5 # 6",
            "range 1 5 2:1",
            "range 1 5 2:1 6",
            "range x 5 6",
            "range 1 x 6",
            "range 1 5 x",
            "range 1 -5 6",
            "range 1 5 +6",
            "range 1 5.0 6",
            "range 1 5-6",
            "range 1 5 - 6",
            "range 1 18446744073709551616 6",
            "range 1 5 18446744073709551616",
            "range 18446744073709551616 5 6",
            "range 1 5 6 7",
            "range 1 5 6 2",
            "range 1 5 6 2:1 7",
            "range 1 5 6 2:1:1",
            "range 1 5 6 :1",
            "range 1 5 6 0:1",
            "range 1 5 6 65:1",
            "range 1 5 6 2:256",
            "range 1 5 6 2:x",
            "range 1 5 6 2:1 2:1",
            "range 1 5 6 2: 2:",
            "range 1 5 6 /",
            "range 1 5 6 2:1 /",
            "range 1 5 6 / 7",
            "range 1 5 6 2:1 / 7 2:1",
            "range 1 5 6 2:1 / 7 8 2:1",
            "range 1 5 / 6",
            "range / 1 5 6",
            "/ range 1 5 6",
            "range 1 5 6 /7",
            "range 1 5/6",
            "range 1 5 6/ 2:1",
            "range\t1 5 6",
            "range 1 5 6\r",
            "Range 1 5 6",
            "ranges 1 5 6",
        ];
        for line in lines {
            assert_eq!(reading(line), Reading::Unreadable, "{line}");
        }
    }

    #[test]
    fn unreadable_lines() {
        let lines = [
            "close now",
            "Close",
            "close\r",
            "\tclose",
            "payment 1",
            "payment 1 2 3",
            "payment 1 18446744073709551616",
            "default 1",
            "default 1 5 2",
            "default 1 5 2:256",
            "default 1 5 2:1000",
            "default 1 5 0:1",
            "default 1 5 65:1",
            "default 1 5 2:1 2:1",
            "default 1 5 2: 2:",
            "default 1 5 2:1:1",
            "default 1 5 :1",
            "register all",
            "page 1",
            "pages",
            "Page",
            "page\r",
        ];
        for line in lines {
            assert_eq!(reading(line), Reading::Unreadable, "{line}");
        }
    }

    /// What a drill of the example register prints.
    fn printed(calls: &str) -> String {
        let sheet = crate::generate::example_register();
        let mut out = Vec::new();
        run_drill(&sheet, 22_000, calls.as_bytes(), &mut out).unwrap();
        String::from_utf8(out).unwrap()
    }

    #[test]
    fn the_printed_example() {
        let expected = "opening accepted\n\
            accepted fallen 0 layers 50000 20000 13200 16800 0 0 short 0\n  \
              member 3 charged 5600 called 0\n  \
              member 4 charged 11200 called 0\n\
            refused 16\n";
        let calls = "default 1 100000 2:1 3:2 4:2\npayment 2 5\n";
        assert_eq!(printed(calls), expected);
    }

    #[test]
    fn ranks_above_24() {
        let calls = "default 1 5 2:25 3:2 4:2\ndefault 1 5 2:64 3:2 4:2\n\
            default 1 5 2:255 3:2 4:2\ndefault 1 5 2:256 3:2 4:2\n\
            default 1 5 2:24 3:2 4:2 1:25 5:64 64:255\n";
        let expected = "opening accepted\n\
            refused 15\nrefused 15\nrefused 15\nunreadable line 4\n\
            accepted fallen 0 layers 5 0 0 0 0 0 short 0\n";
        assert_eq!(printed(calls), expected);
    }

    #[test]
    fn printed_pools() {
        let calls = "default 1 1 / 1 / 1 / 1 / 1\n\
            default 1 1 / 25600000001\n\
            default 1 25600000000 / 1\n\
            default 1 1 2:1 3:1 4:1 / 1 2:1 3:1 4:25\n\
            default 1 1 2:1 3:1 4:1 / 1 2:1 3:1 3:1\n\
            default 1 90000 2:1 3:2 4:2 / 10000 2:2 3:1 4:1\n\
            default 1 1 / 1 / 1 / 1 / 1\n";
        let expected = "opening accepted\n\
            refused 21\nrefused 13\nrefused 22\nrefused 15\nunreadable line 5\n\
            accepted fallen 0 layers 50000 20000 13200 16800 0 0 short 0\n  \
              member 2 charged 10000 called 0\n  \
              member 3 charged 2266 called 0\n  \
              member 4 charged 4534 called 0\n\
            refused 12\n";
        assert_eq!(printed(calls), expected);
    }

    const SECOND_PAGE: &str = "\
        LAYER                        Rs THOUSAND\n\
        MARGIN                                 0\n\
        OWN FUND                           4,400\n\
        TRANCHE 1                              0\n\
        MEMBERS                           38,800\n\
        TRANCHE 2                          8,800\n\
        CALLS                              8,000\n\
        SHORT                                  0\n";

    #[test]
    fn pages_of_the_latest_accepted_default() {
        let calls = "page\n\
            default 1 100000 2:1 3:2\npage\n\
            default 1 100000 2:1 3:2 4:2\npage\n\
            close\npayment 2 5\npage 1\ndefault 1 5\npage\npage\n\
            default 3 60000 2:1 4:1\npayment 2 5\nreplenishment 2 1\npage\n\
            default 2 0\npage\n";
        let expected = [
            "opening accepted\nno page\nrefused 15\nno page\n\
            accepted fallen 0 layers 50000 20000 13200 16800 0 0 short 0\n  \
              member 3 charged 5600 called 0\n  \
              member 4 charged 11200 called 0\n",
            FIRST_PAGE,
            "accepted\nrefused 16\nunreadable line 8\nrefused 12\n",
            FIRST_PAGE,
            FIRST_PAGE,
            "accepted fallen 0 layers 0 4400 0 38800 8800 8000 short 0\n  \
              member 2 charged 30000 called 8000\n  \
              member 4 charged 8800 called 0\n\
            accepted\naccepted\n",
            SECOND_PAGE,
            "refused 15\n",
            SECOND_PAGE,
        ];
        assert_eq!(printed(calls), expected.concat());
    }

    /// Of 80,000 the first tranche gives 10,000; 100,000 is document 01's first default.
    #[test]
    fn the_printed_example_as_a_range() {
        let expected = "opening accepted\n\
            accepted low layers 50000 20000 10000 0 0 0 short 0 \
              high layers 50000 20000 13200 16800 0 0 short 0\n  \
              member 3 charged 0 to 5600 called 0 to 0\n  \
              member 4 charged 0 to 11200 called 0 to 0\n";
        assert_eq!(printed("range 1 80000 100000 2:1 3:2 4:2\n"), expected);
    }

    /// Of 150,000 the second tranche gives 6,800; 60,000 of 180,000 are the contributions, and 20,000 the caps.
    #[test]
    fn a_printed_range_of_calls_and_shortfall() {
        let expected = "opening accepted\n\
            accepted low layers 50000 20000 13200 60000 6800 0 short 0 \
              high layers 50000 20000 13200 60000 8800 20000 short 8000\n  \
              member 2 charged 30000 to 30000 called 0 to 15000\n  \
              member 3 charged 10000 to 10000 called 0 to 5000\n  \
              member 4 charged 20000 to 20000 called 0 to 0\n\
            accepted low layers 50000 20000 13200 60000 8800 4000 short 0 \
              high layers 50000 20000 13200 60000 8800 4000 short 0\n  \
              member 2 charged 30000 to 30000 called 3000 to 3000\n  \
              member 3 charged 10000 to 10000 called 1000 to 1000\n  \
              member 4 charged 20000 to 20000 called 0 to 0\n";
        let calls = "range 1 150000 180000 2:1 3:2 4:2\nrange 1 156000 156000 2:1 3:2 4:2\n";
        assert_eq!(printed(calls), expected);
    }

    #[test]
    fn refused_ranges() {
        let calls = "range 5 2 25600000001\n\
            range 1 2 1\n\
            range 1 25600000002 25600000001 2:1\n\
            range 1 0 25600000001 2:1\n\
            range 1 25600000001 25600000001 2:1 3:1 4:1\n\
            range 1 0 25600000000 2:1 3:1\n\
            range 1 5 5 2:1 3:1 4:25\n\
            range 1 5 6 2:1 3:1 4:256\n\
            range 1 5 5 1:25 2:1 3:1 4:24 5:0\n\
            default 1 5 2:1 3:1 4:1\n\
            range 1 2 1\n\
            range 0 0 0\n";
        let expected = "opening accepted\n\
            refused 11\nrefused 23\nrefused 23\nrefused 13\nrefused 13\n\
            refused 15\nrefused 15\nunreadable line 8\n\
            accepted low layers 5 0 0 0 0 0 short 0 high layers 5 0 0 0 0 0 short 0\n\
            accepted fallen 0 layers 5 0 0 0 0 0 short 0\n\
            refused 12\nrefused 11\n";
        assert_eq!(printed(calls), expected);
    }

    /// The call of 8,000 that member 2 still owes 7,500 of is placed with either loss.
    #[test]
    fn a_range_beside_a_fallen_call() {
        let calls = "default 1 100000 2:1 3:2 4:2\n\
            default 3 60000 2:1 4:1\n\
            replenishment 4 7777\npayment 2 500\n\
            range 2 0 500 4:1\nrange 2 500 500 4:1\ndefault 2 0 4:1\n";
        let expected = "accepted\naccepted\n\
            accepted low layers 0 0 0 7500 0 0 short 0 \
              high layers 0 0 0 7777 0 0 short 223\n  \
              member 4 charged 7500 to 7777 called 0 to 0\n\
            accepted low layers 0 0 0 7777 0 0 short 223 \
              high layers 0 0 0 7777 0 0 short 223\n  \
              member 4 charged 7777 to 7777 called 0 to 0\n\
            accepted fallen 7500 layers 0 0 0 7500 0 0 short 0\n  \
              member 4 charged 7500 called 0\n";
        let printed = printed(calls);
        assert!(printed.ends_with(expected), "{printed}");
    }

    /// What a drill prints with ranges strewn about is what it prints without, but for their own answers.
    #[test]
    fn a_range_alters_nothing() {
        let calls = [
            "page\n",
            "register\n",
            "default 1 150000 2:1 3:2 4:2\n",
            "page\n",
            "register\n",
            "payment 2 5\n",
            "default 3 60000 2:1 4:1\n",
            "register\n",
            "page\n",
        ];
        let ranges = "range 2 0 170000 1:1 3:2 4:2\nrange 4 5 5 2:1 3:1\n\
            range 4 25600000001 25600000001\nrange 2 7 6\nrange 1 5 6\nrange 5 0 1\n";
        let refused = [11, 12, 13, 15, 23].map(|number| format!("refused {number}"));
        let of_a_range = |line: &str| {
            line.starts_with("accepted low")
                || line.contains(" to ")
                || refused.iter().any(|answer| answer == line)
        };
        let answers = |text: &str| {
            let kept = text.lines().filter(|line| !of_a_range(line));
            kept.map(str::to_owned).collect::<Vec<_>>()
        };
        let plain = printed(&calls.concat());
        assert_eq!(answers(&plain).len(), plain.lines().count());
        let strewn = printed(&calls.map(|call| [ranges, call].concat()).concat());
        assert!(strewn.contains("accepted low"));
        assert!(refused.iter().all(|answer| strewn.contains(answer)));
        assert_eq!(answers(&strewn), answers(&plain));
    }

    #[test]
    fn no_range_after_a_refused_opening() {
        let mut out = Vec::new();
        run_drill(&[], 0, &b"range 1 5 6\nrange 1 6 5\npage"[..], &mut out).unwrap();
        let expected = "opening refused 1\nrefused 11\nrefused 11\nno page\n";
        assert_eq!(String::from_utf8(out).unwrap(), expected);
    }

    #[test]
    fn no_page_after_a_refused_opening() {
        let mut out = Vec::new();
        run_drill(&[], 0, &b"page\ndefault 1 5\npage"[..], &mut out).unwrap();
        let expected = "opening refused 1\nno page\nrefused 11\nno page\n";
        assert_eq!(String::from_utf8(out).unwrap(), expected);
    }
}
