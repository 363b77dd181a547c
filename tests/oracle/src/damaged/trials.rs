//! The trials themselves.

use super::Trial;
use crate::child::Runner;
use crate::engine::RECORD;
use crate::generate::{
    damage_member_sheet, damage_stress_sheet, drill, example_register, grouped_record,
    member_record, sizing, NOISE,
};
use crate::rng::Rng;
use crate::text::LONGEST_LINE;
use std::ffi::OsString;
use std::fs::{self, File};
use std::io;

/// A drill that reaches every call, with ranges, remarks, blanks and unreadable lines.
pub const GOOD_CALLS: &str = "\
# a drill
page
register
range 1 80000 180000 2:1 3:2 4:2
default 1 100000 2:1 3:2 4:2
register

range 1 5 6 / 7
payment 2 5
page
replenishment 4 0000200   # a little
default 3 60000 2:1 4:1 1: 64:255
register
range 2 0 0500 4:1 1: 64:255   # beside a fallen call
range 2 500 499 4:1
range 2 0 25600000001
range 2 0 25600000000 4:
range 3 0 1 2:1
range 5 1 0
close
payment 2 3000
payment 2 18446744073709551616
  payment   2   5000
close
replenishment 2 30001
replenishment 2 30000
default 2 1000000 4:
default 2 1000000 4:25
default 2 1 4:1 / 25600000001 4:1
default 2 25600000000 4:1/ 1 4:1
default 2 25600000000 4:1 / 1 4:1
default 2 1 / 1 4:1 / 1 / 1 / 1
  page # of member 3
default 2 900000 4:7 / 0 4:24 1: / 100000 4:1   # / 5
register
default 4 1
close
register
page";

const GOOD_LINES: [(&str, &str); 3] = [
    (
        "register",
        "1,50000,20000,10000\n2, 0 ,30000,15000\r\n# rest\n\n3,,10000,5000\n4,0,20000,4294967294\n",
    ),
    ("shares", "1,5,6,7\n2,,8,9\r\n  64 , 1 , 2 , 3 #\n,1,1,1"),
    (
        "stress",
        "1,1,1,0,500\n1,1,2,1,\r\n1,1,3,0,5, 64 \n1,1,4,0,6,\n184,64,64,1,400000000\n,,,,\n,,,,,\n65535,65535,255,255,0,255",
    ),
];

const LENGTHS: [usize; 5] = [
    LONGEST_LINE - 1,
    LONGEST_LINE,
    LONGEST_LINE + 1,
    5_000,
    100_000,
];

/// Arguments that are no numbers, and two that are.
const NUMBERS: [&str; 14] = [
    "",
    " ",
    "x",
    "-1",
    "+1",
    " 1",
    "1 ",
    "1.0",
    "0x10",
    "1_000",
    "18446744073709551616",
    "99999999999999999999999999",
    "18446744073709551615",
    "00000000000000000000000000000022",
];

fn stress_sheet() -> Vec<u8> {
    let records = [
        grouped_record(0, 1, false, 3, 50_000),
        grouped_record(0, 2, true, 3, 70_000),
        grouped_record(1, 1, false, 0, 90_000),
    ];
    records.concat()
}

fn shares_sheet() -> Vec<u8> {
    let records = [
        member_record(1, [3, 5, 7]),
        member_record(2, [2, 0, 1]),
        member_record(9, [3, 3, 4]),
    ];
    records.concat()
}

/// A default of as many pools as a line of this length holds.
fn many_pools(length: usize) -> Vec<u8> {
    let mut line = b"default 2 5".to_vec();
    while line.len() + 4 <= length {
        line.extend(b" / 6");
    }
    line.resize(length, b' ');
    line
}

/// Makes trials with the files of one directory.
struct Maker<'a> {
    runner: &'a Runner,
    rng: Rng,
    trials: Vec<Trial>,
}

pub fn all(runner: &Runner, seed: u64) -> io::Result<Vec<Trial>> {
    runner.write("good.sheet", &example_register())?;
    runner.write("stress.sheet", &stress_sheet())?;
    runner.write("shares.sheet", &shares_sheet())?;
    let rng = Rng::new(seed);
    let mut maker = Maker {
        runner,
        rng,
        trials: Vec::new(),
    };
    maker.prefixes();
    maker.long_lines();
    maker.odd_bytes();
    maker.unreadable_lines();
    maker.spoilt_lines();
    maker.random_input();
    maker.random_sheets();
    maker.made_sheets();
    maker.argument_counts();
    maker.argument_numbers();
    maker.files()?;
    maker.reviews();
    Ok(maker.trials)
}

impl Maker<'_> {
    fn file(&self, name: &str) -> OsString {
        self.runner.path(name).into()
    }

    fn push(&mut self, name: &str, program: &'static str, arguments: Vec<OsString>, stdin: &[u8]) {
        self.trials.push(Trial {
            name: name.into(),
            program,
            files: Vec::new(),
            arguments,
            stdin: stdin.to_vec(),
        });
    }

    fn drill(&mut self, name: &str, stdin: &[u8]) {
        let arguments = vec![self.file("good.sheet"), "22000".into()];
        self.push(name, "run_drill", arguments, stdin);
    }

    /// A drill with damage between two printed registers and two pages.
    fn drill_about(&mut self, name: &str, damage: &[u8]) {
        let opening = b"default 1 100000 2:1 3:2 4:2\nregister\npage\n";
        self.drill(name, &[opening, damage, b"\nregister\npage\n"].concat());
    }

    fn drill_sheet(&mut self, name: &str, sheet: Vec<u8>) {
        let arguments = vec![self.file("tried.sheet"), "22".into()];
        let stdin = b"register\npage\nclose\nrange 1 5 60000 2:1\n\
            default 1 5 2:1 / 6 2:1\npayment 1 1\npage\n";
        self.push(name, "run_drill", arguments, stdin);
        self.last_files(vec![("tried.sheet", sheet)]);
    }

    fn sizing_sheets(&mut self, name: &str, stress: Vec<u8>, shares: Vec<u8>) {
        let arguments = vec![
            self.file("tried.stress"),
            self.file("tried.shares"),
            "100".into(),
            "1000".into(),
        ];
        self.push(name, "run_sizing", arguments, &[]);
        self.last_files(vec![("tried.stress", stress), ("tried.shares", shares)]);
    }

    fn last_files(&mut self, files: Vec<(&'static str, Vec<u8>)>) {
        if let Some(trial) = self.trials.last_mut() {
            trial.files = files;
        }
    }

    fn make(&mut self, name: &str, kind: &str, stdin: &[u8]) {
        self.push(name, "make_sheet", vec![kind.into()], stdin);
    }

    /// Every prefix of a good call file, of good sheets and of good comma-separated lines.
    fn prefixes(&mut self) {
        let calls = GOOD_CALLS.as_bytes();
        for length in 0..=calls.len() {
            self.drill("prefix of calls", &calls[..length]);
            let shown = [&calls[..length], b"\nregister\npage\n"].concat();
            self.drill("prefix of calls, then register and page", &shown);
        }
        for (kind, lines) in GOOD_LINES {
            for length in 0..=lines.len() {
                self.make("prefix of lines", kind, &lines.as_bytes()[..length]);
            }
        }
        let (register, stress, shares) = (example_register(), stress_sheet(), shares_sheet());
        for length in 0..=register.len() {
            self.drill_sheet("prefix of a sheet", register[..length].to_vec());
        }
        for length in 0..=stress.len() {
            let cut = stress[..length].to_vec();
            self.sizing_sheets("prefix of a stress sheet", cut, shares.clone());
            let cut = shares[..length.min(shares.len())].to_vec();
            self.sizing_sheets("prefix of a shares sheet", stress.clone(), cut);
        }
    }

    fn long_lines(&mut self) {
        for length in LENGTHS {
            let fill = |start: &str, with: u8, end: &str| {
                let mut line = start.as_bytes().to_vec();
                line.resize(length - end.len(), with);
                line.extend(end.as_bytes());
                line
            };
            let lines = [
                fill("close", b' ', ""),
                fill("", b' ', "close"),
                fill("close #", b'x', ""),
                fill("# ", b'#', ""),
                fill("", b' ', ""),
                fill("payment 2 ", b'0', "1"),
                fill("payment 2 ", b'9', ""),
                fill("", b'x', ""),
                fill("", 0, ""),
                fill("default 2 5 ", b' ', "3:1 4:2"),
                fill("default 2 5 3:", b'0', "1 4:2"),
                fill("default 2 5 3:1 4:2 /", b' ', "6 3:1 4:2"),
                fill("default 2 5 3:1 4:2 / ", b'0', "6 3:1 4:2"),
                fill("default 2 5 3:1 4:2", b' ', "/"),
                fill("default 2 5 3:1 4:2 / 6 3:1 4:2 ", b'/', ""),
                many_pools(length),
                fill("range 2 5 ", b' ', "6 3:1 4:2"),
                fill("range 2 5 ", b'0', "6 3:1 4:2"),
                fill("range 2 5 6 3:", b'0', "1 4:2"),
                fill("range 2 5 6 3:1 4:2", b' ', "/"),
                fill("range 2 5 6 3:1 4:2 ", b'9', ""),
                fill("page", b' ', ""),
            ];
            for line in lines {
                self.drill_about("long line", &line);
                self.drill("long line, no newline", &line);
            }
            let sheets = [
                ("register", "1,2,3,4"),
                ("stress", "1,2,3,0,5"),
                ("stress", "1,2,3,0,5,6"),
            ];
            for (kind, good) in sheets {
                let lines = [
                    fill(good, b' ', ""),
                    fill("", b' ', good),
                    fill("#", b'x', ""),
                    fill("", b' ', ""),
                    fill("", b'0', good),
                    fill("", b',', ""),
                    fill(good, b' ', "\r"),
                ];
                for line in lines {
                    self.make("long line", kind, &line);
                    let among = [good.as_bytes(), b"\n", &line, b"\n", good.as_bytes()].concat();
                    self.make("long line among others", kind, &among);
                }
            }
        }
    }

    /// NUL bytes, CR line ends, tabs, a byte order mark, bytes above 127.
    fn odd_bytes(&mut self) {
        let changes: [(&str, &str, &str); 7] = [
            ("CR line ends", "\n", "\r\n"),
            ("CR for newline", "\n", "\r"),
            ("NUL for newline", "\n", "\0"),
            ("NUL for space", " ", "\0"),
            ("NUL after each line", "\n", "\0\n"),
            ("tab for space", " ", "\t"),
            ("empty lines between", "\n", "\n\n"),
        ];
        for (name, from, to) in changes {
            self.drill(name, GOOD_CALLS.replace(from, to).as_bytes());
            for (kind, lines) in GOOD_LINES {
                self.make(name, kind, lines.replace(from, to).as_bytes());
            }
        }
        let lines: [&[u8]; 25] = [
            b"\xef\xbb\xbfclose",
            b"close\0",
            b"close#\0\xff",
            b"\0",
            b"\r",
            b"\xff\xfe",
            b"clos\xe9",
            b"payment 2 \xd9\xa1",
            b"payment\xc2\xa02 1",
            b"close\x0b",
            b"close\x0c",
            b"page\0",
            b"page\r",
            b"\x1a",
            b"default 2 5 3:1 4:1\t/\t6 3:1 4:1",
            b"default 2 5 3:1 4:1\0/ 6 3:1 4:1",
            b"default 2 5 3:1 4:1 /\r",
            b"default 2 5 3:1 4:1 \xef\xbc\x8f 6 3:1 4:1",
            b"default 2 5 3:1 4:1 \\ 6 3:1 4:1",
            b"range 2 5\t6 3:1 4:1",
            b"range 2 5 6\0",
            b"range 2 5 6 3:1 4:1\r",
            b"range\0 2 5 6 3:1 4:1",
            b"range 2 5\xe2\x80\x936 3:1 4:1",
            b"range 2 5 6\xc2\xa03:1 4:1",
        ];
        for line in lines {
            self.drill_about("odd bytes", line);
            self.make("odd bytes", "shares", &[b"1,2,3,4\n", line].concat());
            self.make("odd cell", "shares", &[b"1,2,3,", line].concat());
        }
    }

    fn unreadable_lines(&mut self) {
        for line in NOISE {
            self.drill_about("unreadable line", line.as_bytes());
        }
    }

    /// A good default of two pools, and a good range, with one byte taken out, put in or changed.
    fn spoilt_lines(&mut self) {
        self.spoil("spoilt pools", b"default 2 500 3:1 4:2 / 60 4:2 3:1");
        self.spoil("spoilt range", b"range 2 50 60 3:1 4:2");
    }

    fn spoil(&mut self, name: &str, good: &[u8]) {
        for at in 0..good.len() {
            let with = |middle: &[u8], end: usize| [&good[..at], middle, &good[end..]].concat();
            let mut lines = vec![with(b"", at + 1), with(b"/", at), with(b" / ", at)];
            lines.extend(b"/ :0#".map(|byte| with(&[byte], at + 1)));
            for line in lines {
                self.drill_about(name, &line);
            }
        }
    }

    fn random_input(&mut self) {
        let words =
            b"default payment replenishment close register page range 0123456789 :::  // #,,\n\n\n\r\0";
        for _ in 0..150 {
            let length = self.rng.below(400) as usize;
            let any: Vec<u8> = (0..length).map(|_| self.rng.next() as u8).collect();
            let drawn: Vec<u8> = (0..length).map(|_| self.rng.pick(words)).collect();
            let digits: Vec<u8> = (0..length)
                .map(|_| self.rng.pick(b"1234567890,, \n"))
                .collect();
            for bytes in [any, drawn, digits] {
                self.drill_about("random bytes", &bytes);
                let kind = self.rng.pick(&["register", "shares", "stress"]);
                self.make("random bytes", kind, &bytes);
            }
        }
        for _ in 0..400 {
            let mut calls = GOOD_CALLS.as_bytes().to_vec();
            self.mutate(&mut calls);
            self.drill("mutated calls", &calls);
            let (kind, lines) = self.rng.pick(&GOOD_LINES);
            let mut lines = lines.as_bytes().to_vec();
            self.mutate(&mut lines);
            self.make("mutated lines", kind, &lines);
        }
    }

    /// A few bytes changed, put in or taken out.
    fn mutate(&mut self, bytes: &mut Vec<u8>) {
        for _ in 0..self.rng.range(1, 4) {
            let at = self.rng.below(bytes.len() as u64) as usize;
            let byte = if self.rng.chance(50) {
                self.rng.pick(b" \n#:/,0919\r")
            } else {
                self.rng.next() as u8
            };
            match self.rng.below(3) {
                0 => bytes[at] = byte,
                1 => bytes.insert(at, byte),
                _ => drop(bytes.remove(at)),
            }
        }
    }

    fn random_sheets(&mut self) {
        for _ in 0..100 {
            let records = self.rng.range(1, 70) as usize;
            let length = records * RECORD + self.rng.pick(&[0, 0, 0, 1, 15]);
            let bytes: Vec<u8> = (0..length).map(|_| self.rng.next() as u8).collect();
            self.drill_sheet("random sheet", bytes.clone());
            self.sizing_sheets("random stress sheet", bytes.clone(), shares_sheet());
            self.sizing_sheets("random shares sheet", stress_sheet(), bytes);
        }
        for _ in 0..200 {
            let seed = self.rng.next();
            let mut sheet = drill(seed).sheet;
            damage_member_sheet(&mut self.rng, &mut sheet, 1);
            self.drill_sheet("damaged register sheet", sheet);
            let mut sheets = sizing(seed);
            damage_stress_sheet(&mut self.rng, &mut sheets.stress, 1);
            damage_member_sheet(&mut self.rng, &mut sheets.shares, 1);
            self.sizing_sheets("damaged sheets", sheets.stress, sheets.shares);
        }
    }

    /// Good, blank and limiting cells, and more lines than any sheet may hold.
    fn made_sheets(&mut self) {
        let cells = [
            "",
            " ",
            "0",
            "1",
            "64",
            "65",
            "255",
            "256",
            "65535",
            "65536",
            "400000001",
            "4294967294",
            "4294967295",
            "4294967296",
            "18446744073709551616",
            "-1",
            "1 2",
            "007",
        ];
        let kinds = [("register", 4), ("shares", 4), ("stress", 5), ("stress", 6)];
        for (kind, count) in kinds {
            for cell in cells {
                for place in 0..count {
                    let mut line = vec!["1"; count];
                    line[place] = cell;
                    self.make("one cell", kind, line.join(",").as_bytes());
                }
            }
            for lines in [64, 65, 4_097] {
                let line = vec!["1"; count].join(",") + "\n";
                self.make("many lines", kind, line.repeat(lines).as_bytes());
                let spoilt = line.repeat(lines) + "x\n";
                self.make("many lines, the last spoilt", kind, spoilt.as_bytes());
            }
        }
        for kind in ["register", "shares", "stress"] {
            for count in 0..=8 {
                let cells = vec!["1"; count].join(",");
                self.make("count of cells", kind, cells.as_bytes());
                self.make("blank cells", kind, ",".repeat(count).as_bytes());
            }
        }
    }

    fn argument_counts(&mut self) {
        let full: [(&str, Vec<OsString>); 4] = [
            ("run_drill", vec![self.file("good.sheet"), "22".into()]),
            (
                "run_sizing",
                vec![
                    self.file("stress.sheet"),
                    self.file("shares.sheet"),
                    "0".into(),
                    "0".into(),
                ],
            ),
            ("review", vec!["101".into(), "125".into()]),
            ("make_sheet", vec!["register".into()]),
        ];
        for (program, arguments) in full {
            for count in 0..arguments.len() + 3 {
                let extra = std::iter::repeat(OsString::from("1"));
                let some = arguments.iter().cloned().chain(extra).take(count);
                self.push("count of arguments", program, some.collect(), b"close\n");
            }
        }
        for kind in ["", "Register", "registers", "stress ", "-"] {
            self.make("unknown kind", kind, b"1,2,3,4\n");
        }
    }

    fn argument_numbers(&mut self) {
        for number in NUMBERS {
            let n = OsString::from(number);
            let zero = OsString::from("0");
            let good = self.file("good.sheet");
            let stdin = b"register\npage\n";
            self.push("G", "run_drill", vec![good, n.clone()], stdin);
            for pair in [[n.clone(), zero.clone()], [zero, n]] {
                let sheets = [self.file("stress.sheet"), self.file("shares.sheet")];
                let all = sheets.into_iter().chain(pair.clone()).collect();
                self.push("P and V", "run_sizing", all, &[]);
                self.push("C and A", "review", pair.to_vec(), &[]);
            }
        }
    }

    /// Files that are missing, a directory, empty, strangely named or far too long.
    fn files(&mut self) -> io::Result<()> {
        fs::create_dir(self.runner.path("directory"))?;
        self.runner.write("empty", &[])?;
        self.runner.write("a b #1.sheet", &example_register())?;
        self.runner.write("overlong", &[1; 65_537])?;
        File::create(self.runner.path("huge"))?.set_len(64 << 20)?;
        let names = [
            "missing",
            "missing/sheet",
            "directory",
            "empty",
            "a b #1.sheet",
            "good.sheet/",
            "overlong",
            "huge",
        ];
        let (zero, stress) = (OsString::from("0"), self.file("stress.sheet"));
        let shares = self.file("shares.sheet");
        for name in names {
            let file = self.file(name);
            let stdin = b"close\nregister\nrange 1 5 6\ndefault 1 5\npage\n";
            self.push(name, "run_drill", vec![file.clone(), zero.clone()], stdin);
            for sheets in [[&file, &shares], [&stress, &file], [&file, &file]] {
                let all = sheets.into_iter().chain([&zero, &zero]).cloned();
                self.push(name, "run_sizing", all.collect(), &[]);
            }
        }
        self.push("no name", "run_drill", vec!["".into(), zero], b"close\n");
        Ok(())
    }

    /// Reviews at the limits and about the place where 100C is 80A.
    fn reviews(&mut self) {
        let mut pairs = vec![
            (0, 0),
            (1, 0),
            (0, 1),
            (100, 125),
            (101, 125),
            (u64::MAX, u64::MAX),
            (u64::MAX, 0),
            (0, u64::MAX),
        ];
        for _ in 0..100 {
            let a = self.rng.next() >> self.rng.below(64);
            let c = (a as u128 * 4 / 5) as u64;
            pairs.push((c.saturating_add(self.rng.below(3)), a));
            pairs.push((c.saturating_sub(self.rng.below(2)), a));
        }
        for (c, a) in pairs {
            let arguments = vec![c.to_string().into(), a.to_string().into()];
            self.push("review", "review", arguments, &[]);
        }
    }
}
