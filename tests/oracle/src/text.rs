//! The four console programs: text and files in, text out.

mod drill;
mod lines;
mod make_sheet;

use crate::engine::{
    review, size, Refusal, MEMBERS, MEMBER_SHEET_BYTES, RECORD, STRESS_SHEET_BYTES,
};
pub use drill::{read_line, run_drill, Console, Reading};
pub use lines::{number, Line, Lines, LONGEST_LINE};
pub use make_sheet::{make_sheet, Kind};
use std::ffi::{OsStr, OsString};
use std::fs::File;
use std::io::{self, BufRead, Read, Write};

/// The names of the programs.
pub const PROGRAMS: [&str; 4] = ["run_drill", "run_sizing", "review", "make_sheet"];

/// How a program ended: well, or with a word on standard error.
#[derive(Clone, Debug, PartialEq, Eq)]
pub enum Ending {
    Done,
    Usage,
    File(OsString),
    Line(u64),
}

/// Why a program could not do its work.
enum Failure {
    Usage(&'static str),
    File(OsString, io::Error),
    Line(u64),
    Stream(io::Error),
}

impl From<io::Error> for Failure {
    fn from(error: io::Error) -> Self {
        Failure::Stream(error)
    }
}

/// Runs one of the programs on its arguments and streams.
pub fn program(
    name: &str,
    arguments: &[OsString],
    input: &mut dyn BufRead,
    out: &mut dyn Write,
    err: &mut dyn Write,
) -> io::Result<Ending> {
    let done = match name {
        "run_drill" => drill_program(arguments, input, out),
        "run_sizing" => sizing_program(arguments, out),
        "review" => review_program(arguments, out),
        _ => make_sheet_program(arguments, input, out),
    };
    let ending = match done {
        Ok(()) => Ending::Done,
        Err(Failure::Usage(usage)) => {
            writeln!(err, "usage: {usage}")?;
            Ending::Usage
        }
        Err(Failure::File(file, why)) => {
            writeln!(err, "{}: {why}", file.to_string_lossy())?;
            Ending::File(file)
        }
        Err(Failure::Line(line)) => {
            writeln!(err, "line {line} cannot be used")?;
            Ending::Line(line)
        }
        Err(Failure::Stream(error)) => return Err(error),
    };
    Ok(ending)
}

fn drill_program(
    arguments: &[OsString],
    input: &mut dyn BufRead,
    out: &mut dyn Write,
) -> Result<(), Failure> {
    let usage = Failure::Usage("run_drill REGISTER G");
    let [register, own] = arguments else {
        return Err(usage);
    };
    let own = argument(own).ok_or(usage)?;
    let sheet = read_sheet(register, MEMBER_SHEET_BYTES)?;
    Ok(run_drill(&sheet, own, input, out)?)
}

fn sizing_program(arguments: &[OsString], out: &mut dyn Write) -> Result<(), Failure> {
    let usage = || Failure::Usage("run_sizing STRESS SHARES P V");
    let [stress, shares, prevailing, available] = arguments else {
        return Err(usage());
    };
    let prevailing = argument(prevailing).ok_or_else(usage)?;
    let available = argument(available).ok_or_else(usage)?;
    let stress = read_sheet(stress, STRESS_SHEET_BYTES)?;
    let shares = read_sheet(shares, MEMBER_SHEET_BYTES)?;
    Ok(out.write_all(&run_sizing(&stress, &shares, prevailing, available))?)
}

fn review_program(arguments: &[OsString], out: &mut dyn Write) -> Result<(), Failure> {
    let usage = || Failure::Usage("review C A");
    let [c, a] = arguments else {
        return Err(usage());
    };
    let c = argument(c).ok_or_else(usage)?;
    let a = argument(a).ok_or_else(usage)?;
    let answer = if review(c, a) { "review" } else { "no review" };
    Ok(writeln!(out, "{answer}")?)
}

fn make_sheet_program(
    arguments: &[OsString],
    input: &mut dyn BufRead,
    out: &mut dyn Write,
) -> Result<(), Failure> {
    let usage = Failure::Usage("make_sheet register|shares|stress");
    let [kind] = arguments else {
        return Err(usage);
    };
    let kind = Kind::named(kind.as_encoded_bytes()).ok_or(usage)?;
    let sheet = make_sheet(kind, input)?.map_err(Failure::Line)?;
    Ok(out.write_all(&sheet)?)
}

/// Sizes the fund from two sheets and gives the printed answer.
pub fn run_sizing(stress: &[u8], shares: &[u8], prevailing: u64, available: u64) -> Vec<u8> {
    let mut slip = [0; MEMBERS];
    let s = match size(stress, shares, prevailing, available, &mut slip) {
        Ok(sizing) => sizing,
        Err(refusal) => return format!("{}\n", refused(refusal)).into_bytes(),
    };
    let mut text = format!(
        "accepted C {} W {} A {} B {} b1 {} own {} D {}\n",
        s.c, s.w, s.a, s.b, s.b1, s.own, s.d
    );
    for record in shares.chunks_exact(RECORD) {
        let requirement = slip[record[0] as usize - 1];
        text += &format!("  member {} requirement {requirement}\n", record[0]);
    }
    text.into_bytes()
}

/// The text of a refused opening or sizing.
fn refused(refusal: Refusal) -> String {
    match refusal.number {
        4..=8 => format!("refused {} record {}", refusal.number, refusal.record),
        number => format!("refused {number}"),
    }
}

fn argument(argument: &OsStr) -> Option<u64> {
    number(argument.as_encoded_bytes())
}

/// Reads a sheet file; of an overlong one just enough to see that it is.
fn read_sheet(name: &OsStr, most: usize) -> Result<Vec<u8>, Failure> {
    let failure = |error| Failure::File(name.to_owned(), error);
    let file = File::open(name).map_err(failure)?;
    let mut sheet = Vec::new();
    file.take(most as u64 + 1)
        .read_to_end(&mut sheet)
        .map_err(failure)?;
    Ok(sheet)
}
