//! Random drills, pairs of them and sizings: the programs under test against the rules written here.

use crate::child::{Ran, Runner, TempDir};
use crate::coverage::Coverage;
use crate::engine::RECORD;
use crate::generate::{drill, raised, sizing, DrillCase, RaisedCase, SizingCase};
use crate::ledger::{self, Tally};
use crate::rng::Rng;
use crate::text::run_sizing;
use std::ffi::OsString;
use std::io;
use std::path::{Path, PathBuf};
use std::sync::atomic::{AtomicBool, AtomicU64, Ordering};
use std::sync::Mutex;

/// A run of at least so many drills, sizings or pairs is to reach all that coverage lists for them.
const MANY: u64 = 1_000;

pub struct Options {
    pub bin: PathBuf,
    pub seed: u64,
    pub drills: u64,
    pub sizings: u64,
    pub pairs: u64,
    pub jobs: u64,
    pub only: Option<u64>,
}

/// A case: numbers 1 to `drills` are drills, those after them sizings, and then pairs of drills whose
/// last default has a smaller and a larger loss.
enum Case {
    Drill(DrillCase),
    Sizing(SizingCase),
    Pair(RaisedCase, [DrillCase; 2]),
}

impl Case {
    fn make(options: &Options, number: u64) -> Self {
        let seed = Rng::case_seed(options.seed, number);
        if number <= options.drills {
            Case::Drill(drill(seed))
        } else if number - options.drills <= options.sizings {
            Case::Sizing(sizing(seed))
        } else {
            let case = raised(seed);
            let drills = case.drills();
            Case::Pair(case, drills)
        }
    }

    /// What each of its runs is to print.
    fn expected(&self) -> Vec<Vec<u8>> {
        match self {
            Case::Drill(case) => vec![case.expected()],
            Case::Sizing(case) => {
                let (stress, shares) = (&case.stress, &case.shares);
                vec![run_sizing(stress, shares, case.prevailing, case.available)]
            }
            Case::Pair(_, drills) => drills.iter().map(DrillCase::expected).collect(),
        }
    }

    fn run(&self, runner: &Runner) -> io::Result<Vec<Ran>> {
        let sheet = |name: &str, bytes: &[u8]| runner.write(name, bytes).map(OsString::from);
        let run_drill = |case: &DrillCase| {
            let register = sheet("register.sheet", &case.sheet)?;
            let arguments = [register, case.own.to_string().into()];
            runner.run("run_drill", &arguments, &case.calls)
        };
        match self {
            Case::Drill(case) => Ok(vec![run_drill(case)?]),
            Case::Sizing(case) => {
                let arguments = [
                    sheet("stress.sheet", &case.stress)?,
                    sheet("shares.sheet", &case.shares)?,
                    case.prevailing.to_string().into(),
                    case.available.to_string().into(),
                ];
                Ok(vec![runner.run("run_sizing", &arguments, &[])?])
            }
            Case::Pair(_, drills) => drills.iter().map(run_drill).collect(),
        }
    }

    /// What the expected answer of a drill or a sizing reached.
    fn reach(&self, expected: &[Vec<u8>], coverage: &mut Coverage) {
        if let Case::Pair(..) = self {
            return;
        }
        let expected = String::from_utf8_lossy(&expected[0]);
        coverage.add_output(&expected);
        if let Case::Sizing(case) = self {
            coverage.add_groups(case, &expected);
        }
    }

    /// Statement 3 and request 7 on each drill, both ends of one range on a pair of them, and request 6
    /// there, counted from what the program under test printed.
    fn count(&self, ran: &[Ran], coverage: &mut Coverage) -> Result<(), String> {
        match self {
            Case::Drill(case) => coverage.add_tally(count_drill(case, printed(&ran[0])?)?),
            Case::Sizing(_) => {}
            Case::Pair(case, drills) => {
                let texts = [printed(&ran[0])?, printed(&ran[1])?];
                for (drill, text) in drills.iter().zip(texts) {
                    count_drill(drill, text)?;
                }
                let tally = ledger::count_raised(case, texts);
                coverage.add_raised(tally.map_err(|why| format!("request 6: {why}"))?);
            }
        }
        Ok(())
    }

    /// How each of its runs is made.
    fn describe(&self) -> Vec<String> {
        match self {
            Case::Drill(case) => vec![describe_drill(case)],
            Case::Pair(_, drills) => drills.iter().map(describe_drill).collect(),
            Case::Sizing(case) => vec![format!(
                "run_sizing STRESS SHARES {} {}\nSTRESS:\n{}SHARES:\n{}",
                case.prevailing,
                case.available,
                hexadecimal(&case.stress),
                hexadecimal(&case.shares)
            )],
        }
    }
}

fn printed(ran: &Ran) -> Result<&str, String> {
    std::str::from_utf8(&ran.stdout).map_err(|e| e.to_string())
}

fn count_drill(case: &DrillCase, printed: &str) -> Result<Tally, String> {
    ledger::unaltered(printed)?;
    ledger::count(case, printed)
}

fn describe_drill(case: &DrillCase) -> String {
    format!(
        "run_drill REGISTER {}\nREGISTER:\n{}calls:\n{}\n",
        case.own,
        hexadecimal(&case.sheet),
        case.calls.escape_ascii().to_string().replace("\\n", "\n")
    )
}

fn hexadecimal(sheet: &[u8]) -> String {
    let mut text = String::new();
    for record in sheet.chunks(RECORD) {
        for byte in record {
            text += &format!("{byte:02x}");
        }
        text.push('\n');
    }
    text
}

/// What the workers share.
struct Run<'a> {
    options: &'a Options,
    next: AtomicU64,
    last: u64,
    stop: AtomicBool,
    fault: Mutex<Option<String>>,
    coverage: Mutex<Coverage>,
}

/// Runs the whole comparison; false where anything differed.
pub fn compare(options: &Options) -> io::Result<bool> {
    println!("seed {}", options.seed);
    let all = options.drills + options.sizings + options.pairs;
    let run = Run {
        options,
        next: AtomicU64::new(options.only.unwrap_or(1)),
        last: options.only.unwrap_or(all),
        stop: AtomicBool::new(false),
        fault: Mutex::new(None),
        coverage: Mutex::new(Coverage::default()),
    };
    let temp = TempDir::new()?;
    std::thread::scope(|scope| {
        let workers: Vec<_> = (0..options.jobs)
            .map(|job| {
                let (run, temp) = (&run, &temp);
                scope.spawn(move || work(run, &options.bin, temp, job))
            })
            .collect();
        workers
            .into_iter()
            .try_for_each(|worker| worker.join().expect("a worker runs to its end"))
    })?;
    if let Some(fault) = run.fault.into_inner().expect("no worker panicked") {
        print!("{fault}");
        return Ok(false);
    }
    let coverage = run.coverage.into_inner().expect("no worker panicked");
    coverage.print();
    let mut unreached = Vec::new();
    if options.only.is_none() && options.drills >= MANY {
        unreached.extend(coverage.unreached());
        unreached.extend(coverage.unreached_ranges());
    }
    if options.only.is_none() && options.sizings >= MANY {
        unreached.extend(coverage.unreached_groups());
    }
    if options.only.is_none() && options.pairs >= MANY {
        unreached.extend(coverage.unreached_raised());
    }
    if !unreached.is_empty() {
        println!("never reached: {}", unreached.join(", "));
        return Ok(false);
    }
    match options.only {
        Some(number) => println!("compared case {number}, no difference"),
        None => println!(
            "compared {} drills, {} sizings, {} pairs of drills, no difference",
            options.drills, options.sizings, options.pairs
        ),
    }
    Ok(true)
}

fn work(run: &Run, bin: &Path, temp: &TempDir, job: u64) -> io::Result<()> {
    let runner = Runner::new(bin, temp, &job.to_string())?;
    let mut coverage = Coverage::default();
    while !run.stop.load(Ordering::Relaxed) {
        let number = run.next.fetch_add(1, Ordering::Relaxed);
        if number > run.last {
            break;
        }
        let fault = try_case(run.options, number, &runner, &mut coverage);
        if !matches!(fault, Ok(None)) {
            run.stop.store(true, Ordering::Relaxed);
        }
        if let Some(fault) = fault? {
            let mut first = run.fault.lock().expect("no worker panicked");
            first.get_or_insert(fault);
        }
    }
    run.coverage
        .lock()
        .expect("no worker panicked")
        .merge(&coverage);
    Ok(())
}

/// Runs one case; a report where it differs, or what is counted does not hold.
fn try_case(
    options: &Options,
    number: u64,
    runner: &Runner,
    coverage: &mut Coverage,
) -> io::Result<Option<String>> {
    let case = Case::make(options, number);
    let expected = case.expected();
    case.reach(&expected, coverage);
    let ran = case.run(runner)?;
    let counted = case.count(&ran, coverage);
    let good = |ran: &Ran, expected: &Vec<u8>| ran.fault.is_none() && ran.stdout == *expected;
    if ran.iter().zip(&expected).all(|(r, e)| good(r, e)) && counted.is_ok() {
        return Ok(None);
    }
    let mut report = format!(
        "case {number} with seed {}\nagain: compare --seed {} --drills {} --sizings {} --pairs {} --only {number}\n",
        Rng::case_seed(options.seed, number),
        options.seed,
        options.drills,
        options.sizings,
        options.pairs
    );
    for ((made, expected), ran) in case.describe().iter().zip(&expected).zip(&ran) {
        report += made;
        report += &difference(expected, &ran.stdout);
        report += &format!("stderr:\n{}\n", ran.stderr.escape_ascii());
        if let Some(fault) = &ran.fault {
            report += &format!("the program {fault}\n");
        }
    }
    match counted {
        Ok(()) => report += "what is counted holds in what is printed\n",
        Err(why) => report += &format!("{why}\n"),
    }
    Ok(Some(report))
}

/// Expected and got in full, and the first line that differs.
pub fn difference(expected: &[u8], got: &[u8]) -> String {
    let (expected, got) = (lossy(expected), lossy(got));
    let mut text = format!("expected:\n{expected}got:\n{got}");
    let mut pairs = expected.lines().zip(got.lines()).enumerate();
    let first = pairs.find(|(_, (expected, got))| expected != got);
    if let Some((at, (expected, got))) = first {
        text += &format!(
            "first difference, line {}:\n  expected {expected}\n  got      {got}\n",
            at + 1
        );
    } else if expected == got {
        text += "no difference\n";
    } else {
        text += "one stops where the other goes on\n";
    }
    text
}

fn lossy(bytes: &[u8]) -> String {
    String::from_utf8_lossy(bytes).into_owned()
}

#[cfg(test)]
mod tests {
    use super::*;
    use crate::generate::example_register;

    /// Document 01's register, and its first default with two losses.
    fn pair() -> Case {
        let case = RaisedCase {
            sheet: example_register(),
            own: 22_000,
            calls: "register\n".into(),
            member: 1,
            ranks: "2:1 3:2 4:2".into(),
            losses: [90_000, 160_000],
        };
        let drills = case.drills();
        Case::Pair(case, drills)
    }

    /// What does not hold of the pair, once something is changed in what its drills printed.
    fn fault(changes: [&[[&str; 2]]; 2]) -> String {
        let case = pair();
        let mut ran = Vec::new();
        for (text, changes) in case.expected().into_iter().zip(changes) {
            let mut text = String::from_utf8(text).unwrap();
            for [from, to] in changes {
                assert!(text.contains(from), "{text}");
                text = text.replacen(from, to, 1);
            }
            ran.push(Ran {
                stdout: text.into(),
                stderr: Vec::new(),
                fault: None,
            });
        }
        let counted = case.count(&ran, &mut Coverage::default());
        counted.err().unwrap_or_default()
    }

    #[test]
    fn a_fault_says_of_what_it_is() {
        assert_eq!(fault([&[], &[]]), "");
        assert_eq!(
            fault([&[["tranche2 8800", "tranche2 8801"]], &[]]),
            "line 1: statement 3: tranche 2: 8800 is not 0 + 8801"
        );
        let moved: &[_] = &[
            ["charged 2266 to", "charged 2265 to"],
            ["charged 4534 to", "charged 4535 to"],
        ];
        assert_eq!(
            fault([moved, moved]),
            "line 3: request 7: with loss 90000 of 90000 to 160000 member 4's charge is 4534, below 4535"
        );
        assert_eq!(
            fault([&[["requirement 20000", "requirement 20001"]], &[]]),
            "request 6: the drills differ before their last default"
        );
    }
}
