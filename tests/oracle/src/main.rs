//! Another implementation of the default fund's rules, to set the engine against.
//!
//! It behaves as the four console programs do, compares them with itself on random and on
//! damaged input, and repeats its own calls for the benchmarks.

mod bench;
mod bench_files;
mod child;
mod compare;
mod coverage;
mod damaged;
mod engine;
mod generate;
mod ledger;
mod rng;
mod text;

use std::collections::HashMap;
use std::ffi::OsString;
use std::io::{self, Write};
use std::path::{Path, PathBuf};
use std::process::ExitCode;

const USAGE: &str = "usage: oracle run_drill REGISTER G
       oracle run_sizing STRESS SHARES P V
       oracle review C A
       oracle make_sheet KIND
       oracle compare --bin DIR --seed S --drills N --sizings M --pairs P [--jobs J] [--only K]
       oracle damaged --bin DIR --seed S
       oracle bench CASE REPS [STRESS SHARES]
       oracle bench-sheets DIR
       oracle bench-drill DIR";

fn main() -> ExitCode {
    let arguments: Vec<OsString> = std::env::args_os().collect();
    // Under the name of one of the programs (a link, say) it is that program.
    let start = if called_as_program(&arguments) { 0 } else { 1 };
    let Some((command, arguments)) = arguments.get(start..).and_then(|a| a.split_first()) else {
        eprintln!("{USAGE}");
        return ExitCode::from(2);
    };
    let name = Path::new(command).file_name().unwrap_or_default();
    let done = match name.to_string_lossy().as_ref() {
        "compare" => run_compare(arguments),
        "damaged" => run_damaged(arguments),
        "bench" => run_bench(arguments),
        "bench-sheets" => write_files(arguments, bench_files::write_sheets),
        "bench-drill" => write_files(arguments, bench_files::write_drill),
        name if text::PROGRAMS.contains(&name) => run_program(name, arguments),
        _ => Ok(None),
    };
    match done {
        Ok(Some(code)) => code,
        Ok(None) => {
            eprintln!("{USAGE}");
            ExitCode::from(2)
        }
        Err(error) => {
            eprintln!("oracle: {error}");
            ExitCode::from(2)
        }
    }
}

fn called_as_program(arguments: &[OsString]) -> bool {
    let name = arguments
        .first()
        .and_then(|path| Path::new(path).file_name());
    name.is_some_and(|name| text::PROGRAMS.iter().any(|program| name == *program))
}

/// No code at all means that the arguments cannot be used.
type Done = io::Result<Option<ExitCode>>;

fn run_program(name: &str, arguments: &[OsString]) -> Done {
    let mut input = io::stdin().lock();
    let mut out = io::stdout().lock();
    let mut err = io::stderr().lock();
    let ending = text::program(name, arguments, &mut input, &mut out, &mut err)?;
    out.flush()?;
    Ok(Some(match ending {
        text::Ending::Done => ExitCode::SUCCESS,
        text::Ending::Usage => ExitCode::from(2),
        _ => ExitCode::FAILURE,
    }))
}

fn judged(good: bool) -> Done {
    Ok(Some(if good {
        ExitCode::SUCCESS
    } else {
        ExitCode::FAILURE
    }))
}

fn run_compare(arguments: &[OsString]) -> Done {
    match compare_options(arguments) {
        Some(options) => judged(compare::compare(&options)?),
        None => Ok(None),
    }
}

fn compare_options(arguments: &[OsString]) -> Option<compare::Options> {
    let mut flags = Flags::read(arguments)?;
    let options = compare::Options {
        bin: flags.path("--bin")?,
        seed: flags.number("--seed", None)?,
        drills: flags.number("--drills", None)?,
        sizings: flags.number("--sizings", None)?,
        pairs: flags.number("--pairs", None)?,
        jobs: flags.number("--jobs", Some(2))?.max(1),
        only: Some(flags.number("--only", Some(0))?).filter(|&number| number > 0),
    };
    flags.done().then_some(options)
}

fn run_damaged(arguments: &[OsString]) -> Done {
    match damaged_options(arguments) {
        Some((bin, seed)) => judged(damaged::damaged(&bin, seed)?),
        None => Ok(None),
    }
}

fn damaged_options(arguments: &[OsString]) -> Option<(PathBuf, u64)> {
    let mut flags = Flags::read(arguments)?;
    let options = (flags.path("--bin")?, flags.number("--seed", None)?);
    flags.done().then_some(options)
}

fn run_bench(arguments: &[OsString]) -> Done {
    let [case, repetitions, files @ ..] = arguments else {
        return Ok(None);
    };
    let Some(repetitions) = text::number(repetitions.as_encoded_bytes()) else {
        return Ok(None);
    };
    let Some(checksum) = bench::bench(&case.to_string_lossy(), repetitions, files)? else {
        eprintln!("the cases are {}", bench::CASES);
        return Ok(None);
    };
    println!("{checksum}");
    judged(true)
}

fn write_files(arguments: &[OsString], write: fn(&Path) -> io::Result<()>) -> Done {
    let [dir] = arguments else { return Ok(None) };
    write(Path::new(dir))?;
    judged(true)
}

/// Flags with one value each.
struct Flags(HashMap<String, OsString>);

impl Flags {
    fn read(arguments: &[OsString]) -> Option<Flags> {
        let mut flags = HashMap::new();
        for pair in arguments.chunks(2) {
            let [name, value] = pair else { return None };
            flags.insert(name.to_str()?.to_owned(), value.clone());
        }
        Some(Flags(flags))
    }

    fn number(&mut self, name: &str, otherwise: Option<u64>) -> Option<u64> {
        match self.0.remove(name) {
            Some(value) => text::number(value.as_encoded_bytes()),
            None => otherwise,
        }
    }

    /// A path, made absolute so that programs are not looked for elsewhere.
    fn path(&mut self, name: &str) -> Option<PathBuf> {
        std::path::absolute(self.0.remove(name)?).ok()
    }

    /// Whether every flag given has been asked for.
    fn done(self) -> bool {
        self.0.is_empty()
    }
}
