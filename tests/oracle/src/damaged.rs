//! Damaged input: the programs must say what is wrong, alter nothing, and neither crash nor hang.

mod talk;
mod trials;

use crate::child::{Runner, TempDir};
use crate::compare::difference;
use crate::ledger;
use crate::text::{program, Ending};
use std::ffi::OsString;
use std::io;
use std::path::Path;

/// One run of a program: its files, arguments and standard input.
pub struct Trial {
    name: String,
    program: &'static str,
    files: Vec<(&'static str, Vec<u8>)>,
    arguments: Vec<OsString>,
    stdin: Vec<u8>,
}

/// Runs every trial; false at the first that goes wrong.
pub fn damaged(bin: &Path, seed: u64) -> io::Result<bool> {
    println!("seed {seed}");
    let temp = TempDir::new()?;
    let runner = Runner::new(bin, &temp, "0")?;
    let trials = trials::all(&runner, seed)?;
    for (at, trial) in trials.iter().enumerate() {
        if let Some(fault) = attempt(trial, &runner)? {
            println!("trial {}: {}", at + 1, trial.name);
            println!("{} {:?}", trial.program, trial.arguments);
            println!("stdin: {}", trial.stdin.escape_ascii());
            println!("{fault}");
            return Ok(false);
        }
    }
    if let Err(fault) = talk::line_by_line(&runner)? {
        println!("line by line: {fault}");
        return Ok(false);
    }
    println!("damaged: {} runs, no difference", trials.len() + 1);
    Ok(true)
}

/// What went wrong, if anything did.
fn attempt(trial: &Trial, runner: &Runner) -> io::Result<Option<String>> {
    for (name, bytes) in &trial.files {
        runner.write(name, bytes)?;
    }
    let mut expected = Vec::new();
    let ending = program(
        trial.program,
        &trial.arguments,
        &mut &trial.stdin[..],
        &mut expected,
        &mut io::sink(),
    )?;
    let ran = runner.run(trial.program, &trial.arguments, &trial.stdin)?;
    if let Some(fault) = ran.fault {
        return Ok(Some(format!("the program {fault}")));
    }
    if ran.stdout != expected {
        return Ok(Some(difference(&expected, &ran.stdout)));
    }
    let stderr = String::from_utf8_lossy(&ran.stderr).into_owned();
    if !said(&ending, &stderr) {
        return Ok(Some(format!("{ending:?}, but stderr is {stderr:?}")));
    }
    if trial.program == "run_drill" {
        return Ok(ledger::unaltered(&String::from_utf8_lossy(&ran.stdout)).err());
    }
    Ok(None)
}

/// Whether standard error says what the ending asks for.
fn said(ending: &Ending, stderr: &str) -> bool {
    match ending {
        Ending::Done => true,
        Ending::Usage => stderr.lines().count() == 1 && !stderr.trim().is_empty(),
        Ending::File(name) => stderr.contains(&*name.to_string_lossy()),
        Ending::Line(line) => stderr
            .split(|c: char| !c.is_ascii_digit())
            .any(|word| word == line.to_string()),
    }
}
