//! The drill held line by line through pipes: each answer comes before the next line is sent.

use super::trials::GOOD_CALLS;
use crate::child::{start, wait_until, Runner, DEADLINE};
use crate::compare::difference;
use crate::generate::example_register;
use crate::text::{Console, Line, Lines};
use std::io::{self, Read, Write};
use std::process::{ChildStdin, Stdio};
use std::sync::mpsc::{channel, Receiver};
use std::time::{Duration, Instant};

/// Sends good and unreadable lines, some in two pieces, and waits for every answer.
pub fn line_by_line(runner: &Runner) -> io::Result<Result<(), String>> {
    let sheet = example_register();
    let register = runner.write("talk.sheet", &sheet)?;
    let arguments = [register.into(), "22000".into()];
    let mut command = runner.command("run_drill", &arguments)?;
    let mut child = start(command.stdin(Stdio::piped()))?;
    let mut stdin = child.stdin.take().expect("standard input is piped");
    let pieces = listen(child.stdout.take().expect("standard output is piped"));

    let talked = talk(&sheet, &mut stdin, &pieces);
    drop(stdin);
    let ended = wait_until(&mut child, Instant::now() + DEADLINE)?;
    Ok(match (talked?, ended) {
        (Ok(()), None) => Err("does not end when its input ends".into()),
        (talked, _) => talked,
    })
}

/// Passes on what a program prints as it comes.
fn listen(mut pipe: impl Read + Send + 'static) -> Receiver<Vec<u8>> {
    let (send, receive) = channel();
    std::thread::spawn(move || {
        let mut piece = [0; 4096];
        while let Ok(length @ 1..) = pipe.read(&mut piece) {
            if send.send(piece[..length].to_vec()).is_err() {
                break;
            }
        }
    });
    receive
}

fn talk(
    sheet: &[u8],
    stdin: &mut ChildStdin,
    pieces: &Receiver<Vec<u8>>,
) -> io::Result<Result<(), String>> {
    let mut expected = Vec::new();
    let mut console = Console::open(sheet, 22_000, &mut expected)?;
    if let Err(fault) = hear(&expected, pieces) {
        return Ok(Err(format!("opening: {fault}")));
    }
    let mut lines = Lines::new(GOOD_CALLS.as_bytes());
    while let Some((at, line)) = lines.next()? {
        let Line::Text(text) = line else {
            continue;
        };
        expected.clear();
        console.answer(at, line, &mut expected)?;
        let (first, second) = text.split_at(text.len() / 2);
        stdin.write_all(first)?;
        stdin.flush()?;
        std::thread::sleep(Duration::from_millis(2));
        stdin.write_all(second)?;
        stdin.write_all(b"\n")?;
        stdin.flush()?;
        if let Err(fault) = hear(&expected, pieces) {
            return Ok(Err(format!("line {at}: {fault}")));
        }
    }
    Ok(Ok(()))
}

/// Waits until exactly this much has been printed.
fn hear(expected: &[u8], pieces: &Receiver<Vec<u8>>) -> Result<(), String> {
    let mut got = Vec::new();
    while got.len() < expected.len() {
        match pieces.recv_timeout(DEADLINE) {
            Ok(piece) => got.extend(piece),
            Err(_) => {
                let got = got.escape_ascii();
                return Err(format!("no whole answer before the next line: {got}"));
            }
        }
    }
    if got == expected {
        return Ok(());
    }
    Err(difference(expected, &got))
}
