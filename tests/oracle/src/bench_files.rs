//! The files that the benchmarks read.

use crate::engine::{MEMBERS, MEMBER_SHEET_BYTES};
use crate::generate::{grouped_record, member_record};
use crate::rng::Rng;
use std::fmt::Write;
use std::fs;
use std::io;
use std::path::Path;

/// Our own contribution in the register of the defaults and of the drill.
pub const OWN: u64 = 1_000_003;

const BLOCKS: u64 = 64;
const DRILL_CALLS: u64 = 100_000;

/// A register sheet of all 64 members with odd amounts.
pub fn register_sheet() -> Vec<u8> {
    let mut sheet = Vec::with_capacity(MEMBER_SHEET_BYTES);
    for member in 1..=64u8 {
        let odd = member as u32 * 37;
        let amounts = [50_000 + odd, 1_000_000 + 7 * odd, 500_000 + 11 * odd];
        sheet.extend(member_record(member, amounts));
    }
    sheet
}

/// `stress-sizing-4096` and its first quarter and half, the same losses with the members in groups, and `shares`.
pub fn write_sheets(dir: &Path) -> io::Result<()> {
    let mut rng = Rng::new(1);
    let losses: Vec<u32> = (0..64 * BLOCKS)
        .map(|_| rng.below(30_000_000) as u32)
        .collect();
    let write = |case: &str, width: usize, group: fn(u8) -> u8| -> io::Result<()> {
        let stress = stress_sheet(&losses, width, group);
        for parts in [4, 2, 1] {
            let part = &stress[..stress.len() / parts];
            fs::write(dir.join(format!("stress-{case}-{}", part.len() / 16)), part)?;
        }
        Ok(())
    };
    write("sizing", 64, |_| 0)?;
    write("one_group", 64, |_| 1)?;
    write("pairs", 64, |member| member.div_ceil(2))?;
    write("single", 1, |_| 1)?;
    fs::write(dir.join("shares"), shares_sheet(&mut rng))
}

/// These losses, so many members to a block, with the group of each member.
fn stress_sheet(losses: &[u32], width: usize, group: fn(u8) -> u8) -> Vec<u8> {
    let mut sheet = Vec::new();
    for (block, losses) in losses.chunks(width).enumerate() {
        for (member, &loss) in (1u8..).zip(losses) {
            let group = group(member);
            sheet.extend(grouped_record(
                block as u64,
                member,
                member % 13 == 0,
                group,
                loss,
            ));
        }
    }
    sheet
}

fn shares_sheet(rng: &mut Rng) -> Vec<u8> {
    let mut sheet = Vec::new();
    for member in 1..=64 {
        let amounts = [(); 3].map(|()| rng.range(1, 1_000_000) as u32);
        sheet.extend(member_record(member, amounts));
    }
    sheet
}

/// `register` and `calls`, which run_drill reads with our own contribution.
pub fn write_drill(dir: &Path) -> io::Result<()> {
    fs::write(dir.join("register"), register_sheet())?;
    fs::write(dir.join("calls"), drill_lines())
}

/// A drill of 100,000 calls: payments, replenishments and closes about 63 defaults.
fn drill_lines() -> String {
    let mut rng = Rng::new(2);
    let mut lines = String::new();
    for at in 0..DRILL_CALLS {
        let member = rng.range(1, 64);
        let amount = rng.range(1, 5_000);
        let line = match at % 16 {
            0 if at % 1_600 == 0 => default_line(at / 1_600 + 1, &mut rng),
            0 => "close".to_owned(),
            1..=7 => format!("payment {member} {amount}"),
            _ => format!("replenishment {member} {amount}"),
        };
        lines.push_str(&line);
        lines.push('\n');
    }
    lines
}

fn default_line(member: u64, rng: &mut Rng) -> String {
    let mut line = format!("default {member} {}", rng.range(1_000_000, 5_000_000));
    for other in 1..=MEMBERS {
        write!(line, " {other}:{}", rng.range(1, 20)).expect("a string takes all");
    }
    line
}
