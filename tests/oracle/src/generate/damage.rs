//! Damage to good sheets.

use crate::engine::{MISSING, RECORD};
use crate::rng::Rng;

const TOO_LARGE: [u32; 4] = [400_000_001, 0x7fff_ffff, 0x8000_0000, 0xffff_fffe];

/// Puts so many faults into a register or shares sheet, some into the same record.
pub fn damage_member_sheet(rng: &mut Rng, sheet: &mut Vec<u8>, faults: usize) {
    damage(rng, sheet, faults, 64, member_fault);
}

/// Puts so many faults into a stress sheet, some into the same record.
pub fn damage_stress_sheet(rng: &mut Rng, sheet: &mut Vec<u8>, faults: usize) {
    damage(rng, sheet, faults, 4_096, stress_fault);
}

fn damage(
    rng: &mut Rng,
    sheet: &mut Vec<u8>,
    faults: usize,
    most: usize,
    record_fault: fn(&mut Rng, &mut [u8]),
) {
    let mut at = any_record(rng, sheet);
    for _ in 0..faults {
        if rng.chance(40) {
            at = any_record(rng, sheet);
        }
        match sheet.get_mut(at..at + RECORD) {
            Some(record) if rng.chance(75) => record_fault(rng, record),
            Some(_) if rng.chance(50) => spoil_order(rng, sheet),
            _ => damage_length(rng, sheet, most),
        }
    }
}

fn member_fault(rng: &mut Rng, record: &mut [u8]) {
    let at = rng.pick(&[4, 8, 12]);
    match rng.below(6) {
        0 => record[0] = rng.pick(&[0, 65, 255]),
        1 => record[rng.range(1, 3) as usize] = rng.range(1, 255) as u8,
        2 => set_amount(record, at, MISSING),
        3 | 4 => set_amount(record, at, rng.pick(&TOO_LARGE)),
        // In a shares sheet this is a figure like any other.
        _ => set_amount(record, 8, rng.pick(&[0, 1, 9_999])),
    }
}

fn stress_fault(rng: &mut Rng, record: &mut [u8]) {
    match rng.below(8) {
        0 => set_half(record, 0, rng.pick(&[0, 185, 256, 65_535])),
        1 => set_half(record, 2, rng.pick(&[0, 65, 256, 65_535])),
        2 => record[4] = rng.pick(&[0, 65, 255]),
        3 => record[5] = rng.pick(&[2, 255]),
        4 => record[6] = rng.pick(&[65, 66, 128, 255]),
        5 => record[rng.pick(&[7, 12, 13, 14, 15])] = rng.range(1, 255) as u8,
        6 => set_amount(record, 8, MISSING),
        _ => set_amount(record, 8, rng.pick(&TOO_LARGE)),
    }
}

/// Empty, cut short, with stray bytes, or with one record too many.
fn damage_length(rng: &mut Rng, sheet: &mut Vec<u8>, most: usize) {
    match rng.below(4) {
        0 => sheet.clear(),
        1 => sheet.truncate(rng.below(sheet.len() as u64 + 1) as usize),
        2 => sheet.resize(sheet.len() + rng.range(1, 40) as usize, 0),
        _ => sheet.resize((most + 1) * RECORD, 1),
    }
}

/// Where one of the records starts.
fn any_record(rng: &mut Rng, sheet: &[u8]) -> usize {
    rng.below((sheet.len() / RECORD) as u64) as usize * RECORD
}

/// Swaps two records or doubles one.
fn spoil_order(rng: &mut Rng, sheet: &mut Vec<u8>) {
    let (from, to) = (any_record(rng, sheet), any_record(rng, sheet));
    let record = sheet[from..from + RECORD].to_vec();
    if rng.chance(50) && from != to {
        sheet.copy_within(to..to + RECORD, from);
        sheet[to..to + RECORD].copy_from_slice(&record);
    } else {
        sheet.splice(from..from, record);
    }
}

fn set_half(record: &mut [u8], at: usize, value: u16) {
    record[at..at + 2].copy_from_slice(&value.to_le_bytes());
}

fn set_amount(record: &mut [u8], at: usize, value: u32) {
    record[at..at + 4].copy_from_slice(&value.to_le_bytes());
}
