//! Sheets of 16-byte records: what is common, and the register and shares sheets.

use super::{Refusal, MAX_AMOUNT, MEMBERS, MISSING};

pub const RECORD: usize = 16;
pub const MEMBER_SHEET_BYTES: usize = 64 * RECORD;
pub const STRESS_SHEET_BYTES: usize = 4_096 * RECORD;

/// Refusal 1: empty, overlong or not whole records.
pub fn check_whole(sheet: &[u8], most: usize) -> Result<(), Refusal> {
    if sheet.is_empty() || sheet.len() > most || !sheet.len().is_multiple_of(RECORD) {
        return Err(Refusal::plain(1));
    }
    Ok(())
}

/// Goes over the records of a whole sheet and names the place of the first one refused.
#[inline]
pub fn each_record(
    sheet: &[u8],
    mut take: impl FnMut(&[u8; RECORD]) -> Result<(), u8>,
) -> Result<(), Refusal> {
    for (at, record) in sheet.chunks_exact(RECORD).enumerate() {
        let record = record.try_into().expect("a chunk is one record");
        take(record).map_err(|number| Refusal {
            number,
            record: at + 1,
        })?;
    }
    Ok(())
}

/// Refusals 5 and 6 for one amount.
#[inline]
pub fn check_amounts(amounts: &[u32]) -> Result<(), u8> {
    if amounts.contains(&MISSING) {
        return Err(5);
    }
    if amounts.iter().any(|&a| a > MAX_AMOUNT) {
        return Err(6);
    }
    Ok(())
}

/// A register or shares sheet once read: three columns by member place.
pub struct MemberSheet {
    pub present: u64,
    pub columns: [[u32; MEMBERS]; 3],
}

impl MemberSheet {
    /// Reads a whole sheet whose second column must be `least` or more.
    pub fn read(sheet: &[u8], least: u32) -> Result<Self, Refusal> {
        let mut read = MemberSheet {
            present: 0,
            columns: [[0; MEMBERS]; 3],
        };
        let mut last = 0;
        each_record(sheet, |record| {
            let member = record[0];
            if member == 0 || member as usize > MEMBERS || record[1..4] != [0; 3] {
                return Err(4);
            }
            let amounts = [amount(record, 4), amount(record, 8), amount(record, 12)];
            check_amounts(&amounts)?;
            if amounts[1] < least {
                return Err(6);
            }
            if member <= last {
                return Err(7);
            }
            last = member;
            read.enter(member as usize - 1, amounts);
            Ok(())
        })?;
        Ok(read)
    }

    fn enter(&mut self, place: usize, amounts: [u32; 3]) {
        self.present |= 1 << place;
        for (column, amount) in self.columns.iter_mut().zip(amounts) {
            column[place] = amount;
        }
    }
}

fn amount(record: &[u8; RECORD], at: usize) -> u32 {
    u32::from_le_bytes([record[at], record[at + 1], record[at + 2], record[at + 3]])
}
