//! Random drills, pairs of them and sizings. A case depends on its own seed alone.

mod damage;
mod drill;
mod sheets;
mod sizing;

pub use damage::{damage_member_sheet, damage_stress_sheet};
pub use drill::{drill, raised, NOISE};
#[cfg(test)]
pub use sheets::stress_record;
pub use sheets::{example_register, grouped_record, member_record};
pub use sizing::sizing;

use crate::text::run_drill;

/// A register sheet, own contribution and the drill's lines.
///
/// A `register` line follows every default and the last call, with nothing but pages between. Of the
/// ranges, which are no calls, many have a default of their member, ranks and a loss of theirs after
/// them, with at most pages and registers between.
pub struct DrillCase {
    pub sheet: Vec<u8>,
    pub own: u64,
    pub calls: Vec<u8>,
}

impl DrillCase {
    /// What is to be printed of it, by the rules written here.
    pub fn expected(&self) -> Vec<u8> {
        let mut out = Vec::new();
        run_drill(&self.sheet, self.own, &self.calls[..], &mut out).expect("memory takes all");
        out
    }
}

/// Two drills alike up to their last default, of one pool, which has a smaller and a larger loss.
///
/// The range of these losses stands before it in both, so that each default reaches one of its ends.
pub struct RaisedCase {
    pub sheet: Vec<u8>,
    pub own: u64,
    /// The calls before that range and default, a `register` line last.
    pub calls: Vec<u8>,
    pub member: u64,
    pub ranks: String,
    pub losses: [u64; 2],
}

impl RaisedCase {
    /// The drill with the smaller loss, and that with the larger.
    pub fn drills(&self) -> [DrillCase; 2] {
        let (member, [low, high], ranks) = (self.member, self.losses, &self.ranks);
        let range = format!("range {member} {low} {high} {ranks}\n");
        self.losses.map(|loss| {
            let default = format!("default {member} {loss} {ranks}\nregister\n");
            DrillCase {
                sheet: self.sheet.clone(),
                own: self.own,
                calls: [&self.calls, range.as_bytes(), default.as_bytes()].concat(),
            }
        })
    }
}

/// Two sheets, the prevailing minimum and own money available.
pub struct SizingCase {
    pub stress: Vec<u8>,
    pub shares: Vec<u8>,
    pub prevailing: u64,
    pub available: u64,
}
