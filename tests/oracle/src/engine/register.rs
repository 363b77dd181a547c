//! The register: opening, payment, replenishment and close.

use super::sheet::{check_whole, MemberSheet};
use super::waterfall::DefaultAnswer;
use super::{Places, Refusal, LEAST_CONTRIBUTION, MAX_SUM, MEMBERS, MEMBER_SHEET_BYTES};

/// A drill call is one of four, each with its own figures.
#[derive(Clone, Debug, PartialEq, Eq)]
pub enum Call {
    /// The pools' losses, and their ranks one pool after another, 64 of each.
    Default {
        member: u64,
        losses: Vec<u64>,
        ranks: Vec<u8>,
    },
    Payment {
        member: u64,
        amount: u64,
    },
    Replenishment {
        member: u64,
        amount: u64,
    },
    Close,
}

/// The register of a drill, by member place. Every amount is at most 400,000,000.
#[derive(Clone, Debug, PartialEq, Eq)]
pub struct Register {
    pub present: u64,
    pub live: u64,
    pub tranche1: u64,
    pub tranche2: u64,
    pub margin: [u32; MEMBERS],
    pub contribution: [u32; MEMBERS],
    pub requirement: [u32; MEMBERS],
    pub cap: [u32; MEMBERS],
    pub outstanding: [u32; MEMBERS],
    pub called: [u32; MEMBERS],
}

impl Register {
    /// What a refused opening hands back: no members and both tranches 0.
    pub fn empty() -> Self {
        Register {
            present: 0,
            live: 0,
            tranche1: 0,
            tranche2: 0,
            margin: [0; MEMBERS],
            contribution: [0; MEMBERS],
            requirement: [0; MEMBERS],
            cap: [0; MEMBERS],
            outstanding: [0; MEMBERS],
            called: [0; MEMBERS],
        }
    }

    /// Opens a register sheet with own contribution `own`.
    pub fn open(sheet: &[u8], own: u64) -> Result<Self, Refusal> {
        check_whole(sheet, MEMBER_SHEET_BYTES)?;
        if own > MAX_SUM {
            return Err(Refusal::plain(2));
        }
        let sheet = MemberSheet::read(sheet, LEAST_CONTRIBUTION)?;
        let [margin, contribution, cap] = sheet.columns;
        let tranche1 = 60 * own / 100;
        Ok(Register {
            present: sheet.present,
            live: sheet.present,
            tranche1,
            tranche2: own - tranche1,
            margin,
            contribution,
            requirement: contribution,
            cap,
            ..Register::empty()
        })
    }

    /// Makes one drill call; only a default has an answer beyond its acceptance.
    pub fn make(&mut self, call: &Call, slip: &mut [u64]) -> Result<Option<DefaultAnswer>, u8> {
        match call {
            Call::Default {
                member,
                losses,
                ranks,
            } => return self.default(*member, losses, ranks, slip).map(Some),
            Call::Payment { member, amount } => self.payment(*member, *amount)?,
            Call::Replenishment { member, amount } => self.replenishment(*member, *amount)?,
            Call::Close => self.close()?,
        }
        Ok(None)
    }

    /// The place of a live member, or refusals 11 and 12.
    #[inline]
    pub fn live_place(&self, member: u64) -> Result<usize, u8> {
        let place = member.wrapping_sub(1);
        if place >= MEMBERS as u64 || self.present >> place & 1 == 0 {
            return Err(11);
        }
        if self.live >> place & 1 == 0 {
            return Err(12);
        }
        Ok(place as usize)
    }

    /// Lowers the outstanding call; what was called since the last close stays.
    pub fn payment(&mut self, member: u64, amount: u64) -> Result<(), u8> {
        let place = self.live_place(member)?;
        if amount == 0 || amount > self.outstanding[place] as u64 {
            return Err(16);
        }
        self.outstanding[place] -= amount as u32;
        Ok(())
    }

    pub fn replenishment(&mut self, member: u64, amount: u64) -> Result<(), u8> {
        let place = self.live_place(member)?;
        let room = self.requirement[place] - self.contribution[place];
        if amount == 0 || amount > room as u64 {
            return Err(17);
        }
        self.contribution[place] += amount as u32;
        Ok(())
    }

    pub fn close(&mut self) -> Result<(), u8> {
        if self.outstanding.iter().any(|&o| o > 0) {
            return Err(18);
        }
        self.called = [0; MEMBERS];
        Ok(())
    }

    /// The sum of a column over some member places.
    #[inline]
    pub fn sum(who: Places, column: &[u32; MEMBERS]) -> u64 {
        who.map(|place| column[place] as u64).sum()
    }
}
