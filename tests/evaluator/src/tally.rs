//! The day tally of document 01, "Day tally and `report`".

use crate::record::Record;
use crate::refusal::Refusal;

/// "A tally for one rule has cycles, activations, fulfilled, violated (32 bits
/// each)."
#[derive(Debug, Clone, Copy, PartialEq, Eq, Default)]
pub struct Tally {
    pub cycles: u32,
    pub activations: u32,
    pub fulfilled: u32,
    pub violated: u32,
}

/// "Absorbing a closed run alters the caller's tally in place: cycles by 1, the
/// others by that rule's totals." A refusal leaves the tally as it was.
pub fn absorb(record: &Record, rule: u64, tally: &mut Tally) -> Result<(), Refusal> {
    // "Tally: 11, 10, 9, 14."
    let totals = record.totals(rule)?;
    if !record.closed {
        return Err(Refusal::plain(9));
    }
    *tally = Tally {
        cycles: sum(tally.cycles, 1)?,
        activations: sum(tally.activations, totals.activations)?,
        fulfilled: sum(tally.fulfilled, totals.fulfilled)?,
        violated: sum(tally.violated, totals.violated)?,
    };
    Ok(())
}

/// "a tally field would pass 4294967295"
fn sum(field: u32, added: u16) -> Result<u32, Refusal> {
    u32::try_from(u64::from(field) + u64::from(added)).map_err(|_| Refusal::plain(14))
}
