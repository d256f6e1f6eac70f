//! Card 1 of document 02: "A rule table and a run's events are to be written as
//! the texts of document 01 into a lent buffer, with the length returned and the
//! bytes beyond it untouched." What `report` prints is written in the same way.

use crate::record::Record;
use crate::refusal::Refusal;
use crate::report::{printed, report_of};
use crate::slots::TableRecord;
use crate::text::{write_cycle, write_rules};

/// Writes the rules of a table and answers the length of their text.
pub fn write_rules_of(table: &TableRecord, buffer: &mut [u8]) -> Result<usize, Refusal> {
    let rules = table.rules().ok_or(Refusal::plain(11))?;
    put(&write_rules(&rules), buffer)
}

/// Writes the events of a run, closed or not, and answers the length of their
/// text. The whole record is checked.
pub fn write_cycle_of(run: &Record, buffer: &mut [u8]) -> Result<usize, Refusal> {
    let (_, count) = run.checked()?;
    put(&write_cycle(&run.events[..count]), buffer)
}

/// Writes what `report` prints for a run, closed or not, and answers the length.
/// The whole record is checked.
pub fn write_report_of(run: &Record, buffer: &mut [u8]) -> Result<usize, Refusal> {
    put(&report_of(run)?, buffer)
}

/// Writes what `report` prints for two texts of any size, the line of a refused
/// one included, and answers the length.
pub fn print_texts(rules: &[u8], cycle: &[u8], buffer: &mut [u8]) -> Result<usize, Refusal> {
    put(&printed(rules, cycle), buffer)
}

/// "15, the lent buffer is shorter than the text, nothing written; checked after
/// 11."
fn put(text: &[u8], buffer: &mut [u8]) -> Result<usize, Refusal> {
    let front = buffer.get_mut(..text.len()).ok_or(Refusal::plain(15))?;
    front.copy_from_slice(text);
    Ok(text.len())
}
