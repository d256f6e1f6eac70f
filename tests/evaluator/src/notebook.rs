//! The notebook reading of document 01: "The notebook reading takes both texts,
//! rules first, and answers a closed run; its refusal also says which text."

use crate::model::{Event, Rule, Standing};
use crate::overall::overall_verdict;
use crate::record::{place, start, Record};
use crate::refusal::Refusal;
use crate::slots::TableRecord;
use crate::text::{read_cycle, read_rules};
use crate::verdict::verdicts;

/// Which of the two texts was refused.
#[derive(Debug, Clone, Copy, PartialEq, Eq, PartialOrd, Ord, Hash)]
pub enum Text {
    Rules,
    Cycle,
}

/// The standings of a rule in a closed run.
#[derive(Debug, Clone, PartialEq, Eq)]
pub struct Row {
    /// At position 0, which a rule 13 to 16 has alone.
    pub overall: Option<Standing>,
    /// At all events, in order.
    pub events: Vec<Standing>,
}

impl Row {
    /// The standings of a rule in a finished cycle.
    pub fn of(rule: &Rule, events: &[Event]) -> Row {
        Row {
            overall: rule.is_overall().then(|| overall_verdict(rule, events)),
            events: verdicts(rule, events),
        }
    }
}

/// The rules and the events of the two texts.
pub fn read_texts(rules: &[u8], cycle: &[u8]) -> Result<(Vec<Rule>, Vec<Event>), (Text, Refusal)> {
    let rules = read_rules(rules).map_err(|refusal| (Text::Rules, refusal))?;
    let events = read_cycle(cycle).map_err(|refusal| (Text::Cycle, refusal))?;
    Ok((rules, events))
}

/// The standings of the closed run: for each rule those at all positions.
pub fn notebook(rules: &[u8], cycle: &[u8]) -> Result<Vec<Row>, (Text, Refusal)> {
    let (rules, events) = read_texts(rules, cycle)?;
    Ok(all_rows(&rules, &events))
}

/// The closed run as a record. Its slots past the counts are those of
/// [`TableRecord::of`] and [`start`].
pub fn notebook_record(rules: &[u8], cycle: &[u8]) -> Result<Record, (Text, Refusal)> {
    let (rules, events) = read_texts(rules, cycle)?;
    let mut record = start(&TableRecord::of(&rules)).expect("rules that were read are valid");
    record.closed = true;
    record.count = events.len() as u64;
    record.events[..events.len()].copy_from_slice(&events);
    for (index, row) in all_rows(&rules, &events).iter().enumerate() {
        let first = place(index + 1, 1);
        record.standings[first..first + row.events.len()].copy_from_slice(&row.events);
        record.overall[index] = row.overall.unwrap_or(Standing::Idle);
    }
    record.count_totals();
    Ok(record)
}

fn all_rows(rules: &[Rule], events: &[Event]) -> Vec<Row> {
    rules.iter().map(|rule| Row::of(rule, events)).collect()
}
