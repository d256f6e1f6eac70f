//! What the evaluator expects of an answer or a dump, and how far the bytes
//! found agree with it.

use crate::answer::{decode_overall, decode_run, decode_standings, decode_tally, Answer};
use crate::answer::{ANSWER_BYTES, OVERALL_BYTES, RUN_BYTES, STANDING_BYTES, TALLY_BYTES};
use crate::bytes::Wrong;
use crate::differ::{differing_bytes, differing_fields, differing_used_fields, Mismatch};
use evaluator::{Event, Record, Rule, Standing, Tally};
use std::fmt::Debug;

#[derive(Debug, Clone)]
pub enum Expected {
    /// The answer of a call.
    Answer(Answer),
    /// The answer of `w`, `W`, `v` or `p`, and all bytes of the buffer.
    Written { answer: Answer, buffer: Vec<u8> },
    /// The dump `d`: the standings of each rule at the taken positions. The
    /// template codes are for counting.
    Standings {
        codes: Vec<u8>,
        rows: Vec<Vec<Standing>>,
    },
    /// The dump `z`: position 0 of each rule slot, `None` where it is free. The
    /// template codes of the rules are for counting.
    Overall {
        codes: Vec<u8>,
        cells: Vec<Option<Standing>>,
    },
    /// The dump `D`, every slot of it.
    Run(Box<Record>),
    /// The dump `D` after the notebook reading: what is fixed of it. The rule slots
    /// past the count and their rows are free, and so is position 0 of these and of
    /// the rules 1 to 12; their totals are 0.
    NotebookRun(Box<Record>),
    /// The dump `D` after a rules text: the rules of its table.
    Rules(Vec<Rule>),
    /// The dump `D` after a cycle text: its events.
    Events(Vec<Event>),
    /// The dump `B`.
    Tally(Tally),
}

impl Expected {
    /// The answer, if this is not a dump.
    pub fn answer(&self) -> Option<&Answer> {
        match self {
            Expected::Answer(answer) | Expected::Written { answer, .. } => Some(answer),
            _ => None,
        }
    }

    /// The number of bytes of the answer or dump.
    pub fn length(&self) -> usize {
        match self {
            Expected::Answer(_) => ANSWER_BYTES,
            Expected::Written { buffer, .. } => ANSWER_BYTES + buffer.len(),
            Expected::Standings { rows, .. } => {
                STANDING_BYTES * rows.iter().map(Vec::len).sum::<usize>()
            }
            Expected::Overall { .. } => OVERALL_BYTES,
            Expected::Tally(_) => TALLY_BYTES,
            _ => RUN_BYTES,
        }
    }

    /// Whether the bytes found are as expected; there are [`Expected::length`]
    /// of them.
    pub fn check(&self, found: &[u8]) -> Result<(), Mismatch> {
        match self {
            Expected::Answer(answer) => same(Ok(*answer), Answer::decode(found)),
            Expected::Written { answer, buffer } => {
                let (head, found) = found.split_at(ANSWER_BYTES);
                same(Ok(*answer), Answer::decode_written(head))?;
                differing_bytes(buffer, found)
            }
            Expected::Standings { rows, .. } => {
                let positions = rows.first().map_or(0, Vec::len);
                same(
                    Ok(rows.clone()),
                    decode_standings(found, rows.len(), positions),
                )
            }
            Expected::Overall { cells, .. } => {
                let found = decode_overall(found).map(|found| without_free(found, cells));
                same(Ok(cells.clone()), found)
            }
            Expected::Tally(tally) => same(Ok(*tally), decode_tally(found)),
            _ => self.check_run(decode_run(found)),
        }
    }

    fn check_run(&self, found: Result<Record, Wrong>) -> Result<(), Mismatch> {
        let found = found.map_err(|wrong| Mismatch {
            expected: "a dump of the form of PROBE.md".to_string(),
            found: wrong,
        })?;
        match self {
            Expected::Run(run) if **run == found => Ok(()),
            Expected::Run(run) => Err(differing_fields(run, &found)),
            Expected::NotebookRun(run) => differing_used_fields(run, &found),
            Expected::Rules(rules) => same(Some(rules.clone()), found.table.rules()),
            Expected::Events(events) => {
                let used = usize::try_from(found.count).ok();
                let found = used.and_then(|used| found.events.get(..used));
                same(Some(&events[..]), found)
            }
            other => panic!("{other:?} is no dump of a run"),
        }
    }
}

/// The cells found, but for those that are free.
fn without_free(found: [Standing; 16], cells: &[Option<Standing>]) -> Vec<Option<Standing>> {
    let pairs = found.iter().zip(cells);
    pairs.map(|(found, cell)| cell.map(|_| *found)).collect()
}

fn same<T: PartialEq + Debug>(expected: T, found: T) -> Result<(), Mismatch> {
    match expected == found {
        true => Ok(()),
        false => Err(Mismatch {
            expected: format!("{expected:?}"),
            found: format!("{found:?}"),
        }),
    }
}
