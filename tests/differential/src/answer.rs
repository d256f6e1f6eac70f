//! The answers and dumps of `probe`, as PROBE.md has them.

use crate::bytes::{Bytes, Wrong};
use crate::command::kind_and_target;
use evaluator::slots::{EVENT_SLOTS, RULE_SLOTS};
use evaluator::{Comparison, ConditionSlot, Event, Operator, Record, Reference, Refusal};
use evaluator::{Rule, RuleSlot, Standing, TableRecord, Tally, Text, Totals};

pub const ANSWER_BYTES: usize = 16;
pub const TALLY_BYTES: usize = 16;
pub const STANDING_BYTES: usize = 4;
/// Two conditions of a count with three bytes 0 and four comparisons of 8 bytes,
/// after 12 bytes for the rest of the rule.
const RULE_BYTES: usize = 12 + 2 * (4 + 4 * 8);
const EVENT_BYTES: usize = 24;
const EVENTS_AT: usize = 24 + RULE_SLOTS * RULE_BYTES;
const STANDINGS_AT: usize = EVENTS_AT + EVENT_SLOTS * EVENT_BYTES;
const OVERALL_AT: usize = STANDINGS_AT + RULE_SLOTS * EVENT_SLOTS * STANDING_BYTES;
/// The dump `z`: position 0 of each rule slot.
pub const OVERALL_BYTES: usize = RULE_SLOTS * STANDING_BYTES;
const TOTALS_AT: usize = OVERALL_AT + OVERALL_BYTES;
/// Four numbers of 16 bits.
const TOTALS_BYTES: usize = 8;
/// The dump `D`: a head of 24 bytes, rule slots, event slots, standings, those at
/// position 0, stored totals.
pub const RUN_BYTES: usize = TOTALS_AT + RULE_SLOTS * TOTALS_BYTES;

/// The answer of a call, all of its fields. What a call does not name is 0.
#[derive(Debug, Clone, Copy, PartialEq, Eq, Default)]
pub struct Answer {
    /// The number of the refusal, 0 if accepted.
    pub number: u8,
    pub line: Option<u16>,
    /// Of a standing: its kind and target.
    pub kind: u8,
    pub target: u16,
    /// Which text is refused: 1 rules, 2 cycle.
    pub text: u8,
    /// Activations, fulfilled, violated, open.
    pub totals: [u16; 4],
    /// Of a text that was written.
    pub length: u64,
}

impl Answer {
    /// The answer of a call that gives nothing else.
    pub fn plain(answer: Result<(), Refusal>) -> Answer {
        match answer {
            Ok(()) => Answer::default(),
            Err(refusal) => Answer::refused(refusal),
        }
    }

    fn refused(refusal: Refusal) -> Answer {
        let line = |line| u16::try_from(line).expect("a line fits 16 bits");
        Answer {
            number: refusal.number,
            line: refusal.line.map(line),
            ..Answer::default()
        }
    }

    pub fn standing(answer: Result<Standing, Refusal>) -> Answer {
        match answer {
            Ok(standing) => {
                let (kind, target) = kind_and_target(standing);
                Answer {
                    kind,
                    target,
                    ..Answer::default()
                }
            }
            Err(refusal) => Answer::refused(refusal),
        }
    }

    pub fn totals(answer: Result<Totals, Refusal>) -> Answer {
        match answer {
            Ok(totals) => Answer {
                totals: totals.numbers(),
                ..Answer::default()
            },
            Err(refusal) => Answer::refused(refusal),
        }
    }

    pub fn notebook(answer: Result<(), (Text, Refusal)>) -> Answer {
        match answer {
            Ok(()) => Answer::default(),
            Err((text, refusal)) => Answer {
                text: match text {
                    Text::Rules => 1,
                    Text::Cycle => 2,
                },
                ..Answer::refused(refusal)
            },
        }
    }

    pub fn written(answer: Result<usize, Refusal>) -> Answer {
        match answer {
            Ok(length) => Answer {
                length: length as u64,
                ..Answer::default()
            },
            Err(refusal) => Answer::refused(refusal),
        }
    }

    pub fn decode(bytes: &[u8]) -> Result<Answer, Wrong> {
        let mut read = Bytes::new(bytes);
        let head = head_of(&mut read)?;
        let totals = totals_of(&mut read)?.numbers();
        read.end()?;
        Ok(Answer { totals, ..head })
    }

    /// The answer of `w`, `W`, `v` or `p`: bytes 8 to 15 are the length.
    pub fn decode_written(bytes: &[u8]) -> Result<Answer, Wrong> {
        let mut read = Bytes::new(bytes);
        let head = head_of(&mut read)?;
        let length = read.u64()?;
        read.end()?;
        Ok(Answer { length, ..head })
    }
}

/// Bytes 0 to 7 of an answer.
fn head_of(read: &mut Bytes) -> Result<Answer, Wrong> {
    let number = read.u8()?;
    let has_line = read.flag()?;
    let line = read.u16()?;
    read.zero(has_line || line == 0, line)?;
    Ok(Answer {
        number,
        line: has_line.then_some(line),
        kind: read.u8()?,
        text: read.u8()?,
        target: read.u16()?,
        ..Answer::default()
    })
}

/// The dump `d` of so many rules and positions.
pub fn decode_standings(
    bytes: &[u8],
    rules: usize,
    positions: usize,
) -> Result<Vec<Vec<Standing>>, Wrong> {
    let mut read = Bytes::new(bytes);
    let rows: Result<Vec<Vec<Standing>>, Wrong> = (0..rules)
        .map(|_| (0..positions).map(|_| standing_of(&mut read)).collect())
        .collect();
    read.end()?;
    rows
}

/// The dump `z`.
pub fn decode_overall(bytes: &[u8]) -> Result<[Standing; RULE_SLOTS], Wrong> {
    let mut read = Bytes::new(bytes);
    let overall = overall_of(&mut read)?;
    read.end()?;
    Ok(overall)
}

/// The dump `B`.
pub fn decode_tally(bytes: &[u8]) -> Result<Tally, Wrong> {
    let mut read = Bytes::new(bytes);
    let tally = Tally {
        cycles: read.u32()?,
        activations: read.u32()?,
        fulfilled: read.u32()?,
        violated: read.u32()?,
    };
    read.end()?;
    Ok(tally)
}

/// The dump `D`.
pub fn decode_run(bytes: &[u8]) -> Result<Record, Wrong> {
    let mut read = Bytes::new(bytes);
    let closed = read.flag()?;
    read.zeros(3)?;
    let clock = read.u32()?;
    let count = read.u64()?;
    let mut table = TableRecord {
        count: read.u64()?,
        rules: [RuleSlot::of(&Rule::new(1, 1, 1, 0, None)); RULE_SLOTS],
    };
    for slot in &mut table.rules {
        *slot = rule_of(&mut read)?;
    }
    let events: Result<Vec<Event>, Wrong> = (0..EVENT_SLOTS).map(|_| event_of(&mut read)).collect();
    let events = events?;
    let cells = RULE_SLOTS * EVENT_SLOTS;
    let standings: Result<Vec<Standing>, Wrong> =
        (0..cells).map(|_| standing_of(&mut read)).collect();
    let standings = standings?;
    let overall = overall_of(&mut read)?;
    let mut totals = [Totals::default(); RULE_SLOTS];
    for slot in &mut totals {
        *slot = totals_of(&mut read)?;
    }
    read.end()?;
    Ok(Record {
        closed,
        table,
        count,
        events,
        standings,
        overall,
        totals,
        clock,
    })
}

/// "activations, fulfilled, violated, open, 16 bits each"
fn totals_of(read: &mut Bytes) -> Result<Totals, Wrong> {
    let numbers = [read.u16()?, read.u16()?, read.u16()?, read.u16()?];
    Ok(Totals::with_numbers(numbers))
}

fn overall_of(read: &mut Bytes) -> Result<[Standing; RULE_SLOTS], Wrong> {
    let mut overall = [Standing::Idle; RULE_SLOTS];
    for standing in &mut overall {
        *standing = standing_of(read)?;
    }
    Ok(overall)
}

/// "kind, 0, target": idle and open have no target.
fn standing_of(read: &mut Bytes) -> Result<Standing, Wrong> {
    let kind = read.u8()?;
    read.zeros(1)?;
    let target = read.u16()?;
    read.zero(kind > 1 || target == 0, target)?;
    match kind {
        0 => Ok(Standing::Idle),
        1 => Ok(Standing::Open),
        2 => Ok(Standing::Fulfilled(target)),
        3 => Ok(Standing::Violated(target)),
        other => Err(format!("{other} is no kind of a standing")),
    }
}

fn rule_of(read: &mut Bytes) -> Result<RuleSlot, Wrong> {
    let code = read.u8()?;
    let activation = read.u8()?;
    let target = read.u8()?;
    let ends = read.flag()?;
    let a = read.u32()?;
    let b = read.u32()?;
    read.zero(ends || b == 0, b)?;
    Ok(RuleSlot {
        code,
        activation,
        target,
        a,
        end: ends.then_some(b),
        activation_condition: condition_of(read)?,
        correlation: condition_of(read)?,
    })
}

fn condition_of(read: &mut Bytes) -> Result<ConditionSlot, Wrong> {
    let count = read.u8()?;
    read.zeros(3)?;
    let mut comparisons = ConditionSlot::of(&[]).comparisons;
    for comparison in &mut comparisons {
        *comparison = comparison_of(read)?;
    }
    Ok(ConditionSlot { count, comparisons })
}

fn comparison_of(read: &mut Bytes) -> Result<Comparison, Wrong> {
    let reading = read.u8()?;
    let operator = usize::from(read.u8()?);
    let operator = Operator::ALL.get(operator).copied();
    let has_activation = read.flag()?;
    let g = read.u8()?;
    let k = read.i32()?;
    read.zero(has_activation || g == 0, g)?;
    Ok(Comparison {
        reading,
        operator: operator.ok_or("no such operator")?,
        reference: match has_activation {
            true => Reference::Activation {
                reading: g,
                plus: k,
            },
            false => Reference::Constant(k),
        },
    })
}

fn event_of(read: &mut Bytes) -> Result<Event, Wrong> {
    let mut event = Event::new(read.u32()?, 0);
    event.activity = read.u8()?;
    let blanks = read.u8()?;
    read.zero(blanks < 16, blanks)?;
    read.zeros(2)?;
    for (index, reading) in event.readings.iter_mut().enumerate() {
        let value = read.i32()?;
        let blank = blanks & (1 << index) != 0;
        read.zero(!blank || value == 0, value)?;
        *reading = (!blank).then_some(value);
    }
    Ok(event)
}

#[cfg(test)]
mod tests {
    use super::*;

    #[test]
    fn answers_have_their_fields_at_their_places() {
        let bytes = [7, 1, 1, 2, 0, 2, 0, 0, 0, 0, 0, 0, 0, 0, 0, 0];
        let refusal = Refusal::at(7, 513);
        let expected = Answer::notebook(Err((Text::Cycle, refusal)));
        assert_eq!(Answer::decode(&bytes), Ok(expected));
        let bytes = [0, 0, 0, 0, 3, 0, 4, 1, 0, 0, 0, 0, 0, 0, 0, 0];
        let expected = Answer::standing(Ok(Standing::Violated(260)));
        assert_eq!(Answer::decode(&bytes), Ok(expected));
        let bytes = [0, 0, 0, 0, 0, 0, 0, 0, 0, 1, 2, 0, 3, 0, 251, 0];
        let totals = Totals::with_numbers([256, 2, 3, 251]);
        assert_eq!(Answer::decode(&bytes), Ok(Answer::totals(Ok(totals))));
        let mut bytes = [0; 16];
        assert_eq!(Answer::decode(&bytes), Ok(Answer::plain(Ok(()))));
        assert_eq!(Answer::decode(&bytes), Ok(Answer::notebook(Ok(()))));
        bytes[0] = 11;
        let expected = Answer::plain(Err(Refusal::plain(11)));
        assert_eq!(Answer::decode(&bytes), Ok(expected));
        bytes[..2].copy_from_slice(&[3, 1]);
        let expected = Answer::plain(Err(Refusal::at(3, 0)));
        assert_eq!(Answer::decode(&bytes), Ok(expected));
    }

    #[test]
    fn answers_of_the_writers_have_a_length() {
        let bytes = [0, 0, 0, 0, 0, 0, 0, 0, 1, 2, 3, 0, 0, 0, 0, 1];
        let expected = Answer::written(Ok(0x0100_0000_0003_0201));
        assert_eq!(Answer::decode_written(&bytes), Ok(expected));
        assert_ne!(Answer::decode(&bytes), Ok(expected));
        let mut bytes = [0; 16];
        bytes[0] = 15;
        let expected = Answer::written(Err(Refusal::plain(15)));
        assert_eq!(Answer::decode_written(&bytes), Ok(expected));
        for at in [4, 5, 6, 8] {
            let mut bytes = bytes;
            bytes[at] = 1;
            assert_ne!(Answer::decode_written(&bytes), Ok(expected), "{at}");
        }
    }

    #[test]
    fn answers_of_another_form_are_wrong() {
        for decode in [Answer::decode, Answer::decode_written] {
            let mut bytes = [0; 16];
            bytes[2] = 1;
            assert!(decode(&bytes).is_err(), "a line without its flag");
            bytes[1] = 2;
            assert!(decode(&bytes).is_err(), "no flag");
            assert!(decode(&[0; 15]).is_err());
            assert!(decode(&[0; 17]).is_err());
        }
    }

    #[test]
    fn standings_come_rule_by_rule() {
        let bytes = [0, 0, 0, 0, 1, 0, 0, 0, 2, 0, 0, 1, 3, 0, 0, 0];
        let rows = decode_standings(&bytes, 2, 2).expect("standings");
        let first = vec![Standing::Idle, Standing::Open];
        let second = vec![Standing::Fulfilled(256), Standing::Violated(0)];
        assert_eq!(rows, [first, second]);
        assert_eq!(decode_standings(&[], 16, 0), Ok(vec![vec![]; 16]));
        assert!(decode_standings(&bytes, 2, 1).is_err());
        for wrong in [[4, 0, 0, 0], [2, 1, 0, 0], [0, 0, 1, 0], [1, 0, 0, 1]] {
            assert!(decode_standings(&wrong, 1, 1).is_err(), "{wrong:?}");
        }
    }

    #[test]
    fn position_0_has_a_cell_of_each_rule_slot() {
        let mut bytes = [0; 64];
        bytes[..8].copy_from_slice(&[1, 0, 0, 0, 2, 0, 1, 1]);
        bytes[60..].copy_from_slice(&[3, 0, 255, 255]);
        let found = decode_overall(&bytes).expect("16 cells");
        assert_eq!(found[..2], [Standing::Open, Standing::Fulfilled(257)]);
        assert_eq!(found[2..15], [Standing::Idle; 13]);
        assert_eq!(found[15], Standing::Violated(65_535));
        assert!(decode_overall(&bytes[4..]).is_err());
        assert!(decode_overall(&[0; 65]).is_err());
        bytes[60] = 4;
        assert!(decode_overall(&bytes).is_err());
    }

    #[test]
    fn the_tally_has_four_numbers() {
        let bytes = [1, 0, 0, 0, 255, 255, 255, 255, 0, 1, 0, 0, 0, 0, 0, 128];
        let tally = Tally {
            cycles: 1,
            activations: u32::MAX,
            fulfilled: 256,
            violated: 1 << 31,
        };
        assert_eq!(decode_tally(&bytes), Ok(tally));
    }

    /// A closed run of two rules and three events with all fields 0, blanks in
    /// every event.
    fn run_bytes() -> Vec<u8> {
        let mut bytes = vec![0; RUN_BYTES];
        bytes[0] = 1;
        bytes[8] = 3;
        bytes[16] = 2;
        for slot in 0..256 {
            bytes[1368 + 24 * slot + 5] = 15;
        }
        bytes
    }

    fn put(bytes: &mut [u8], at: usize, part: &[u8]) {
        bytes[at..at + part.len()].copy_from_slice(part);
    }

    #[test]
    fn the_parts_of_a_run_have_their_places() {
        assert_eq!((RULE_BYTES, EVENTS_AT), (84, 1368));
        assert_eq!((STANDINGS_AT, OVERALL_AT), (7512, 23_896));
        assert_eq!((OVERALL_BYTES, TOTALS_AT), (64, 23_960));
        assert_eq!(RUN_BYTES, 24_088);
    }

    #[test]
    fn a_run_has_its_counts_and_rules() {
        let mut bytes = run_bytes();
        // The second rule slot; its correlation has a count and, at place 3,
        // a comparison.
        put(&mut bytes, 108, &[12, 64, 65, 1, 2, 1, 0, 0, 4, 3, 2, 1]);
        put(&mut bytes, 108 + 12 + 36, &[4]);
        let place = 108 + 12 + 36 + 4 + 3 * 8;
        put(&mut bytes, place, &[4, 5, 1, 2, 254, 255, 255, 255]);
        let record = decode_run(&bytes).expect("a run");
        assert_eq!((record.closed, record.count), (true, 3));
        assert_eq!(record.table.count, 2);
        let rule = &record.table.rules[1];
        assert_eq!((rule.code, rule.activation, rule.target), (12, 64, 65));
        assert_eq!((rule.a, rule.end), (258, Some(0x0102_0304)));
        assert_eq!(rule.activation_condition.count, 0);
        assert_eq!(rule.correlation.count, 4);
        let expected = Comparison::with_activation(4, Operator::GreaterOrEqual, 2, -2);
        assert_eq!(rule.correlation.comparisons[3], expected);
        assert_eq!(record.table.rules[0].end, None);
        let unused = Comparison::with_constant(0, Operator::Equal, 0);
        assert_eq!(record.table.rules[0].correlation.comparisons, [unused; 4]);
    }

    #[test]
    fn a_run_has_its_kept_time() {
        let mut bytes = run_bytes();
        assert_eq!(decode_run(&bytes).map(|run| run.clock), Ok(0));
        put(&mut bytes, 4, &[1, 2, 3, 4]);
        let record = decode_run(&bytes).expect("a run");
        assert_eq!(record.clock, 0x0403_0201);
        assert_eq!((record.closed, record.count), (true, 3));
    }

    #[test]
    fn a_run_has_its_events_and_standings() {
        let mut bytes = run_bytes();
        let last = 1368 + 24 * 255;
        put(&mut bytes, last, &[1, 2, 3, 4, 64, 0b1010]);
        put(&mut bytes, last + 8, &[255; 4]);
        put(&mut bytes, last + 16, &[7]);
        put(&mut bytes, 7512 + 4 * 257, &[2, 0, 4, 1]);
        put(&mut bytes, 23_892, &[1]);
        put(&mut bytes, 23_896, &[3, 0, 2, 1]);
        put(&mut bytes, 23_956, &[1]);
        let record = decode_run(&bytes).expect("a run");
        let expected = Event::new(0x0403_0201, 64)
            .with_reading(1, -1)
            .with_reading(3, 7);
        assert_eq!(record.events[255], expected);
        assert_eq!(record.events[254], Event::new(0, 0));
        let second = evaluator::place(2, 2);
        assert_eq!(record.standings[second], Standing::Fulfilled(260));
        assert_eq!(record.standings[4095], Standing::Open);
        let others = record.standings.iter().filter(|s| **s == Standing::Idle);
        assert_eq!(others.count(), 4094);
        assert_eq!(record.overall[0], Standing::Violated(258));
        assert_eq!(record.overall[15], Standing::Open);
        assert_eq!(record.overall[1..15], [Standing::Idle; 14]);
    }

    #[test]
    fn a_run_has_its_stored_totals() {
        let mut bytes = run_bytes();
        put(&mut bytes, 23_960, &[1, 1, 2, 0, 3, 0, 255, 255]);
        put(&mut bytes, 23_968, &[0, 0, 0, 0, 0, 0, 4, 0]);
        put(&mut bytes, 24_080, &[5, 0, 0, 0, 0, 6]);
        let totals = decode_run(&bytes).expect("a run").totals;
        let numbers = |slot: usize| totals[slot].numbers();
        assert_eq!(numbers(0), [257, 2, 3, 65_535]);
        assert_eq!((totals[0].activations, totals[0].fulfilled), (257, 2));
        assert_eq!((totals[0].violated, totals[0].open), (3, 65_535));
        assert_eq!(numbers(1), [0, 0, 0, 4]);
        assert_eq!(totals[2..15], [Totals::default(); 13]);
        assert_eq!(numbers(15), [5, 0, 1536, 0]);
    }

    #[test]
    fn runs_of_another_form_are_wrong() {
        assert!(decode_run(&run_bytes()).is_ok());
        let wrong = [
            (0, 2),
            (1, 1),
            (2, 1),
            (3, 1),
            (27, 2),
            (32, 1),
            (37, 1),
            (41, 6),
            (42, 2),
            (43, 1),
            (1373, 16),
            (1374, 1),
            (1376, 1),
            (7512, 4),
            (7513, 1),
            (7514, 1),
            (23_896, 4),
            (23_957, 1),
            (23_958, 1),
        ];
        for (at, byte) in wrong {
            let mut bytes = run_bytes();
            bytes[at] = byte;
            assert!(decode_run(&bytes).is_err(), "{at}");
        }
        assert!(decode_run(&run_bytes()[1..]).is_err());
        assert!(decode_run(&run_bytes()[..RUN_BYTES - 1]).is_err());
        assert!(decode_run(&[run_bytes(), vec![0]].concat()).is_err());
    }
}
