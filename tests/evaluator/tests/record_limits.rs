//! Cause 11: "record or table outside the limits above, times falling in it, a
//! target above its event count, a standing of one of its rules not idle past
//! that count, or open in a closed run". In all of these the stored totals fit the
//! standings; those that do not are in record_totals.

use evaluator::Operator::{Equal, Less};
use evaluator::Standing::{self, Fulfilled, Idle, Open, Violated};
use evaluator::{absorb, grown, place, start, write_cycle_of, write_rules_of};
use evaluator::{Comparison, ConditionSlot, Event, Record, Refusal, Rule, RuleSlot};
use evaluator::{TableRecord, Tally};

const OUTSIDE: Refusal = Refusal::plain(11);
const WIDE_COUNTS: [u64; 6] = [255, 257, 1 << 16, 1 << 32, (1 << 32) + 2, u64::MAX];

fn plain() -> Rule {
    Rule::new(2, 1, 2, 0, None)
}

/// Two rules and three events.
fn run() -> Record {
    let events = [Event::new(5, 1), Event::new(5, 9), Event::new(8, 1)];
    grown(&[plain(), plain()], &events)
}

/// The run with a change, and with totals that fit it.
fn changed(change: impl FnOnce(&mut Record)) -> Record {
    with_change(run(), change)
}

fn changed_closed(change: impl FnOnce(&mut Record)) -> Record {
    with_change(run().close().0, change)
}

fn with_change(mut record: Record, change: impl FnOnce(&mut Record)) -> Record {
    change(&mut record);
    record.count_totals();
    record
}

/// Whether every call on the record is refused with 11. It may not be some of
/// them alone, and the record, the tally and the buffer stay as they were.
fn is_outside(record: &Record) -> bool {
    let mut tally = Tally::default();
    let mut buffer = [b'x'; 16_000];
    let taken = record.clone().take(Event::new(u32::MAX, 1));
    let closed = record.clone().close();
    let answers = [
        taken.1.err(),
        closed.1.err(),
        record.standing(1, 1).err(),
        record.totals(1).err(),
        absorb(record, 1, &mut tally).err(),
        write_cycle_of(record, &mut buffer).err(),
    ];
    let outside = answers.iter().filter(|a| **a == Some(OUTSIDE)).count();
    assert!(outside == 0 || outside == answers.len(), "{answers:?}");
    if outside == answers.len() {
        assert!(taken.0 == *record && closed.0 == *record);
        assert_eq!(tally, Tally::default());
        assert_eq!(buffer, [b'x'; 16_000]);
    }
    outside == answers.len()
}

/// Whether start refuses a table of two rules, the second one changed. Writing
/// it, and a run with the same table, have to be refused in the same cases.
fn table_is_outside(change: impl FnOnce(&mut RuleSlot)) -> bool {
    let mut table = TableRecord::of(&[plain(), plain()]);
    change(&mut table.rules[1]);
    let refused = match start(&table) {
        Ok(record) => {
            assert_eq!(record.table, table);
            false
        }
        Err(refusal) => {
            assert_eq!(refusal, OUTSIDE);
            true
        }
    };
    let written = write_rules_of(&table, &mut [b'x'; 3000]);
    assert_eq!(written.err(), refused.then_some(OUTSIDE));
    assert_eq!(is_outside(&changed(|record| record.table = table)), refused);
    refused
}

#[test]
fn a_grown_run_is_within_the_limits() {
    assert!(!is_outside(&run()));
    assert!(!is_outside(&run().close().0));
    assert!(!is_outside(&grown(&[], &[])));
}

#[test]
fn a_table_has_0_to_16_rules() {
    for (count, outside) in [(0, false), (1, false), (15, false), (16, false), (17, true)] {
        let mut table = TableRecord::of(&[]);
        table.count = count;
        assert_eq!(start(&table).is_err(), outside, "{count}");
        assert_eq!(is_outside(&changed(|r| r.table = table)), outside);
    }
    for count in WIDE_COUNTS {
        let mut table = TableRecord::of(&[]);
        table.count = count;
        assert_eq!(start(&table), Err(OUTSIDE), "{count}");
        assert!(is_outside(&changed(|r| r.table.count = count)));
    }
}

/// The codes 13 to 16 also ask for other standings.
#[test]
fn a_rule_has_a_code_1_to_16_and_activities_1_to_64() {
    let code = |x| table_is_outside(|rule| rule.code = x);
    let expected = [true, false, false, true, true];
    assert_eq!([0, 1, 12, 17, 255].map(code), expected);
    let activation = |x| table_is_outside(|rule| rule.activation = x);
    assert_eq!([0, 1, 64, 65, 255].map(activation), expected);
    let target = |x| table_is_outside(|rule| rule.target = x);
    assert_eq!([0, 1, 64, 65, 255].map(target), expected);
}

#[test]
fn a_window_ends_above_its_start() {
    let window = |a, end| table_is_outside(|rule| (rule.a, rule.end) = (a, end));
    for (a, end) in [
        (0, Some(1)),
        (0, None),
        (u32::MAX, None),
        (u32::MAX - 1, Some(u32::MAX)),
    ] {
        assert!(!window(a, end), "{a} {end:?}");
    }
    for (a, end) in [
        (0, Some(0)),
        (1, Some(0)),
        (5, Some(5)),
        (6, Some(5)),
        (u32::MAX, Some(u32::MAX)),
    ] {
        assert!(window(a, end), "{a} {end:?}");
    }
}

fn constant(reading: u8) -> Comparison {
    Comparison::with_constant(reading, Equal, 0)
}

/// On any readings.
#[test]
fn a_condition_has_at_most_four_comparisons() {
    for readings in [[1, 2, 3, 4], [1, 1, 1, 1], [3, 2, 3, 3], [4, 4, 1, 1]] {
        let four = ConditionSlot::of(&readings.map(constant));
        for (count, outside) in [(0, false), (2, false), (4, false), (5, true), (255, true)] {
            let slot = ConditionSlot { count, ..four };
            assert_eq!(
                table_is_outside(|r| r.activation_condition = slot),
                outside,
                "{readings:?} {count}"
            );
            assert_eq!(table_is_outside(|r| r.correlation = slot), outside);
        }
    }
}

#[test]
fn comparisons_name_readings_1_to_4() {
    for (reading, outside) in [(0, true), (1, false), (4, false), (5, true), (255, true)] {
        let tested = ConditionSlot::of(&[constant(reading)]);
        assert_eq!(
            table_is_outside(|r| r.activation_condition = tested),
            outside
        );
        assert_eq!(table_is_outside(|r| r.correlation = tested), outside);
        let sum = Comparison::with_activation(1, Less, reading, 0);
        let reference = ConditionSlot::of(&[sum]);
        assert_eq!(table_is_outside(|r| r.correlation = reference), outside);
    }
}

#[test]
fn an_activation_condition_has_constants_alone() {
    let sum = Comparison::with_activation(2, Equal, 1, 0);
    let slot = ConditionSlot::of(&[constant(1), sum]);
    assert!(table_is_outside(|r| r.activation_condition = slot));
    assert!(!table_is_outside(|r| r.correlation = slot));
}

#[test]
fn every_rule_of_the_count_is_checked_and_no_other() {
    for (at, outside) in [(0, true), (1, true), (2, false), (15, false)] {
        let mut table = TableRecord::of(&[plain(), plain()]);
        table.rules[at].code = 0;
        assert_eq!(start(&table).is_err(), outside, "{at}");
        let record = changed(|r| r.table = table);
        assert_eq!(is_outside(&record), outside, "{at}");
    }
}

#[test]
fn comparison_slots_past_the_count_are_not_checked() {
    let mut slot = ConditionSlot::of(&[constant(1)]);
    slot.comparisons[1] = constant(5);
    slot.comparisons[2] = constant(0);
    slot.comparisons[3] = Comparison::with_activation(4, Less, 77, 0);
    assert!(!table_is_outside(|r| {
        r.activation_condition = slot;
        r.correlation = slot;
    }));
    slot.count = 2;
    assert!(table_is_outside(|r| r.activation_condition = slot));
}

#[test]
fn a_run_has_at_most_256_events() {
    let with_count = |count| changed(|r| r.count = count);
    // The slots past the three events have time 0, below the time 8 before.
    let falling = with_count(4);
    assert!(is_outside(&falling));
    let mut level = with_count(256);
    level.events[3..].fill(Event::new(8, 1));
    assert!(!is_outside(&level));
    level.count = 257;
    assert!(is_outside(&level));
    for count in WIDE_COUNTS.into_iter().filter(|count| *count > 256) {
        level.count = count;
        assert!(is_outside(&level), "{count}");
    }
}

#[test]
fn events_of_the_count_are_within_their_limits() {
    for activity in [0, 65, 255] {
        for at in 0..3 {
            let record = changed(|r| r.events[at].activity = activity);
            assert!(is_outside(&record), "{activity} {at}");
        }
        for at in [3, 255] {
            let record = changed(|r| r.events[at].activity = activity);
            assert!(!is_outside(&record), "{activity} {at}");
        }
    }
    assert!(!is_outside(&changed(|r| r.events[1].activity = 64)));
}

#[test]
fn times_do_not_fall_in_a_record() {
    // The times are 5, 5, 8, and 0 in the slots past the count.
    assert!(is_outside(&changed(|r| r.events[0].time = 6)));
    assert!(is_outside(&changed(|r| r.events[1].time = 4)));
    assert!(is_outside(&changed(|r| r.events[1].time = 9)));
    assert!(is_outside(&changed(|r| r.events[2].time = 4)));
    assert!(!is_outside(&changed(|r| r.events[1].time = 8)));
    assert!(!is_outside(&changed(|r| r.events[2].time = u32::MAX)));
}

fn with_standing(rule: usize, position: usize, standing: Standing) -> Record {
    changed(|r| r.standings[place(rule, position)] = standing)
}

#[test]
fn a_target_is_at_most_the_event_count() {
    for rule in [1, 2] {
        for position in [1, 2, 3] {
            for target in [0, 1, 2, 3] {
                assert!(!is_outside(&with_standing(
                    rule,
                    position,
                    Fulfilled(target)
                )));
                assert!(!is_outside(&with_standing(
                    rule,
                    position,
                    Violated(target)
                )));
            }
            for target in [4, 256, 257, 65_535] {
                assert!(is_outside(&with_standing(
                    rule,
                    position,
                    Fulfilled(target)
                )));
                assert!(is_outside(&with_standing(rule, position, Violated(target))));
            }
        }
    }
}

#[test]
fn standings_past_the_event_count_are_idle() {
    for standing in [Open, Fulfilled(0), Fulfilled(1), Violated(0), Violated(1)] {
        for rule in [1, 2] {
            for position in [4, 256] {
                assert!(is_outside(&with_standing(rule, position, standing)));
                let at = place(rule, position);
                assert!(is_outside(&changed_closed(|r| r.standings[at] = standing)));
            }
        }
    }
    assert!(!is_outside(&with_standing(2, 4, Idle)));
}

#[test]
fn a_closed_run_has_no_open_standing() {
    for rule in [1, 2] {
        for position in [1, 2, 3] {
            assert!(!is_outside(&with_standing(rule, position, Open)));
            let at = place(rule, position);
            assert!(is_outside(&changed_closed(|r| r.standings[at] = Open)));
        }
    }
}

#[test]
fn rows_of_rules_that_the_table_does_not_have_are_not_checked() {
    for standing in [Open, Fulfilled(4), Violated(65_535)] {
        for rule in [3, 16] {
            for position in [1, 3, 4, 256] {
                assert!(!is_outside(&with_standing(rule, position, standing)));
                let at = place(rule, position);
                assert!(!is_outside(&changed_closed(|r| r.standings[at] = standing)));
            }
        }
    }
}
