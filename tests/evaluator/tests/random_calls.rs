//! Random lists of take calls from a fresh run, refused ones included: what
//! demand 3 says of them, and the notebook on the same rules and events.

use evaluator::fabricate::random_event;
use evaluator::random::{random_rules, Random};
use evaluator::Standing::Idle;
use evaluator::{is_activation, notebook, notebook_record, start, write_cycle};
use evaluator::{write_rules, Event, Record, Refusal, Row, Rule, TableRecord};
use std::collections::BTreeSet;

/// "an event with a number outside its range is refused with 3, else one with a
/// time below that of the last event in the list with 7, else, when the list
/// has 256 events, any event with 8, and the list stays. Every other event is
/// taken and put at the end."
fn listed(list: &mut Vec<Event>, event: Event) -> Result<(), Refusal> {
    if event.activity == 0 || event.activity > 64 {
        return Err(Refusal::at(3, 0));
    }
    if !list.is_empty() && event.time < list[list.len() - 1].time {
        return Err(Refusal::at(7, 0));
    }
    if list.len() == 256 {
        return Err(Refusal::at(8, 0));
    }
    list.push(event);
    Ok(())
}

/// The answers at position 0, if the rule has it, and at the events.
fn row(record: &Record, rule: usize) -> Row {
    let asked = |position| record.standing(rule as u64, position);
    Row {
        overall: asked(0).ok(),
        events: (1..=record.count)
            .map(|position| asked(position).expect("a standing"))
            .collect(),
    }
}

/// Whether each event of a row is an activation, and how many positions are.
fn activations(rule: &Rule, taken: &[Event]) -> (Vec<bool>, u16) {
    let fits: Vec<bool> = taken.iter().map(|e| is_activation(rule, e)).collect();
    let fitting = fits.iter().filter(|fits| **fits).count() as u16;
    match rule.code {
        // "position 0, in place of events, is its one activation"
        13..=16 => (vec![false; taken.len()], 1),
        _ => (fits, fitting),
    }
}

/// "Every other taken event stands idle under that rule", and "each rule's
/// totals have activations = fulfilled + violated + open, and activations is
/// the number of taken events that fit its activation".
fn rows_are_right(record: &Record, rules: &[Rule], taken: &[Event]) {
    assert_eq!(record.count, taken.len() as u64);
    assert_eq!(&record.events[..taken.len()], taken);
    for (index, rule) in rules.iter().enumerate() {
        let row = row(record, index + 1);
        let (fits, fitting) = activations(rule, taken);
        let stands: Vec<bool> = row.events.iter().map(|s| *s != Idle).collect();
        assert_eq!(stands, fits, "{rule:?}");
        assert_eq!(row.overall.is_some(), rule.code >= 13);
        assert_ne!(row.overall, Some(Idle));
        let totals = record.totals(index as u64 + 1).expect("totals");
        assert_eq!(totals.activations, fitting);
        let sum = totals.fulfilled + totals.violated + totals.open;
        assert_eq!(totals.activations, sum);
    }
}

/// Closing gives the finished verdicts, and the notebook the same run.
fn closing_is_right(record: Record, rules: &[Rule], taken: &[Event]) {
    let (closed, answer) = record.close();
    assert_eq!(answer, Ok(()));
    rows_are_right(&closed, rules, taken);
    let rows: Vec<Row> = (1..=rules.len()).map(|rule| row(&closed, rule)).collect();
    let expected: Vec<Row> = rules.iter().map(|rule| Row::of(rule, taken)).collect();
    assert_eq!(rows, expected);
    let texts = (write_rules(rules), write_cycle(taken));
    assert_eq!(notebook(&texts.0, &texts.1), Ok(rows));
    assert_eq!(notebook_record(&texts.0, &texts.1), Ok(closed));
}

#[test]
fn lists_of_take_calls() {
    let mut random = Random::new(31);
    let mut answers = BTreeSet::new();
    for round in 0..1500 {
        let rules = random_rules(&mut random, [0, 1, 1, 2, 3, 16][round % 6]);
        let mut record = start(&TableRecord::of(&rules)).expect("a valid table");
        let mut taken = Vec::new();
        for _ in 0..random.below(12) {
            let event = random_event(&mut random, &record);
            let before = record.clone();
            let (next, answer) = record.take(event);
            assert_eq!(answer, listed(&mut taken, event));
            assert!(answer.is_ok() || next == before);
            answers.insert(answer);
            record = next;
        }
        rows_are_right(&record, &rules, &taken);
        closing_is_right(record, &rules, &taken);
    }
    let expected = [Ok(()), Err(Refusal::at(3, 0)), Err(Refusal::at(7, 0))];
    assert_eq!(answers, BTreeSet::from(expected));
}

#[test]
fn decided_standings_do_not_change_again() {
    let mut random = Random::new(32);
    let mut decided = 0;
    for _ in 0..400 {
        let rules = random_rules(&mut random, 2);
        let mut record = start(&TableRecord::of(&rules)).expect("a valid table");
        for _ in 0..10 {
            let event = random_event(&mut random, &record);
            let cells = |r: &Record| [&r.standings[..], &r.overall].concat();
            let before = cells(&record);
            record = record.take(event).0;
            for (old, new) in before.iter().zip(&cells(&record)) {
                if old.is_decided() {
                    assert_eq!(old, new);
                    decided += 1;
                }
            }
        }
    }
    assert!(decided > 1000, "{decided}");
}

#[test]
fn a_full_run_with_sixteen_rules() {
    let mut random = Random::new(33);
    let rules = random_rules(&mut random, 16);
    let mut record = start(&TableRecord::of(&rules)).expect("a valid table");
    let mut taken = Vec::new();
    let mut last = Ok(());
    while last != Err(Refusal::at(8, 0)) {
        let event = random_event(&mut random, &record);
        let (next, answer) = record.take(event);
        assert_eq!(answer, listed(&mut taken, event));
        (record, last) = (next, answer);
    }
    assert_eq!(taken.len(), 256);
    rows_are_right(&record, &rules, &taken);
    closing_is_right(record, &rules, &taken);
}
