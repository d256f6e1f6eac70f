//! The listing of document 01, "Day tally and `report`": two rules and six
//! events with their printed verdicts.

use evaluator::Standing::{self, Fulfilled, Idle, Open, Violated};
use evaluator::{standings, verdicts, Comparison, Event, Operator, Rule};

/// `2 1 2 0 500 - -`
fn rule_1() -> Rule {
    Rule::new(2, 1, 2, 0, Some(500))
}

/// `6 3 2 0 - - 1=@1:0`
fn rule_2() -> Rule {
    Rule::new(6, 3, 2, 0, None).with_correlation(vec![Comparison::with_activation(
        1,
        Operator::Equal,
        1,
        0,
    )])
}

fn cycle() -> Vec<Event> {
    [(0, 1), (400, 2), (400, 3), (900, 3), (1000, 1), (1500, 2)]
        .map(|(time, activity)| Event::new(time, activity).with_reading(1, 7))
        .to_vec()
}

const PRINTED_1: [Standing; 6] = [Fulfilled(2), Idle, Idle, Idle, Violated(0), Idle];
const PRINTED_2: [Standing; 6] = [Idle, Idle, Fulfilled(2), Violated(0), Idle, Idle];

#[test]
fn closed_verdicts_are_the_printed_ones() {
    assert_eq!(verdicts(&rule_1(), &cycle()), PRINTED_1);
    assert_eq!(verdicts(&rule_2(), &cycle()), PRINTED_2);
}

#[test]
fn running_standings_after_the_last_event_are_the_printed_ones() {
    assert_eq!(standings(&rule_1(), &cycle()), PRINTED_1);
    assert_eq!(standings(&rule_2(), &cycle()), PRINTED_2);
}

#[test]
fn response_is_open_until_its_target_or_the_end_of_its_window() {
    let running: [&[Standing]; 6] = [
        &[Open],
        &[Fulfilled(2), Idle],
        &[Fulfilled(2), Idle, Idle],
        &[Fulfilled(2), Idle, Idle, Idle],
        &[Fulfilled(2), Idle, Idle, Idle, Open],
        &PRINTED_1,
    ];
    for (taken, expected) in running.iter().enumerate() {
        assert_eq!(standings(&rule_1(), &cycle()[..=taken]), *expected);
    }
}

#[test]
fn alternate_precedence_is_decided_on_arrival() {
    for taken in 1..=6 {
        let expected = &PRINTED_2[..taken];
        assert_eq!(standings(&rule_2(), &cycle()[..taken]), expected);
    }
}
