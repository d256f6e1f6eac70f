//! Standings in running cycles, derived by hand from demand 3 and document
//! 01's "A running cycle". A pair is a time and an activity.

use evaluator::Standing::{self, Fulfilled, Idle, Open, Violated};
use evaluator::{standing, standing_at_last, standings, Comparison, Event, Operator, Rule};

const LAST: u32 = 4_294_967_295;

fn cycle(pairs: &[(u32, u8)]) -> Vec<Event> {
    pairs.iter().map(|(t, x)| Event::new(*t, *x)).collect()
}

/// Activation 1, target 2, no conditions.
fn run(code: u8, a: u32, b: Option<u32>, pairs: &[(u32, u8)]) -> Vec<Standing> {
    standings(&Rule::new(code, 1, 2, a, b), &cycle(pairs))
}

#[test]
fn templates_that_look_back_are_decided_on_arrival() {
    let without = [(0, 9), (1, 1)];
    let with = [(0, 2), (1, 1)];
    for code in [5, 6, 7] {
        assert_eq!(run(code, 0, None, &without), [Idle, Violated(0)]);
        assert_eq!(run(code, 0, None, &with), [Idle, Fulfilled(1)]);
    }
    for code in [10, 12] {
        assert_eq!(run(code, 0, None, &without), [Idle, Fulfilled(0)]);
        assert_eq!(run(code, 0, None, &with), [Idle, Violated(1)]);
    }
}

#[test]
fn responded_existence_waits_for_either_side() {
    assert_eq!(run(1, 0, None, &[(0, 1)]), [Open]);
    assert_eq!(run(1, 0, None, &[(0, 2), (5, 1)]), [Idle, Fulfilled(1)]);
    assert_eq!(run(1, 0, Some(5), &[(0, 2), (5, 1)]), [Idle, Open]);
    let past = [(0, 2), (5, 1), (10, 9)];
    assert_eq!(run(1, 0, Some(5), &past), [Idle, Violated(0), Idle]);
    assert_eq!(run(8, 0, Some(5), &past), [Idle, Fulfilled(0), Idle]);
    assert_eq!(run(8, 0, None, &[(0, 1), (5, 2)]), [Violated(2), Idle]);
}

#[test]
fn response_is_open_from_its_activation_to_the_end_of_its_window() {
    let at = |code, time| run(code, 10, Some(20), &[(0, 1), (time, 9)])[0];
    for code in [1, 2, 3] {
        let seen = [0, 9, 10, 19, 20, 29, 30].map(|time| at(code, time));
        let gone = Violated(0);
        assert_eq!(seen, [Open, Open, Open, Open, gone, gone, gone]);
    }
    for code in [8, 9] {
        let seen = [0, 9, 10, 19, 20, 29, 30].map(|time| at(code, time));
        let gone = Fulfilled(0);
        assert_eq!(seen, [Open, Open, Open, Open, gone, gone, gone]);
    }
}

#[test]
fn a_target_outside_the_window_decides_nothing_before_its_end() {
    assert_eq!(run(2, 10, Some(20), &[(0, 1), (9, 2)]), [Open, Idle]);
    assert_eq!(run(9, 10, Some(20), &[(0, 1), (9, 2)]), [Open, Idle]);
    let then_inside = [(0, 1), (9, 2), (10, 2)];
    assert_eq!(run(2, 10, Some(20), &then_inside)[0], Fulfilled(3));
    assert_eq!(run(9, 10, Some(20), &then_inside)[0], Violated(3));
}

#[test]
fn alternate_response_ends_at_the_next_activation() {
    assert_eq!(run(3, 0, None, &[(0, 1), (0, 9)]), [Open, Idle]);
    assert_eq!(run(3, 0, None, &[(0, 1), (0, 1)]), [Violated(0), Open]);
    let last = [(0, 1), (0, 1), (0, 2)];
    assert_eq!(run(3, 0, None, &last), [Violated(0), Fulfilled(3), Idle]);
}

#[test]
fn an_activation_outside_the_window_ends_an_alternate_response_to_itself() {
    let rule = Rule::new(3, 1, 1, 5, None);
    let early = cycle(&[(0, 1), (4, 1)]);
    assert_eq!(standings(&rule, &early), [Violated(0), Open]);
    let inside = cycle(&[(0, 1), (5, 1)]);
    assert_eq!(standings(&rule, &inside), [Fulfilled(2), Open]);
}

#[test]
fn an_event_that_fails_the_activation_condition_keeps_alternate_response_open() {
    let rule = Rule::new(3, 1, 2, 0, None)
        .with_activation_condition(vec![Comparison::with_constant(1, Operator::NotEqual, 0)]);
    let first = Event::new(0, 1).with_reading(1, 5);
    let blank = Event::new(1, 1);
    let zero = Event::new(1, 1).with_reading(1, 0);
    assert_eq!(standings(&rule, &[first, blank]), [Open, Idle]);
    assert_eq!(standings(&rule, &[first, zero]), [Open, Idle]);
    assert_eq!(standings(&rule, &[first, first]), [Violated(0), Open]);
}

#[test]
fn chain_response_is_decided_by_the_next_event() {
    for (code, none, next) in [
        (4, Violated(0), Fulfilled(2)),
        (11, Fulfilled(0), Violated(2)),
    ] {
        assert_eq!(run(code, 0, Some(5), &[(0, 1)]), [Open]);
        assert_eq!(run(code, 0, Some(5), &[(0, 1), (0, 9)]), [none, Idle]);
        assert_eq!(run(code, 0, Some(5), &[(0, 1), (4, 2)]), [next, Idle]);
        assert_eq!(run(code, 0, Some(5), &[(0, 1), (5, 2)]), [none, Idle]);
    }
}

#[test]
fn at_the_largest_time_only_a_window_from_0_is_open() {
    for code in [1, 2, 3, 4] {
        assert_eq!(run(code, 0, None, &[(LAST, 1)]), [Open]);
        assert_eq!(run(code, 0, Some(1), &[(LAST, 1)]), [Open]);
        assert_eq!(run(code, 1, None, &[(LAST, 1)]), [Violated(0)]);
        assert_eq!(run(code, 1, Some(LAST), &[(LAST - 1, 1)]), [Open]);
    }
    for code in [8, 9, 11] {
        assert_eq!(run(code, 0, None, &[(LAST, 1)]), [Open]);
        assert_eq!(run(code, 1, None, &[(LAST, 1)]), [Fulfilled(0)]);
        assert_eq!(run(code, 2, None, &[(LAST - 1, 1)]), [Fulfilled(0)]);
    }
}

#[test]
fn a_comparison_of_each_reading_can_be_met_by_one_event() {
    let rule = Rule::new(2, 1, 2, 0, None).with_correlation(vec![
        Comparison::with_constant(1, Operator::Equal, 17),
        Comparison::with_activation(2, Operator::Greater, 1, -4),
        Comparison::with_constant(3, Operator::NotEqual, 0),
        Comparison::with_activation(4, Operator::LessOrEqual, 2, 9),
    ]);
    let activation = Event::new(0, 1)
        .with_reading(1, i32::MAX)
        .with_reading(2, i32::MIN);
    assert_eq!(standings(&rule, &[activation]), [Open]);
    // With reading 2 blank the last comparison is out of reach.
    let blank = Event::new(0, 1).with_reading(1, i32::MAX);
    assert_eq!(standings(&rule, &[blank]), [Violated(0)]);
}

#[test]
fn a_full_record_may_still_be_continued() {
    // "the continuation having no limit on length"
    let mut events = vec![Event::new(0, 9); 255];
    events.push(Event::new(0, 1));
    for code in [1, 2, 3, 4, 8, 9, 11] {
        let rule = Rule::new(code, 1, 2, 0, None);
        assert_eq!(standing_at_last(&rule, &events, 256), Open, "code {code}");
    }
}

#[test]
fn a_horizon_below_the_last_time_allows_no_earlier_event() {
    let rule = Rule::new(2, 1, 2, 0, Some(5));
    let events = cycle(&[(0, 1), (5, 9)]);
    for horizon in [0, 4, 5] {
        assert_eq!(standing(&rule, &events, horizon, 1), Violated(0));
    }
}
