//! Edge cycles C1 to C10 of document 01. "Unless said, activation 1, target 2,
//! no conditions, window 0 to no end, one event, not closed." Where closing
//! says something more, the closed verdict is tested too.

use evaluator::Operator::{Equal, Less};
use evaluator::Standing::{Fulfilled, Idle, Open, Violated};
use evaluator::{standing, standings, verdicts, Comparison, Event, Rule};

fn plain(code: u8) -> Rule {
    Rule::new(code, 1, 2, 0, None)
}

#[test]
fn c1_target_at_499_fulfils_and_at_500_violates() {
    let rule = Rule::new(2, 1, 2, 0, Some(500));
    let inside = [Event::new(0, 1), Event::new(499, 2)];
    assert_eq!(standings(&rule, &inside), [Fulfilled(2), Idle]);
    assert_eq!(verdicts(&rule, &inside), [Fulfilled(2), Idle]);
    let outside = [Event::new(0, 1), Event::new(500, 2)];
    assert_eq!(standings(&rule, &outside), [Violated(0), Idle]);
    assert_eq!(verdicts(&rule, &outside), [Violated(0), Idle]);
}

#[test]
fn c2_no_target_is_open_at_499_and_violated_at_500() {
    let rule = Rule::new(2, 1, 2, 0, Some(500));
    let inside = [Event::new(0, 1), Event::new(499, 9)];
    assert_eq!(standings(&rule, &inside), [Open, Idle]);
    assert_eq!(verdicts(&rule, &inside), [Violated(0), Idle]);
    let outside = [Event::new(0, 1), Event::new(500, 9)];
    assert_eq!(standings(&rule, &outside), [Violated(0), Idle]);
}

#[test]
fn c2_with_a_horizon_in_place_of_the_last_event() {
    let rule = Rule::new(2, 1, 2, 0, Some(500));
    let events = [Event::new(0, 1)];
    assert_eq!(standing(&rule, &events, 499, 1), Open);
    assert_eq!(standing(&rule, &events, 500, 1), Violated(0));
}

#[test]
fn c3_window_from_the_largest_time() {
    let rule = Rule::new(2, 1, 2, 4_294_967_295, None);
    assert_eq!(standings(&rule, &[Event::new(0, 1)]), [Open]);
    assert_eq!(standings(&rule, &[Event::new(1, 1)]), [Violated(0)]);
}

#[test]
fn c4_reading_below_the_least_is_out_of_reach() {
    let rule = plain(2).with_correlation(vec![Comparison::with_activation(1, Less, 1, 0)]);
    let least = [Event::new(0, 1).with_reading(1, -2_147_483_648)];
    assert_eq!(standings(&rule, &least), [Violated(0)]);
    let next = [Event::new(0, 1).with_reading(1, -2_147_483_647)];
    assert_eq!(standings(&rule, &next), [Open]);
}

#[test]
fn c5_blank_reading_in_not_response() {
    let rule = plain(9).with_correlation(vec![Comparison::with_activation(1, Equal, 1, 0)]);
    let events = [Event::new(0, 1)];
    assert_eq!(standings(&rule, &events), [Fulfilled(0)]);
    assert_eq!(verdicts(&rule, &events), [Fulfilled(0)]);
}

#[test]
fn c6_response_fulfilled_by_itself() {
    let rule = Rule::new(2, 1, 1, 0, None);
    let events = [Event::new(0, 1)];
    assert_eq!(standings(&rule, &events), [Fulfilled(1)]);
    assert_eq!(verdicts(&rule, &events), [Fulfilled(1)]);
}

#[test]
fn c7_alternate_response_by_the_next_activation() {
    let rule = Rule::new(3, 1, 1, 0, None);
    for time in [0, 1, 4_294_967_295] {
        let events = [Event::new(0, 1), Event::new(time, 1)];
        assert_eq!(standings(&rule, &events), [Fulfilled(2), Open]);
        assert_eq!(verdicts(&rule, &events), [Fulfilled(2), Violated(0)]);
    }
}

#[test]
fn c8_window_runs_from_the_activation() {
    let rule = Rule::new(3, 1, 2, 0, Some(100));
    let events = [Event::new(0, 1), Event::new(80, 9), Event::new(150, 2)];
    assert_eq!(standings(&rule, &events), [Violated(0), Idle, Idle]);
    assert_eq!(verdicts(&rule, &events), [Violated(0), Idle, Idle]);
}

#[test]
fn c9_chain_precedence_at_position_1() {
    let events = [Event::new(0, 1)];
    assert_eq!(standings(&plain(7), &events), [Violated(0)]);
    assert_eq!(verdicts(&plain(7), &events), [Violated(0)]);
    assert_eq!(standings(&plain(12), &events), [Fulfilled(0)]);
    assert_eq!(verdicts(&plain(12), &events), [Fulfilled(0)]);
}

#[test]
fn c10_sum_above_the_range_is_out_of_reach() {
    let rule = plain(2).with_correlation(vec![Comparison::with_activation(1, Equal, 1, 1)]);
    let largest = [Event::new(0, 1).with_reading(1, 2_147_483_647)];
    assert_eq!(standings(&rule, &largest), [Violated(0)]);
    // A sum that wraps would name −2147483648, and this target would fulfil.
    let mut events = largest.to_vec();
    events.push(Event::new(0, 2).with_reading(1, -2_147_483_648));
    assert_eq!(verdicts(&rule, &events), [Violated(0), Idle]);
}
