//! The target named where several positions are eligible, derived by hand from
//! "the latest eligible position at or before the activation; failing that, the
//! first after it". A pair is a time and an activity.

use evaluator::Standing::{self, Fulfilled, Open, Violated};
use evaluator::{grown, standing_at_last, verdict, Comparison, Event, Operator, Rule};

fn cycle(pairs: &[(u32, u8)]) -> Vec<Event> {
    pairs.iter().map(|(t, x)| Event::new(*t, *x)).collect()
}

/// Activation 1, target 2, no conditions, window 0 to no end.
fn plain(code: u8) -> Rule {
    Rule::new(code, 1, 2, 0, None)
}

/// The standing at a position after each take from that of its event on, and
/// at the end after close. The calls on a run say the same.
fn course(rule: &Rule, events: &[Event], position: usize) -> Vec<Standing> {
    let live = (position..=events.len()).map(|taken| &events[..taken]);
    let mut course: Vec<Standing> = live
        .map(|taken| standing_at_last(rule, taken, position))
        .collect();
    course.push(verdict(rule, events, position));
    assert_eq!(called(rule, events, position), course, "{rule:?}");
    course
}

/// The same by start, take, close and standing.
fn called(rule: &Rule, events: &[Event], position: usize) -> Vec<Standing> {
    let rules = std::slice::from_ref(rule);
    let asked = |run: &evaluator::Record| run.standing(1, position as u64).expect("a standing");
    let live = (position..=events.len()).map(|taken| asked(&grown(rules, &events[..taken])));
    let (closed, answer) = grown(rules, events).close();
    assert_eq!(answer, Ok(()));
    live.chain([asked(&closed)]).collect()
}

#[test]
fn the_latest_before_goes_before_the_earliest_and_before_those_after() {
    let events = cycle(&[(0, 2), (10, 2), (20, 9), (30, 1), (31, 2)]);
    assert_eq!(course(&plain(1), &events, 4), [Fulfilled(2); 3]);
    assert_eq!(course(&plain(8), &events, 4), [Violated(2); 3]);
}

#[test]
fn the_first_after_is_named_if_none_is_before() {
    let events = cycle(&[(0, 9), (10, 1), (20, 9), (30, 2), (40, 2)]);
    let named = Fulfilled(4);
    assert_eq!(
        course(&plain(1), &events, 2),
        [Open, Open, named, named, named]
    );
    let named = Violated(4);
    assert_eq!(
        course(&plain(8), &events, 2),
        [Open, Open, named, named, named]
    );
}

#[test]
fn precedence_names_the_later_of_two_before() {
    let events = cycle(&[(0, 2), (10, 2), (20, 9), (30, 1), (40, 2)]);
    assert_eq!(course(&plain(5), &events, 4), [Fulfilled(2); 3]);
    assert_eq!(course(&plain(10), &events, 4), [Violated(2); 3]);
}

#[test]
fn alternate_precedence_names_the_later_of_two_between_two_activations() {
    let events = cycle(&[(0, 2), (1, 1), (2, 2), (3, 2), (4, 9), (5, 1), (6, 2)]);
    assert_eq!(course(&plain(6), &events, 6), [Fulfilled(4); 3]);
    // For the activation at 2 there is the one before it alone.
    assert_eq!(course(&plain(6), &events, 2), [Fulfilled(1); 7]);
}

#[test]
fn response_names_the_first_of_two_after() {
    let events = cycle(&[(0, 2), (10, 1), (20, 9), (30, 2), (40, 2)]);
    for (code, named) in [(2, Fulfilled(4)), (3, Fulfilled(4)), (9, Violated(4))] {
        let expected = [Open, Open, named, named, named];
        assert_eq!(course(&plain(code), &events, 2), expected, "code {code}");
    }
}

#[test]
fn the_chain_templates_name_the_neighbour() {
    let events = cycle(&[(0, 2), (10, 2), (20, 1), (30, 2), (40, 2)]);
    for (code, named) in [(4, Fulfilled(4)), (11, Violated(4))] {
        let expected = [Open, named, named, named];
        assert_eq!(course(&plain(code), &events, 3), expected, "code {code}");
    }
    for (code, named) in [(7, Fulfilled(2)), (12, Violated(2))] {
        assert_eq!(course(&plain(code), &events, 3), [named; 4], "code {code}");
    }
}

#[test]
fn an_eligible_activation_is_its_own_target() {
    let events = cycle(&[(0, 1), (10, 1), (20, 1), (30, 1)]);
    for code in [1, 2, 5, 8, 9, 10] {
        let named = match code {
            1 | 2 | 5 => Fulfilled(2),
            _ => Violated(2),
        };
        let rule = Rule::new(code, 1, 1, 0, None);
        assert_eq!(course(&rule, &events, 2), [named; 4], "code {code}");
    }
}

#[test]
fn a_window_from_1_leaves_out_the_activation_and_what_has_its_time() {
    let events = cycle(&[(0, 1), (4, 1), (5, 1), (5, 1), (5, 1), (6, 1)]);
    for (code, named) in [(1, Fulfilled(2)), (5, Fulfilled(2)), (8, Violated(2))] {
        let rule = Rule::new(code, 1, 1, 1, None);
        assert_eq!(course(&rule, &events, 4), [named; 4], "code {code}");
    }
    let response = Rule::new(2, 1, 1, 1, None);
    let expected = [Open, Open, Fulfilled(6), Fulfilled(6)];
    assert_eq!(course(&response, &events, 4), expected);
}

/// From the activation at 5 the times differ by 40, 30, 20, 10 before it and by
/// 10, 20, 35, 40 after it.
#[test]
fn a_narrow_window_leaves_out_the_nearest_on_both_sides() {
    let before = [(0, 2), (10, 2), (20, 2), (30, 2), (40, 1)];
    let after = [(50, 2), (60, 2), (75, 2), (80, 2)];
    let events = cycle(&[&before[..], &after[..]].concat());
    let narrow = |code| Rule::new(code, 1, 2, 20, Some(40));
    for (code, named) in [(1, Fulfilled(3)), (5, Fulfilled(3)), (6, Fulfilled(3))] {
        assert_eq!(course(&narrow(code), &events, 5), [named; 6], "code {code}");
    }
    for (code, named) in [(8, Violated(3)), (10, Violated(3))] {
        assert_eq!(course(&narrow(code), &events, 5), [named; 6], "code {code}");
    }
    for (code, named) in [(2, Fulfilled(7)), (3, Fulfilled(7)), (9, Violated(7))] {
        let expected = [Open, Open, named, named, named, named];
        assert_eq!(course(&narrow(code), &events, 5), expected, "code {code}");
    }
}

/// Of the events before the activation at 3 none is as much as 20 away.
#[test]
fn a_narrow_window_may_leave_out_all_before() {
    let events = cycle(&[(25, 2), (30, 2), (40, 1), (50, 2), (60, 2), (70, 2)]);
    for (code, named) in [(1, Fulfilled(5)), (8, Violated(5))] {
        let rule = Rule::new(code, 1, 2, 20, Some(40));
        let expected = [Open, Open, named, named, named];
        assert_eq!(course(&rule, &events, 3), expected, "code {code}");
    }
}

#[test]
fn a_correlation_may_leave_out_the_nearest() {
    let same = vec![Comparison::with_activation(1, Operator::Equal, 1, 0)];
    let readings = [(2, 7), (2, 7), (2, 8), (1, 7), (2, 8), (2, 7), (2, 7)];
    let events = readings.map(|(activity, value)| Event::new(0, activity).with_reading(1, value));
    for (code, named) in [(1, Fulfilled(2)), (5, Fulfilled(2)), (8, Violated(2))] {
        let rule = plain(code).with_correlation(same.clone());
        assert_eq!(course(&rule, &events, 4), [named; 5], "code {code}");
    }
    for (code, named) in [(2, Fulfilled(6)), (3, Fulfilled(6)), (9, Violated(6))] {
        let rule = plain(code).with_correlation(same.clone());
        let expected = [Open, Open, named, named, named];
        assert_eq!(course(&rule, &events, 4), expected, "code {code}");
    }
}
