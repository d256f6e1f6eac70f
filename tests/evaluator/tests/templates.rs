//! The twelve templates on small finished cycles, derived by hand from
//! document 01's "The twelve templates". A pair is a time and an activity.

use evaluator::Standing::{self, Fulfilled, Idle, Violated};
use evaluator::{eligible, verdict, verdicts, Comparison, Event, Operator, Rule};

fn cycle(pairs: &[(u32, u8)]) -> Vec<Event> {
    pairs.iter().map(|(t, x)| Event::new(*t, *x)).collect()
}

/// Activation 1, target 2, no conditions, window 0 to no end.
fn judge(code: u8, pairs: &[(u32, u8)]) -> Vec<Standing> {
    verdicts(&Rule::new(code, 1, 2, 0, None), &cycle(pairs))
}

/// The same with target 1.
fn judge_own(code: u8, pairs: &[(u32, u8)]) -> Vec<Standing> {
    verdicts(&Rule::new(code, 1, 1, 0, None), &cycle(pairs))
}

#[test]
fn code_1_responded_existence() {
    assert_eq!(judge(1, &[(0, 2), (5, 1)]), [Idle, Fulfilled(1)]);
    assert_eq!(judge(1, &[(0, 1), (5, 2)]), [Fulfilled(2), Idle]);
    assert_eq!(judge(1, &[(0, 1), (5, 9)]), [Violated(0), Idle]);
    let around = [(0, 9), (1, 2), (2, 1), (3, 2)];
    assert_eq!(judge(1, &around), [Idle, Idle, Fulfilled(2), Idle]);
    assert_eq!(judge_own(1, &[(0, 9), (3, 1)]), [Idle, Fulfilled(2)]);
    let twice = [(0, 1), (0, 1)];
    assert_eq!(judge_own(1, &twice), [Fulfilled(1), Fulfilled(2)]);
}

#[test]
fn code_2_response() {
    assert_eq!(judge(2, &[(0, 1), (5, 2)]), [Fulfilled(2), Idle]);
    assert_eq!(judge(2, &[(5, 1), (5, 2)]), [Fulfilled(2), Idle]);
    assert_eq!(judge(2, &[(0, 2), (5, 1)]), [Idle, Violated(0)]);
    // Positions decide, not times: a target before at the same time is before.
    assert_eq!(judge(2, &[(5, 2), (5, 1)]), [Idle, Violated(0)]);
    let two = [(0, 1), (1, 9), (2, 2), (3, 1), (4, 2)];
    let first_each = [Fulfilled(3), Idle, Idle, Fulfilled(5), Idle];
    assert_eq!(judge(2, &two), first_each);
    // An activation between does no harm.
    let between = [(0, 1), (1, 1), (2, 2)];
    assert_eq!(judge(2, &between), [Fulfilled(3), Fulfilled(3), Idle]);
    let own = [Fulfilled(1), Fulfilled(2)];
    assert_eq!(judge_own(2, &[(0, 1), (4, 1)]), own);
}

#[test]
fn code_3_alternate_response() {
    assert_eq!(judge(3, &[(0, 1), (5, 2)]), [Fulfilled(2), Idle]);
    assert_eq!(judge(3, &[(0, 2), (5, 1)]), [Idle, Violated(0)]);
    let between = [(0, 1), (1, 1), (2, 2)];
    assert_eq!(judge(3, &between), [Violated(0), Fulfilled(3), Idle]);
    let harmless = [(0, 1), (1, 9), (2, 2), (3, 2), (4, 1)];
    let expected = [Fulfilled(3), Idle, Idle, Idle, Violated(0)];
    assert_eq!(judge(3, &harmless), expected);
    // j > i: an activation is no target of itself; the next one may be.
    assert_eq!(judge_own(3, &[(0, 1)]), [Violated(0)]);
    let chain = [(0, 1), (0, 1), (0, 1)];
    let expected = [Fulfilled(2), Fulfilled(3), Violated(0)];
    assert_eq!(judge_own(3, &chain), expected);
}

#[test]
fn code_4_chain_response() {
    assert_eq!(judge(4, &[(0, 1), (5, 2)]), [Fulfilled(2), Idle]);
    assert_eq!(judge(4, &[(0, 1), (5, 2), (6, 2)])[0], Fulfilled(2));
    let gap = [(0, 1), (1, 9), (5, 2)];
    assert_eq!(judge(4, &gap), [Violated(0), Idle, Idle]);
    assert_eq!(judge(4, &[(0, 2), (5, 1)]), [Idle, Violated(0)]);
    let own = [Fulfilled(2), Violated(0)];
    assert_eq!(judge_own(4, &[(0, 1), (5, 1)]), own);
}

#[test]
fn code_5_precedence() {
    assert_eq!(judge(5, &[(0, 2), (5, 1)]), [Idle, Fulfilled(1)]);
    assert_eq!(judge(5, &[(0, 1), (5, 2)]), [Violated(0), Idle]);
    assert_eq!(judge(5, &[(5, 1), (5, 2)]), [Violated(0), Idle]);
    let two = [(0, 9), (1, 2), (2, 2), (3, 1), (4, 1)];
    let latest = [Idle, Idle, Idle, Fulfilled(3), Fulfilled(3)];
    assert_eq!(judge(5, &two), latest);
    let own = [Fulfilled(1), Fulfilled(2)];
    assert_eq!(judge_own(5, &[(0, 1), (4, 1)]), own);
}

#[test]
fn code_6_alternate_precedence() {
    assert_eq!(judge(6, &[(0, 2), (5, 1)]), [Idle, Fulfilled(1)]);
    assert_eq!(judge(6, &[(0, 1), (5, 2)]), [Violated(0), Idle]);
    let between = [(0, 2), (1, 1), (2, 1)];
    assert_eq!(judge(6, &between), [Idle, Fulfilled(1), Violated(0)]);
    // Of the targets after the activation at 2, the latest is named.
    let later = [(0, 2), (1, 1), (2, 2), (3, 2), (4, 9), (5, 1)];
    let expected = [Idle, Fulfilled(1), Idle, Idle, Idle, Fulfilled(4)];
    assert_eq!(judge(6, &later), expected);
    // j < i: an activation is no target of itself; the one before may be.
    assert_eq!(judge_own(6, &[(0, 1)]), [Violated(0)]);
    let chain = [(0, 1), (0, 1), (0, 1)];
    let expected = [Violated(0), Fulfilled(1), Fulfilled(2)];
    assert_eq!(judge_own(6, &chain), expected);
}

#[test]
fn code_7_chain_precedence() {
    assert_eq!(judge(7, &[(0, 2), (5, 1)]), [Idle, Fulfilled(1)]);
    let nearest = [(0, 2), (1, 2), (5, 1)];
    assert_eq!(judge(7, &nearest), [Idle, Idle, Fulfilled(2)]);
    let gap = [(0, 2), (1, 9), (5, 1)];
    assert_eq!(judge(7, &gap), [Idle, Idle, Violated(0)]);
    assert_eq!(judge(7, &[(0, 1), (5, 2)]), [Violated(0), Idle]);
    let own = [Violated(0), Fulfilled(1)];
    assert_eq!(judge_own(7, &[(0, 1), (5, 1)]), own);
}

#[test]
fn code_8_not_responded_existence() {
    assert_eq!(judge(8, &[(0, 1), (5, 9)]), [Fulfilled(0), Idle]);
    assert_eq!(judge(8, &[(0, 1), (5, 2)]), [Violated(2), Idle]);
    assert_eq!(judge(8, &[(0, 2), (5, 1)]), [Idle, Violated(1)]);
    let around = [(0, 9), (1, 2), (2, 1), (3, 2)];
    assert_eq!(judge(8, &around), [Idle, Idle, Violated(2), Idle]);
    let own = [Idle, Violated(2)];
    assert_eq!(judge_own(8, &[(0, 9), (3, 1)]), own);
}

#[test]
fn code_9_not_response() {
    assert_eq!(judge(9, &[(0, 2), (5, 1)]), [Idle, Fulfilled(0)]);
    let after = [(0, 1), (1, 9), (5, 2), (6, 2)];
    assert_eq!(judge(9, &after), [Violated(3), Idle, Idle, Idle]);
    let own = [Violated(1), Violated(2)];
    assert_eq!(judge_own(9, &[(0, 1), (4, 1)]), own);
}

#[test]
fn code_10_not_precedence() {
    assert_eq!(judge(10, &[(0, 1), (5, 2)]), [Fulfilled(0), Idle]);
    let before = [(0, 9), (1, 2), (2, 9), (3, 1)];
    assert_eq!(judge(10, &before), [Idle, Idle, Idle, Violated(2)]);
    let own = [Violated(1), Violated(2)];
    assert_eq!(judge_own(10, &[(0, 1), (4, 1)]), own);
}

#[test]
fn code_11_not_chain_response() {
    let gap = [(0, 1), (1, 9), (5, 2)];
    assert_eq!(judge(11, &gap), [Fulfilled(0), Idle, Idle]);
    assert_eq!(judge(11, &[(0, 2), (5, 1)]), [Idle, Fulfilled(0)]);
    assert_eq!(judge(11, &[(0, 1), (5, 2)]), [Violated(2), Idle]);
    let own = [Violated(2), Fulfilled(0)];
    assert_eq!(judge_own(11, &[(0, 1), (5, 1)]), own);
}

#[test]
fn code_12_not_chain_precedence() {
    let gap = [(0, 2), (1, 9), (5, 1)];
    assert_eq!(judge(12, &gap), [Idle, Idle, Fulfilled(0)]);
    assert_eq!(judge(12, &[(0, 1), (5, 2)]), [Fulfilled(0), Idle]);
    assert_eq!(judge(12, &[(0, 2), (5, 1)]), [Idle, Violated(1)]);
    let own = [Fulfilled(0), Violated(1)];
    assert_eq!(judge_own(12, &[(0, 1), (5, 1)]), own);
}

#[test]
fn an_activation_suits_itself_only_in_a_window_from_0() {
    let events = cycle(&[(7, 1)]);
    let cases = [
        (1, Fulfilled(1), Violated(0)),
        (2, Fulfilled(1), Violated(0)),
        (5, Fulfilled(1), Violated(0)),
        (8, Violated(1), Fulfilled(0)),
        (9, Violated(1), Fulfilled(0)),
        (10, Violated(1), Fulfilled(0)),
    ];
    for (code, from_0, from_1) in cases {
        let rule = Rule::new(code, 1, 1, 0, Some(1));
        assert_eq!(verdicts(&rule, &events), [from_0], "code {code}");
        let rule = Rule::new(code, 1, 1, 1, None);
        assert_eq!(verdicts(&rule, &events), [from_1], "code {code}");
    }
}

#[test]
fn an_activation_suits_itself_only_if_it_meets_the_correlation() {
    let below_itself = vec![Comparison::with_activation(1, Operator::Less, 2, 0)];
    let rule = Rule::new(2, 1, 1, 0, None).with_correlation(below_itself);
    let event = Event::new(0, 1).with_reading(1, 4);
    assert_eq!(verdicts(&rule, &[event.with_reading(2, 5)]), [Fulfilled(1)]);
    assert_eq!(verdicts(&rule, &[event.with_reading(2, 4)]), [Violated(0)]);
}

/// Whether an event beside the activation is inside the window 10 to 20, by
/// its time difference.
const DIFFERENCES: [(u32, bool); 6] = [
    (0, false),
    (9, false),
    (10, true),
    (19, true),
    (20, false),
    (30, false),
];

#[test]
fn target_before_the_activation_at_the_ends_of_the_window() {
    for (difference, inside) in DIFFERENCES {
        let events = cycle(&[(100 - difference, 2), (100, 1)]);
        for code in [1, 5, 6, 7] {
            let rule = Rule::new(code, 1, 2, 10, Some(20));
            let expected = if inside { Fulfilled(1) } else { Violated(0) };
            assert_eq!(verdict(&rule, &events, 2), expected, "{rule:?}");
        }
        for code in [8, 10, 12] {
            let rule = Rule::new(code, 1, 2, 10, Some(20));
            let expected = if inside { Violated(1) } else { Fulfilled(0) };
            assert_eq!(verdict(&rule, &events, 2), expected, "{rule:?}");
        }
    }
}

#[test]
fn target_after_the_activation_at_the_ends_of_the_window() {
    for (difference, inside) in DIFFERENCES {
        let events = cycle(&[(100, 1), (100 + difference, 2)]);
        for code in [1, 2, 3, 4] {
            let rule = Rule::new(code, 1, 2, 10, Some(20));
            let expected = if inside { Fulfilled(2) } else { Violated(0) };
            assert_eq!(verdict(&rule, &events, 1), expected, "{rule:?}");
        }
        for code in [8, 9, 11] {
            let rule = Rule::new(code, 1, 2, 10, Some(20));
            let expected = if inside { Violated(2) } else { Fulfilled(0) };
            assert_eq!(verdict(&rule, &events, 1), expected, "{rule:?}");
        }
    }
}

#[test]
fn windows_at_the_largest_time() {
    let events = cycle(&[(0, 2), (1, 2), (4_294_967_295, 1)]);
    let last = |a, b| verdict(&Rule::new(5, 1, 2, a, b), &events, 3);
    assert_eq!(last(4_294_967_295, None), Fulfilled(1));
    assert_eq!(last(0, Some(4_294_967_295)), Fulfilled(2));
    assert_eq!(last(4_294_967_294, Some(4_294_967_295)), Fulfilled(2));
    assert_eq!(last(1, Some(4_294_967_294)), Violated(0));
}

#[test]
fn alternate_windows_run_from_the_activation() {
    // From the neighbouring event the differences would be 70 each.
    let after = cycle(&[(0, 1), (80, 9), (150, 2)]);
    let rule = Rule::new(3, 1, 2, 150, Some(151));
    assert_eq!(verdict(&rule, &after, 1), Fulfilled(3));
    let rule = Rule::new(3, 1, 2, 70, Some(71));
    assert_eq!(verdict(&rule, &after, 1), Violated(0));
    let before = cycle(&[(0, 2), (70, 9), (150, 1)]);
    let rule = Rule::new(6, 1, 2, 150, Some(151));
    assert_eq!(verdict(&rule, &before, 3), Fulfilled(1));
    let rule = Rule::new(6, 1, 2, 70, Some(71));
    assert_eq!(verdict(&rule, &before, 3), Violated(0));
}

#[test]
fn an_event_that_fails_the_activation_condition_does_not_stand_between() {
    let condition = vec![Comparison::with_constant(1, Operator::Greater, 0)];
    let activation = |time| Event::new(time, 1).with_reading(1, 1);
    let other = Event::new(1, 1).with_reading(1, 0);
    let response = Rule::new(3, 1, 2, 0, None).with_activation_condition(condition.clone());
    let events = [activation(0), other, Event::new(2, 2)];
    assert_eq!(verdicts(&response, &events), [Fulfilled(3), Idle, Idle]);
    let precedence = Rule::new(6, 1, 2, 0, None).with_activation_condition(condition);
    let events = [Event::new(0, 2), other, activation(2)];
    assert_eq!(verdicts(&precedence, &events), [Idle, Idle, Fulfilled(1)]);
}

#[test]
fn an_event_that_does_not_suit_is_passed_over() {
    let same = vec![Comparison::with_activation(1, Operator::Equal, 1, 0)];
    let events = [
        Event::new(0, 1).with_reading(1, 3),
        Event::new(1, 2).with_reading(1, 4),
        Event::new(2, 2).with_reading(1, 3),
        Event::new(3, 1).with_reading(1, 4),
    ];
    let judge = |code, position| {
        let rule = Rule::new(code, 1, 2, 0, None).with_correlation(same.clone());
        verdict(&rule, &events, position)
    };
    assert_eq!(judge(2, 1), Fulfilled(3));
    assert_eq!(judge(3, 1), Fulfilled(3));
    assert_eq!(judge(4, 1), Violated(0));
    assert_eq!(judge(5, 4), Fulfilled(2));
    assert_eq!(judge(6, 4), Fulfilled(2));
    assert_eq!(judge(7, 4), Violated(0));
    assert_eq!(judge(8, 1), Violated(3));
    assert_eq!(judge(8, 4), Violated(2));
}

#[test]
fn the_eligible_positions_themselves() {
    let events = cycle(&[(0, 2), (1, 1), (2, 2), (3, 1), (4, 2), (5, 1), (6, 2)]);
    let positions = |code| {
        let set = eligible(&Rule::new(code, 1, 2, 0, None), &events, 4);
        set.into_iter().collect::<Vec<_>>()
    };
    assert_eq!(positions(1), [1, 3, 5, 7]);
    assert_eq!(positions(2), [5, 7]);
    assert_eq!(positions(3), [5]);
    assert_eq!(positions(4), [5]);
    assert_eq!(positions(5), [1, 3]);
    assert_eq!(positions(6), [3]);
    assert_eq!(positions(7), [3]);
}
