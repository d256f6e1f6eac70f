//! The rules about the cycle as such on small cycles, derived by hand from card 3
//! of document 02 and Table 2 of document 001: finished verdicts, and standings
//! while the cycle runs. A pair is a time and an activity.

use evaluator::Operator::{Greater, GreaterOrEqual, Less, NotEqual};
use evaluator::Standing::{self, Fulfilled, Idle, Open, Violated};
use evaluator::{fitting, is_activation, standing, standing_at_last, standings};
use evaluator::{verdict, verdicts, Comparison, Event, Rule};

const LAST: u32 = 4_294_967_295;

fn cycle(pairs: &[(u32, u8)]) -> Vec<Event> {
    pairs.iter().map(|(t, x)| Event::new(*t, *x)).collect()
}

/// Activities 1 and 2, no condition.
fn rule(code: u8, a: u32, b: Option<u32>) -> Rule {
    Rule::new(code, 1, 2, a, b)
}

/// The verdict at position 0, window 0 to no end.
fn judge(code: u8, pairs: &[(u32, u8)]) -> Standing {
    verdict(&rule(code, 0, None), &cycle(pairs), 0)
}

/// The standing at position 0 while the cycle runs, from no events on.
fn course(rule: &Rule, events: &[Event]) -> Vec<Standing> {
    (0..=events.len())
        .map(|taken| standing_at_last(rule, &events[..taken], 0))
        .collect()
}

fn met_by(operator: evaluator::Operator, k: i32) -> Vec<Comparison> {
    vec![Comparison::with_constant(1, operator, k)]
}

#[test]
fn code_13_existence() {
    assert_eq!(judge(13, &[(0, 1)]), Fulfilled(1));
    assert_eq!(judge(13, &[(0, 9), (5, 1), (7, 1)]), Fulfilled(2));
    assert_eq!(judge(13, &[(0, 9), (5, 9)]), Violated(0));
    // The target activity is not judged.
    assert_eq!(judge(13, &[(0, 2), (5, 2)]), Violated(0));
    assert_eq!(judge(13, &[(0, 2), (5, 1)]), Fulfilled(2));
}

#[test]
fn code_14_absence() {
    assert_eq!(judge(14, &[(0, 1)]), Violated(1));
    assert_eq!(judge(14, &[(0, 9), (5, 1), (7, 1)]), Violated(2));
    assert_eq!(judge(14, &[(0, 9), (5, 9)]), Fulfilled(0));
    assert_eq!(judge(14, &[(0, 2), (5, 2)]), Fulfilled(0));
    assert_eq!(judge(14, &[(0, 2), (5, 1)]), Violated(2));
}

#[test]
fn code_15_choice() {
    assert_eq!(judge(15, &[(0, 1)]), Fulfilled(1));
    assert_eq!(judge(15, &[(0, 9), (5, 2)]), Fulfilled(2));
    assert_eq!(judge(15, &[(0, 9), (5, 2), (6, 1)]), Fulfilled(2));
    assert_eq!(judge(15, &[(0, 9), (5, 1), (6, 2)]), Fulfilled(2));
    assert_eq!(judge(15, &[(0, 9), (5, 3)]), Violated(0));
}

#[test]
fn code_16_exclusive_choice() {
    assert_eq!(judge(16, &[(0, 1)]), Fulfilled(1));
    assert_eq!(judge(16, &[(0, 9), (5, 2), (6, 2)]), Fulfilled(2));
    // Both: violated, and the earliest of either is named.
    assert_eq!(judge(16, &[(0, 9), (5, 2), (6, 1)]), Violated(2));
    assert_eq!(judge(16, &[(0, 9), (5, 1), (6, 1), (7, 2)]), Violated(2));
    assert_eq!(judge(16, &[(0, 9), (5, 3)]), Violated(0));
}

/// "On an empty closed cycle 14 is fulfilled, the others violated."
#[test]
fn an_empty_cycle() {
    let windows = [(0, None), (0, Some(1)), (5, Some(9)), (LAST, None)];
    for (a, b) in windows {
        let found = [13, 14, 15, 16].map(|code| verdict(&rule(code, a, b), &[], 0));
        let none = Violated(0);
        assert_eq!(found, [none, Fulfilled(0), none, none]);
    }
}

/// "The window runs from the time of the first event": a is inside, b outside.
#[test]
fn the_window_runs_from_the_first_event() {
    for first in [0, 100, LAST - 30] {
        let at = |code, after: u32| {
            let events = cycle(&[(first, 9), (first + 3, 9), (first + after, 1)]);
            verdict(&rule(code, 10, Some(20)), &events, 0)
        };
        assert_eq!([9, 10, 19, 20].map(|after| at(13, after)), INSIDE);
        let choice = [9, 10, 19, 20].map(|after| at(15, after));
        assert_eq!(choice, INSIDE);
        let exclusive = [9, 10, 19, 20].map(|after| at(16, after));
        assert_eq!(exclusive, INSIDE);
        let absence = [9, 10, 19, 20].map(|after| at(14, after));
        let outside = Fulfilled(0);
        assert_eq!(absence, [outside, Violated(3), Violated(3), outside]);
    }
}

const INSIDE: [Standing; 4] = [Violated(0), Fulfilled(3), Fulfilled(3), Violated(0)];

#[test]
fn the_first_event_itself_fits_only_a_window_from_0() {
    let events = cycle(&[(50, 1), (50, 1), (51, 1)]);
    assert_eq!(verdict(&rule(13, 0, Some(1)), &events, 0), Fulfilled(1));
    assert_eq!(verdict(&rule(13, 1, None), &events, 0), Fulfilled(3));
    assert_eq!(verdict(&rule(14, 1, None), &events, 0), Violated(3));
    assert_eq!(verdict(&rule(13, 50, None), &events, 0), Violated(0));
    // Of two activities one may be inside the window and the other not.
    let both = cycle(&[(50, 2), (60, 1), (70, 9)]);
    assert_eq!(verdict(&rule(16, 0, None), &both, 0), Violated(1));
    assert_eq!(verdict(&rule(16, 10, None), &both, 0), Fulfilled(2));
    assert_eq!(verdict(&rule(16, 0, Some(10)), &both, 0), Fulfilled(1));
    assert_eq!(verdict(&rule(16, 11, None), &both, 0), Violated(0));
}

#[test]
fn windows_at_the_ends_of_the_range() {
    let late = rule(13, LAST, None);
    assert_eq!(
        verdict(&late, &cycle(&[(0, 9), (LAST, 1)]), 0),
        Fulfilled(2)
    );
    assert_eq!(verdict(&late, &cycle(&[(1, 9), (LAST, 1)]), 0), Violated(0));
    let long = rule(13, 0, Some(LAST));
    assert_eq!(verdict(&long, &cycle(&[(0, 9), (LAST, 1)]), 0), Violated(0));
    assert_eq!(
        verdict(&long, &cycle(&[(1, 9), (LAST, 1)]), 0),
        Fulfilled(2)
    );
}

/// "The activation condition applies to both activities".
#[test]
fn the_condition_is_for_both_activities() {
    let read = |pairs: [(u8, i32); 3]| {
        let events = pairs.map(|(activity, value)| Event::new(0, activity).with_reading(1, value));
        [15, 16].map(|code| {
            let rule = rule(code, 0, None).with_activation_condition(met_by(GreaterOrEqual, 5));
            verdict(&rule, &events, 0)
        })
    };
    assert_eq!(read([(1, 4), (2, 4), (9, 5)]), [Violated(0); 2]);
    assert_eq!(read([(1, 4), (2, 5), (2, 6)]), [Fulfilled(2); 2]);
    assert_eq!(read([(2, 4), (9, 5), (1, 5)]), [Fulfilled(3); 2]);
    let both = [Fulfilled(2), Violated(2)];
    assert_eq!(read([(1, 4), (1, 5), (2, 5)]), both);
    // A blank meets no comparison.
    let blank = rule(13, 0, None).with_activation_condition(met_by(NotEqual, 5));
    assert_eq!(verdict(&blank, &cycle(&[(0, 1)]), 0), Violated(0));
}

#[test]
fn events_are_no_activations_of_these_rules() {
    let events = cycle(&[(0, 1), (1, 2), (2, 1)]);
    for code in [13, 14, 15, 16] {
        let rule = rule(code, 0, None);
        assert!(events.iter().all(|event| !is_activation(&rule, event)));
        assert_eq!(verdicts(&rule, &events), [Idle; 3]);
        assert_eq!(standings(&rule, &events), [Idle; 3]);
    }
    assert_eq!(Vec::from_iter(fitting(&rule(14, 0, None), &events)), [1, 3]);
    let either = fitting(&rule(16, 1, None), &events);
    assert_eq!(Vec::from_iter(either), [2, 3]);
}

#[test]
fn existence_and_absence_are_open_until_one_comes_or_the_window_is_over() {
    let events = cycle(&[(100, 9), (104, 1), (105, 1), (106, 1)]);
    let named = Fulfilled(3);
    let expected = [Open, Open, Open, named, named];
    assert_eq!(course(&rule(13, 5, Some(10)), &events), expected);
    let named = Violated(3);
    let expected = [Open, Open, Open, named, named];
    assert_eq!(course(&rule(14, 5, Some(10)), &events), expected);
    let late = cycle(&[(100, 9), (109, 9), (110, 1)]);
    let expected = [Open, Open, Open, Violated(0)];
    assert_eq!(course(&rule(13, 5, Some(10)), &late), expected);
    let expected = [Open, Open, Open, Fulfilled(0)];
    assert_eq!(course(&rule(14, 5, Some(10)), &late), expected);
    // A window without end is over with the range of times alone.
    let last = cycle(&[(0, 9), (LAST, 9)]);
    assert_eq!(course(&rule(13, 0, None), &last), [Open; 3]);
    assert_eq!(course(&rule(14, LAST, None), &last), [Open; 3]);
}

#[test]
fn choice_is_decided_by_the_first_of_either() {
    let events = cycle(&[(0, 9), (1, 2), (2, 1)]);
    let named = Fulfilled(2);
    assert_eq!(
        course(&rule(15, 0, None), &events),
        [Open, Open, named, named]
    );
    let none = cycle(&[(0, 9), (4, 9), (5, 2)]);
    let expected = [Open, Open, Open, Violated(0)];
    assert_eq!(course(&rule(15, 0, Some(5)), &none), expected);
}

/// One side seen: open while the other may come, then fulfilled by the one seen.
#[test]
fn exclusive_choice_waits_for_the_other() {
    let short = rule(16, 0, Some(10));
    let one = cycle(&[(0, 9), (3, 2), (9, 2), (10, 9)]);
    let expected = [Open, Open, Open, Open, Fulfilled(2)];
    assert_eq!(course(&short, &one), expected);
    let both = cycle(&[(0, 9), (3, 2), (9, 1), (9, 9)]);
    let expected = [Open, Open, Open, Violated(2), Violated(2)];
    assert_eq!(course(&short, &both), expected);
    let late = cycle(&[(0, 9), (3, 1), (10, 2)]);
    assert_eq!(course(&short, &late), [Open, Open, Open, Fulfilled(2)]);
    let none = cycle(&[(0, 9), (9, 9), (10, 2)]);
    assert_eq!(course(&short, &none), [Open, Open, Open, Violated(0)]);
    assert_eq!(
        course(&rule(16, 0, None), &cycle(&[(0, 1), (LAST, 1)])),
        [Open; 3]
    );
}

/// Before the first event a rule is decided only if no readings meet its
/// condition.
#[test]
fn a_condition_that_nothing_meets_decides_at_once() {
    for (operator, k) in [(Less, -2_147_483_648), (Greater, 2_147_483_647)] {
        let found = [13, 14, 15, 16].map(|code| {
            let rule = rule(code, 0, None).with_activation_condition(met_by(operator, k));
            let events = cycle(&[(0, 1), (1, 2)]);
            course(&rule, &events)
        });
        let violated = vec![Violated(0); 3];
        let fulfilled = vec![Fulfilled(0); 3];
        let expected = [violated.clone(), fulfilled, violated.clone(), violated];
        assert_eq!(found, expected);
    }
    let least = rule(13, 0, None).with_activation_condition(met_by(Less, -2_147_483_647));
    assert_eq!(course(&least, &[]), [Open]);
}

/// No event is that far from the first one, unless this one has time 0.
#[test]
fn a_window_from_the_largest_time() {
    for code in [13, 14, 15, 16] {
        let late = rule(code, LAST, None);
        let decided = match code {
            14 => Fulfilled(0),
            _ => Violated(0),
        };
        assert_eq!(course(&late, &cycle(&[(0, 1)])), [Open, Open]);
        assert_eq!(course(&late, &cycle(&[(1, 1)])), [Open, decided]);
        let event = cycle(&[(7, 1)]);
        assert_eq!(standing(&rule(code, 0, Some(1)), &[], LAST, 0), Open);
        assert_eq!(standing(&rule(code, 1, None), &[], LAST, 0), decided);
        assert_eq!(standing(&rule(code, 1, Some(5)), &event, 11, 0), Open);
        assert_eq!(standing(&rule(code, 1, Some(5)), &event, 12, 0), decided);
    }
}

/// Events that fit later change neither the verdict nor its target.
#[test]
fn a_decided_standing_keeps_its_target() {
    let events = cycle(&[(0, 9), (1, 1), (2, 1), (3, 2), (4, 2)]);
    let found = [13, 14, 15, 16].map(|code| course(&rule(code, 0, None), &events)[2..].to_vec());
    let expected = [
        vec![Fulfilled(2); 4],
        vec![Violated(2); 4],
        vec![Fulfilled(2); 4],
        vec![Open, Open, Violated(2), Violated(2)],
    ];
    assert_eq!(found, expected);
}
