//! Comparisons at both ends of the range, with constants, exact sums and
//! blanks, and which of them an event to come can still meet.

use evaluator::condition::{holds, meets};
use evaluator::Operator::{self, *};
use evaluator::Standing::{self, Open, Violated};
use evaluator::{standing_at_last, Comparison, Event, Rule};

const LEAST: i32 = -2_147_483_648;
const LARGEST: i32 = 2_147_483_647;

/// For each operator: whether it holds below, at and above the reference.
const TRUTHS: [(Operator, [bool; 3]); 6] = [
    (Equal, [false, true, false]),
    (NotEqual, [true, false, true]),
    (Less, [true, false, false]),
    (LessOrEqual, [true, true, false]),
    (Greater, [false, false, true]),
    (GreaterOrEqual, [false, true, true]),
];

const BELOW: usize = 0;
const AT: usize = 1;
const ABOVE: usize = 2;

fn with_first(value: i32) -> Event {
    Event::new(0, 1).with_reading(1, value)
}

#[test]
fn constants_at_both_ends() {
    let cases = [
        (LEAST, LEAST, AT),
        (LEAST, LEAST + 1, BELOW),
        (LEAST + 1, LEAST, ABOVE),
        (LEAST, LARGEST, BELOW),
        (LARGEST, LEAST, ABOVE),
        (LARGEST, LARGEST, AT),
        (LARGEST, LARGEST - 1, ABOVE),
        (LARGEST - 1, LARGEST, BELOW),
        (-1, 0, BELOW),
        (0, 0, AT),
        (1, 0, ABOVE),
    ];
    for (value, k, place) in cases {
        for (operator, truths) in TRUTHS {
            let comparison = Comparison::with_constant(1, operator, k);
            let result = holds(&comparison, &with_first(value), &Event::new(0, 1));
            assert_eq!(result, truths[place], "{value} {operator:?} {k}");
        }
    }
}

#[test]
fn sums_are_exact() {
    // The value tested, the activation's reading, k, and the value's place.
    let cases = [
        (LARGEST, LARGEST, 0, AT),
        (LARGEST, LARGEST - 1, 1, AT),
        (LARGEST, LARGEST, -1, ABOVE),
        (LARGEST, LARGEST, 1, BELOW),
        (LEAST, LARGEST, 1, BELOW),
        (-2, LARGEST, LARGEST, BELOW),
        (LARGEST, LARGEST, LARGEST, BELOW),
        (LEAST, LEAST, 0, AT),
        (LEAST, LEAST + 1, -1, AT),
        (LEAST, LEAST, 1, BELOW),
        (LEAST, LEAST, -1, ABOVE),
        (LARGEST, LEAST, -1, ABOVE),
        (0, LEAST, LEAST, ABOVE),
        (LEAST, LEAST, LEAST, ABOVE),
        (-1, LEAST, LARGEST, AT),
        (0, LARGEST, LEAST, ABOVE),
    ];
    for (value, reading, k, place) in cases {
        for (operator, truths) in TRUTHS {
            let comparison = Comparison::with_activation(1, operator, 1, k);
            let result = holds(&comparison, &with_first(value), &with_first(reading));
            assert_eq!(
                result, truths[place],
                "{value} {operator:?} {reading} plus {k}"
            );
        }
    }
}

#[test]
fn a_blank_on_either_side_makes_every_comparison_false() {
    let blank = Event::new(0, 1);
    let full = with_first(0).with_reading(2, 0);
    for operator in Operator::ALL {
        for k in [LEAST, -1, 0, 1, LARGEST] {
            let constant = Comparison::with_constant(1, operator, k);
            assert!(!holds(&constant, &blank, &full), "{constant:?}");
            let sum = Comparison::with_activation(1, operator, 2, k);
            assert!(!holds(&sum, &blank, &full), "{sum:?}");
            assert!(!holds(&sum, &full, &blank), "{sum:?}");
            assert!(!holds(&sum, &blank, &blank), "{sum:?}");
        }
    }
}

#[test]
fn each_side_reads_its_own_event_and_reading() {
    let tested = Event::new(0, 1).with_reading(3, 10).with_reading(4, 20);
    let activation = Event::new(0, 1).with_reading(3, 20).with_reading(2, 10);
    let equal = |reading, g| Comparison::with_activation(reading, Equal, g, 0);
    assert!(holds(&equal(3, 2), &tested, &activation));
    assert!(holds(&equal(4, 3), &tested, &activation));
    assert!(!holds(&equal(3, 3), &tested, &activation));
    assert!(!holds(&equal(3, 4), &tested, &activation));
}

#[test]
fn a_condition_needs_all_its_comparisons_and_an_empty_one_is_met() {
    let tested = with_first(5).with_reading(2, 6);
    let first = Comparison::with_constant(1, Equal, 5);
    let second = Comparison::with_constant(2, Equal, 6);
    let wrong = Comparison::with_constant(2, Equal, 7);
    assert!(meets(&[], &tested, &tested));
    assert!(meets(&[first, second], &tested, &tested));
    assert!(!meets(&[first, wrong], &tested, &tested));
    assert!(!meets(&[wrong, first], &tested, &tested));
}

/// The standing of a lone response activation with reading 1 as given.
fn awaiting(reading: i32, comparison: Comparison) -> Standing {
    let rule = Rule::new(2, 1, 2, 0, None).with_correlation(vec![comparison]);
    standing_at_last(&rule, &[with_first(reading)], 1)
}

#[test]
fn constants_that_an_event_to_come_can_reach() {
    let at = |operator, k| awaiting(0, Comparison::with_constant(1, operator, k));
    assert_eq!(at(Less, LEAST), Violated(0));
    assert_eq!(at(Greater, LARGEST), Violated(0));
    let reachable = [
        (Less, LEAST + 1),
        (Greater, LARGEST - 1),
        (LessOrEqual, LEAST),
        (GreaterOrEqual, LARGEST),
        (Equal, LEAST),
        (Equal, LARGEST),
        (NotEqual, LEAST),
        (NotEqual, LARGEST),
        (Less, LARGEST),
        (Greater, LEAST),
    ];
    for (operator, k) in reachable {
        assert_eq!(at(operator, k), Open, "{operator:?} {k}");
    }
}

#[test]
fn sums_that_an_event_to_come_can_reach() {
    let at =
        |reading, operator, k| awaiting(reading, Comparison::with_activation(1, operator, 1, k));
    // One above the range: only ≠, < and ≤ can still hold.
    assert_eq!(at(LARGEST, Equal, 1), Violated(0));
    assert_eq!(at(LARGEST, NotEqual, 1), Open);
    assert_eq!(at(LARGEST, Less, 1), Open);
    assert_eq!(at(LARGEST, LessOrEqual, 1), Open);
    assert_eq!(at(LARGEST, Greater, 1), Violated(0));
    assert_eq!(at(LARGEST, GreaterOrEqual, 1), Violated(0));
    // One below the range: only ≠, > and ≥ can still hold.
    assert_eq!(at(LEAST, Equal, -1), Violated(0));
    assert_eq!(at(LEAST, NotEqual, -1), Open);
    assert_eq!(at(LEAST, Less, -1), Violated(0));
    assert_eq!(at(LEAST, LessOrEqual, -1), Violated(0));
    assert_eq!(at(LEAST, Greater, -1), Open);
    assert_eq!(at(LEAST, GreaterOrEqual, -1), Open);
    // At the ends of the range: only the strict comparison outward fails.
    for (reading, k, out) in [(LARGEST - 1, 1, Greater), (LEAST + 1, -1, Less)] {
        for operator in Operator::ALL {
            let expected = if operator == out { Violated(0) } else { Open };
            assert_eq!(at(reading, operator, k), expected, "{operator:?}");
        }
    }
}

#[test]
fn no_event_to_come_meets_a_comparison_with_a_blank() {
    for operator in Operator::ALL {
        let comparison = Comparison::with_activation(1, operator, 2, 0);
        assert_eq!(awaiting(0, comparison), Violated(0), "{operator:?}");
    }
}
