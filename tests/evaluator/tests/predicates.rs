//! The finished verdicts once more, with document 01's words as a predicate on
//! two positions: an eligible pair, the window as a difference of times, and
//! "no activation of the rule at any position strictly between" and the choice
//! of the target as quantifiers. The evaluator goes by lists of positions and
//! ranges of times. So also for the rules about the cycle, at position 0.

use evaluator::crowded::{crowded_cycle, crowded_rule};
use evaluator::random::{random_cycle, random_rule, Random};
use evaluator::Standing::{self, Fulfilled, Idle, Violated};
use evaluator::{verdict, verdicts, Comparison, Event, Operator, Reference, Rule};

fn compares(comparison: &Comparison, tested: &Event, activation: &Event) -> bool {
    let Some(left) = tested.readings[usize::from(comparison.reading - 1)] else {
        return false;
    };
    let right = match comparison.reference {
        Reference::Constant(k) => i64::from(k),
        Reference::Activation { reading, plus } => {
            match activation.readings[usize::from(reading - 1)] {
                Some(value) => i64::from(value) + i64::from(plus),
                None => return false,
            }
        }
    };
    let left = i64::from(left);
    match comparison.operator {
        Operator::Equal => left == right,
        Operator::NotEqual => left != right,
        Operator::Less => left < right,
        Operator::LessOrEqual => left <= right,
        Operator::Greater => left > right,
        Operator::GreaterOrEqual => left >= right,
    }
}

fn meets(rule: &Rule, event: &Event) -> bool {
    let mut condition = rule.activation_condition.iter();
    condition.all(|c| compares(c, event, event))
}

fn activates(rule: &Rule, event: &Event) -> bool {
    rule.code <= 12 && event.activity == rule.activation && meets(rule, event)
}

fn fits(rule: &Rule, activation: &Event, event: &Event) -> bool {
    let difference = event.time.abs_diff(activation.time);
    let mut correlation = rule.correlation.iter();
    event.activity == rule.target
        && correlation.all(|c| compares(c, event, activation))
        && difference >= rule.a
        && rule.b.is_none_or(|b| difference < b)
}

fn is_eligible(rule: &Rule, events: &[Event], i: usize, j: usize) -> bool {
    let none_between = (1..=events.len())
        .filter(|k| (i < *k && *k < j) || (j < *k && *k < i))
        .all(|k| !activates(rule, &events[k - 1]));
    let admitted = match rule.code {
        1 | 8 => true,
        2 | 9 => j >= i,
        3 => j > i && none_between,
        4 | 11 => j == i + 1,
        5 | 10 => j <= i,
        6 => j < i && none_between,
        _ => j + 1 == i,
    };
    admitted && fits(rule, &events[i - 1], &events[j - 1])
}

/// "the latest eligible position at or before the activation; failing that, the
/// first after it": the positions that go before j in this choice are not
/// eligible.
fn is_named(rule: &Rule, events: &[Event], i: usize, j: usize) -> bool {
    let mut preferred = if j <= i { j + 1..i + 1 } else { 1..j };
    is_eligible(rule, events, i, j) && preferred.all(|k| !is_eligible(rule, events, i, k))
}

fn by_predicate(rule: &Rule, events: &[Event], i: usize) -> Standing {
    if !activates(rule, &events[i - 1]) {
        return Idle;
    }
    let found = (1..=events.len()).find(|j| is_named(rule, events, i, *j));
    match (found, rule.code <= 7) {
        (Some(j), true) => Fulfilled(j as u16),
        (None, true) => Violated(0),
        (Some(j), false) => Violated(j as u16),
        (None, false) => Fulfilled(0),
    }
}

/// Whether position j has an activity of the rule inside the window.
fn occurs(rule: &Rule, events: &[Event], activity: u8, j: usize) -> bool {
    let event = &events[j - 1];
    let difference = event.time - events[0].time;
    event.activity == activity
        && meets(rule, event)
        && difference >= rule.a
        && rule.b.is_none_or(|b| difference < b)
}

/// "the earliest event that fits (under 15 and 16, for either activity)": none
/// before it does.
fn is_earliest(rule: &Rule, events: &[Event], j: usize) -> bool {
    let fits = |k: usize| {
        occurs(rule, events, rule.activation, k)
            || rule.code >= 15 && occurs(rule, events, rule.target, k)
    };
    fits(j) && (1..j).all(|k| !fits(k))
}

fn at_position_0(rule: &Rule, events: &[Event]) -> Standing {
    let some = |activity| (1..=events.len()).any(|j| occurs(rule, events, activity, j));
    let holds = match rule.code {
        13 => some(rule.activation),
        14 => !some(rule.activation),
        15 => some(rule.activation) || some(rule.target),
        _ => some(rule.activation) != some(rule.target),
    };
    let named = (1..=events.len()).find(|j| is_earliest(rule, events, *j));
    let target = named.unwrap_or(0) as u16;
    match holds {
        true => Fulfilled(target),
        false => Violated(target),
    }
}

/// How many verdicts were compared: not idle, and with a target.
fn compare(rule: &Rule, events: &[Event]) -> (usize, usize) {
    let mut expected: Vec<Standing> = (1..=events.len())
        .map(|i| by_predicate(rule, events, i))
        .collect();
    assert_eq!(verdicts(rule, events), expected, "{rule:?} {events:?}");
    if rule.code >= 13 {
        let overall = at_position_0(rule, events);
        assert_eq!(verdict(rule, events, 0), overall, "{rule:?} {events:?}");
        expected.push(overall);
    }
    let judged = expected.iter().filter(|s| **s != Idle);
    let named = expected
        .iter()
        .filter(|s| matches!(s, Fulfilled(1..) | Violated(1..)));
    (judged.count(), named.count())
}

#[test]
fn every_cycle_of_five_events_and_three_activities() {
    for code in 1..=16 {
        for target in [1, 2] {
            for (a, b) in [(0, None), (1, None), (0, Some(2)), (1, Some(3))] {
                let rule = Rule::new(code, 1, target, a, b);
                if target == 1 && code >= 15 {
                    continue;
                }
                for number in 0..3_u32.pow(5) {
                    let activity = |at: u32| (number / 3_u32.pow(at) % 3 + 1) as u8;
                    // The times 0, 0, 1, 1, 2 repeat.
                    let events: Vec<Event> =
                        (0..5).map(|at| Event::new(at / 2, activity(at))).collect();
                    compare(&rule, &events);
                }
            }
        }
    }
}

#[test]
fn random_rules_and_cycles() {
    let mut random = Random::new(4);
    let mut judged = 0;
    let mut named = 0;
    for _ in 0..20_000 {
        let rule = random_rule(&mut random);
        let length = random.below(13);
        let events = random_cycle(&mut random, std::slice::from_ref(&rule), length);
        let counts = compare(&rule, &events);
        judged += counts.0;
        named += counts.1;
    }
    assert!(judged > 20_000 && named > 2_000, "{judged} {named}");
}

#[test]
fn crowded_rules_and_cycles() {
    let mut random = Random::new(14);
    let mut named = 0;
    for _ in 0..4000 {
        let rule = crowded_rule(&mut random);
        let length = 1 + random.below(24);
        let events = crowded_cycle(&mut random, length);
        named += compare(&rule, &events).1;
    }
    assert!(named > 8_000, "{named}");
}
