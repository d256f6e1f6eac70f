//! The search compared with a direct account of what an event to come can
//! still do, on random rules and cycles under document 01's limits. The tiny
//! worlds test the search in full; this tests it at the real ends of the
//! ranges.

use evaluator::condition::reference_value;
use evaluator::random::{random_cycle, random_event_rule, random_overall_rule, Random};
use evaluator::Standing::{self, Fulfilled, Open, Violated};
use evaluator::{fitting, is_activation, standing, verdict, Comparison, Event, Operator, Rule};
use std::collections::BTreeSet;

const LEAST: i128 = -2_147_483_648;
const LARGEST: i128 = 2_147_483_647;
const LARGEST_TIME: i128 = 4_294_967_295;

/// Whether the template admits an event to come as a target of the activation.
fn looks_ahead(rule: &Rule, events: &[Event], position: usize) -> bool {
    match rule.code {
        1 | 2 | 8 | 9 => true,
        3 => !events[position..].iter().any(|e| is_activation(rule, e)),
        4 | 11 => position == events.len(),
        _ => false,
    }
}

/// Whether a time from `horizon` on lies in the window that runs from `start`.
fn time_is_left(rule: &Rule, start: u32, horizon: u32) -> bool {
    let start = i128::from(start);
    let first = (start + i128::from(rule.a)).max(i128::from(horizon));
    let last = rule.b.map_or(LARGEST_TIME, |b| start + i128::from(b) - 1);
    first <= last.min(LARGEST_TIME)
}

/// Whether some value in the range meets all these comparisons of one reading. The
/// equalities and comparisons of order leave an interval, and of its values fewer
/// are excluded than there are.
fn some_value_meets(comparisons: &[&Comparison], activation: &Event) -> bool {
    let (mut low, mut high) = (LEAST, LARGEST);
    let mut excluded = BTreeSet::new();
    for comparison in comparisons {
        let Some(value) = reference_value(comparison.reference, activation) else {
            return false;
        };
        let (from, to) = match comparison.operator {
            Operator::Equal => (value, value),
            Operator::NotEqual => (LEAST, LARGEST),
            Operator::Less => (LEAST, value - 1),
            Operator::LessOrEqual => (LEAST, value),
            Operator::Greater => (value + 1, LARGEST),
            Operator::GreaterOrEqual => (value, LARGEST),
        };
        (low, high) = (low.max(from), high.min(to));
        excluded.extend(Some(value).filter(|_| comparison.operator == Operator::NotEqual));
    }
    let inside = excluded.iter().filter(|v| (low..=high).contains(*v));
    high - low + 1 > inside.count() as i128
}

/// Whether some readings meet the condition. A comparison is about one reading, so
/// each reading is looked at by itself.
fn can_hold(condition: &[Comparison], activation: &Event) -> bool {
    (1..=4).all(|number| {
        let of_reading = condition.iter().filter(|c| c.reading == number);
        some_value_meets(&of_reading.collect::<Vec<_>>(), activation)
    })
}

/// Whether each comparison can hold, though no readings meet the condition.
fn is_unmeetable_jointly(condition: &[Comparison], activation: &Event) -> bool {
    let alone = |c: &Comparison| some_value_meets(&[c], activation);
    condition.iter().all(alone) && !can_hold(condition, activation)
}

fn by_reach(rule: &Rule, events: &[Event], horizon: u32, position: usize) -> Standing {
    let now = verdict(rule, events, position);
    let activation = &events[position - 1];
    let reachable = looks_ahead(rule, events, position)
        && time_is_left(rule, activation.time, horizon)
        && can_hold(&rule.correlation, activation);
    // With a target the verdict is final; without one an event to come may
    // bring it.
    match now {
        Fulfilled(0) | Violated(0) if reachable => Open,
        _ => now,
    }
}

/// The same at position 0. Without an event the window runs from the first to
/// come, and the earliest it can be leaves the most time.
fn overall_by_reach(rule: &Rule, events: &[Event], horizon: u32) -> Standing {
    let start = events.first().map_or(horizon, |first| first.time);
    let reachable = time_is_left(rule, start, horizon)
        && can_hold(&rule.activation_condition, &Event::new(0, 1));
    let activities: Vec<u8> = fitting(rule, events)
        .iter()
        .map(|j| events[j - 1].activity)
        .collect();
    // An event to come changes nothing more once there is one that fits, under 16
    // once there is one of each activity.
    let settled = match rule.code {
        16 => activities.contains(&rule.activation) && activities.contains(&rule.target),
        _ => !activities.is_empty(),
    };
    match reachable && !settled {
        true => Open,
        false => verdict(rule, events, 0),
    }
}

#[test]
fn search_and_direct_account_agree_at_position_0() {
    let mut random = Random::new(13);
    let mut counts = [[0; 2]; 2];
    let mut jointly = 0;
    for _ in 0..12_000 {
        let rule = random_overall_rule(&mut random);
        let length = random.below(7);
        let events = random_cycle(&mut random, std::slice::from_ref(&rule), length);
        let last = events.last().map_or(0, |event| event.time);
        let later = random.pick(&[0, 0, 1, rule.a, rule.b.unwrap_or(2), u32::MAX]);
        let horizon = last.saturating_add(later);
        let expected = overall_by_reach(&rule, &events, horizon);
        let found = standing(&rule, &events, horizon, 0);
        assert_eq!(found, expected, "{rule:?} {events:?} {horizon}");
        counts[usize::from(length == 0)][usize::from(found == Open)] += 1;
        let none = Event::new(0, 1);
        jointly += usize::from(is_unmeetable_jointly(&rule.activation_condition, &none));
    }
    assert!(jointly > 1000, "{jointly}");
    let least = counts.iter().flatten().min().expect("four counts");
    assert!(*least > 300, "{counts:?}");
}

#[test]
fn search_and_direct_account_agree() {
    let mut random = Random::new(12);
    let (mut counts, mut jointly) = ([0; 2], 0);
    for _ in 0..20_000 {
        let rule = random_event_rule(&mut random);
        let length = 1 + random.below(6);
        let events = random_cycle(&mut random, std::slice::from_ref(&rule), length);
        let last = events[length - 1].time;
        let later = random.pick(&[0, 0, 1, rule.a, rule.b.unwrap_or(2)]);
        let horizon = last.saturating_add(later);
        for position in 1..=length {
            let expected = by_reach(&rule, &events, horizon, position);
            let found = standing(&rule, &events, horizon, position);
            assert_eq!(found, expected, "{rule:?} {events:?} {horizon} {position}");
            counts[usize::from(found == Open)] += usize::from(found != Standing::Idle);
            let activation = &events[position - 1];
            let unmeetable = is_unmeetable_jointly(&rule.correlation, activation);
            jointly += usize::from(unmeetable && found != Standing::Idle);
        }
    }
    assert!(counts[0] > 10_000 && counts[1] > 1_000, "{counts:?}");
    assert!(jointly > 1000, "{jointly}");
}
