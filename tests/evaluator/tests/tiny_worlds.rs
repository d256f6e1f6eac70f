//! Worlds small enough to enumerate every event and so every continuation up
//! to a length. The standing from all of these must be the standing from the
//! search.

use evaluator::random::Random;
use evaluator::verdict::verdict;
use evaluator::Operator::{self, *};
use evaluator::Standing::{self, Idle, Open};
use evaluator::{outcomes_in, standing_in, Comparison, Event, Reference, Rule, World};
use std::collections::BTreeSet;

type Conditions = (Vec<Comparison>, Vec<Comparison>);

/// Times 0 to 3, activities 1 and 2, readings −1 to 1.
const ONE_READING: World = World {
    largest_time: 3,
    largest_activity: 2,
    least_reading: -1,
    largest_reading: 1,
};

/// Times 0 to 2, activities 1 and 2, readings 0 and 1.
const TWO_READINGS: World = World {
    largest_time: 2,
    largest_activity: 2,
    least_reading: 0,
    largest_reading: 1,
};

/// Times 0 and 1, activities 1 and 2, readings −1 to 1.
const BANDS: World = World {
    largest_time: 1,
    largest_activity: 2,
    least_reading: -1,
    largest_reading: 1,
};

/// Times 0 to 3, activities 1 to 3; the rules tested here name no reading.
const THREE_ACTIVITIES: World = World {
    largest_time: 3,
    largest_activity: 3,
    least_reading: 0,
    largest_reading: 0,
};

/// Every event of a world, with readings after the first `varied` blank.
fn all_events(world: &World, varied: usize) -> Vec<Event> {
    let mut readings = vec![[None; 4]];
    for number in 0..varied {
        let values = (world.least_reading..=world.largest_reading).map(Some);
        let values: Vec<Option<i32>> = std::iter::once(None).chain(values).collect();
        readings = readings
            .iter()
            .flat_map(|list| {
                values.iter().map(move |value| {
                    let mut list: [Option<i32>; 4] = *list;
                    list[number] = *value;
                    list
                })
            })
            .collect();
    }
    let mut events = Vec::new();
    for time in 0..=world.largest_time {
        for activity in 1..=world.largest_activity {
            events.extend(readings.iter().map(|readings| Event {
                time,
                activity,
                readings: *readings,
            }));
        }
    }
    events
}

/// Where continuations begin: "no earlier than the later of last event and last
/// notice".
fn later(prefix: &[Event], kept: u32) -> u32 {
    let times = prefix.iter().map(|event| event.time);
    times.chain([kept]).max().expect("a kept time")
}

/// Collects the verdicts at `position` in the cycle and in all its
/// continuations by at most `length` events, none before `earliest`.
fn enumerate(
    rule: &Rule,
    all: &[Event],
    cycle: &mut Vec<Event>,
    earliest: u32,
    position: usize,
    length: usize,
    outcomes: &mut BTreeSet<Standing>,
) {
    outcomes.insert(verdict(rule, cycle, position));
    if length == 0 {
        return;
    }
    for event in all.iter().filter(|event| event.time >= earliest) {
        cycle.push(*event);
        enumerate(rule, all, cycle, event.time, position, length - 1, outcomes);
        cycle.pop();
    }
}

/// Demand 3's words on the outcomes of all continuations.
fn standing_from(outcomes: &BTreeSet<Standing>) -> Standing {
    let first = *outcomes.first().expect("the empty continuation is there");
    if outcomes.iter().all(|s| s.is_fulfilled()) || outcomes.iter().all(|s| s.is_violated()) {
        assert_eq!(outcomes.len(), 1, "a decided activation keeps its target");
        return first;
    }
    if first == Idle {
        assert_eq!(outcomes.len(), 1, "an idle event stays idle");
        return Idle;
    }
    Open
}

/// Compares both standings at every position of a prefix. The horizon may be a kept
/// time below the last event.
fn compare(
    world: &World,
    all: &[Event],
    rule: &Rule,
    prefix: &[Event],
    horizon: u32,
    length: usize,
) {
    for position in 1..=prefix.len() {
        let mut outcomes = BTreeSet::new();
        let mut cycle = prefix.to_vec();
        enumerate(
            rule,
            all,
            &mut cycle,
            later(prefix, horizon),
            position,
            length,
            &mut outcomes,
        );
        let expected = standing_from(&outcomes);
        let found = standing_in(world, rule, prefix, horizon, position);
        assert_eq!(found, expected, "{rule:?} {prefix:?} {horizon} {position}");
        if found.is_decided() {
            let searched = outcomes_in(world, rule, prefix, horizon, position);
            assert_eq!(searched, outcomes, "{rule:?} {prefix:?}");
        }
    }
}

/// All twelve codes with target 2 and with the target as the activation.
fn rules(windows: &[(u32, Option<u32>)], conditions: &[Conditions]) -> Vec<Rule> {
    let mut rules = Vec::new();
    for code in 1..=12 {
        for target in [1, 2] {
            for (a, b) in windows {
                for (activation, correlation) in conditions {
                    rules.push(
                        Rule::new(code, 1, target, *a, *b)
                            .with_activation_condition(activation.clone())
                            .with_correlation(correlation.clone()),
                    );
                }
            }
        }
    }
    rules
}

const WINDOWS: [(u32, Option<u32>); 8] = [
    (0, None),
    (2, None),
    (3, None),
    (0, Some(1)),
    (0, Some(2)),
    (1, Some(2)),
    (1, Some(3)),
    (0, Some(4)),
];

fn constant(reading: u8, operator: Operator, k: i32) -> Comparison {
    Comparison::with_constant(reading, operator, k)
}

fn sum(reading: u8, operator: Operator, g: u8, k: i32) -> Comparison {
    Comparison::with_activation(reading, operator, g, k)
}

/// Conditions on reading 1, some out of reach of every event.
fn conditions_on_one_reading() -> Vec<Conditions> {
    vec![
        (vec![], vec![]),
        (vec![constant(1, GreaterOrEqual, 0)], vec![]),
        (vec![], vec![sum(1, Equal, 1, 0)]),
        (vec![], vec![sum(1, Less, 1, 0)]),
        (vec![], vec![sum(1, NotEqual, 1, -1)]),
        (vec![], vec![sum(1, Greater, 2, 0)]),
        (vec![], vec![constant(1, Greater, 1)]),
        (
            vec![constant(1, NotEqual, 0)],
            vec![sum(1, GreaterOrEqual, 1, 1)],
        ),
        (vec![constant(1, Equal, 1)], vec![sum(1, Equal, 1, 1)]),
        (
            vec![constant(1, Less, 1)],
            vec![constant(1, LessOrEqual, -1)],
        ),
    ]
}

/// Conditions on readings 1 and 2 together.
fn conditions_on_two_readings() -> Vec<Conditions> {
    vec![
        (
            vec![constant(1, Equal, 1), constant(2, NotEqual, 1)],
            vec![sum(2, Equal, 1, 0), sum(1, Less, 1, 0)],
        ),
        (
            vec![constant(2, Greater, 0)],
            vec![sum(1, GreaterOrEqual, 2, 0), sum(2, Less, 1, 1)],
        ),
        (
            vec![],
            vec![sum(1, Equal, 2, 1), constant(2, LessOrEqual, 0)],
        ),
    ]
}

/// Every comparison of reading 1 with a value of the world, or with the activation's
/// reading and what leads from one value to a neighbour.
fn comparisons_of_one_reading() -> Vec<Comparison> {
    let mut comparisons = Vec::new();
    for operator in Operator::ALL {
        comparisons.extend([-1, 0, 1].map(|k| constant(1, operator, k)));
        comparisons.extend([-1, 0, 1].map(|k| sum(1, operator, 1, k)));
    }
    comparisons
}

/// Every choice of three of them, in one order; the same one may come again.
fn triples(comparisons: &[Comparison]) -> Vec<Vec<Comparison>> {
    let mut triples = Vec::new();
    for (first, one) in comparisons.iter().enumerate() {
        for (second, two) in comparisons.iter().enumerate().skip(first) {
            let third = comparisons[second..].iter();
            triples.extend(third.map(|three| vec![*one, *two, *three]));
        }
    }
    triples
}

/// Of the responses and chain responses with such a correlation: every activation,
/// and every continuation by at most two events.
#[test]
fn three_comparisons_of_one_reading() {
    let triples = triples(&comparisons_of_one_reading());
    assert_eq!(triples.len(), 38 * 37 * 36 / 6);
    let all = all_events(&BANDS, 1);
    for triple in triples {
        for (code, length) in [(2, 2), (9, 1), (4, 1), (11, 1)] {
            let rule = Rule::new(code, 1, 2, 0, None).with_correlation(triple.clone());
            for first in all.iter().filter(|e| (e.time, e.activity) == (0, 1)) {
                compare(&BANDS, &all, &rule, &[*first], 0, length);
            }
        }
    }
}

/// The same with the comparisons of one reading in both conditions.
#[test]
fn two_comparisons_of_one_reading_in_both_conditions() {
    let all = all_events(&BANDS, 1);
    let constants: Vec<Comparison> = comparisons_of_one_reading()
        .into_iter()
        .filter(|c| matches!(c.reference, Reference::Constant(_)))
        .collect();
    for triple in triples(&constants) {
        for code in [2, 3, 8] {
            let rule = Rule::new(code, 1, 1, 0, None)
                .with_activation_condition(triple[..2].to_vec())
                .with_correlation(triple[1..].to_vec());
            for first in all.iter().filter(|e| (e.time, e.activity) == (0, 1)) {
                compare(&BANDS, &all, &rule, &[*first], 0, 2);
            }
        }
    }
}

#[test]
fn enumeration_has_every_event() {
    assert_eq!(all_events(&ONE_READING, 1).len(), 4 * 2 * 4);
    assert_eq!(all_events(&BANDS, 1).len(), 2 * 2 * 4);
    assert_eq!(all_events(&TWO_READINGS, 2).len(), 3 * 2 * 9);
    assert_eq!(all_events(&THREE_ACTIVITIES, 0).len(), 4 * 3);
    let formed = |event: &Event| event.is_well_formed(&ONE_READING);
    assert!(all_events(&ONE_READING, 1).iter().all(formed));
}

#[test]
fn all_prefixes_of_one_event_with_every_horizon() {
    let all = all_events(&ONE_READING, 1);
    for rule in rules(&WINDOWS, &conditions_on_one_reading()) {
        for event in &all {
            for horizon in event.time..=ONE_READING.largest_time {
                compare(&ONE_READING, &all, &rule, &[*event], horizon, 2);
            }
        }
    }
}

#[test]
fn all_prefixes_of_one_event_with_three_added() {
    let all = all_events(&ONE_READING, 1);
    let conditions = &conditions_on_one_reading()[..3];
    for rule in rules(&[(0, None), (1, Some(3))], conditions) {
        for event in &all {
            compare(&ONE_READING, &all, &rule, &[*event], event.time, 3);
        }
    }
}

#[test]
fn all_prefixes_of_two_events() {
    let all = all_events(&ONE_READING, 1);
    for rule in rules(&[(0, None), (1, Some(3))], &conditions_on_one_reading()) {
        for first in &all {
            for second in all.iter().filter(|event| event.time >= first.time) {
                let prefix = [*first, *second];
                compare(&ONE_READING, &all, &rule, &prefix, second.time, 1);
            }
        }
    }
}

/// Every kept time, also those below the last event.
#[test]
fn all_prefixes_of_two_events_with_every_kept_time() {
    let all = all_events(&THREE_ACTIVITIES, 0);
    for rule in rules(&WINDOWS, &[(vec![], vec![])]) {
        for first in &all {
            for second in all.iter().filter(|event| event.time >= first.time) {
                for kept in 0..=THREE_ACTIVITIES.largest_time {
                    let prefix = [*first, *second];
                    compare(&THREE_ACTIVITIES, &all, &rule, &prefix, kept, 2);
                }
            }
        }
    }
}

#[test]
fn all_prefixes_of_three_events_with_three_activities() {
    let all = all_events(&THREE_ACTIVITIES, 0);
    for rule in rules(&WINDOWS, &[(vec![], vec![])]) {
        for first in &all {
            for second in all.iter().filter(|event| event.time >= first.time) {
                for third in all.iter().filter(|event| event.time >= second.time) {
                    let prefix = [*first, *second, *third];
                    compare(&THREE_ACTIVITIES, &all, &rule, &prefix, third.time, 1);
                }
            }
        }
    }
}

/// A prefix of `length` events, in order of time.
fn random_prefix(random: &mut Random, all: &[Event], length: usize) -> Vec<Event> {
    let mut prefix: Vec<Event> = (0..length).map(|_| random.pick(all)).collect();
    prefix.sort_by_key(|event| event.time);
    prefix
}

#[test]
fn random_prefixes_with_two_readings() {
    let all = all_events(&TWO_READINGS, 2);
    let mut random = Random::new(2);
    for rule in rules(&WINDOWS, &conditions_on_two_readings()) {
        for length in [1, 2, 3] {
            let prefix = random_prefix(&mut random, &all, length);
            let last = prefix[length - 1].time;
            for horizon in last..=TWO_READINGS.largest_time {
                compare(&TWO_READINGS, &all, &rule, &prefix, horizon, 2);
            }
        }
    }
}

/// With readings and every kept time, also those below the last event.
#[test]
fn random_prefixes_of_two_events_with_every_kept_time() {
    let all = all_events(&ONE_READING, 1);
    let mut random = Random::new(4);
    for rule in rules(&WINDOWS, &conditions_on_one_reading()) {
        let prefix = random_prefix(&mut random, &all, 2);
        for kept in 0..=ONE_READING.largest_time {
            compare(&ONE_READING, &all, &rule, &prefix, kept, 2);
        }
    }
}

#[test]
fn random_prefixes_of_three_events_with_one_reading() {
    let all = all_events(&ONE_READING, 1);
    let mut random = Random::new(3);
    for rule in rules(&WINDOWS, &conditions_on_one_reading()) {
        for _ in 0..4 {
            let prefix = random_prefix(&mut random, &all, 3);
            compare(&ONE_READING, &all, &rule, &prefix, prefix[2].time, 2);
        }
    }
}
