//! Rules 13 to 16 in worlds small enough to enumerate every event and so every
//! continuation up to a length, from no events on. The standing at position 0 from
//! all of these must be the standing from the search.

use evaluator::condition::meets;
use evaluator::Operator::{self, *};
use evaluator::Standing::{self, Open};
use evaluator::{outcomes_in, standing_in, verdict, Comparison, Event, Rule, World};
use std::collections::BTreeSet;

/// Times 0 to 3, activities 1 to 3, readings 0 and 1.
const SMALL: World = World {
    largest_time: 3,
    largest_activity: 3,
    least_reading: 0,
    largest_reading: 1,
};

/// Times 0 and 1, activities 1 to 3, readings −1 to 1.
const BANDS: World = World {
    largest_time: 1,
    largest_activity: 3,
    least_reading: -1,
    largest_reading: 1,
};

/// Every event of the small world, with reading 1 blank, 0 or 1, or blank alone.
fn all_events(with_readings: bool) -> Vec<Event> {
    let all = events_of(&SMALL).into_iter();
    all.filter(|event| with_readings || event.reading(1).is_none())
        .collect()
}

/// Every event of a world, with the readings but for the first one blank.
fn events_of(world: &World) -> Vec<Event> {
    let mut events = Vec::new();
    for time in 0..=world.largest_time {
        for activity in 1..=world.largest_activity {
            let blank = Event::new(time, activity);
            let values = world.least_reading..=world.largest_reading;
            events.push(blank);
            events.extend(values.map(|value| blank.with_reading(1, value)));
        }
    }
    events
}

/// Every cycle of `length` of these events.
fn all_cycles(all: &[Event], length: usize) -> Vec<Vec<Event>> {
    let mut cycles = vec![Vec::new()];
    for _ in 0..length {
        let longer = cycles.iter().flat_map(|cycle: &Vec<Event>| {
            let last = cycle.last().map_or(0, |event| event.time);
            let next = all.iter().filter(move |event| event.time >= last);
            next.map(move |event| [&cycle[..], &[*event]].concat())
        });
        cycles = longer.collect();
    }
    cycles
}

/// Every continuation of a cycle by at most `length` events, none before
/// `earliest`.
fn outcomes(
    rule: &Rule,
    all: &[Event],
    cycle: &mut Vec<Event>,
    earliest: u32,
    length: usize,
) -> BTreeSet<Standing> {
    let mut found = BTreeSet::from([verdict(rule, cycle, 0)]);
    if length > 0 {
        for event in all.iter().filter(|event| event.time >= earliest) {
            cycle.push(*event);
            found.extend(outcomes(rule, all, cycle, event.time, length - 1));
            cycle.pop();
        }
    }
    found
}

/// Where continuations begin: "no earlier than the later of last event and last
/// notice".
fn later(prefix: &[Event], kept: u32) -> u32 {
    let times = prefix.iter().map(|event| event.time);
    times.chain([kept]).max().expect("a kept time")
}

/// [`compare_in`] the small world.
fn compare(rule: &Rule, all: &[Event], prefix: &[Event], horizon: u32, length: usize) -> bool {
    compare_in(&SMALL, rule, all, prefix, horizon, length)
}

/// Demand 3's words on the outcomes of all continuations; whether it is open. The
/// horizon may be a kept time below the last event.
fn compare_in(
    world: &World,
    rule: &Rule,
    all: &[Event],
    prefix: &[Event],
    horizon: u32,
    length: usize,
) -> bool {
    let earliest = later(prefix, horizon);
    let expected = outcomes(rule, all, &mut prefix.to_vec(), earliest, length);
    let found = standing_in(world, rule, prefix, horizon, 0);
    let shown = format!("{rule:?} {prefix:?} {horizon}");
    if expected.iter().all(|s| s.is_fulfilled()) || expected.iter().all(|s| s.is_violated()) {
        assert_eq!(expected, BTreeSet::from([found]), "{shown}");
        let searched = outcomes_in(world, rule, prefix, horizon, 0);
        assert_eq!(searched, expected, "{shown}");
        return false;
    }
    assert_eq!(found, Open, "{shown}");
    true
}

const WINDOWS: [(u32, Option<u32>); 10] = [
    (0, None),
    (1, None),
    (3, None),
    (4, None),
    (0, Some(1)),
    (0, Some(2)),
    (1, Some(2)),
    (1, Some(3)),
    (3, Some(4)),
    (0, Some(4)),
];

fn constant(operator: Operator, k: i32) -> Vec<Comparison> {
    vec![Comparison::with_constant(1, operator, k)]
}

/// None, one that a part of the readings meets, and two that none meets.
fn conditions() -> Vec<Vec<Comparison>> {
    vec![
        vec![],
        constant(GreaterOrEqual, 1),
        constant(NotEqual, 0),
        constant(Less, 0),
        constant(Equal, 2),
    ]
}

/// All four codes, existence and absence also with the target as the activation.
fn rules(windows: &[(u32, Option<u32>)], conditions: &[Vec<Comparison>]) -> Vec<Rule> {
    let activities = [(13, 2), (13, 1), (14, 2), (14, 1), (15, 2), (16, 2)];
    let mut rules = Vec::new();
    for (code, target) in activities {
        for (a, b) in windows {
            rules.extend(conditions.iter().map(|condition| {
                Rule::new(code, 1, target, *a, *b).with_activation_condition(condition.clone())
            }));
        }
    }
    rules
}

/// Compares so many added events after every cycle of a length, with the last
/// time as the horizon; how many standings were decided and open.
fn compare_all(rules: &[Rule], all: &[Event], taken: usize, added: usize) -> [usize; 2] {
    let prefixes = all_cycles(all, taken);
    let mut counts = [0; 2];
    for rule in rules {
        for prefix in &prefixes {
            let last = prefix.last().map_or(0, |event| event.time);
            counts[usize::from(compare(rule, all, prefix, last, added))] += 1;
        }
    }
    counts
}

#[test]
fn enumeration_has_every_event_and_cycle() {
    assert_eq!(all_events(true).len(), 4 * 3 * 3);
    assert_eq!(all_cycles(&all_events(false), 0), [vec![]]);
    // Ten pairs of times that do not fall, of three activities each.
    assert_eq!(all_cycles(&all_events(false), 2).len(), 10 * 9);
    let all = all_events(true);
    assert!(all.iter().all(|event| event.is_well_formed(&SMALL)));
    assert_eq!(all_events(false).len(), 4 * 3);
    assert_eq!(events_of(&BANDS).len(), 2 * 3 * 4);
}

/// Before the first event a rule is decided if no readings meet its condition, and
/// in a world that ends before a.
#[test]
fn no_events() {
    let all = all_events(true);
    let rules = rules(&WINDOWS, &conditions());
    assert_eq!(rules.len(), 300);
    let far = |rule: &&Rule| rule.a > 3;
    let unmeetable = |rule: &&Rule| {
        let condition = &rule.activation_condition;
        *condition == constant(Less, 0) || *condition == constant(Equal, 2)
    };
    let decided = rules.iter().filter(|rule| far(rule) || unmeetable(rule));
    let decided = decided.count();
    assert_eq!(compare_all(&rules, &all, 0, 2), [decided, 300 - decided]);
}

#[test]
fn no_events_with_every_horizon_and_three_added() {
    let all = all_events(false);
    // These two do not depend on the readings that are left out.
    let rules = rules(&WINDOWS, &[vec![], constant(Equal, 2)]);
    let mut counts = [0; 2];
    for rule in &rules {
        for horizon in 0..=SMALL.largest_time {
            counts[usize::from(compare(rule, &all, &[], horizon, 3))] += 1;
        }
    }
    assert!(counts.iter().all(|count| *count > 100), "{counts:?}");
}

#[test]
fn one_event_with_every_horizon() {
    let all = all_events(true);
    let mut counts = [0; 2];
    for rule in rules(&WINDOWS, &conditions()) {
        for first in &all {
            for horizon in first.time..=SMALL.largest_time {
                counts[usize::from(compare(&rule, &all, &[*first], horizon, 1))] += 1;
            }
        }
    }
    assert!(counts.iter().all(|count| *count > 1000), "{counts:?}");
}

/// A notice on an empty run: the first event comes at its time or later, so a rule is
/// decided exactly where a is not in the range from there.
#[test]
fn no_events_with_every_kept_time() {
    let all = all_events(false);
    for rule in rules(&WINDOWS, &[vec![]]) {
        for kept in 0..=SMALL.largest_time {
            let in_range = rule.a <= SMALL.largest_time - kept;
            assert_eq!(
                compare(&rule, &all, &[], kept, 2),
                in_range,
                "{rule:?} {kept}"
            );
        }
    }
}

/// Every kept time, also those below the last event.
#[test]
fn two_events_with_every_kept_time() {
    let all = all_events(false);
    let cycles = all_cycles(&all, 2);
    let mut counts = [0; 2];
    for rule in rules(&WINDOWS, &[vec![]]) {
        for prefix in &cycles {
            for kept in 0..=SMALL.largest_time {
                counts[usize::from(compare(&rule, &all, prefix, kept, 2))] += 1;
            }
        }
    }
    assert!(counts.iter().all(|count| *count > 1000), "{counts:?}");
}

#[test]
fn one_event_with_two_added() {
    let rules = rules(&WINDOWS, &conditions()[..3]);
    let counts = compare_all(&rules, &all_events(true), 1, 2);
    assert!(counts.iter().all(|count| *count > 1000), "{counts:?}");
}

/// Every choice of three comparisons of reading 1 with a value of the world or the
/// one beside it; the same one may come again.
fn triples() -> Vec<Vec<Comparison>> {
    let single = |operator| (-2..=2).flat_map(move |k| constant(operator, k));
    let all: Vec<Comparison> = Operator::ALL.into_iter().flat_map(single).collect();
    let mut triples = Vec::new();
    for (first, one) in all.iter().enumerate() {
        for (second, two) in all.iter().enumerate().skip(first) {
            let third = all[second..].iter();
            triples.extend(third.map(|three| vec![*one, *two, *three]));
        }
    }
    triples
}

/// From no events and from one, with every continuation by at most one more.
#[test]
fn three_comparisons_of_one_reading() {
    let triples = triples();
    assert_eq!(triples.len(), 32 * 31 * 30 / 6);
    let all = events_of(&BANDS);
    let mut counts = [0; 2];
    for rule in rules(&[(0, None)], &triples) {
        counts[usize::from(compare_in(&BANDS, &rule, &all, &[], 0, 1))] += 1;
        for first in all.iter().filter(|event| event.time == 0) {
            compare_in(&BANDS, &rule, &all, &[*first], 0, 1);
        }
    }
    // A triple that a value in the range meets leaves the rule open at start.
    let open = triples.iter().filter(|triple| {
        let mut values = (-1..=1).map(|value| Event::new(0, 1).with_reading(1, value));
        values.any(|event| meets(triple, &event, &event))
    });
    let open = 6 * open.count();
    assert_eq!(counts, [6 * triples.len() - open, open]);
    assert!(counts.iter().all(|count| *count > 5000), "{counts:?}");
}

#[test]
fn two_events() {
    let rules = rules(&[(0, None), (1, Some(3)), (2, None)], &conditions());
    let counts = compare_all(&rules, &all_events(true), 2, 1);
    assert!(counts.iter().all(|count| *count > 1000), "{counts:?}");
}

#[test]
fn three_events() {
    let rules = rules(&WINDOWS, &[vec![]]);
    let counts = compare_all(&rules, &all_events(false), 3, 2);
    assert!(counts.iter().all(|count| *count > 1000), "{counts:?}");
}
