//! Seeded random rules and cycles with small alphabets and critical values.
//!
//! The same seed gives the same rules and cycles. All rules are valid, and all
//! cycles have well-formed events and times that never fall.

use crate::bands::{random_band, unmeetable_band};
use crate::condition::reference_value;
use crate::model::{Comparison, Event, Operator, Reference, Rule, World};

const LEAST: i32 = World::DOCUMENT.least_reading;
const LARGEST: i32 = World::DOCUMENT.largest_reading;
const LARGEST_TIME: u32 = World::DOCUMENT.largest_time;

/// The splitmix64 generator.
#[derive(Debug, Clone)]
pub struct Random {
    state: u64,
}

impl Random {
    pub fn new(seed: u64) -> Random {
        Random { state: seed }
    }

    /// 64 random bits.
    pub fn bits(&mut self) -> u64 {
        self.state = self.state.wrapping_add(0x9E37_79B9_7F4A_7C15);
        let mut z = self.state;
        z = (z ^ (z >> 30)).wrapping_mul(0xBF58_476D_1CE4_E5B9);
        z = (z ^ (z >> 27)).wrapping_mul(0x94D0_49BB_1331_11EB);
        z ^ (z >> 31)
    }

    /// A number from 0 up to but without `end`, which is not 0. The slight
    /// preference for small numbers does not matter for tests.
    pub fn below(&mut self, end: usize) -> usize {
        (self.bits() % end as u64) as usize
    }

    /// One item of a list that is not empty.
    pub fn pick<T: Copy>(&mut self, items: &[T]) -> T {
        items[self.below(items.len())]
    }

    /// True in one of `n` cases.
    pub fn one_in(&mut self, n: usize) -> bool {
        self.below(n) == 0
    }
}

/// A random valid rule; about one in three is about the cycle as such.
pub fn random_rule(random: &mut Random) -> Rule {
    match random.one_in(3) {
        true => random_overall_rule(random),
        false => random_event_rule(random),
    }
}

/// A random valid rule of code 1 to 12.
pub fn random_event_rule(random: &mut Random) -> Rule {
    let code = 1 + random.below(12) as u8;
    let activation = random_activity(random);
    let target = if random.one_in(3) {
        activation
    } else {
        random_activity(random)
    };
    let (a, b) = random_window(random);
    Rule::new(code, activation, target, a, b)
        .with_activation_condition(random_condition(random, false))
        .with_correlation(random_condition(random, true))
}

/// A random valid rule of code 13 to 16.
pub fn random_overall_rule(random: &mut Random) -> Rule {
    let code = 13 + random.below(4) as u8;
    let activation = random_activity(random);
    let other = random.pick(&[1, 2, 3, 64].map(|x| if x == activation { 9 } else { x }));
    let target = match code {
        13 | 14 if random.one_in(3) => activation,
        _ => other,
    };
    let (a, b) = random_window(random);
    let condition = match random.below(8) {
        0 => unmeetable_condition(random),
        1 => Vec::new(),
        _ => random_condition(random, false),
    };
    Rule::new(code, activation, target, a, b).with_activation_condition(condition)
}

/// A condition with a comparison that no reading meets, or with several that none
/// meets together.
fn unmeetable_condition(random: &mut Random) -> Vec<Comparison> {
    if random.one_in(2) {
        return unmeetable_band(random);
    }
    let mut condition = random_condition(random, false);
    let never = match random.one_in(2) {
        true => (Operator::Less, LEAST),
        false => (Operator::Greater, LARGEST),
    };
    match condition.first_mut() {
        Some(first) => (first.operator, first.reference) = (never.0, Reference::Constant(never.1)),
        None => condition.push(Comparison::with_constant(3, never.0, never.1)),
    }
    condition
}

/// A list of random valid rules.
pub fn random_rules(random: &mut Random, count: usize) -> Vec<Rule> {
    (0..count).map(|_| random_rule(random)).collect()
}

fn random_activity(random: &mut Random) -> u8 {
    random.pick(&[1, 1, 1, 2, 2, 2, 3, 64])
}

/// Windows at both ends of the range and of small width.
fn random_window(random: &mut Random) -> (u32, Option<u32>) {
    let a = random.pick(&[0, 0, 0, 0, 1, 2, 100, LARGEST_TIME - 1, LARGEST_TIME]);
    let width = random.pick(&[1, 1, 2, 3, 100, 500]);
    let b = match random.below(8) {
        0..=2 => None,
        3 => Some(LARGEST_TIME).filter(|b| *b > a),
        _ => a.checked_add(width),
    };
    (a, b)
}

/// In every second condition a reading is compared more than once. The others have
/// mostly none, one or two comparisons, now and then one for each reading.
fn random_condition(random: &mut Random, correlation: bool) -> Vec<Comparison> {
    if random.one_in(2) {
        return random_band(random, correlation);
    }
    let count = random.pick(&[0, 0, 0, 0, 1, 1, 1, 1, 2, 2, 3, 4]);
    let mut numbers = if count <= 2 {
        vec![1, 2]
    } else {
        vec![1, 2, 3, 4]
    };
    (0..count)
        .map(|_| {
            let at = random.below(numbers.len());
            let reading = numbers.swap_remove(at);
            Comparison {
                reading,
                operator: random.pick(&Operator::ALL),
                reference: random_reference(random, correlation),
            }
        })
        .collect()
}

/// A constant, or in a correlation mostly a sum.
pub(crate) fn random_reference(random: &mut Random, correlation: bool) -> Reference {
    if correlation && !random.one_in(3) {
        return Reference::Activation {
            reading: random.pick(&[1, 1, 1, 2, 2, 3, 4]),
            plus: random.pick(&[0, 0, 0, 0, 1, -1, 7, LEAST, LARGEST]),
        };
    }
    Reference::Constant(random.pick(&[0, 0, 0, 1, -1, 7, LEAST, LEAST + 1, LARGEST - 1, LARGEST]))
}

/// A random cycle of `length` events whose activities, times and readings are
/// drawn close to what the rules name.
pub fn random_cycle(random: &mut Random, rules: &[Rule], length: usize) -> Vec<Event> {
    let steps = critical_steps(rules);
    let mut time = random_start(random, &steps);
    let mut events: Vec<Event> = Vec::with_capacity(length);
    for _ in 0..length {
        events.push(event_at(random, rules, &events, time));
        time = next_time(random, rules, &steps, &events);
    }
    events
}

/// An event that may follow these, drawn in the same way, none before `earliest`.
pub fn random_next(random: &mut Random, rules: &[Rule], events: &[Event], earliest: u32) -> Event {
    let steps = critical_steps(rules);
    let drawn = match events.is_empty() {
        true => random_start(random, &steps),
        false => next_time(random, rules, &steps, events),
    };
    let time = match drawn < earliest {
        true => earliest.saturating_add(random.pick(&[0, 0, 1, 2, 100])),
        false => drawn,
    };
    event_at(random, rules, events, time)
}

/// An event at this time, its activity and readings close to what the rules name.
fn event_at(random: &mut Random, rules: &[Rule], events: &[Event], time: u32) -> Event {
    let mut event = Event::new(time, random_event_activity(random, rules));
    for number in 1..=4 {
        let values = critical_readings(rules, number, events, random);
        event.readings[number - 1] = random.pick(&values);
    }
    event
}

/// A step after the last event, or a time at or beside an end of a window that
/// runs from the first one.
fn next_time(random: &mut Random, rules: &[Rule], steps: &[u32], events: &[Event]) -> u32 {
    let (first, last) = (events[0].time, events[events.len() - 1].time);
    let overall = rules.iter().filter(|rule| rule.is_overall());
    let bounds = overall.flat_map(|rule| std::iter::once(rule.a).chain(rule.b));
    let near = bounds.flat_map(|bound| [bound.saturating_sub(1), bound, bound.saturating_add(1)]);
    let times = near.filter_map(|bound| first.checked_add(bound));
    let times: Vec<u32> = times.filter(|time| *time >= last).collect();
    match random.one_in(3) && !times.is_empty() {
        true => random.pick(&times),
        false => last.saturating_add(random.pick(steps)),
    }
}

/// Repeated times, steps of 1, and steps beside each rule's a and b.
fn critical_steps(rules: &[Rule]) -> Vec<u32> {
    let mut steps = vec![0, 0, 1];
    for rule in rules {
        for bound in std::iter::once(rule.a).chain(rule.b) {
            steps.push(bound.saturating_sub(1));
            steps.push(bound);
            steps.push(bound.saturating_add(1));
        }
    }
    steps
}

/// Starts at time 0, at a small time, near the largest, or a step before it.
fn random_start(random: &mut Random, steps: &[u32]) -> u32 {
    match random.below(8) {
        0..=3 => 0,
        4 => random.below(1000) as u32,
        5 => LARGEST_TIME - random.below(4) as u32,
        _ => LARGEST_TIME - random.pick(steps),
    }
}

fn random_event_activity(random: &mut Random, rules: &[Rule]) -> u8 {
    if rules.is_empty() || random.one_in(6) {
        return random_activity(random);
    }
    let rule = &rules[random.below(rules.len())];
    random.pick(&[rule.activation, rule.target])
}

/// Values for reading `number` (1 to 4): blank, values at the ends of the
/// range, and values at and beside the references of the rules' comparisons of
/// that reading, against a random earlier event.
fn critical_readings(
    rules: &[Rule],
    number: usize,
    earlier: &[Event],
    random: &mut Random,
) -> Vec<Option<i32>> {
    let activation = if earlier.is_empty() {
        Event::new(0, 1)
    } else {
        random.pick(earlier)
    };
    let mut values = [LEAST, LEAST + 1, 0, LARGEST].map(Some).to_vec();
    values.push(None);
    for rule in rules {
        for comparison in rule.activation_condition.iter().chain(&rule.correlation) {
            let value = reference_value(comparison.reference, &activation)
                .filter(|_| usize::from(comparison.reading) == number);
            let near = value.into_iter().flat_map(|v| v - 1..=v + 1);
            values.extend(near.filter_map(|v| i32::try_from(v).ok()).map(Some));
        }
    }
    values
}
