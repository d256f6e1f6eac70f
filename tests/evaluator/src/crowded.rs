//! Seeded random rules and cycles in which many events are eligible, before an
//! activation and after it, or fit a rule about the cycle, so that a target is one
//! of several.
//!
//! There are few activities, most windows are wide, and most conditions are
//! empty or weak, also where they compare a reading more than once. All rules and
//! cycles are valid.

use crate::model::{Comparison, Event, Operator, Rule, Standing, World};
use crate::random::Random;
use crate::verdict::{eligible, verdict};

const LARGEST_TIME: u32 = World::DOCUMENT.largest_time;

/// 1 and 8 alone look to both sides, so about every second rule is one of these.
const CODES: [u8; 24] = [
    1, 1, 1, 1, 1, 2, 3, 4, 5, 6, 7, 8, 8, 8, 8, 8, 9, 10, 11, 12, 13, 14, 15, 16,
];

/// A valid rule on the activities 1 and 2.
pub fn crowded_rule(random: &mut Random) -> Rule {
    let code = random.pick(&CODES);
    let activation = random.pick(&[1, 1, 1, 2]);
    let target = match code < 15 && random.one_in(4) {
        true => activation,
        false => 3 - activation,
    };
    let (a, b) = window(random);
    let rule = Rule::new(code, activation, target, a, b)
        .with_activation_condition(activation_condition(random));
    match rule.is_overall() {
        true => rule,
        false => rule.with_correlation(correlation(random)),
    }
}

/// A list of such rules.
pub fn crowded_rules(random: &mut Random, count: usize) -> Vec<Rule> {
    (0..count).map(|_| crowded_rule(random)).collect()
}

/// Mostly 0 to no end. One that begins later leaves the nearest events out, and
/// one that ends leaves the farthest out.
fn window(random: &mut Random) -> (u32, Option<u32>) {
    let a = random.pick(&[1, 2, 5, 10]);
    let width = random.pick(&[3, 10, 30]);
    match random.below(8) {
        0 => (0, Some(width)),
        1 => (a, None),
        2 => (a, Some(a + width)),
        _ => (0, None),
    }
}

/// Operators that most of the readings below meet.
const WEAK: [Operator; 3] = [
    Operator::NotEqual,
    Operator::LessOrEqual,
    Operator::GreaterOrEqual,
];

fn activation_condition(random: &mut Random) -> Vec<Comparison> {
    let k = random.pick(&[0, 1, 2]);
    let comparison = Comparison::with_constant(1, random.pick(&WEAK), k);
    match random.below(12) {
        0..=5 => band(random, |operator, k| {
            Comparison::with_constant(1, operator, k + 1)
        }),
        6..=7 => vec![comparison],
        _ => Vec::new(),
    }
}

fn correlation(random: &mut Random) -> Vec<Comparison> {
    let k = random.pick(&[-1, 0, 1]);
    let comparison = Comparison::with_activation(1, random.pick(&WEAK), 1, k);
    match random.below(12) {
        0..=5 => band(random, |operator, k| {
            Comparison::with_activation(1, operator, 1, k)
        }),
        6..=8 => vec![comparison],
        _ => Vec::new(),
    }
}

/// Two to four comparisons of reading 1 that most of the readings below meet.
fn band(random: &mut Random, compare: impl Fn(Operator, i32) -> Comparison) -> Vec<Comparison> {
    let low = random.pick(&[-3, -2, -1, -1]);
    let high = random.pick(&[1, 1, 2, 3]);
    let mut band = vec![
        compare(Operator::GreaterOrEqual, low),
        compare(Operator::LessOrEqual, high),
    ];
    for _ in 0..random.pick(&[0, 0, 1, 2]) {
        let left_out = random.pick(&[-2, -1, 1, 2]);
        let at = random.below(band.len() + 1);
        band.insert(at, compare(Operator::NotEqual, left_out));
    }
    band
}

/// Mostly 1, seldom blank.
const READINGS: [Option<i32>; 12] = [
    Some(0),
    Some(0),
    Some(1),
    Some(1),
    Some(1),
    Some(1),
    Some(1),
    Some(1),
    Some(1),
    Some(2),
    Some(2),
    None,
];

/// A cycle of `length` events. Activity 2, the target of most rules, is the most
/// frequent, so that several lie between two activations.
pub fn crowded_cycle(random: &mut Random, length: usize) -> Vec<Event> {
    let mut time = random.pick(&[0, 0, 0, 1000, LARGEST_TIME - 50]);
    (0..length)
        .map(|_| {
            let mut event = Event::new(time, random.pick(&[1, 1, 2, 2, 2, 2, 9]));
            event.readings[0] = random.pick(&READINGS);
            time = time.saturating_add(random.pick(&[0, 1, 1, 2, 3, 5, 10]));
            event
        })
        .collect()
}

/// How many activations had a choice of targets.
#[derive(Debug, Clone, Copy, PartialEq, Eq, Default)]
pub struct Choices {
    /// All activations.
    pub judged: usize,
    /// Those with an eligible position before the activation and one after it.
    pub both_sides: usize,
    /// Those whose target is not the earliest eligible position.
    pub not_earliest: usize,
    /// Those whose target is not the latest eligible position.
    pub not_latest: usize,
}

impl Choices {
    /// Counts the activations of a rule in a finished cycle.
    pub fn count(&mut self, rule: &Rule, events: &[Event]) {
        for position in 1..=events.len() {
            let (Standing::Fulfilled(target) | Standing::Violated(target)) =
                verdict(rule, events, position)
            else {
                continue;
            };
            self.judged += 1;
            let eligible = eligible(rule, events, position);
            if let (Some(first), Some(last)) = (eligible.first(), eligible.last()) {
                let target = usize::from(target);
                self.both_sides += usize::from(*first < position && position < *last);
                self.not_earliest += usize::from(target != *first);
                self.not_latest += usize::from(target != *last);
            }
        }
    }
}
