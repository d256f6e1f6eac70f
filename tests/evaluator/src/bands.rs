//! Seeded random conditions in which a reading is compared more than once.
//!
//! The references of such a reading lie close together, so that one value, a few
//! or none meet all comparisons, or far apart, so that many do. All conditions are
//! valid.

use crate::model::{Comparison, Operator, Reference, Rule, World};
use crate::random::{random_reference, random_rule, Random};
use std::collections::BTreeSet;
use Operator::{Equal, Greater, GreaterOrEqual, Less, LessOrEqual, NotEqual};

const LEAST: i32 = World::DOCUMENT.least_reading;
const LARGEST: i32 = World::DOCUMENT.largest_reading;

/// Operators with what their references have more than a first one.
type Shape = Vec<(Operator, i32)>;

/// Whether some reading is compared more than once.
pub fn is_band(condition: &[Comparison]) -> bool {
    let readings: BTreeSet<u8> = condition.iter().map(|c| c.reading).collect();
    readings.len() < condition.len()
}

/// The conditions of a rule, empty ones too. The correlation of a rule about the
/// cycle is none, for it has to be empty.
pub fn conditions(rule: &Rule) -> impl Iterator<Item = &Vec<Comparison>> {
    let correlation = Some(&rule.correlation).filter(|_| !rule.is_overall());
    std::iter::once(&rule.activation_condition).chain(correlation)
}

/// Valid rules of all templates in which most conditions compare a reading more
/// than once. Most of them await an event to come, in an endless window.
pub fn banded_rules(random: &mut Random, count: usize) -> Vec<Rule> {
    (0..count).map(|_| banded_rule(random)).collect()
}

fn banded_rule(random: &mut Random) -> Rule {
    let mut rule = random_rule(random);
    if random.one_in(2) {
        (rule.a, rule.b) = (0, None);
    }
    if rule.is_overall() {
        if !is_band(&rule.activation_condition) && !random.one_in(4) {
            rule.activation_condition = random_band(random, false);
        }
        return rule;
    }
    if random.one_in(2) {
        rule.code = random.pick(&[1, 2, 3, 4, 8, 9, 11]);
    }
    if random.one_in(3) {
        rule.activation_condition.clear();
    }
    if !is_band(&rule.correlation) {
        rule.correlation = match random.one_in(3) {
            true => unmeetable_band(random),
            false => random_band(random, true),
        };
    }
    rule
}

/// Two to four comparisons in any order, mostly on one reading. In an activation
/// condition most of them are wide, so that there are activations.
pub fn random_band(random: &mut Random, correlation: bool) -> Vec<Comparison> {
    let shape = match random.below(8) {
        0 => points(random),
        1 => any_operators(random),
        2 => narrow(random),
        3..=4 if correlation => narrow(random),
        _ => wide(random),
    };
    band_of(random, &shape, correlation)
}

/// Comparisons of one reading that no value meets together.
pub fn unmeetable_band(random: &mut Random) -> Vec<Comparison> {
    let shape = match random.below(5) {
        0 => vec![(Greater, 0), (Less, 1)],
        1 => vec![(Equal, 0), (Equal, 1)],
        2 => vec![(GreaterOrEqual, 0), (NotEqual, 0), (LessOrEqual, 0)],
        3 => vec![(Less, 2), (NotEqual, 1), (Greater, 0)],
        _ => vec![
            (GreaterOrEqual, 0),
            (LessOrEqual, 1),
            (NotEqual, 0),
            (NotEqual, 1),
        ],
    };
    let k = random.pick(&[0, 5, -2, LEAST, LARGEST - 2]);
    let mut band = on_one_reading(random, &shape, |_, more| Reference::Constant(k + more));
    add_other(random, &mut band, false);
    band
}

/// Two ends with none to three values between them, of which some are left out.
fn narrow(random: &mut Random) -> Shape {
    let width = random.below(5) as i32;
    let low = random.pick(&[Greater, Greater, GreaterOrEqual]);
    let high = random.pick(&[Less, Less, LessOrEqual]);
    let mut shape = vec![(low, 0), (high, width)];
    for _ in 0..random.pick(&[0, 0, 1, 1, 2]) {
        shape.push((NotEqual, random.below(5) as i32));
    }
    shape
}

/// Two ends far apart, and perhaps values beside an end that are left out.
fn wide(random: &mut Random) -> Shape {
    let low = random.pick(&[-1_000_000, -100, -100, -2]);
    let high = random.pick(&[1_000_000, 100, 100, 2]);
    let mut shape = vec![
        (random.pick(&[Greater, GreaterOrEqual]), low),
        (random.pick(&[Less, LessOrEqual]), high),
    ];
    for _ in 0..random.pick(&[0, 0, 1, 2]) {
        shape.push((NotEqual, random.pick(&[low, low + 1, high - 1, high])));
    }
    shape
}

/// Single values that are asked for or left out.
fn points(random: &mut Random) -> Shape {
    let operator = random.pick(&[NotEqual, NotEqual, Equal]);
    let count = random.pick(&[2, 2, 3, 4]);
    let more = |random: &mut Random| random.pick(&[0, 0, 1, -1, 2]);
    (0..count).map(|_| (operator, more(random))).collect()
}

/// Any operators, with references that are the same or at most 2 apart.
fn any_operators(random: &mut Random) -> Shape {
    let count = random.pick(&[2, 2, 3, 3, 4]);
    let one = |random: &mut Random| (random.pick(&Operator::ALL), random.below(3) as i32);
    (0..count).map(|_| one(random)).collect()
}

/// The comparisons of a shape, all of them with constants or with sums of one
/// reading of the activation; in one correlation of six some have another reference.
fn band_of(random: &mut Random, shape: &Shape, correlation: bool) -> Vec<Comparison> {
    let sums = correlation && !random.one_in(3);
    let mixed = correlation && random.one_in(6);
    let g = random.pick(&[1, 1, 1, 2, 3, 4]);
    let k = random.pick(&[0, 0, 0, 5, -5, 7, LEAST, LARGEST - 2, LARGEST]);
    let mut band = on_one_reading(random, shape, |random, more| {
        let k = k.saturating_add(more);
        match sums {
            _ if mixed && random.one_in(2) => random_reference(random, correlation),
            true => Reference::Activation {
                reading: g,
                plus: k,
            },
            false => Reference::Constant(k),
        }
    });
    add_other(random, &mut band, correlation);
    band
}

/// The shape on a reading, in any order.
fn on_one_reading(
    random: &mut Random,
    shape: &Shape,
    reference: impl Fn(&mut Random, i32) -> Reference,
) -> Vec<Comparison> {
    let reading = random.pick(&[1, 1, 1, 2, 2, 3, 4]);
    let mut band = Vec::new();
    for (operator, more) in shape {
        let comparison = Comparison {
            reading,
            operator: *operator,
            reference: reference(random, *more),
        };
        band.insert(random.below(band.len() + 1), comparison);
    }
    band
}

/// Now and then a comparison of any reading more, where there is a place for it.
fn add_other(random: &mut Random, band: &mut Vec<Comparison>, correlation: bool) {
    if band.len() < 4 && random.one_in(5) {
        let other = Comparison {
            reading: random.pick(&[1, 2, 3, 4]),
            operator: random.pick(&[NotEqual, LessOrEqual, GreaterOrEqual]),
            reference: random_reference(random, correlation),
        };
        band.insert(random.below(band.len() + 1), other);
    }
}
