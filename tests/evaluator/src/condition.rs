//! When a comparison holds and when a condition is met.
//!
//! All sums are made in 128 bits, so that none can leave its type: "the sum is
//! exact and may pass that range".

use crate::model::{Comparison, Event, Operator, Reference};
use std::cmp::Ordering::{self, Equal, Greater, Less};

/// The orderings of "reading against reference" for which an operator holds.
fn accepted(operator: Operator) -> &'static [Ordering] {
    match operator {
        Operator::Equal => &[Equal],
        Operator::NotEqual => &[Less, Greater],
        Operator::Less => &[Less],
        Operator::LessOrEqual => &[Less, Equal],
        Operator::Greater => &[Greater],
        Operator::GreaterOrEqual => &[Greater, Equal],
    }
}

/// The exact value of a reference; `None` if it is blank.
pub fn reference_value(reference: Reference, activation: &Event) -> Option<i128> {
    match reference {
        Reference::Constant(k) => Some(i128::from(k)),
        Reference::Activation { reading, plus } => activation
            .reading(reading)
            .map(|value| i128::from(value) + i128::from(plus)),
    }
}

/// "A comparison with a blank on either side doesn't hold, ≠ included."
pub fn holds(comparison: &Comparison, tested: &Event, activation: &Event) -> bool {
    let left = tested.reading(comparison.reading).map(i128::from);
    let right = reference_value(comparison.reference, activation);
    match (left, right) {
        (Some(left), Some(right)) => accepted(comparison.operator).contains(&left.cmp(&right)),
        _ => false,
    }
}

/// "A condition is met when all its comparisons hold; an empty one is met."
pub fn meets(condition: &[Comparison], tested: &Event, activation: &Event) -> bool {
    condition.iter().all(|c| holds(c, tested, activation))
}
