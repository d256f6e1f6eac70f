//! The verdict on an activation in a finished cycle.
//!
//! Each template is given as the list of positions that it admits. The
//! eligible positions are those of the list that suit the activation. Whether
//! there is one decides the verdict, and the nearest of them is its target.
//!
//! Rules 13 to 16 have no activation among the events; position 0 is theirs, see
//! [`crate::overall`].

use crate::condition::meets;
use crate::model::{Event, Rule, Standing};
use crate::overall::overall_verdict;
use std::collections::BTreeSet;

/// "An event is an activation of a rule if it has the activation activity and
/// meets the activation condition." Under 13 to 16 none is: "position 0, in place
/// of events, is its one activation".
pub fn is_activation(rule: &Rule, event: &Event) -> bool {
    // The condition of a valid rule has constants alone, so the event that
    // stands for the activation here is never read.
    let fits = event.activity == rule.activation && meets(&rule.activation_condition, event, event);
    fits && !rule.is_overall()
}

/// Whether a time lies in the window of an activation, after it or before it.
/// "Past windows are closed and open as the formula has them: a time
/// difference of a is inside, of b outside."
fn in_window(rule: &Rule, activation_time: u32, time: u32) -> bool {
    let centre = i128::from(activation_time);
    let time = i128::from(time);
    let a = i128::from(rule.a);
    match rule.b.map(i128::from) {
        Some(b) => {
            (centre + a..centre + b).contains(&time)
                || (centre - b + 1..centre - a + 1).contains(&time)
        }
        None => time >= centre + a || time <= centre - a,
    }
}

/// "Event j suits activation i if it has the target activity, meets the
/// correlation against i's readings, and the later time of the two minus the
/// earlier is at least a and below b."
pub fn suits(rule: &Rule, activation: &Event, event: &Event) -> bool {
    event.activity == rule.target
        && meets(&rule.correlation, event, activation)
        && in_window(rule, activation.time, event.time)
}

/// "8 to 12 are the negatives of 1, 2, 5, 4, 7 in that order". The second part
/// tells whether the code is one of these.
fn positive_template(code: u8) -> (u8, bool) {
    match code {
        1..=7 => (code, false),
        8..=12 => ([1, 2, 5, 4, 7][usize::from(code) - 8], true),
        _ => panic!("template code {code} is not among 1 to 12"),
    }
}

/// The positions that the template admits for the activation at `i`, whether
/// or not they suit it.
fn admitted(rule: &Rule, events: &[Event], i: usize) -> Vec<usize> {
    let n = events.len();
    let activates = |j: &usize| is_activation(rule, &events[*j - 1]);
    match positive_template(rule.code).0 {
        // 1 responded existence: any j.
        1 => (1..=n).collect(),
        // 2 response: j ≥ i.
        2 => (i..=n).collect(),
        // 3 alternate response: the positions after i up to the next
        // activation; that one has no activation strictly before it and is
        // admitted itself.
        3 => {
            let next = (i + 1..=n).find(activates);
            (i + 1..=next.unwrap_or(n)).collect()
        }
        // 4 chain response: j = i + 1.
        4 => (i + 1..=n).take(1).collect(),
        // 5 precedence: j ≤ i.
        5 => (1..=i).collect(),
        // 6 alternate precedence: the positions before i back to the last
        // activation before it, which is admitted itself.
        6 => {
            let last = (1..i).rev().find(activates);
            (last.unwrap_or(1)..i).collect()
        }
        // 7 chain precedence: j = i − 1.
        _ => (1..i).rev().take(1).collect(),
    }
}

/// The eligible positions of the activation at `position`.
pub fn eligible(rule: &Rule, events: &[Event], position: usize) -> BTreeSet<usize> {
    let activation = &events[position - 1];
    admitted(rule, events, position)
        .into_iter()
        .filter(|j| suits(rule, activation, &events[*j - 1]))
        .collect()
}

/// "the latest eligible position at or before the activation; failing that,
/// the first after it".
fn nearest(eligible: &BTreeSet<usize>, position: usize) -> Option<usize> {
    let before = eligible.range(..=position).next_back();
    let after = eligible.range(position + 1..).next();
    before.or(after).copied()
}

/// The standing at `position` (1 to the number of events, and 0 under 13 to 16) in
/// a finished cycle: idle, fulfilled or violated. At an event the target is the
/// nearest eligible position, "or 0 if there is none".
pub fn verdict(rule: &Rule, events: &[Event], position: usize) -> Standing {
    if position == 0 {
        return overall_verdict(rule, events);
    }
    if !is_activation(rule, &events[position - 1]) {
        return Standing::Idle;
    }
    let eligible = eligible(rule, events, position);
    let target = nearest(&eligible, position)
        .map_or(0, |j| u16::try_from(j).expect("a position fits 16 bits"));
    // "These are fulfilled if an eligible j exists"; the negatives are
    // "violated if one exists".
    let negative = positive_template(rule.code).1;
    if eligible.is_empty() == negative {
        Standing::Fulfilled(target)
    } else {
        Standing::Violated(target)
    }
}

/// The standings at all events of a finished cycle, in order.
pub fn verdicts(rule: &Rule, events: &[Event]) -> Vec<Standing> {
    (1..=events.len())
        .map(|position| verdict(rule, events, position))
        .collect()
}
