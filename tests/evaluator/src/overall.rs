//! The verdict of a rule about the cycle as such, 13 to 16, in a finished cycle.
//!
//! Table 2 of document 001 makes these of F over one activity or two, where the
//! event meets the activation condition. F is judged at the first position: "The
//! window runs from the time of the first event." Each F is given as the list of
//! the positions that fit, and the formula is as the table has it.

use crate::condition::meets;
use crate::model::{Event, Rule, Standing};
use std::collections::BTreeSet;

/// Whether a time is at least a and less than b after that of the first event.
fn in_window(rule: &Rule, first: &Event, event: &Event) -> bool {
    let [start, time, a] = [first.time, event.time, rule.a].map(i128::from);
    let ended = rule.b.is_some_and(|b| time >= start + i128::from(b));
    time >= start + a && !ended
}

/// The positions for F over an activity. "The activation condition applies to both
/// activities".
fn occurrences(rule: &Rule, events: &[Event], activity: u8) -> BTreeSet<usize> {
    let fits = |event: &Event| {
        event.activity == activity
            && meets(&rule.activation_condition, event, event)
            && in_window(rule, &events[0], event)
    };
    let numbered = (1..).zip(events);
    numbered.filter(|(_, e)| fits(e)).map(|(j, _)| j).collect()
}

/// The positions that fit, "under 15 and 16, for either activity".
pub fn fitting(rule: &Rule, events: &[Event]) -> BTreeSet<usize> {
    let mut fitting = occurrences(rule, events, rule.activation);
    if rule.has_two_activities() {
        fitting.extend(occurrences(rule, events, rule.target));
    }
    fitting
}

/// Table 2's formula at the first position. An empty cycle has none, so no F holds.
fn holds(rule: &Rule, events: &[Event]) -> bool {
    let eventually = |activity| !occurrences(rule, events, activity).is_empty();
    let (a, b) = (eventually(rule.activation), eventually(rule.target));
    match rule.code {
        13 => a,
        14 => !a,
        15 => a || b,
        16 => (a || b) && !(a && b),
        code => panic!("template code {code} is not among 13 to 16"),
    }
}

/// The standing at position 0 in a finished cycle. "Its target is the earliest
/// event that fits .. inside the window, or 0", whatever the verdict.
pub fn overall_verdict(rule: &Rule, events: &[Event]) -> Standing {
    let earliest = fitting(rule, events).first().copied();
    let target = u16::try_from(earliest.unwrap_or(0)).expect("a position fits 16 bits");
    match holds(rule, events) {
        true => Standing::Fulfilled(target),
        false => Standing::Violated(target),
    }
}
