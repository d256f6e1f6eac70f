//! The standing of an activation in a running cycle, found by a search through
//! continuations.
//!
//! Demand 3: an activation stands fulfilled exactly when it is fulfilled in
//! every continuation, violated exactly when it is violated in every
//! continuation, open exactly when two continuations differ on it. A
//! continuation is the taken events and then any finite list of well-formed
//! events, none with a time below that of the event before it. After a notice it
//! "begins no earlier than the later of last event and last notice", which is the
//! horizon here.
//!
//! Why the searched continuations are enough:
//!
//! 1. The verdict at a position reads an added event through two facts alone:
//!    whether it is an activation, and whether it suits the activation judged.
//!    Both are made of equalities on its activity and of comparisons of one
//!    time or one reading with a fixed number.
//! 2. As a function of the time, "in the window" changes its truth only at the
//!    activation's time plus a and plus b. The times tried have both, their
//!    neighbours and the two ends of the range that is left.
//! 3. All comparisons of one reading, those of both conditions, are taken
//!    together. As functions of that reading they change their truths only at
//!    their reference values, and a blank makes them false. The values tried have
//!    the reference values, their neighbours, both ends of the range and the
//!    blank. Between two neighbouring reference values all truths stay the same;
//!    if any value is there, the one beside the lower, or an end of the range, is
//!    tried. So every list of truths that some value has is that of a value tried.
//! 4. One added event is enough to change a verdict if any list is: the
//!    verdict changes only when an added event becomes eligible, and an
//!    eligible added event stays so when all other added events are left out.
//!    Lists of two are searched too, as a check on this.
//! 5. Under 13 to 16 the verdict at position 0 reads an added event through its
//!    activity, whether it meets the activation condition, and whether its time
//!    is in the window of the first event. Points 2 to 4 hold of that window: a
//!    verdict changes only when an added event fits, and it still fits when the
//!    others are left out.
//! 6. If there is no event yet, the first one added says where the window begins.
//!    A continuation of no events is empty, or one of its own first event. So the
//!    first events are searched, each with what may follow it. The earliest time
//!    is enough for them: a list moved there is a continuation too, with the same
//!    verdict. Those with a or b at the end of the range are searched as a check.

use crate::condition::{holds, meets, reference_value};
use crate::model::{is_cycle, Comparison, Event, Rule, Standing, World};
use crate::verdict::{is_activation, suits, verdict};
use std::collections::BTreeSet;

/// The standing at `position` (1 to the number of events, and 0 under 13 to 16)
/// under document 01's limits, if no event to come has a time below `horizon`.
pub fn standing(rule: &Rule, events: &[Event], horizon: u32, position: usize) -> Standing {
    standing_in(&World::DOCUMENT, rule, events, horizon, position)
}

/// [`standing`] with the last event's time as the horizon.
pub fn standing_at_last(rule: &Rule, events: &[Event], position: usize) -> Standing {
    standing(rule, events, last_time(events), position)
}

/// The standings at all events, with the last event's time as the horizon.
pub fn standings(rule: &Rule, events: &[Event]) -> Vec<Standing> {
    (1..=events.len())
        .map(|position| standing_at_last(rule, events, position))
        .collect()
}

/// [`standing`] in a world of the caller's choice.
pub fn standing_in(
    world: &World,
    rule: &Rule,
    events: &[Event],
    horizon: u32,
    position: usize,
) -> Standing {
    let closed = verdict(rule, events, position);
    if closed == Standing::Idle {
        return Standing::Idle;
    }
    let outcomes = outcomes_in(world, rule, events, horizon, position);
    if differ(&outcomes) {
        return Standing::Open;
    }
    // Where the verdict is decided, the target is too: the events at or before
    // the activation are all taken, and of those after it the first eligible
    // one stays the first, for all added ones come after it. So does the
    // earliest that fits.
    assert_eq!(outcomes, BTreeSet::from([closed]), "the target changed");
    closed
}

/// The verdicts, with their targets, of the activation at `position` in the
/// continuations searched. The search ends when both verdicts were found.
pub fn outcomes_in(
    world: &World,
    rule: &Rule,
    events: &[Event],
    horizon: u32,
    position: usize,
) -> BTreeSet<Standing> {
    debug_assert!(rule.is_valid(world) && is_cycle(world, events));
    let mut search = Search::new(rule, events, position);
    if search.judge(&[]) {
        return search.outcomes;
    }
    // "none with a time below that of the event before it": a horizon below
    // the last event's time adds nothing.
    let earliest = horizon.max(last_time(events));
    match origin(events, position) {
        Some(origin) => search.judge_added(world, origin, earliest),
        None => search.judge_firsts(world, earliest),
    }
    search.outcomes
}

/// The event that the window runs from: the activation, at position 0 the first
/// event.
fn origin(events: &[Event], position: usize) -> Option<&Event> {
    events.get(position.max(1) - 1)
}

fn last_time(events: &[Event]) -> u32 {
    events.last().map_or(0, |event| event.time)
}

/// Whether both verdicts occur.
fn differ(outcomes: &BTreeSet<Standing>) -> bool {
    outcomes.iter().any(|s| s.is_fulfilled()) && outcomes.iter().any(|s| s.is_violated())
}

struct Search<'a> {
    rule: &'a Rule,
    position: usize,
    taken: usize,
    cycle: Vec<Event>,
    outcomes: BTreeSet<Standing>,
}

impl<'a> Search<'a> {
    fn new(rule: &'a Rule, events: &[Event], position: usize) -> Self {
        Search {
            rule,
            position,
            taken: events.len(),
            cycle: events.to_vec(),
            outcomes: BTreeSet::new(),
        }
    }

    /// Judges the taken events and then `added`; tells whether both verdicts
    /// were found by now.
    fn judge(&mut self, added: &[Event]) -> bool {
        self.cycle.truncate(self.taken);
        self.cycle.extend_from_slice(added);
        self.outcomes
            .insert(verdict(self.rule, &self.cycle, self.position));
        differ(&self.outcomes)
    }

    /// Lists of one added event and of two.
    fn judge_added(&mut self, world: &World, origin: &Event, earliest: u32) {
        let times = critical_times(world, self.rule, origin.time, earliest);
        let added = added_events(world, self.rule, origin, times);
        for event in &added {
            if self.judge(&[*event]) {
                return;
            }
        }
        self.judge_pairs(&self.one_of_each_kind(origin, &added));
    }

    fn judge_pairs(&mut self, events: &[Event]) {
        for first in events {
            for second in events.iter().filter(|e| e.time >= first.time) {
                if self.judge(&[*first, *second]) {
                    return;
                }
            }
        }
    }

    /// The first events of a cycle that has none, each with what may follow it;
    /// see point 6 above.
    fn judge_firsts(&mut self, world: &World, earliest: u32) {
        let times = first_times(world, self.rule, earliest);
        let added = added_events(world, self.rule, &Event::new(earliest, 1), times);
        for first in self.one_of_each_kind(&Event::new(earliest, 1), &added) {
            let then = outcomes_in(world, self.rule, &[first], first.time, self.position);
            self.outcomes.extend(then);
            if differ(&self.outcomes) {
                return;
            }
        }
    }

    /// For each time, one event of each kind.
    fn one_of_each_kind(&self, origin: &Event, events: &[Event]) -> Vec<Event> {
        let mut seen = BTreeSet::new();
        let fresh = |e: &&Event| seen.insert((e.time, kind(self.rule, origin, e)));
        events.iter().filter(fresh).copied().collect()
    }
}

/// The facts through which a verdict reads an added event; see points 1 and 5
/// above.
fn kind(rule: &Rule, origin: &Event, event: &Event) -> (bool, bool) {
    match rule.is_overall() {
        true => {
            let met = meets(&rule.activation_condition, event, event);
            let has = |activity| met && event.activity == activity;
            (has(rule.activation), has(rule.target))
        }
        false => (is_activation(rule, event), suits(rule, origin, event)),
    }
}

/// The single events to try: each of these times with every critical activity and
/// list of readings.
fn added_events(world: &World, rule: &Rule, origin: &Event, times: Vec<u32>) -> Vec<Event> {
    let readings = critical_readings(world, rule, origin);
    let mut events = Vec::new();
    for time in times {
        for activity in critical_activities(world, rule) {
            events.extend(readings.iter().map(|readings| Event {
                time,
                activity,
                readings: *readings,
            }));
        }
    }
    events
}

/// See point 2 above.
fn critical_times(world: &World, rule: &Rule, start: u32, earliest: u32) -> Vec<u32> {
    let start = i128::from(start);
    let bounds = bounds(rule).map(|bound| start + bound);
    times_near(world, earliest, bounds)
}

/// See point 6 above.
fn first_times(world: &World, rule: &Rule, earliest: u32) -> Vec<u32> {
    let end = i128::from(world.largest_time);
    let bounds = bounds(rule).map(|bound| end - bound);
    times_near(world, earliest, bounds)
}

/// The time differences at which "in the window" changes its truth: a and, if
/// there is an end, the last one inside and b.
fn bounds(rule: &Rule) -> impl Iterator<Item = i128> {
    let b = rule.b.map(i128::from);
    let ends = b.into_iter().flat_map(|b| [b - 1, b]);
    std::iter::once(i128::from(rule.a)).chain(ends)
}

/// These times with their neighbours and the two ends of the range that is left,
/// as far as they are in that range.
fn times_near(world: &World, earliest: u32, times: impl Iterator<Item = i128>) -> Vec<u32> {
    let near = times.flat_map(|time| time - 1..=time + 1);
    let ends = [earliest, world.largest_time].map(i128::from);
    let times: BTreeSet<i128> = near.chain(ends).collect();
    times
        .into_iter()
        .filter_map(|time| u32::try_from(time).ok())
        .filter(|time| (earliest..=world.largest_time).contains(time))
        .collect()
}

/// The target, the activation and one other activity, where the world has one.
fn critical_activities(world: &World, rule: &Rule) -> BTreeSet<u8> {
    let other = (1..=world.largest_activity).find(|x| ![rule.target, rule.activation].contains(x));
    [rule.target, rule.activation]
        .into_iter()
        .chain(other)
        .collect()
}

/// The lists of four readings to try: every choice of one value for each.
fn critical_readings(world: &World, rule: &Rule, activation: &Event) -> Vec<[Option<i32>; 4]> {
    let mut lists = vec![[None; 4]];
    for number in 1..=4 {
        let values = critical_values(world, rule, activation, number);
        lists = lists
            .iter()
            .flat_map(|list| values.iter().map(|value| with_value(*list, number, *value)))
            .collect();
    }
    lists
}

fn with_value(mut list: [Option<i32>; 4], number: u8, value: Option<i32>) -> [Option<i32>; 4] {
    list[usize::from(number) - 1] = value;
    list
}

/// The values to try for one reading; see point 3 above. Of values that agree
/// on every comparison one is kept, which changes neither fact of point 1.
fn critical_values(world: &World, rule: &Rule, activation: &Event, number: u8) -> Vec<Option<i32>> {
    let conditions = rule.activation_condition.iter().chain(&rule.correlation);
    let comparisons: Vec<&Comparison> = conditions.filter(|c| c.reading == number).collect();
    let mut seen = BTreeSet::new();
    boundary_values(world, &comparisons, activation)
        .into_iter()
        .filter(|value| seen.insert(truths(&comparisons, activation, number, *value)))
        .collect()
}

/// Blank, both ends of the range with their neighbours, and each reference
/// value with its neighbours, as far as they are in the range.
fn boundary_values(
    world: &World,
    comparisons: &[&Comparison],
    activation: &Event,
) -> Vec<Option<i32>> {
    let least = i128::from(world.least_reading);
    let largest = i128::from(world.largest_reading);
    let references = comparisons
        .iter()
        .filter_map(|c| reference_value(c.reference, activation));
    let near = references.flat_map(|v| v - 1..=v + 1);
    let ends = [least, least + 1, largest - 1, largest];
    let values: BTreeSet<i128> = near.chain(ends).collect();
    let in_range = values
        .into_iter()
        .filter(|value| (least..=largest).contains(value))
        .map(|value| i32::try_from(value).ok());
    std::iter::once(None).chain(in_range).collect()
}

/// Which of the comparisons hold for an event with this value.
fn truths(
    comparisons: &[&Comparison],
    activation: &Event,
    number: u8,
    value: Option<i32>,
) -> Vec<bool> {
    let mut tested = Event::new(0, 1);
    tested.readings = with_value(tested.readings, number, value);
    comparisons
        .iter()
        .map(|c| holds(c, &tested, activation))
        .collect()
}
