//! Seeded random lists of takes and notices, with times at and beside the ends of
//! the rules' windows, and rules whose windows end.

use crate::model::{Event, Rule, World};
use crate::random::{random_next, random_rule, Random};
use crate::record::Record;
use crate::refusal::Refusal;
use crate::slots::EVENT_SLOTS;
use crate::verdict::is_activation;

const LARGEST_TIME: u64 = World::DOCUMENT.largest_time as u64;

/// A call that a running cycle is grown by.
#[derive(Debug, Clone, Copy, PartialEq, Eq)]
pub enum Call {
    Take(Event),
    Notice(u64),
}

impl Record {
    /// Makes the call.
    pub fn call(self, call: Call) -> (Record, Result<(), Refusal>) {
        match call {
            Call::Take(event) => self.take(event),
            Call::Notice(time) => self.notice(time),
        }
    }
}

/// The templates of which an activation may wait for an event.
const WAITING: [u8; 7] = [1, 2, 3, 4, 8, 9, 11];

/// A valid rule that a notice may decide: mostly it waits for an event, its window
/// ends after a short time, and every second one has no conditions.
pub fn lapsing_rule(random: &mut Random) -> Rule {
    let mut rule = random_rule(random);
    if !rule.is_overall() && !random.one_in(4) {
        rule.code = random.pick(&WAITING);
    }
    if !random.one_in(4) {
        rule.a = random.pick(&[0, 0, 1, 2, 100]);
        rule.b = Some(rule.a + random.pick(&[1, 2, 3, 100, 500]));
    }
    if random.one_in(2) {
        rule.activation_condition.clear();
        rule.correlation.clear();
    }
    rule
}

/// A list of such rules.
pub fn lapsing_rules(random: &mut Random, count: usize) -> Vec<Rule> {
    (0..count).map(|_| lapsing_rule(random)).collect()
}

/// The next call on a run: about a third are notices. A seventh of the takes and
/// about a third of the notices is below the last event or notice or outside the range.
pub fn random_call(random: &mut Random, record: &Record) -> Call {
    match random.one_in(3) {
        true => Call::Notice(random_notice(random, record)),
        false => Call::Take(random_take(random, record)),
    }
}

fn parts(record: &Record) -> (Vec<Rule>, &[Event]) {
    let taken = usize::try_from(record.count).unwrap_or(0).min(EVENT_SLOTS);
    let rules = record.table.rules().unwrap_or_default();
    (rules, &record.events[..taken])
}

/// Most events come soon, so that windows are left for a notice to end.
fn random_take(random: &mut Random, record: &Record) -> Event {
    let (rules, events) = parts(record);
    let horizon = record.horizon();
    let mut event = random_next(random, &rules, events, horizon);
    match random.below(20) {
        0 => event.activity = random.pick(&[0, 65, 255]),
        1 | 2 => event.time = random_below(random, record),
        3..=14 => event.time = horizon.saturating_add(random.pick(&[0, 0, 1, 2, 50])),
        _ => {}
    }
    event
}

/// Mostly a time that is not refused: the one below which it would be, one beside an
/// end of a window, or a little later. The largest time ends every window, so it is
/// seldom given.
pub fn random_notice(random: &mut Random, record: &Record) -> u64 {
    let horizon = u64::from(record.horizon());
    let after = horizon + random.pick(&[0, 1, 2, 100, 500]);
    match random.below(20) {
        0 | 1 => u64::from(random_below(random, record)),
        2 => 0,
        3 => LARGEST_TIME + 1,
        4 => random.pick(&[LARGEST_TIME + 1 + after, u64::MAX]),
        5 if random.one_in(4) => LARGEST_TIME,
        5..=7 => horizon,
        8 | 9 => after,
        _ => near_windows(random, record).unwrap_or(after),
    }
}

/// A time below the last event or notice, if there is one: one less, that of the
/// last event, or 0.
fn random_below(random: &mut Random, record: &Record) -> u32 {
    let last = parts(record).1.last().map_or(0, |event| event.time);
    let before = record.horizon().saturating_sub(1);
    random.pick(&[before, before, last.min(before), last.saturating_sub(1), 0])
}

/// A time at or beside an end of a window that is not over. Most are taken from the
/// nearest ones: the far ones end the others.
fn near_windows(random: &mut Random, record: &Record) -> Option<u64> {
    let (rules, events) = parts(record);
    let horizon = u64::from(record.horizon());
    let mut times: Vec<u64> = match events {
        [] if random.one_in(4) => last_beginnings(&rules),
        _ => rules.iter().flat_map(|r| ends_of(r, events)).collect(),
    };
    times.retain(|time| *time >= horizon);
    times.sort();
    times.dedup();
    let end = if random.one_in(4) { times.len() } else { 6 };
    let nearest = &times[..end.min(times.len())];
    (!nearest.is_empty()).then(|| random.pick(nearest))
}

/// a, b and what is beside them, from each activation, or from the first event.
fn ends_of(rule: &Rule, events: &[Event]) -> Vec<u64> {
    let begins: Vec<Event> = match rule.is_overall() {
        true => events.first().copied().into_iter().collect(),
        false => {
            let activations = events.iter().filter(|event| is_activation(rule, event));
            activations.copied().collect()
        }
    };
    let a = u64::from(rule.a);
    let bounds = rule.b.map(u64::from).map(|b| [b - 1, b, b + 1]);
    let bounds: Vec<u64> = [a.saturating_sub(1), a]
        .into_iter()
        .chain(bounds.into_iter().flatten())
        .collect();
    let times = begins.iter().map(|event| u64::from(event.time));
    times
        .flat_map(|time| bounds.iter().map(move |bound| time + bound))
        .collect()
}

/// The latest times at which the first event can still be so early that a is in the
/// range, and those beside them.
fn last_beginnings(rules: &[Rule]) -> Vec<u64> {
    let overall = rules.iter().filter(|rule| rule.is_overall());
    let last = overall.map(|rule| LARGEST_TIME - u64::from(rule.a));
    let near = last.flat_map(|last| [last.saturating_sub(1), last, last + 1]);
    near.filter(|time| *time <= LARGEST_TIME).collect()
}
