//! Seeded random run records: grown ones, and ones with fields set to edge
//! values as no call sets them.

use crate::model::{Comparison, Event, Operator, Reference, Standing};
use crate::random::{random_cycle, random_rules, Random};
use crate::record::{grown, place, Record};
use crate::slots::{ConditionSlot, RuleSlot, EVENT_SLOTS, RULE_SLOTS};
use crate::totals::Totals;

/// A part of a record that a change is made in.
#[derive(Debug, Clone, Copy, PartialEq, Eq, PartialOrd, Ord, Hash)]
pub enum Part {
    Standing,
    /// A standing at position 0.
    Overall,
    EventSlot,
    EventCount,
    RuleSlot,
    RuleCount,
    Closed,
    /// The stored totals.
    Totals,
    /// The kept time.
    Clock,
}

impl Part {
    pub const ALL: [Part; 9] = [
        Part::Standing,
        Part::Overall,
        Part::EventSlot,
        Part::EventCount,
        Part::RuleSlot,
        Part::RuleCount,
        Part::Closed,
        Part::Totals,
        Part::Clock,
    ];
}

/// One record in so many keeps its totals when other parts are changed. In most
/// of them these are counted anew, else they would be the cause of most refusals.
const UNCOUNTED: usize = 8;

/// A record grown from start with random rules and up to `longest` events, now
/// and then closed. In every second one the kept time is any.
pub fn random_record(random: &mut Random, longest: usize) -> Record {
    let count = random.pick(&[0, 1, 1, 1, 2, 2, 3, 4]);
    let rules = random_rules(random, count);
    let length = random.below(longest + 1);
    let mut record = grown(&rules, &random_cycle(random, &rules, length));
    if random.one_in(2) {
        record.clock = any_clock(random, &record);
    }
    match random.one_in(3) {
        true => record.close().0,
        false => record,
    }
}

/// Any kept time: 0, at the last event, beside it and above it, or the largest.
pub fn any_clock(random: &mut Random, record: &Record) -> u32 {
    let last = last_time(record);
    let above = random.pick(&[1, 2, 100, 500]);
    let near = [last, last.saturating_sub(1), last.saturating_add(above)];
    match random.below(8) {
        0 => 0,
        1 => last / 2,
        2 => random.pick(&[u32::MAX, u32::MAX - 1]),
        _ => random.pick(&near),
    }
}

/// The time of the last event, 0 if there is none.
fn last_time(record: &Record) -> u32 {
    let taken = usize::try_from(record.count).unwrap_or(0).min(EVENT_SLOTS);
    record.events[..taken].last().map_or(0, |event| event.time)
}

/// The record with `changes` random changes.
pub fn fabricated(random: &mut Random, mut record: Record, changes: usize) -> Record {
    let parts = (0..changes).map(|_| random_part(random)).collect();
    change_all(random, &mut record, parts);
    record
}

fn random_part(random: &mut Random) -> Part {
    let parts = [
        Part::Standing,
        Part::Standing,
        Part::Overall,
        Part::EventSlot,
        Part::Totals,
        Part::Totals,
    ];
    match random.one_in(2) {
        true => random.pick(&parts),
        false => random.pick(&Part::ALL),
    }
}

/// Makes a change in each of these parts. Those of the totals come last, so that
/// they are not counted away.
pub fn change_all(random: &mut Random, record: &mut Record, parts: Vec<Part>) {
    let is_other = |part: &Part| *part != Part::Totals;
    let (others, totals): (Vec<Part>, Vec<Part>) = parts.into_iter().partition(is_other);
    for part in others {
        change(random, record, part);
    }
    if !random.one_in(UNCOUNTED) {
        record.count_totals();
    }
    for part in totals {
        change(random, record, part);
    }
}

/// Sets one field of a part to an edge value; it may be the value it had.
pub fn change(random: &mut Random, record: &mut Record, part: Part) {
    match part {
        Part::Standing => change_standing(random, record),
        Part::Overall => {
            let rule = near(random, record.table.count, RULE_SLOTS);
            record.overall[rule - 1] = any_standing(random, record.count, 0);
        }
        Part::EventSlot => change_event(random, record),
        Part::EventCount => record.count = edge_count(random, record.count, EVENT_SLOTS as u64),
        Part::RuleSlot => {
            let at = near(random, record.table.count, RULE_SLOTS);
            change_rule(random, &mut record.table.rules[at - 1]);
        }
        Part::RuleCount => {
            record.table.count = edge_count(random, record.table.count, RULE_SLOTS as u64);
        }
        Part::Closed => record.closed = !record.closed,
        Part::Totals => change_totals(random, record),
        Part::Clock => record.clock = any_clock(random, record),
    }
}

/// A number from 1 to `slots`, mostly up to `count` and one past it.
fn near(random: &mut Random, count: u64, slots: usize) -> usize {
    let count = usize::try_from(count).unwrap_or(slots).min(slots);
    match random.below(8) {
        0 => 1 + random.below(slots),
        1 => slots,
        2 | 3 => (count + 1).min(slots),
        _ => 1 + random.below(count.max(1)),
    }
}

fn change_standing(random: &mut Random, record: &mut Record) {
    let rule = near(random, record.table.count, RULE_SLOTS);
    let position = near(random, record.count, EVENT_SLOTS);
    record.standings[place(rule, position)] = any_standing(random, record.count, position);
}

/// Any standing at a position, with targets on both sides of the limit.
fn any_standing(random: &mut Random, count: u64, position: usize) -> Standing {
    let count = count as u16;
    let above = count.saturating_add(1);
    let target = random.pick(&[0, 0, 1, 1, position as u16, count, above, 256, 257, 65_535]);
    match random.below(4) {
        0 => Standing::Idle,
        1 => Standing::Open,
        2 => Standing::Fulfilled(target),
        _ => Standing::Violated(target),
    }
}

fn change_event(random: &mut Random, record: &mut Record) {
    let at = near(random, record.count, EVENT_SLOTS) - 1;
    let neighbour = record.events[random.below(at + 1)].time;
    let times = [0, neighbour, neighbour.wrapping_sub(1), u32::MAX];
    match random.below(3) {
        0 => record.events[at].activity = random.pick(&[0, 1, 1, 2, 2, 3, 64, 65, 255]),
        1 => record.events[at].time = random.pick(&times),
        _ => {
            let values = [None, Some(i32::MIN), Some(0), Some(7), Some(i32::MAX)];
            record.events[at].readings[random.below(4)] = random.pick(&values);
        }
    }
}

/// One of the four numbers of a slot becomes one more or less, that of the number
/// beside it, or one at the limits of a count or of 16 bits.
fn change_totals(random: &mut Random, record: &mut Record) {
    let totals = &mut record.totals[near(random, record.table.count, RULE_SLOTS) - 1];
    let place = random.below(4);
    let numbers = totals.numbers();
    let (now, beside) = (numbers[place], numbers[(place + 1) % 4]);
    let number = match random.one_in(2) {
        true => random.pick(&[now.wrapping_add(1), now.wrapping_sub(1)]),
        false => random.pick(&[beside, 0, 256, 257, 65_535]),
    };
    *totals = totals.with_number(place, number);
}

/// Counts beside the limit and the count itself, and such as become small when
/// cut to 8, 16 or 32 bits.
fn edge_count(random: &mut Random, count: u64, limit: u64) -> u64 {
    let wide = random.pick(&[1 << 8, 1 << 16, 1 << 32, 1 << 63]);
    let small = [0, 1, count.wrapping_sub(1), count.wrapping_add(1)];
    let large = [limit - 1, limit, limit + 1, u64::MAX, wide, wide | count];
    match random.one_in(2) {
        true => random.pick(&small),
        false => random.pick(&large),
    }
}

/// Every code, and those beside the limits.
const CHANGED_CODES: [u8; 19] = [
    0, 1, 2, 3, 4, 5, 6, 7, 8, 9, 10, 11, 12, 13, 14, 15, 16, 17, 255,
];

fn change_rule(random: &mut Random, rule: &mut RuleSlot) {
    let activities = [0, 1, 2, 3, 64, 65, 255];
    match random.below(7) {
        0 => rule.code = random.pick(&CHANGED_CODES),
        1 => rule.activation = random.pick(&activities),
        2 => rule.target = random.pick(&activities),
        3 => rule.a = random.pick(&[0, 1, rule.end.unwrap_or(5), u32::MAX - 1, u32::MAX]),
        4 => {
            let ends = [None, Some(0), Some(rule.a), rule.a.checked_add(1)];
            rule.end = random.pick(&ends);
        }
        5 => change_condition(random, &mut rule.activation_condition),
        _ => change_condition(random, &mut rule.correlation),
    }
}

fn change_condition(random: &mut Random, condition: &mut ConditionSlot) {
    let reading = random.pick(&[0, 1, 2, 3, 4, 5, 255]);
    let beside = random.pick(&condition.comparisons).reading;
    let comparison = &mut condition.comparisons[random.below(4)];
    match random.below(5) {
        0 => condition.count = random.pick(&[0, 1, 2, 3, 4, 5, 255]),
        1 => comparison.reading = reading,
        // One that is compared already, perhaps.
        2 => comparison.reading = beside,
        3 => comparison.operator = random.pick(&Operator::ALL),
        _ => comparison.reference = random_reference(random),
    }
}

fn random_reference(random: &mut Random) -> Reference {
    let plus = random.pick(&[0, 1, -1, i32::MIN, i32::MAX]);
    match random.one_in(2) {
        true => Reference::Constant(plus),
        false => Reference::Activation {
            reading: random.pick(&[0, 1, 2, 3, 4, 5, 255]),
            plus,
        },
    }
}

/// Fills what no call reads with values outside every limit: the slots past
/// the counts, the rows and totals of rules that the table does not have, and
/// position 0 of these and of the rules 1 to 12. The counts have to be within their
/// limits.
pub fn fill_unused(random: &mut Random, record: &mut Record) {
    let rules = record.table.count as usize;
    let events = record.count as usize;
    let outside = Comparison::with_activation(9, Operator::Less, 9, 9);
    for rule in &mut record.table.rules[..rules] {
        for condition in [&mut rule.activation_condition, &mut rule.correlation] {
            let used = usize::from(condition.count);
            condition.comparisons[used..].fill(outside);
        }
    }
    for rule in &mut record.table.rules[rules..] {
        rule.code = 0;
        rule.activation = random.pick(&[0, 65, 255]);
        rule.correlation.count = 255;
    }
    for event in &mut record.events[events..] {
        *event = Event::new(random.bits() as u32, random.pick(&[0, 65, 255]));
    }
    let junk = [
        Standing::Open,
        Standing::Fulfilled(300),
        Standing::Violated(65_535),
    ];
    for standing in &mut record.standings[rules * EVENT_SLOTS..] {
        *standing = random.pick(&junk);
    }
    for totals in &mut record.totals[rules..] {
        *totals = Totals::with_numbers([(); 4].map(|()| random.bits() as u16));
    }
    fill_unread_overall(random, record);
}

/// Gives position 0 of the rules 1 to 12 and of unused slots any standing.
pub fn fill_unread_overall(random: &mut Random, record: &mut Record) {
    let rules = record.table.count as usize;
    let codes = record.table.rules.map(|rule| rule.code);
    for (index, standing) in record.overall.iter_mut().enumerate() {
        if index >= rules || !(13..=16).contains(&codes[index]) {
            *standing = random.pick(&[
                Standing::Idle,
                Standing::Open,
                Standing::Fulfilled(300),
                Standing::Violated(65_535),
            ]);
        }
    }
}

/// Gives the rules and events in use numbers with every count of digits, all of
/// them within the limits. The counts have to be within theirs.
pub fn spread_numbers(random: &mut Random, record: &mut Record) {
    for rule in &mut record.table.rules[..record.table.count as usize] {
        spread_rule(random, rule);
    }
    let events = &mut record.events[..record.count as usize];
    let mut times: Vec<u32> = events.iter().map(|_| any_number(random)).collect();
    times.sort();
    for (event, time) in events.iter_mut().zip(times) {
        *event = Event::new(time, any_activity(random));
        for reading in &mut event.readings {
            let value = any_signed(random);
            *reading = Some(value).filter(|_| !random.one_in(4));
        }
    }
}

/// A rule about the cycle stays one, so that its standings stay within the limits.
fn spread_rule(random: &mut Random, rule: &mut RuleSlot) {
    rule.code = match rule.code {
        13..=16 => 13 + random.below(4) as u8,
        _ => 1 + random.below(12) as u8,
    };
    rule.activation = any_activity(random);
    rule.target = any_activity(random);
    if rule.code >= 15 && rule.target == rule.activation {
        rule.target = 65 - rule.activation;
    }
    let (one, other) = (any_number(random), any_number(random));
    rule.a = one.min(other);
    rule.end = Some(one.max(other)).filter(|end| *end > rule.a && !random.one_in(4));
    for condition in [&mut rule.activation_condition, &mut rule.correlation] {
        let used = usize::from(condition.count);
        for comparison in &mut condition.comparisons[..used] {
            let (Reference::Constant(k) | Reference::Activation { plus: k, .. }) =
                &mut comparison.reference;
            *k = any_signed(random);
        }
    }
}

fn any_activity(random: &mut Random) -> u8 {
    1 + random.below(64) as u8
}

/// A power of ten, the number below one, or a number with any count of bits.
fn any_number(random: &mut Random) -> u32 {
    let power = 10_u32.pow(random.below(10) as u32);
    match random.below(4) {
        0 => power,
        1 => power - 1,
        _ => (random.bits() as u32) >> random.below(32),
    }
}

/// The same with either sign, as 32 bits hold it.
fn any_signed(random: &mut Random) -> i32 {
    let number = any_number(random) as i32;
    match random.one_in(2) {
        true => number.wrapping_neg(),
        false => number,
    }
}

/// An event to take: mostly the next of a cycle, now and then with a wrong
/// activity or a time below the last event or the kept time.
pub fn random_event(random: &mut Random, record: &Record) -> Event {
    let rules = record.table.rules().unwrap_or_default();
    let mut event = random_cycle(random, &rules, 1)[0];
    let (last, horizon) = (last_time(record), record.horizon());
    event.time = horizon.saturating_add(random.pick(&[0, 0, 1, 100, 500]));
    match random.below(10) {
        0 => event.activity = random.pick(&[0, 65, 255]),
        1 => {
            let below = [last.saturating_sub(1), last, horizon.saturating_sub(1)];
            event.time = random.pick(&below);
        }
        _ => {}
    }
    event
}
