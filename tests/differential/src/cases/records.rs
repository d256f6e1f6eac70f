//! Runs that no call grew: each call is followed by a comparison of the whole
//! record.

use crate::cases::running::ask_standing;
use crate::script::{table_of, Case, Session};
use evaluator::fabricate::{any_clock, fabricated, fill_unread_overall, fill_unused};
use evaluator::fabricate::{random_event, random_record};
use evaluator::notices::random_notice;
use evaluator::random::{random_cycle, random_rules, Random};
use evaluator::Standing::{Fulfilled, Idle, Open, Violated};
use evaluator::{place, start, Event, Record, Refusal, Rule, Tally};

/// One record in so many is filled with values outside every limit where
/// nothing reads them. This takes thousands of commands.
pub const FILLED: usize = 12;

pub const KIND: &str = "records";
pub const STALE: &str = "stale";
/// Written-out records; their numbers stand for seeds.
pub const WRITTEN: &str = "written-records";

/// The numbers of rules and positions to ask for, but for those near a count.
const NUMBERS: [u64; 9] = [
    0,
    1,
    16,
    17,
    256,
    257,
    65_537,
    u32::MAX as u64 - 1,
    u32::MAX as u64,
];
const WIDE_NUMBERS: [u64; 4] = [1 << 32, (1 << 32) + 1, 1 << 63, u64::MAX];

/// A grown record with up to three changes, and up to five calls on it.
pub fn case(seed: u64) -> Case {
    let mut random = Random::new(seed);
    let mut run = random_record(&mut random, 7);
    if random.one_in(FILLED) {
        fill_unused(&mut random, &mut run);
    }
    let changes = random.pick(&[0, 1, 1, 1, 2, 3]);
    let run = fabricated(&mut random, run, changes);
    let mut session = Session::on(KIND, seed, run);
    session.compare_run();
    for _ in 0..1 + random.below(5) {
        call(&mut session, &mut random);
        session.compare_run();
    }
    session.case
}

/// One call with arguments near the limits; any answer will do.
pub(super) fn call(session: &mut Session, random: &mut Random) {
    let rules = session.run.table.count;
    let _ = match random.below(13) {
        0..=4 => {
            let event = random_event(random, &session.run);
            session.take(event)
        }
        5..=7 => {
            let time = random_notice(random, &session.run);
            session.notice(time)
        }
        8 => session.close(),
        9 => {
            let table = session.run.table.clone();
            session.start(&table)
        }
        10 => session.totals(number_near(random, rules, true)),
        _ => {
            let rule = number_near(random, rules, false) as u32;
            let position = number_near(random, session.run.count, false) as u32;
            session.standing(rule, position).map(|_| ())
        }
    };
}

/// A number up to the count, one past it, or one of the lists above.
fn number_near(random: &mut Random, count: u64, wide: bool) -> u64 {
    match random.below(8) {
        0 => random.pick(&NUMBERS),
        1 if wide => random.pick(&WIDE_NUMBERS),
        2 => count.wrapping_add(1),
        3 => count,
        _ => 1 + random.bits() % count.clamp(1, 256),
    }
}

/// A valid record whose standings have nothing to do with its events, with any kept
/// time: decided ones are carried over, all others judged anew.
pub fn stale_case(seed: u64) -> Case {
    let mut random = Random::new(seed);
    let rules = random.pick(&[1, 1, 2, 3, 16]);
    let length = match random.one_in(40) {
        true => random.pick(&[100, 254, 255, 256]),
        false => random.pick(&[0, 1, 2, 3, 5, 8, 12]),
    };
    // Long runs of many rules take the evaluator too long.
    let rules = if length >= 100 { rules.min(2) } else { rules };
    let mut run = stale_run(&mut random, rules, length);
    run.clock = any_clock(&mut random, &run);
    if random.one_in(FILLED) {
        fill_unused(&mut random, &mut run);
    }
    let mut session = Session::on(STALE, seed, run);
    session.compare_run();
    for _ in 0..1 + random.below(3) {
        let event = next_event(&mut random, &session.run);
        let full = session.run.count == 256;
        let answer = session.take(event);
        let refused = Err(Refusal::at(8, 0));
        assert_eq!(answer, if full { refused } else { Ok(()) });
        session.compare_run();
        session.all_totals();
    }
    session.close().expect("a run that is not closed");
    session.compare_run();
    session.case
}

/// So many rules and events, not closed, with any standings within the limits.
pub fn stale_run(random: &mut Random, rules: usize, length: usize) -> Record {
    let rules = random_rules(random, rules);
    let events = random_cycle(random, &rules, length);
    with_any_standings(random, &rules, &events)
}

/// The run of these rules and events with any standings within the limits, and
/// totals that fit them. In every second run position 0 has any standing also where
/// nothing reads it.
pub(super) fn with_any_standings(random: &mut Random, rules: &[Rule], events: &[Event]) -> Record {
    let length = events.len();
    let mut run = start(&table_of(rules)).expect("a valid table");
    run.count = length as u64;
    run.events[..length].copy_from_slice(events);
    for (number, rule) in (1..).zip(rules) {
        if rule.is_overall() {
            let target = random.below(length + 1) as u16;
            let standings = [Open, Open, Fulfilled(target), Violated(target)];
            run.overall[number - 1] = random.pick(&standings);
            continue;
        }
        for position in 1..=length {
            let target = random.below(length + 1) as u16;
            let standings = [Idle, Idle, Open, Open, Fulfilled(target), Violated(target)];
            run.standings[place(number, position)] = random.pick(&standings);
        }
    }
    if random.one_in(2) {
        fill_unread_overall(random, &mut run);
    }
    run.count_totals();
    run
}

/// A well-formed event that may come next.
fn next_event(random: &mut Random, run: &Record) -> Event {
    let rules = run.table.rules().expect("a valid table");
    let mut event = random_cycle(random, &rules, 1)[0];
    let steps = [0, 0, 1, 2, 100, 500];
    event.time = run.horizon().saturating_add(random.pick(&steps));
    event
}

/// A tally that no run goes into.
const FULL: Tally = Tally {
    cycles: u32::MAX,
    activations: u32::MAX,
    fulfilled: u32::MAX,
    violated: u32::MAX,
};

/// Times that a notice is refused with 3 for, one that it is accepted with, and one
/// that is below an event or a notice.
const NOTICES: [u64; 4] = [1 << 32, u64::MAX, u32::MAX as u64, 0];

/// A record with one cause of 11: every call is refused with it, also where 9,
/// 10, 3, 7 or 14 would be next, and nothing changes.
pub fn cause_case(number: u64, run: Record) -> Case {
    let outside = Err(Refusal::plain(11));
    let mut session = Session::on(WRITTEN, number, run);
    session.compare_run();
    assert_eq!(session.take(Event::new(u32::MAX, 1)), outside);
    session.compare_run();
    for event in [Event::new(u32::MAX, 0), Event::new(0, 65), Event::new(0, 1)] {
        assert_eq!(session.take(event), outside);
    }
    session.compare_run();
    for time in NOTICES {
        assert_eq!(session.notice(time), outside);
    }
    session.compare_run();
    assert_eq!(session.close(), outside);
    session.compare_run();
    for (rule, position) in [(1, 1), (2, 3), (0, 1), (1, 0), (3, 1), (1, 4), (17, 257)] {
        let answer = session.standing(rule, position);
        assert_eq!(answer.map(|_| ()), outside);
    }
    session.set_tally(FULL);
    for rule in [1, 2, 0, 3, u64::MAX] {
        assert_eq!(session.totals(rule), outside);
        assert_eq!(session.absorb(rule), outside);
    }
    session.compare_run();
    // Start reads the table alone.
    let table = session.run.table.clone();
    let answer = session.start(&table);
    assert_eq!(answer.is_err(), table.rules().is_none());
    session.compare_run();
    session.case
}

/// A record of three events beside the limits, not outside them.
pub fn allowed_case(number: u64, run: Record) -> Case {
    let closed = run.closed;
    let first_rule = if run.table.count == 0 { 0 } else { 1 };
    let mut session = Session::on(WRITTEN, number, run);
    session.compare_run();
    let answer = session.standing(first_rule, 1);
    assert_eq!(answer.is_ok(), first_rule == 1);
    ask_all_numbers(&mut session);
    let refused = |number, line| {
        if closed {
            Refusal::plain(9)
        } else {
            Refusal::at(number, line)
        }
    };
    for (event, number) in [
        (Event::new(0, 0), 3),
        (Event::new(0, 65), 3),
        (Event::new(4, 1), 7),
    ] {
        assert_eq!(session.take(event), Err(refused(number, 0)));
    }
    for (time, number) in [(1 << 32, 3), (u64::MAX, 3), (4, 7)] {
        assert_eq!(session.notice(time), Err(refused(number, 0)));
    }
    session.compare_run();
    let horizon = u64::from(session.run.horizon());
    assert_eq!(session.notice(horizon).is_ok(), !closed);
    session.compare_run();
    let answer = session.take(Event::new(u32::MAX, 2));
    assert_eq!(answer.is_ok(), !closed);
    session.compare_run();
    assert_eq!(session.close().is_ok(), !closed);
    session.compare_run();
    let table = session.run.table.clone();
    session.start(&table).expect("a valid table");
    session.compare_run();
    session.case
}

/// Standing and totals of every number at or beside a limit.
pub fn ask_all_numbers(session: &mut Session) {
    let rules = session.run.table.count;
    let events = session.run.count;
    let rule_numbers: Vec<u64> = NUMBERS.into_iter().chain([rules, rules + 1]).collect();
    let positions: Vec<u64> = NUMBERS.into_iter().chain([events, events + 1]).collect();
    for rule in &rule_numbers {
        for position in &positions {
            ask_standing(session, *rule as u32, *position as u32);
        }
    }
    for rule in rule_numbers.iter().chain(&WIDE_NUMBERS) {
        let answer = session.totals(*rule);
        assert_eq!(answer.is_ok(), (1..=rules).contains(rule));
    }
    session.compare_run();
}
