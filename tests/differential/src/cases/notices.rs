//! Lists of takes and notices: runs from start, and records with any kept time.

use crate::cases::notebook::read_again;
use crate::cases::records::{call, with_any_standings, FILLED};
use crate::script::{table_of, Case, Session};
use evaluator::fabricate::{any_clock, change_all, fill_unused, Part};
use evaluator::notices::{lapsing_rules, random_call, random_notice, Call};
use evaluator::random::{random_cycle, Random};
use evaluator::slots::EVENT_SLOTS;
use evaluator::{Event, Record, Refusal, Rule};

pub const KIND: &str = "notices";
pub const FULL: &str = "full-notices";
pub const STALE: &str = "notices-stale";
/// Written-out lists of calls; their numbers stand for seeds.
pub const LISTED: &str = "notices-listed";

/// In a long run the whole record is compared after every so many calls.
const WHOLE_EVERY: usize = 32;

/// In a long run no call comes late before so many events: at the end of the range
/// no window is left.
const LATE_AFTER: u64 = 240;

/// Whether a call comes in the second half of the range.
fn is_late(call: Call) -> bool {
    let time = match call {
        Call::Take(event) => u64::from(event.time),
        Call::Notice(time) => time,
    };
    (1 << 31..1 << 32).contains(&time)
}

/// 1 to 16 rules and up to 30 calls, of which about a third are notices.
pub fn case(seed: u64) -> Case {
    let mut random = Random::new(seed);
    let count = random.pick(&[1, 1, 2, 3, 4, 6, 16]);
    let calls = random.pick(&[1, 2, 3, 5, 8, 12, 20, 30]);
    let rules = lapsing_rules(&mut random, count);
    let mut session = Session::started(KIND, seed, &table_of(&rules));
    compare_all(&mut session);
    for _ in 0..calls {
        let call = random_call(&mut random, &session.run);
        // Any answer will do: the evaluator says which.
        let _ = session.call(call);
        compare_all(&mut session);
    }
    // Of every second run the last call is a notice, so that it is closed after one.
    if random.one_in(2) {
        let time = random_notice(&mut random, &session.run);
        let _ = session.notice(time);
        compare_all(&mut session);
    }
    end(&mut session, &mut random, &rules);
    session.case
}

/// The same calls for these rules, the answer to each being known.
pub fn listed_case(number: u64, rules: &[Rule], calls: &[(Call, Result<(), Refusal>)]) -> Case {
    let mut session = Session::started(LISTED, number, &table_of(rules));
    compare_all(&mut session);
    for (call, answer) in calls {
        assert_eq!(session.call(*call), *answer, "{call:?} of list {number}");
        compare_all(&mut session);
    }
    end(&mut session, &mut Random::new(number), rules);
    session.case
}

/// Close, the same events again without a notice, and the notebook on the texts of
/// the rules and these events. Both begin with a kept time to leave behind.
fn end(session: &mut Session, random: &mut Random, rules: &[Rule]) {
    close(session, random);
    let noticed = session.run.clone();
    take_again(session, &noticed);
    session.set_clock(noticed.clock);
    read_again(session, rules);
}

/// All standings, position 0 among them, all totals, and the whole record with its
/// kept time.
pub fn compare_all(session: &mut Session) {
    session.compare_standings();
    session.all_totals();
    session.compare_run();
}

/// Close, and what a closed run answers to a take and to notices.
fn close(session: &mut Session, random: &mut Random) {
    session.close().expect("a run that is not closed");
    compare_all(session);
    let closed = Err(Refusal::plain(9));
    assert_eq!(session.take(Event::new(u32::MAX, 1)), closed);
    let near = random_notice(random, &session.run);
    for time in [near, 0, 1 << 32, u64::from(u32::MAX)] {
        assert_eq!(session.notice(time), closed);
    }
    compare_all(session);
}

/// The taken events again, without a notice: closing leaves the same standings and
/// totals.
fn take_again(session: &mut Session, noticed: &Record) {
    session.start(&noticed.table).expect("a valid table");
    for event in &noticed.events[..noticed.count as usize] {
        session.take(*event).expect("a taken event");
    }
    session.close().expect("a run that is not closed");
    let plain = Record {
        clock: noticed.clock,
        ..session.run.clone()
    };
    assert!(plain == *noticed, "seed {}", session.case.seed);
    compare_all(session);
}

/// One or two rules and as many events as a cycle may have, with notices before, in
/// between and after.
pub fn full_case(seed: u64) -> Case {
    let mut random = Random::new(seed);
    let count = 1 + random.below(2);
    let rules = lapsing_rules(&mut random, count);
    let mut session = Session::started(FULL, seed, &table_of(&rules));
    let mut calls = 0;
    while session.run.count < EVENT_SLOTS as u64 {
        let call = random_call(&mut random, &session.run);
        if session.run.count < LATE_AFTER && is_late(call) {
            continue;
        }
        let _ = session.call(call);
        calls += 1;
        session.compare_standings();
        session.all_totals();
        if calls % WHOLE_EVERY == 0 {
            session.compare_run();
        }
    }
    at_the_limit(&mut session, &mut random);
    close(&mut session, &mut random);
    session.case
}

/// With 256 events a notice is not refused with 8, but a take is.
fn at_the_limit(session: &mut Session, random: &mut Random) {
    for later in [0, 0, 1, 500] {
        let horizon = session.run.horizon();
        let time = horizon.saturating_add(later);
        session.notice(u64::from(time)).expect("a notice");
        compare_all(session);
        let answer = session.take(Event::new(time, 1));
        assert_eq!(answer, Err(Refusal::at(8, 0)));
        let near = random_notice(random, &session.run);
        let _ = session.notice(near);
        compare_all(session);
    }
}

/// A record whose standings do not follow from its events, with any kept time, and
/// calls on it, each followed by a comparison of the whole record.
pub fn stale_case(seed: u64) -> Case {
    let mut random = Random::new(seed);
    let count = random.pick(&[1, 1, 2, 3, 4, 16]);
    let length = random.pick(&[0, 1, 2, 3, 5, 8]);
    let rules = lapsing_rules(&mut random, count);
    let events = random_cycle(&mut random, &rules, length);
    let mut run = with_any_standings(&mut random, &rules, &events);
    run.clock = any_clock(&mut random, &run);
    if random.one_in(FILLED) {
        fill_unused(&mut random, &mut run);
    }
    if random.one_in(5) {
        let part = random.pick(&[Part::Closed, Part::Standing, Part::Overall, Part::Totals]);
        change_all(&mut random, &mut run, vec![part]);
    }
    let mut session = Session::on(STALE, seed, run);
    session.compare_run();
    for _ in 0..1 + random.below(5) {
        stale_call(&mut session, &mut random);
        session.compare_run();
    }
    session.case
}

/// A take or a notice, now and then another call, or another kept time before it.
fn stale_call(session: &mut Session, random: &mut Random) {
    if random.one_in(8) {
        let clock = any_clock(random, &session.run);
        session.set_clock(clock);
    }
    match random.one_in(6) {
        true => call(session, random),
        false => {
            let next = match random.one_in(2) {
                true => Call::Notice(random_notice(random, &session.run)),
                false => random_call(random, &session.run),
            };
            let _ = session.call(next);
        }
    }
}
