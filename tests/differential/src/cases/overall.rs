//! Tables in which most rules are about the cycle as such: runs from start, and
//! records with any standing at position 0.

use crate::cases::notebook::read_again;
use crate::cases::records::{call, with_any_standings, FILLED};
use crate::cases::running::{ask_standing, refused_event};
use crate::script::{table_of, Case, Session};
use evaluator::fabricate::{any_clock, change_all, fill_unused, Part};
use evaluator::random::{random_cycle, random_event_rule, random_overall_rule, Random};
use evaluator::{printed, report_of, write_cycle, write_rules};
use evaluator::{Event, Record, Refusal, Rule};

pub const KIND: &str = "overall";
pub const STALE: &str = "overall-stale";
/// Written-out cycles; their numbers stand for seeds.
pub const LISTED: &str = "overall-listed";

/// Of 1 to 16 rules four in five are about the cycle.
fn random_table(random: &mut Random) -> Vec<Rule> {
    let count = random.pick(&[1, 1, 2, 3, 4, 6, 16]);
    (0..count)
        .map(|_| match random.one_in(5) {
            true => random_event_rule(random),
            false => random_overall_rule(random),
        })
        .collect()
}

/// Such rules and up to 12 events.
pub fn table_and_cycle(random: &mut Random) -> (Vec<Rule>, Vec<Event>) {
    let rules = random_table(random);
    let length = random.pick(&[0, 1, 1, 2, 3, 5, 8, 12]);
    let events = random_cycle(random, &rules, length);
    (rules, events)
}

/// A run from start, with refused takes mixed in, closed, and its texts read by the
/// notebook and printed.
pub fn case(seed: u64) -> Case {
    let mut random = Random::new(seed);
    let (rules, events) = table_and_cycle(&mut random);
    case_of(KIND, seed, &mut random, &rules, &events)
}

/// The same for these rules and events.
pub fn listed_case(number: u64, rules: &[Rule], events: &[Event]) -> Case {
    case_of(LISTED, number, &mut Random::new(number), rules, events)
}

fn case_of(
    kind: &'static str,
    seed: u64,
    random: &mut Random,
    rules: &[Rule],
    events: &[Event],
) -> Case {
    let mut session = Session::started(kind, seed, &table_of(rules));
    session.compare_every_0();
    compare_all(&mut session);
    for event in events {
        if random.one_in(5) {
            let refused = refused_event(random, &session.run, *event);
            session.take(refused).expect_err("a refusal");
            compare_all(&mut session);
        }
        session.take(*event).expect("a well-formed event");
        compare_all(&mut session);
    }
    close(&mut session);
    read_again(&mut session, rules);
    ask_at_0(&mut session);
    write_report(&mut session);
    let (rules, cycle) = (write_rules(rules), write_cycle(events));
    let length = printed(&rules, &cycle).len();
    let answer = session.print_texts(rules, cycle, length as u32);
    assert_eq!(answer, Ok(length));
    session.case
}

/// Every standing, every total, position 0 asked for by its numbers, and the whole
/// record.
fn compare_all(session: &mut Session) {
    session.compare_standings();
    session.all_totals();
    ask_at_0(session);
    session.compare_run();
}

/// Position 0 of every rule, and of the numbers of no rule beside them.
fn ask_at_0(session: &mut Session) {
    for rule in 0..=session.run.table.count as u32 + 1 {
        ask_standing(session, rule, 0);
    }
}

/// Close, and what a closed run still answers.
fn close(session: &mut Session) {
    session.close().expect("a run that is not closed");
    compare_all(session);
    let closed = Err(Refusal::plain(9));
    assert_eq!(session.close(), closed);
    assert_eq!(session.take(Event::new(u32::MAX, 1)), closed);
    compare_all(session);
    write_report(session);
}

/// The report of the run, in a buffer of its length.
fn write_report(session: &mut Session) {
    let length = report_of(&session.run).expect("a valid run").len();
    assert_eq!(session.write_report(length as u64), Ok(length));
}

/// A record whose standings do not follow from its events, and calls on it.
pub fn stale_case(seed: u64) -> Case {
    let mut random = Random::new(seed);
    let rules = random_table(&mut random);
    let (taken, more) = (random.pick(&[0, 1, 2, 3, 5, 8]), 1 + random.below(3));
    let events = random_cycle(&mut random, &rules, taken + more);
    let (before, after) = events.split_at(taken);
    let mut run = with_any_standings(&mut random, &rules, before);
    // Not above the event to come.
    run.clock = any_clock(&mut random, &run).min(after[0].time);
    if random.one_in(FILLED) {
        fill_unused(&mut random, &mut run);
    }
    match random.one_in(4) {
        true => changed_case(seed, &mut random, run),
        false => carried_case(seed, run, after),
    }
}

/// Valid: what is decided is carried over, what is open judged anew.
fn carried_case(seed: u64, run: Record, events: &[Event]) -> Case {
    let mut session = Session::on(STALE, seed, run);
    session.compare_every_0();
    compare_all(&mut session);
    for event in events {
        session.take(*event).expect("a well-formed event");
        compare_all(&mut session);
    }
    write_report(&mut session);
    close(&mut session);
    session.case
}

/// Perhaps refused: position 0, a standing, the count, the phase, a total or the kept
/// time is changed; any answer will do.
fn changed_case(seed: u64, random: &mut Random, mut run: Record) -> Case {
    let parts = [
        Part::Overall,
        Part::Overall,
        Part::Standing,
        Part::EventCount,
        Part::RuleSlot,
        Part::Closed,
        Part::Totals,
        Part::Clock,
    ];
    let parts = (0..1 + random.below(2))
        .map(|_| random.pick(&parts))
        .collect();
    change_all(random, &mut run, parts);
    let mut session = Session::on(STALE, seed, run);
    session.compare_run();
    for _ in 0..2 + random.below(4) {
        let rule = 1 + random.below(16) as u32;
        let _ = session.standing(rule, 0);
        call(&mut session, random);
        session.compare_run();
    }
    session.case
}
