//! Runs from start: random rules, random cycles, refused takes mixed in.

use crate::script::{table_of, Case, Session};
use evaluator::random::{random_cycle, random_rules, Random};
use evaluator::{Event, Record, Refusal, Rule};

pub const KIND: &str = "running";
pub const FULL: &str = "full-running";

/// A run of 0 to 16 rules and up to 30 events.
pub fn case(seed: u64) -> Case {
    let mut random = Random::new(seed);
    let count = random.pick(&[0, 1, 1, 2, 2, 3, 4, 6, 16]);
    let length = random.pick(&[1, 2, 3, 5, 8, 12, 20, 30]);
    let rules = random_rules(&mut random, count);
    let session = Session::started(KIND, seed, &table_of(&rules));
    run_of(session, &mut random, &rules, length)
}

/// A run of 1 to 3 rules and 256 events.
pub fn full_case(seed: u64) -> Case {
    let mut random = Random::new(seed);
    let count = 1 + random.below(3);
    let rules = random_rules(&mut random, count);
    let session = Session::started(FULL, seed, &table_of(&rules));
    run_of(session, &mut random, &rules, 256)
}

fn run_of(mut session: Session, random: &mut Random, rules: &[Rule], length: usize) -> Case {
    compare_all(&mut session, random);
    let events = random_cycle(random, rules, length);
    run_through(&mut session, random, &events);
    session.case
}

/// Takes the events, with refused ones mixed in, and closes.
pub(super) fn run_through(session: &mut Session, random: &mut Random, events: &[Event]) {
    for event in events {
        if random.one_in(5) {
            let refused = refused_event(random, &session.run, *event);
            take(session, random, refused).expect_err("a refusal");
        }
        take(session, random, *event).expect("a well-formed event");
    }
    if events.len() == 256 {
        take_at_the_limit(session, random);
    }
    close(session, random);
}

/// After every take all standings and totals are compared.
fn take(session: &mut Session, random: &mut Random, event: Event) -> Result<(), Refusal> {
    let answer = session.take(event);
    compare_all(session, random);
    answer
}

/// All standings, all totals, and one standing asked by its numbers, which may
/// be those of no rule or position.
pub(super) fn compare_all(session: &mut Session, random: &mut Random) {
    session.compare_standings();
    session.all_totals();
    let rule = random.below(session.run.table.count as usize + 2) as u32;
    let position = random.below(session.run.count as usize + 2) as u32;
    ask_standing(session, rule, position);
}

/// Position 0 is known under 13 to 16, an event's position under every rule.
pub(super) fn ask_standing(session: &mut Session, rule: u32, position: u32) {
    let answer = session.standing(rule, position);
    let known = match position {
        0 => session.has_position_0(u64::from(rule)),
        _ => {
            (1..=session.run.table.count).contains(&u64::from(rule))
                && u64::from(position) <= session.run.count
        }
    };
    assert_eq!(answer.is_ok(), known, "rule {rule}, position {position}");
}

/// The event with an activity outside its range, or with a time below the last
/// event or notice, or with both.
pub fn refused_event(random: &mut Random, run: &Record, mut event: Event) -> Event {
    let last = run.horizon();
    let falling = last > 0 && random.one_in(2);
    if falling {
        event.time = random.pick(&[0, last / 2, last - 1]);
    }
    if !falling || random.one_in(4) {
        let above = 65 + random.below(191) as u8;
        event.activity = random.pick(&[0, 65, above, 255]);
    }
    event
}

/// Takes an event, now and then after a refused one.
pub fn take_after_refusal(session: &mut Session, random: &mut Random, event: Event) {
    if random.one_in(6) {
        let refused = refused_event(random, &session.run, event);
        session.take(refused).expect_err("a refusal");
    }
    session.take(event).expect("a well-formed event");
}

/// The 257th event: 8, but 3 and 7 come before it.
fn take_at_the_limit(session: &mut Session, random: &mut Random) {
    let last = session.run.events[255];
    let answer = take(session, random, last);
    assert_eq!(answer, Err(Refusal::at(8, 0)));
    for _ in 0..3 {
        let refused = refused_event(random, &session.run, last);
        let answer = take(session, random, refused);
        assert!(answer.is_err_and(|refusal| refusal.number != 8));
    }
}

/// Close, and what a closed run still answers.
fn close(session: &mut Session, random: &mut Random) {
    session.close().expect("a run that is not closed");
    compare_all(session, random);
    let closed = Err(Refusal::plain(9));
    assert_eq!(session.close(), closed);
    compare_all(session, random);
    let next = Event::new(u32::MAX, 1);
    assert_eq!(take(session, random, next), closed);
    assert_eq!(take(session, random, Event::new(0, 0)), closed);
    session.compare_run();
}
