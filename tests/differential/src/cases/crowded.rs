//! Cycles in which many events are eligible for an activation, so that its
//! target is one of several.

use crate::cases::notebook::read_again;
use crate::cases::records::with_any_standings;
use crate::cases::running::run_through;
use crate::script::{table_of, Case, Session};
use evaluator::crowded::{crowded_cycle, crowded_rules};
use evaluator::fabricate::any_clock;
use evaluator::random::Random;
use evaluator::{printed, write_cycle, write_rules, Event, Rule};

pub const KIND: &str = "crowded";
pub const FULL: &str = "full-crowded";
pub const STALE: &str = "crowded-stale";

/// Rules and a cycle for them.
pub type Crowd = (Vec<Rule>, Vec<Event>);

/// 1 to 16 rules and up to 30 events.
pub fn crowd(seed: u64) -> Crowd {
    random_crowd(&mut Random::new(seed))
}

fn random_crowd(random: &mut Random) -> Crowd {
    let count = random.pick(&[1, 1, 2, 3, 4, 6, 16]);
    let length = random.pick(&[3, 5, 8, 12, 20, 30]);
    (crowded_rules(random, count), crowded_cycle(random, length))
}

/// 1 to 3 rules and 256 events.
fn full_crowd(random: &mut Random) -> Crowd {
    let count = 1 + random.below(3);
    (crowded_rules(random, count), crowded_cycle(random, 256))
}

/// A run grown by takes and closed, and the same from its texts.
pub fn case(seed: u64) -> Case {
    let mut random = Random::new(seed);
    let crowd = random_crowd(&mut random);
    case_of(KIND, seed, &mut random, &crowd)
}

/// The same with as many events as a cycle may have.
pub fn full_case(seed: u64) -> Case {
    let mut random = Random::new(seed);
    let crowd = full_crowd(&mut random);
    case_of(FULL, seed, &mut random, &crowd)
}

fn case_of(kind: &'static str, seed: u64, random: &mut Random, crowd: &Crowd) -> Case {
    let (rules, events) = crowd;
    let mut session = Session::started(kind, seed, &table_of(rules));
    run_through(&mut session, random, events);
    read_again(&mut session, rules);
    let (rules, cycle) = (write_rules(rules), write_cycle(events));
    let length = printed(&rules, &cycle).len();
    let answer = session.print_texts(rules, cycle, length as u32);
    assert_eq!(answer, Ok(length));
    session.case
}

/// A record with any standings, and takes of the last events: decided standings
/// keep the target they have, and only what is judged anew names the nearest.
/// Here alone a take judges an activation that has many events after it.
pub fn stale_case(seed: u64) -> Case {
    let mut random = Random::new(seed);
    let (rules, events) = random_crowd(&mut random);
    let (before, taken) = events.split_at(events.len() - 1 - random.below(2));
    let mut run = with_any_standings(&mut random, &rules, before);
    // Not above the event to come.
    run.clock = any_clock(&mut random, &run).min(taken[0].time);
    let mut session = Session::on(STALE, seed, run);
    for event in taken {
        session.take(*event).expect("a well-formed event");
        session.compare_run();
    }
    session.close().expect("a run that is not closed");
    session.compare_run();
    session.case
}
