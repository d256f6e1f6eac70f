//! Tables in which most conditions compare a reading more than once, with readings
//! at and beside the references.

use crate::cases::notebook::read_again;
use crate::cases::records::with_any_standings;
use crate::cases::running::{compare_all, run_through};
use crate::script::{table_of, Case, Session};
use evaluator::bands::banded_rules;
use evaluator::fabricate::any_clock;
use evaluator::random::{random_cycle, Random};
use evaluator::{printed, write_cycle, write_rules, Event, Rule};

pub const KIND: &str = "bands";
pub const STALE: &str = "bands-stale";

/// Rules and a cycle for them.
pub type Banded = (Vec<Rule>, Vec<Event>);

/// 1 to 16 rules and up to 20 events.
pub fn banded(seed: u64) -> Banded {
    random_banded(&mut Random::new(seed))
}

fn random_banded(random: &mut Random) -> Banded {
    let count = random.pick(&[1, 1, 2, 3, 4, 6, 16]);
    let length = random.pick(&[1, 2, 3, 5, 8, 12, 20]);
    let rules = banded_rules(random, count);
    let events = random_cycle(random, &rules, length);
    (rules, events)
}

/// A run grown by takes and closed, and the same from its texts. Rules about the
/// cycle are looked at before the first take too, for start decides some of them.
pub fn case(seed: u64) -> Case {
    let mut random = Random::new(seed);
    let (rules, events) = random_banded(&mut random);
    let mut session = Session::started(KIND, seed, &table_of(&rules));
    compare_all(&mut session, &mut random);
    run_through(&mut session, &mut random, &events);
    read_again(&mut session, &rules);
    let (rules, cycle) = (write_rules(&rules), write_cycle(&events));
    let length = printed(&rules, &cycle).len();
    let answer = session.print_texts(rules, cycle, length as u32);
    assert_eq!(answer, Ok(length));
    session.case
}

/// A record with any standings, and takes of the last events: what is not decided
/// is judged anew, so that it is decided here if no values are left.
pub fn stale_case(seed: u64) -> Case {
    let mut random = Random::new(seed);
    let (rules, events) = random_banded(&mut random);
    let taken = events.len() - 1 - random.below(2).min(events.len() - 1);
    let (before, after) = events.split_at(taken);
    let mut run = with_any_standings(&mut random, &rules, before);
    // Not above the event to come.
    run.clock = any_clock(&mut random, &run).min(after[0].time);
    let mut session = Session::on(STALE, seed, run);
    for event in after {
        session.take(*event).expect("a well-formed event");
        session.compare_run();
    }
    session.close().expect("a run that is not closed");
    session.compare_run();
    session.case
}
