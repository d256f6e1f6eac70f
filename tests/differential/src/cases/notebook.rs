//! A cycle grown by takes and closed, and the notebook on the texts of the same
//! rules and taken events.

use crate::cases::running::refused_event;
use crate::differ::differing_used_fields;
use crate::script::{table_of, Case, Session};
use evaluator::random::{random_cycle, random_rules, Random};
use evaluator::{write_cycle, write_rules, Record, Rule};

pub const KIND: &str = "notebook";
pub const FULL: &str = "full-notebook";

/// 0 to 16 rules and up to 40 events.
pub fn case(seed: u64) -> Case {
    let mut random = Random::new(seed);
    let count = random.pick(&[0, 1, 2, 3, 5, 16]);
    let length = random.pick(&[0, 1, 2, 3, 5, 8, 12, 20, 40]);
    let rules = random_rules(&mut random, count);
    let session = Session::started(KIND, seed, &table_of(&rules));
    case_of(session, &mut random, &rules, length)
}

/// 1 to 3 rules and 256 events.
pub fn full_case(seed: u64) -> Case {
    let mut random = Random::new(seed);
    let count = 1 + random.below(3);
    let rules = random_rules(&mut random, count);
    let session = Session::started(FULL, seed, &table_of(&rules));
    case_of(session, &mut random, &rules, 256)
}

fn case_of(mut session: Session, random: &mut Random, rules: &[Rule], length: usize) -> Case {
    grow(&mut session, random, rules, length);
    session.close().expect("a run that is not closed");
    compare_closed(&mut session);
    read_again(&mut session, rules);
    session.case
}

/// The notebook on the texts of the rules and the events of a closed run. It keeps
/// no time.
pub(super) fn read_again(session: &mut Session, rules: &[Rule]) {
    let grown = Record {
        clock: 0,
        ..session.run.clone()
    };
    let taken = &grown.events[..grown.count as usize];
    let answer = session.notebook(write_rules(rules), write_cycle(taken));
    answer.expect("texts of valid rules and taken events");
    // The evaluator's two ways agree, so both are compared with one list.
    let same = differing_used_fields(&grown, &session.run);
    assert_eq!(same, Ok(()), "seed {}", session.case.seed);
    compare_closed(session);
    session.compare_notebook_run();
}

fn grow(session: &mut Session, random: &mut Random, rules: &[Rule], length: usize) {
    for event in random_cycle(random, rules, length) {
        if random.one_in(6) {
            let refused = refused_event(random, &session.run, event);
            session.take(refused).expect_err("a refusal");
        }
        session.take(event).expect("a well-formed event");
    }
}

fn compare_closed(session: &mut Session) {
    session.compare_standings();
    session.all_totals();
}
