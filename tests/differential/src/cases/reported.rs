//! What `report` prints for a run, closed or not, written into buffers of sizes
//! beside its length.

use crate::cases::records::stale_run;
use crate::cases::running::take_after_refusal;
use crate::cases::written::{answer_of, compare_unchanged, sizes, untidy};
use crate::command::LARGEST_BUFFER;
use crate::script::{table_of, Case, Session};
use evaluator::fabricate::random_record;
use evaluator::random::{random_cycle, random_rules, Random};
use evaluator::{printed, report_of, write_cycle, write_rules, Record};

pub const KIND: &str = "reported";
pub const GROWN: &str = "reported-grown";
/// Written-out records; their numbers stand for seeds.
pub const LISTED: &str = "reported-listed";

/// After every so many cases it is compared that nothing else changed.
const UNCHANGED_EVERY: u64 = 4;

/// In every so many cases there is also a buffer of the largest size.
const LARGEST_EVERY: u64 = 32;

/// A run, valid, untidy or damaged.
pub fn case(seed: u64) -> Case {
    let mut random = Random::new(seed);
    let run = valid_run(&mut random);
    let run = untidy(&mut random, run);
    let mut session = Session::on(KIND, seed, run);
    write_report(&mut session);
    if seed.is_multiple_of(LARGEST_EVERY) {
        let size = LARGEST_BUFFER as u64;
        let answer = session.write_report(size);
        assert_eq!(answer, answer_of(&text_of(&session.run), size));
    }
    if seed.is_multiple_of(UNCHANGED_EVERY) {
        compare_unchanged(&mut session);
    }
    session.case
}

/// A run whose standings follow from its events, or have nothing to do with
/// them. Positions and targets have one, two or three digits.
fn valid_run(random: &mut Random) -> Record {
    if random.one_in(3) {
        return random_record(random, 7);
    }
    let (rules, length) = match random.one_in(20) {
        true => (
            random.pick(&[1, 2, 10, 16]),
            random.pick(&[99, 100, 255, 256]),
        ),
        false => (
            random.pick(&[0, 1, 2, 3, 9, 10, 16]),
            random.pick(&[0, 1, 2, 3, 5, 9, 10, 11]),
        ),
    };
    stale_run(random, rules, length)
}

/// What is printed for the run, if it is not refused with 11.
fn text_of(run: &Record) -> Option<Vec<u8>> {
    report_of(run).ok()
}

/// Writes the report of the run into buffers of all sizes.
fn write_report(session: &mut Session) {
    let text = text_of(&session.run);
    for size in sizes(&text) {
        assert_eq!(session.write_report(size), answer_of(&text, size));
    }
}

/// A record with one cause of 11.
pub fn cause_case(number: u64, run: Record) -> Case {
    assert_eq!(text_of(&run), None);
    listed_case(number, run)
}

/// A record beside the limits, not outside them.
pub fn allowed_case(number: u64, run: Record) -> Case {
    assert!(text_of(&run).is_some());
    listed_case(number, run)
}

fn listed_case(number: u64, run: Record) -> Case {
    let mut session = Session::on(LISTED, number, run);
    write_report(&mut session);
    if number.is_multiple_of(UNCHANGED_EVERY) {
        compare_unchanged(&mut session);
    }
    session.case
}

/// A run grown by takes, reported after each of them and when it is closed. The
/// notebook's run and a print of the two texts are the same bytes.
pub fn grown_case(seed: u64) -> Case {
    let mut random = Random::new(seed);
    let count = random.pick(&[0, 1, 2, 3, 5, 16]);
    let length = random.pick(&[0, 1, 2, 3, 5, 8, 12]);
    let rules = random_rules(&mut random, count);
    let mut session = Session::started(GROWN, seed, &table_of(&rules));
    let events = random_cycle(&mut random, &rules, length);
    for event in &events {
        take_after_refusal(&mut session, &mut random, *event);
        let size = random.pick(&sizes(&text_of(&session.run)));
        let _ = session.write_report(size);
    }
    write_report(&mut session);
    session.close().expect("a run that is not closed");
    write_report(&mut session);
    if seed.is_multiple_of(UNCHANGED_EVERY) {
        compare_unchanged(&mut session);
    }
    let closed = text_of(&session.run).expect("a valid run");
    compare_afterwards(
        &mut session,
        write_rules(&rules),
        write_cycle(&events),
        closed,
    );
    session.case
}

/// The notebook reading and the print of two texts, for which this is printed.
fn compare_afterwards(session: &mut Session, rules: Vec<u8>, cycle: Vec<u8>, text: Vec<u8>) {
    let answer = session.notebook(rules.clone(), cycle.clone());
    answer.expect("texts of valid rules and taken events");
    assert_eq!(text_of(&session.run).as_ref(), Some(&text));
    write_report(session);
    assert_eq!(printed(&rules, &cycle), text);
    let answer = session.print_texts(rules, cycle, text.len() as u32);
    assert_eq!(answer, Ok(text.len()));
}
