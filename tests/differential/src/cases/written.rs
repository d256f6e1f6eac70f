//! Tables and runs written into buffers of sizes beside the length of their text,
//! and read back; accepted texts read and written again.

use crate::cases::records::stale_run;
use crate::cases::running::take_after_refusal;
use crate::cases::texts::{compare_cycle_text, compare_rules_text};
use crate::command::LARGEST_BUFFER;
use crate::script::{new_table, table_of, Case, Session};
use evaluator::damage::{damaged_cycle_text, damaged_rules_text};
use evaluator::fabricate::{change, fabricated, fill_unused, random_record, spread_numbers, Part};
use evaluator::random::{random_cycle, random_rules, Random};
use evaluator::slots::EVENT_SLOTS;
use evaluator::{read_cycle, read_rules, start, write_cycle_of, write_rules_of};
use evaluator::{Record, Refusal, Standing, TableRecord};

pub const KIND: &str = "written";
pub const GROWN: &str = "written-grown";
pub const AGAIN: &str = "written-again";
/// Written-out records and stored texts; their numbers stand for seeds.
pub const LISTED: &str = "written-listed";

/// After every so many cases it is compared that nothing else changed.
const UNCHANGED_EVERY: u64 = 4;

/// Sizes for a record that has no text; the last two hold every rules text and
/// every short cycle text.
const OTHER_SIZES: [u64; 4] = [0, 1, 200, 3000];

/// One in so many of the cells in rows that no rule has is filled; each takes a
/// command.
const CELL_EVERY: usize = 61;

/// The notebook of more events takes the evaluator too long.
const NOTEBOOK_EVENTS: usize = 40;

/// A table and a run, each of them valid, untidy or damaged.
pub fn case(seed: u64) -> Case {
    let mut random = Random::new(seed);
    let run = random_run(&mut random);
    let table = random_table(&mut random);
    let mut session = Session::on(KIND, seed, run.clone());
    session.load_table(&table);
    write_both(&mut session);
    if seed.is_multiple_of(UNCHANGED_EVERY) {
        compare_unchanged(&mut session);
    }
    read_back(&mut session.case, &table, &run);
    session.case
}

/// A table; in a part of them numbers have any count of digits, unused slots are
/// filled, or fields of a rule or the count are changed.
pub(super) fn random_table(random: &mut Random) -> TableRecord {
    let count = random.pick(&[0, 1, 1, 2, 2, 3, 5, 15, 16]);
    let table = table_of(&random_rules(random, count));
    let mut run = start(&table).expect("a valid table");
    if random.one_in(2) {
        spread_numbers(random, &mut run);
    }
    if random.one_in(3) {
        fill_unused(random, &mut run);
    }
    for _ in 0..random.pick(&[0, 0, 0, 1, 2]) {
        let part = random.pick(&[Part::RuleSlot, Part::RuleSlot, Part::RuleCount]);
        change(random, &mut run, part);
    }
    run.table
}

/// The same for runs, closed or not.
fn random_run(random: &mut Random) -> Record {
    let run = valid_run(random);
    untidy(random, run)
}

/// A valid run, in a part of them closed or changed as above.
pub(super) fn untidy(random: &mut Random, mut run: Record) -> Record {
    if random.one_in(2) {
        spread_numbers(random, &mut run);
    }
    if random.one_in(2) {
        run = run.close().0;
    }
    if random.one_in(4) {
        fill_some(random, &mut run);
    }
    let changes = random.pick(&[0, 0, 0, 1, 1, 2]);
    fabricated(random, run, changes)
}

/// A run whose standings follow from its events, or have nothing to do with them.
fn valid_run(random: &mut Random) -> Record {
    if random.one_in(3) {
        return random_record(random, 7);
    }
    let rules = random.pick(&[0, 1, 1, 2, 3]);
    let length = match random.one_in(40) {
        true => random.pick(&[100, 255, 256]),
        false => random.pick(&[0, 1, 2, 3, 5, 8, 12]),
    };
    stale_run(random, rules, length)
}

/// Fills unused slots, but not every cell.
fn fill_some(random: &mut Random, run: &mut Record) {
    fill_unused(random, run);
    let unused = run.table.count as usize * EVENT_SLOTS;
    let cells = run.standings[unused..].iter_mut().enumerate();
    let left_out = cells.filter(|(at, _)| at % CELL_EVERY > 0);
    left_out.for_each(|(_, cell)| *cell = Standing::Idle);
}

/// The text of the rules, if the table is not refused with 11.
fn rules_text(table: &TableRecord) -> Option<Vec<u8>> {
    text_of(|buffer| write_rules_of(table, buffer))
}

/// The text of the events, if the run is not refused with 11.
fn cycle_text(run: &Record) -> Option<Vec<u8>> {
    text_of(|buffer| write_cycle_of(run, buffer))
}

fn text_of(write: impl Fn(&mut [u8]) -> Result<usize, Refusal>) -> Option<Vec<u8>> {
    let mut buffer = vec![0; LARGEST_BUFFER];
    let length = write(&mut buffer).ok()?;
    buffer.truncate(length);
    Some(buffer)
}

/// The sizes of buffers for a text, on both sides of its length.
pub(super) fn sizes(text: &Option<Vec<u8>>) -> Vec<u64> {
    let Some(text) = text else {
        return OTHER_SIZES.to_vec();
    };
    let length = text.len() as u64;
    vec![0, length.saturating_sub(1), length, length + 1, length + 64]
}

/// What has to be answered: 11, then 15.
pub(super) fn answer_of(text: &Option<Vec<u8>>, size: u64) -> Result<usize, Refusal> {
    let text = text.as_ref().ok_or(Refusal::plain(11))?;
    match size < text.len() as u64 {
        true => Err(Refusal::plain(15)),
        false => Ok(text.len()),
    }
}

/// Writes the table under construction into buffers of all sizes.
fn write_table(session: &mut Session) {
    let text = rules_text(&session.table);
    for size in sizes(&text) {
        assert_eq!(session.write_rules(size), answer_of(&text, size));
    }
}

/// Writes the run into buffers of all sizes.
fn write_run(session: &mut Session) {
    let text = cycle_text(&session.run);
    for size in sizes(&text) {
        assert_eq!(session.write_cycle(size), answer_of(&text, size));
    }
}

fn write_both(session: &mut Session) {
    write_table(session);
    write_run(session);
}

/// Neither the run has changed nor the table under construction, which becomes
/// the run's.
pub(super) fn compare_unchanged(session: &mut Session) {
    session.compare_run();
    session.set_table();
    session.compare_run();
}

/// What was written is read as the same rules and events.
fn read_back(case: &mut Case, table: &TableRecord, run: &Record) {
    if let Some(text) = rules_text(table) {
        assert_eq!(read_rules(&text).ok(), table.rules());
        compare_rules_text(case, text);
    }
    if let Some(text) = cycle_text(run) {
        let events = &run.events[..run.count as usize];
        assert_eq!(read_cycle(&text).as_deref(), Ok(events));
        compare_cycle_text(case, text);
    }
}

/// A record with one cause of 11: the run is refused, and its table if the cause
/// is there.
pub fn cause_case(number: u64, run: Record) -> Case {
    assert_eq!(cycle_text(&run), None);
    let mut session = Session::on(LISTED, number, run);
    write_both(&mut session);
    if number.is_multiple_of(UNCHANGED_EVERY) {
        compare_unchanged(&mut session);
    }
    session.case
}

/// A record beside the limits, not outside them.
pub fn allowed_case(number: u64, run: Record) -> Case {
    assert!(cycle_text(&run).is_some());
    let mut session = Session::on(LISTED, number, run.clone());
    write_both(&mut session);
    read_back(&mut session.case, &run.table, &run);
    session.case
}

/// A run grown by takes, written after each of them, when it is closed, and as
/// the notebook gives it.
pub fn grown_case(seed: u64) -> Case {
    let mut random = Random::new(seed);
    let count = random.pick(&[0, 1, 2, 3, 5, 16]);
    let length = random.pick(&[0, 1, 2, 3, 5, 8, 12]);
    let rules = random_rules(&mut random, count);
    let mut session = Session::started(GROWN, seed, &table_of(&rules));
    for event in random_cycle(&mut random, &rules, length) {
        take_after_refusal(&mut session, &mut random, event);
        let size = random.pick(&sizes(&cycle_text(&session.run)));
        let _ = session.write_cycle(size);
    }
    write_both(&mut session);
    let grown = cycle_text(&session.run).expect("a valid run");
    session.close().expect("a run that is not closed");
    write_run(&mut session);
    if seed.is_multiple_of(UNCHANGED_EVERY) {
        compare_unchanged(&mut session);
    }
    let rules = rules_text(&session.table).expect("a valid table");
    let answer = session.notebook(rules, grown.clone());
    answer.expect("texts of valid rules and taken events");
    write_run(&mut session);
    assert_eq!(cycle_text(&session.run), Some(grown));
    session.case
}

/// Two accepted texts.
pub fn again_case(seed: u64) -> Case {
    let mut random = Random::new(seed);
    let rules = accepted_rules(&mut random);
    let cycle = accepted_cycle(&mut random);
    again_text_case(AGAIN, seed, rules, cycle)
}

/// A damaged text if it is still accepted, else that of a valid table.
fn accepted_rules(random: &mut Random) -> Vec<u8> {
    let damaged = damaged_rules_text(random);
    match read_rules(&damaged) {
        Ok(_) => damaged,
        Err(_) => loop {
            if let Some(text) = rules_text(&random_table(random)) {
                return text;
            }
        },
    }
}

fn accepted_cycle(random: &mut Random) -> Vec<u8> {
    let damaged = damaged_cycle_text(random);
    match read_cycle(&damaged) {
        Ok(_) => damaged,
        Err(_) => loop {
            if let Some(text) = cycle_text(&random_run(random)) {
                return text;
            }
        },
    }
}

/// Two texts that are accepted come out again byte for byte when they were read,
/// and the cycle text also when the notebook has read it.
pub fn again_text_case(kind: &'static str, seed: u64, rules: Vec<u8>, cycle: Vec<u8>) -> Case {
    let mut session = Session::started(kind, seed, &new_table(0));
    let answer = session.read_rules(rules.clone());
    answer.expect("an accepted text");
    assert_eq!(rules_text(&session.table).as_ref(), Some(&rules));
    write_table(&mut session);
    let answer = session.read_cycle(cycle.clone());
    answer.expect("an accepted text");
    assert_eq!(cycle_text(&session.run).as_ref(), Some(&cycle));
    write_run(&mut session);
    if session.run.count as usize <= NOTEBOOK_EVENTS {
        let answer = session.notebook(rules, cycle.clone());
        answer.expect("accepted texts");
        assert_eq!(cycle_text(&session.run), Some(cycle));
        write_run(&mut session);
    }
    session.case
}
