//! Rules texts, cycle texts and pairs of them, valid and damaged.

use crate::answer::Answer;
use crate::command::{Command, LARGEST_TEXT};
use crate::expected::Expected;
use crate::script::{new_table, Case, Session};
use evaluator::damage::{damaged_cycle_text, damaged_rules_text};
use evaluator::damage::{random_cycle_text, random_rules_text};
use evaluator::long_numbers::{long_cycle_text, long_rules_text};
use evaluator::random::Random;
use evaluator::{read_cycle, read_rules, start, Event, Record};

pub const RULES: &str = "rules-texts";
pub const CYCLES: &str = "cycle-texts";
pub const PAIRS: &str = "pairs";
pub const LONG: &str = "long-numbers";

/// After every so many refusals it is compared that nothing changed.
const UNCHANGED_EVERY: u64 = 16;

/// A rules text.
pub fn rules_case(seed: u64) -> Case {
    let text = random_rules(&mut Random::new(seed));
    rules_text_case(seed, text)
}

/// Rules about the cycle that fit their template or do not, each alone and with the
/// causes that come before 16, as a first line and as a 17th.
pub fn misfit_texts() -> Vec<Vec<u8>> {
    let mut texts = Vec::new();
    for code in 12..=17 {
        for target in [1, 2, 65] {
            for window in ["0\t-", "5\t5", "0\t0"] {
                for condition in ["-", "1g5", "1=@1:0", "x", FIVE] {
                    for correlation in ["-", "1=@1:0", "2=2147483648", "x", FIVE] {
                        let line =
                            format!("{code}\t1\t{target}\t{window}\t{condition}\t{correlation}\n");
                        texts.push(line.into_bytes());
                    }
                }
            }
        }
    }
    let last = as_seventeenth(&texts);
    [texts, last].concat()
}

/// A condition with one comparison too many.
const FIVE: &str = "1=0,3=0,3=1,2g5,1=0";

/// Some of the lines after 16 others.
fn as_seventeenth(lines: &[Vec<u8>]) -> Vec<Vec<u8>> {
    let before = "16\t1\t2\t0\t-\t-\t-\n".repeat(16).into_bytes();
    let last = lines.iter().step_by(7);
    last.map(|line| [&before[..], line].concat()).collect()
}

/// Conditions of three to seven comparisons, whole and with a fault in each place.
fn long_conditions() -> Vec<String> {
    let mut conditions = Vec::new();
    for count in 3..=7 {
        let whole = ["1>5", "1<7", "1!6", "2g-1", "1=0", "4l3", "2=8"][..count].to_vec();
        conditions.push(whole.join(","));
        for place in 0..count {
            for odd in ["x", "", "-", "1=2147483648", "1=@1:0", "1=@1:-2147483649"] {
                let mut parts = whole.clone();
                parts[place] = odd;
                conditions.push(parts.join(","));
            }
        }
    }
    conditions
}

/// Such conditions in either place, each alone, with a fault of the other condition
/// and with the causes that come after 17, as a first line and as a 17th.
pub fn fifth_texts() -> Vec<Vec<u8>> {
    let mut texts = Vec::new();
    for condition in long_conditions() {
        for head in ["2\t1\t2\t0\t-", "2\t1\t2\t5\t5", "16\t1\t1\t0\t-"] {
            for other in ["-", "x", "2=2147483648", FIVE] {
                texts.push(format!("{head}\t{condition}\t{other}\n").into_bytes());
                texts.push(format!("{head}\t{other}\t{condition}\n").into_bytes());
            }
        }
    }
    let last = as_seventeenth(&texts);
    [texts, last].concat()
}

/// A cycle text.
pub fn cycle_case(seed: u64) -> Case {
    let text = random_cycle(&mut Random::new(seed));
    cycle_text_case(seed, text)
}

/// Texts with long numbers: rules, a cycle, or both for the notebook.
pub fn long_case(seed: u64) -> Case {
    let random = &mut Random::new(seed);
    match seed % 3 {
        0 => {
            let mut case = Case::new(LONG, seed);
            compare_rules_text(&mut case, long_rules_text(random));
            case
        }
        1 => {
            let mut case = Case::new(LONG, seed);
            compare_cycle_text(&mut case, long_cycle_text(random));
            case
        }
        _ => {
            let (rules, cycle) = (long_rules_text(random), long_cycle_text(random));
            compare_pair(Session::started(LONG, seed, &new_table(0)), rules, cycle)
        }
    }
}

fn random_rules(random: &mut Random) -> Vec<u8> {
    let text = match random.one_in(5) {
        true => {
            let count = random.pick(&[0, 1, 1, 2, 2, 3, 5, 16, 17]);
            random_rules_text(random, count)
        }
        false => damaged_rules_text(random),
    };
    cut(text)
}

fn random_cycle(random: &mut Random) -> Vec<u8> {
    let text = match random.one_in(5) {
        true => {
            let count = random.pick(&[0, 1, 1, 2, 2, 3, 5, 16, 256, 257]);
            random_cycle_text(random, count)
        }
        false => damaged_cycle_text(random),
    };
    cut(text)
}

/// `probe` takes so many bytes.
fn cut(mut text: Vec<u8>) -> Vec<u8> {
    text.truncate(LARGEST_TEXT);
    text
}

pub fn rules_text_case(seed: u64, text: Vec<u8>) -> Case {
    let mut case = Case::new(RULES, seed);
    compare_rules_text(&mut case, text);
    case
}

/// A rules text: the answer, and the rules or the table as it was.
pub fn compare_rules_text(case: &mut Case, text: Vec<u8>) {
    case.fresh();
    let table = new_table(3);
    case.load_table(&table);
    let read = read_rules(&text);
    let answer = Answer::plain(read.as_ref().map(|_| ()).map_err(|refusal| *refusal));
    case.ask(Command::ReadRules(text), Expected::Answer(answer));
    let expected = match read {
        Ok(rules) => {
            case.count_conditions(&rules);
            Some(Expected::Rules(rules))
        }
        Err(_) if case.seed.is_multiple_of(UNCHANGED_EVERY) => {
            let mut run = fresh_run();
            run.table = table;
            Some(Expected::Run(Box::new(run)))
        }
        Err(_) => None,
    };
    if let Some(expected) = expected {
        case.send(Command::SetTable);
        case.ask(Command::DumpRun, expected);
    }
}

pub fn cycle_text_case(seed: u64, text: Vec<u8>) -> Case {
    let mut case = Case::new(CYCLES, seed);
    compare_cycle_text(&mut case, text);
    case
}

/// A cycle text: the answer, and the events or the run as it was.
pub fn compare_cycle_text(case: &mut Case, text: Vec<u8>) {
    let mut run = fresh_run();
    run.count = 2;
    run.events[1] = Event::new(7, 3).with_reading(2, -1);
    case.load_run(&run);
    let read = read_cycle(&text);
    let answer = Answer::plain(read.as_ref().map(|_| ()).map_err(|refusal| *refusal));
    case.ask(Command::ReadCycle(text), Expected::Answer(answer));
    match read {
        Ok(events) => case.ask(Command::DumpRun, Expected::Events(events)),
        Err(_) if case.seed.is_multiple_of(UNCHANGED_EVERY) => {
            case.ask(Command::DumpRun, Expected::Run(Box::new(run)));
        }
        Err(_) => {}
    }
}

fn fresh_run() -> Record {
    start(&new_table(0)).expect("a valid table")
}

/// Two texts for the notebook.
pub fn pair_case(seed: u64) -> Case {
    let (rules, cycle) = pair(seed);
    pair_text_case(seed, rules, cycle)
}

/// A rules text and a cycle text.
pub fn pair(seed: u64) -> (Vec<u8>, Vec<u8>) {
    random_pair(&mut Random::new(seed))
}

pub(super) fn random_pair(random: &mut Random) -> (Vec<u8>, Vec<u8>) {
    let rules = match random.one_in(4) {
        true => damaged_rules_text(random),
        false => {
            let count = random.pick(&[0, 1, 1, 2, 3, 5, 16]);
            random_rules_text(random, count)
        }
    };
    let cycle = pair_cycle(random, &rules);
    (cut(rules), cut(cycle))
}

/// A cycle text, mostly one that belongs to the rules if these are valid.
fn pair_cycle(random: &mut Random, rules: &[u8]) -> Vec<u8> {
    if random.one_in(3) {
        return damaged_cycle_text(random);
    }
    let count = match random.one_in(50) {
        true => random.pick(&[255, 256, 257]),
        false => random.pick(&[0, 1, 2, 3, 5, 8, 12, 20, 40]),
    };
    let rules = read_rules(rules).unwrap_or_default();
    let events = evaluator::random::random_cycle(random, &rules, count);
    evaluator::write_cycle(&events)
}

/// These two texts for the notebook.
pub fn pair_text_case(seed: u64, rules: Vec<u8>, cycle: Vec<u8>) -> Case {
    compare_pair(Session::started(PAIRS, seed, &new_table(0)), rules, cycle)
}

/// Two texts: the answer, and the closed run, or the run as it was.
fn compare_pair(mut session: Session, rules: Vec<u8>, cycle: Vec<u8>) -> Case {
    let answer = session.notebook(rules, cycle);
    match answer {
        Ok(()) => {
            session.compare_notebook_run();
            session.compare_standings();
            session.all_totals();
        }
        Err(_) if session.case.seed.is_multiple_of(UNCHANGED_EVERY) => session.compare_run(),
        Err(_) => {}
    }
    session.case
}
