//! What `report` prints for two texts, valid, damaged, hostile or large, written
//! into buffers of sizes beside its length.

use crate::cases::reports::filled;
use crate::cases::texts::random_pair;
use crate::cases::written::{answer_of, compare_unchanged, random_table, sizes};
use crate::script::{new_table, Case, Session};
use evaluator::fabricate::random_record;
use evaluator::printed;
use evaluator::random::Random;

pub const KIND: &str = "printed";
/// Written-out and stored texts; their numbers stand for seeds.
pub const LISTED: &str = "printed-listed";

/// So many bytes are always enough for what is printed.
pub const ENOUGH: u64 = 53_584;

/// Of the written-out texts every so many also go into a buffer of that size.
pub const ENOUGH_EVERY: usize = 8;

/// In every so many cases it is compared that nothing else changes.
const UNCHANGED_EVERY: u64 = 16;

/// Two texts.
pub type Texts = (Vec<u8>, Vec<u8>);

/// Two texts, printed into a buffer that is long enough and in every second case
/// also into a shorter one.
pub fn case(seed: u64) -> Case {
    let mut random = Random::new(seed);
    let texts = texts(&mut random);
    let text = Some(printed(&texts.0, &texts.1));
    let watched = seed.is_multiple_of(UNCHANGED_EVERY);
    let mut session = match watched {
        true => watched_session(&mut random, seed),
        false => Session::started(KIND, seed, &new_table(0)),
    };
    let [none, less, length, more, rest] = sizes(&text)[..] else {
        panic!("a text has five sizes");
    };
    let room = random.pick(&[length, length, more, rest]);
    print(&mut session, &texts, &text, room);
    if random.one_in(2) {
        let room = random.pick(&[none, length / 2, less, less]);
        print(&mut session, &texts, &text, room);
    }
    if watched {
        compare_unchanged(&mut session);
    }
    session.case
}

/// A session whose run and table under construction are not the first ones.
fn watched_session(random: &mut Random, seed: u64) -> Session {
    let run = random_record(random, 5);
    let mut session = Session::on(KIND, seed, run);
    session.load_table(&random_table(random));
    session
}

/// Prints two texts, for which this is printed, into a buffer.
fn print(session: &mut Session, texts: &Texts, text: &Option<Vec<u8>>, room: u64) {
    let (rules, cycle) = texts.clone();
    let size = u32::try_from(room).expect("a room of 32 bits");
    let answer = session.print_texts(rules, cycle, size);
    assert_eq!(answer, answer_of(text, room));
}

/// Mostly a pair as the notebook gets it; now and then one of its texts is
/// hostile or larger than a valid one can be.
fn texts(random: &mut Random) -> Texts {
    let (mut rules, mut cycle) = random_pair(random);
    let changed = match random.one_in(3) {
        true => &mut rules,
        false => &mut cycle,
    };
    match random.below(32) {
        0 => {
            let length = random.pick(&[32_767, 32_768, 32_769, 40_000, 65_536]);
            *changed = filled(random, std::mem::take(changed), length);
        }
        1..=3 => *changed = hostile_text(random),
        _ => {}
    }
    (rules, cycle)
}

/// Bytes of any kind, one byte many times, or bytes that have a meaning.
fn hostile_text(random: &mut Random) -> Vec<u8> {
    let length = random.pick(&[1, 2, 3, 10, 100, 1000]);
    let any = random.below(256) as u8;
    let mut text: Vec<u8> = match random.below(3) {
        0 => (0..length).map(|_| random.below(256) as u8).collect(),
        1 => vec![any; length],
        _ => {
            let meaning = b"0129-,@:=<\t\t\n";
            (0..length).map(|_| random.pick(meaning)).collect()
        }
    };
    if random.one_in(2) {
        text.push(b'\n');
    }
    text
}

/// Two texts, printed into buffers of all sizes.
pub fn text_case(number: u64, rules: Vec<u8>, cycle: Vec<u8>) -> Case {
    let texts = (rules, cycle);
    let text = Some(printed(&texts.0, &texts.1));
    let mut session = Session::started(LISTED, number, &new_table(0));
    for room in sizes(&text) {
        print(&mut session, &texts, &text, room);
    }
    if number.is_multiple_of(ENOUGH_EVERY as u64) {
        print(&mut session, &texts, &text, ENOUGH);
    }
    session.case
}
