//! Stored totals, card 5 of document 02: "The run is to store all four per rule,
//! and totals answers with them. Every call that makes or changes a run keeps them
//! equal to the counts that document 01 defines. A record whose stored totals
//! differ from its standings is refused as 11." The numbers are counted by hand.

use evaluator::Operator::Less;
use evaluator::Standing::{self, Fulfilled, Idle, Open, Violated};
use evaluator::{absorb, grown, notebook_record, place, start, write_cycle_of, write_report_of};
use evaluator::{write_cycle, write_rules};
use evaluator::{Comparison, Event, Record, Refusal, Rule, TableRecord, Tally, Totals};

const OUTSIDE: Refusal = Refusal::plain(11);
const FULL: Tally = Tally {
    cycles: u32::MAX,
    activations: u32::MAX,
    fulfilled: u32::MAX,
    violated: u32::MAX,
};

/// Activations, fulfilled, violated, open.
type Four = [u16; 4];

const NONE: Four = [0; 4];
const FULFILLED: Four = [1, 1, 0, 0];
const VIOLATED: Four = [1, 0, 1, 0];
const OPEN: Four = [1, 0, 0, 1];

/// Response within 10.
fn response() -> Rule {
    Rule::new(2, 1, 2, 0, Some(10))
}

fn pairs(pairs: &[(u32, u8)]) -> Vec<Event> {
    pairs.iter().map(|(t, x)| Event::new(*t, *x)).collect()
}

/// A response with the standings fulfilled, idle, violated, open, and an existence
/// that is fulfilled.
fn run() -> Record {
    let rules = [response(), Rule::new(13, 2, 2, 0, None)];
    grown(&rules, &pairs(&[(0, 1), (5, 2), (20, 1), (31, 1)]))
}

fn take(record: Record, time: u32, activity: u8) -> Record {
    let (next, answer) = record.take(Event::new(time, activity));
    assert_eq!(answer, Ok(()));
    next
}

fn close(record: Record) -> Record {
    let (next, answer) = record.close();
    assert_eq!(answer, Ok(()));
    next
}

/// The stored totals of the first `N` slots. The call answers with those of its
/// rules.
fn stored<const N: usize>(record: &Record) -> [Four; N] {
    for rule in 1..=record.table.count {
        let of_slot = record.totals[rule as usize - 1];
        assert_eq!(record.totals(rule), Ok(of_slot));
    }
    std::array::from_fn(|slot| record.totals[slot].numbers())
}

#[test]
fn start_stores_what_is_judged_from_start_on() {
    let never = vec![Comparison::with_constant(3, Less, i32::MIN)];
    let unmet = |code| Rule::new(code, 1, 2, 0, None).with_activation_condition(never.clone());
    let open = Rule::new(16, 1, 2, 0, None);
    let rules = [response(), open, unmet(13), unmet(14)];
    let run = start(&TableRecord::of(&rules)).expect("a valid table");
    assert_eq!(stored(&run), [NONE, OPEN, VIOLATED, FULFILLED]);
    assert_eq!(run.totals[4..], [Totals::default(); 12]);
}

#[test]
fn take_stores_the_counts_of_the_standings() {
    let rules = [response(), Rule::new(14, 2, 2, 0, None)];
    let mut run = grown(&rules, &[]);
    for (time, activity, expected) in [
        (0, 1, [OPEN, OPEN]),
        (5, 9, [OPEN, OPEN]),
        (6, 1, [[2, 0, 0, 2], OPEN]),
        (9, 2, [[2, 2, 0, 0], VIOLATED]),
        (9, 1, [[3, 2, 0, 1], VIOLATED]),
        (19, 1, [[4, 2, 1, 1], VIOLATED]),
    ] {
        run = take(run, time, activity);
        assert_eq!(stored(&run), expected, "{time}");
    }
    assert_eq!(run.totals[2..], [Totals::default(); 14]);
}

/// "Close turns open into violated for 1 to 7, into fulfilled for 8 to 12", and
/// decides position 0.
#[test]
fn close_moves_the_open_ones() {
    let codes = [2, 9, 13, 14, 16];
    let rules = codes.map(|code| Rule::new(code, 1, 2, 0, None));
    let run = grown(&rules, &pairs(&[(0, 1), (1, 2), (2, 1), (3, 1)]));
    let decided = [FULFILLED, VIOLATED, VIOLATED];
    let expected = [&[[3, 1, 0, 2], [3, 0, 1, 2]], &decided[..]].concat();
    assert_eq!(stored::<5>(&run).to_vec(), expected);
    let expected = [&[[3, 1, 2, 0], [3, 2, 1, 0]], &decided[..]].concat();
    assert_eq!(stored::<5>(&close(run)).to_vec(), expected);
    let empty = close(grown(&rules, &[]));
    assert_eq!(stored(&empty), [NONE, NONE, VIOLATED, FULFILLED, VIOLATED]);
}

#[test]
fn the_notebook_stores_the_counts() {
    let rules = [2, 9, 13, 16].map(|code| Rule::new(code, 1, 2, 0, None));
    let texts = |events: &[(u32, u8)]| {
        let cycle = write_cycle(&pairs(events));
        notebook_record(&write_rules(&rules), &cycle).expect("a run")
    };
    let run = texts(&[(0, 1), (1, 2), (2, 1)]);
    let expected = [[2, 1, 1, 0], [2, 1, 1, 0], FULFILLED, VIOLATED];
    assert_eq!(stored(&run), expected);
    assert_eq!(run.totals[4..], [Totals::default(); 12]);
    let expected = [NONE, NONE, VIOLATED, VIOLATED];
    assert_eq!(stored(&texts(&[])), expected);
}

#[test]
fn a_full_run_has_256_activations() {
    let rule = Rule::new(2, 1, 2, 0, None);
    let run = grown(&[rule], &[Event::new(0, 1); 256]);
    assert_eq!(stored(&run), [[256, 0, 0, 256]]);
    let closed = close(run);
    assert_eq!(stored(&closed), [[256, 0, 256, 0]]);
    let mut day = Tally::default();
    assert_eq!(absorb(&closed, 1, &mut day), Ok(()));
    assert_eq!((day.activations, day.violated), (256, 256));
    // Not even the low 8 bits alone are looked at.
    assert!(is_outside(&with_totals(&closed, 0, [0, 0, 256, 0])));
    assert!(is_outside(&with_totals(&closed, 0, [256, 0, 0, 0])));
}

/// The run with any standings of the response at its four events, and totals that
/// fit them: "decided standings .. are carried over, all others follow from the
/// events".
fn stale(standings: [Standing; 4], fitting: Four) -> Record {
    let mut record = run();
    record.standings[..4].copy_from_slice(&standings);
    with_totals(&record, 0, fitting)
}

/// Not so many more or fewer as the new event makes, but as there are: a take also
/// decides what was idle, and an open one at no activation becomes idle.
#[test]
fn take_counts_anew_what_it_judges_anew() {
    let (kept, wrong) = (Violated(3), Fulfilled(1));
    for (standings, before, after) in [
        ([Idle; 4], NONE, [3, 1, 1, 1]),
        ([Open; 4], [4, 0, 0, 4], [3, 1, 1, 1]),
        ([Idle, Open, Idle, Idle], OPEN, [3, 1, 1, 1]),
        ([kept, wrong, Idle, Open], [3, 1, 1, 1], [4, 1, 2, 1]),
        ([kept, kept, kept, kept], [4, 0, 4, 0], [4, 0, 4, 0]),
    ] {
        let record = stale(standings, before);
        assert_eq!(stored(&record), [before, FULFILLED]);
        assert_eq!(stored(&take(record, 32, 9)), [after, FULFILLED]);
    }
}

#[test]
fn close_counts_what_it_keeps_and_what_it_turns() {
    for (standings, before, after) in [
        ([Idle; 4], NONE, NONE),
        ([Open; 4], [4, 0, 0, 4], [4, 0, 4, 0]),
        (
            [Idle, Open, Fulfilled(1), Violated(0)],
            [3, 1, 1, 1],
            [3, 1, 2, 0],
        ),
    ] {
        let record = stale(standings, before);
        assert_eq!(stored(&close(record)), [after, FULFILLED]);
    }
}

#[test]
fn a_stale_position_0_is_counted_anew() {
    let mut record = run();
    record.overall[1] = Open;
    let record = with_totals(&record, 1, OPEN);
    assert_eq!(stored::<2>(&take(record.clone(), 32, 9))[1], FULFILLED);
    assert_eq!(stored::<2>(&close(record.clone()))[1], FULFILLED);
    let mut violated = record;
    violated.overall[1] = Violated(4);
    let violated = with_totals(&violated, 1, VIOLATED);
    assert_eq!(stored::<2>(&take(violated.clone(), 32, 9))[1], VIOLATED);
    assert_eq!(stored::<2>(&close(violated))[1], VIOLATED);
}

fn with_totals(record: &Record, slot: usize, numbers: Four) -> Record {
    let mut record = record.clone();
    record.totals[slot] = Totals::with_numbers(numbers);
    record
}

/// What the calls that check a record are refused with: those that nothing else
/// is wrong with, and those with a cause of 9, 3, 7, 10, 14 or 15 too.
fn refusals(record: &Record) -> Vec<Option<Refusal>> {
    let last = record.events[record.count as usize - 1].time;
    let before = last.saturating_sub(1);
    let wrong = [(last, 1), (last, 0), (last, 65), (before, 1), (0, 0)];
    let takes = wrong.map(|(time, activity)| {
        let (next, answer) = record.clone().take(Event::new(time, activity));
        assert!(answer.is_ok() || next == *record, "a refused take");
        answer.err()
    });
    let (next, closed) = record.clone().close();
    assert!(closed.is_ok() || next == *record, "a refused close");
    let mut refusals = [&takes[..], &[closed.err()]].concat();
    for rule in [1, 2, 0, 17, u64::MAX] {
        refusals.extend([0, 1, 257].map(|position| record.standing(rule, position).err()));
        refusals.push(record.totals(rule).err());
        for tally in [Tally::default(), FULL] {
            let mut after = tally;
            refusals.push(absorb(record, rule, &mut after).err());
            assert!(refusals.last() == Some(&None) || after == tally);
        }
    }
    for size in [0, 1, 3000] {
        let mut buffer = vec![b'x'; size];
        let written = [write_cycle_of, write_report_of].map(|write| write(record, &mut buffer));
        assert!(written.iter().any(Result::is_ok) || buffer == vec![b'x'; size]);
        refusals.extend(written.map(Result::err));
    }
    refusals
}

/// Whether 11 is the answer of each of these calls; it may not be that of some.
fn is_outside(record: &Record) -> bool {
    let refusals = refusals(record);
    let outside = refusals.iter().filter(|r| **r == Some(OUTSIDE)).count();
    assert!([0, refusals.len()].contains(&outside), "{refusals:?}");
    outside > 0
}

/// Without 11 those calls meet every other refusal.
#[test]
fn other_refusals_are_met() {
    let full = grown(&[response()], &[Event::new(3, 1); 256]);
    let runs = [run(), close(run()), full];
    let mut numbers: Vec<u8> = runs
        .iter()
        .flat_map(refusals)
        .flatten()
        .map(|refusal| refusal.number)
        .collect();
    numbers.sort();
    numbers.dedup();
    assert_eq!(numbers, [3, 7, 8, 9, 10, 14, 15]);
}

#[test]
fn each_of_the_four_is_11_if_it_differs() {
    let full = grown(&[response()], &[Event::new(3, 1); 256]);
    let mut tried = 0;
    for record in [run(), close(run()), full.clone(), close(full)] {
        assert!(!is_outside(&record));
        for slot in 0..record.table.count as usize {
            for at in 0..4 {
                let right = record.totals[slot].numbers()[at];
                let edges = [0, 1, 255, 256, 257, 65_535];
                let others = [right.wrapping_sub(1), right + 1].into_iter().chain(edges);
                for number in others.filter(|number| *number != right) {
                    let mut record = record.clone();
                    record.totals[slot] = record.totals[slot].with_number(at, number);
                    assert!(is_outside(&record), "{slot} {at} {number}");
                    tried += 1;
                }
            }
        }
    }
    assert!(tried >= 6 * 4 * 6, "{tried}");
}

/// Totals that add up, those of other standings, and those of the other rule.
#[test]
fn totals_that_add_up_are_11_if_they_differ() {
    let run = run();
    assert_eq!(stored(&run), [[3, 1, 1, 1], FULFILLED]);
    for wrong in [
        [3, 2, 0, 1],
        [3, 1, 2, 0],
        [3, 0, 1, 2],
        [4, 2, 1, 1],
        [2, 1, 0, 1],
        [3, 3, 0, 0],
        FULFILLED,
        NONE,
    ] {
        assert!(is_outside(&with_totals(&run, 0, wrong)), "{wrong:?}");
    }
    for wrong in [OPEN, VIOLATED, NONE, [2, 2, 0, 0], [3, 1, 1, 1]] {
        assert!(is_outside(&with_totals(&run, 1, wrong)), "{wrong:?}");
    }
    let mut exchanged = run;
    exchanged.totals.swap(0, 1);
    assert!(is_outside(&exchanged));
}

/// Position 0 is counted under 13 to 16 alone, and no cell past the table or the
/// events.
#[test]
fn what_is_not_read_is_not_counted() {
    let mut record = run();
    record.overall[0] = Open;
    record.standings[place(3, 1)] = Open;
    assert!(!is_outside(&record));
    for wrong in [[4, 1, 1, 2], [5, 1, 1, 3]] {
        assert!(is_outside(&with_totals(&record, 0, wrong)));
    }
}

#[test]
fn the_counts_say_what_is_counted() {
    // Without its last event the response has nothing open.
    let mut shorter = run();
    shorter.count = 3;
    shorter.standings[place(1, 4)] = Idle;
    assert!(is_outside(&shorter));
    assert!(!is_outside(&with_totals(&shorter, 0, [2, 1, 1, 0])));
    // The totals of a rule count as soon as the table has it.
    let mut fewer = with_totals(&run(), 1, OPEN);
    fewer.table.count = 1;
    assert!(!is_outside(&fewer));
    fewer.table.count = 2;
    assert!(is_outside(&fewer));
    // Under a response position 0 is not counted, and nothing else stands.
    let mut other = run();
    other.table.rules[1].code = 2;
    assert!(is_outside(&other));
    assert!(!is_outside(&with_totals(&other, 1, NONE)));
}

/// The totals of rules that the table does not have are unread.
#[test]
fn unused_slots_are_no_cause_and_stay() {
    let junk = Totals::with_numbers([65_535, 0, 257, 1]);
    for slot in [2, 3, 15] {
        let mut record = run();
        record.totals[slot] = junk;
        assert!(!is_outside(&record));
        let mut totals = [Totals::default(); 16];
        totals[slot] = junk;
        let next = take(record, 40, 2);
        assert_eq!(next.totals[2..], totals[2..]);
        let closed = close(next);
        assert_eq!(closed.totals[2..], totals[2..]);
        assert!(!is_outside(&closed));
        let again = start(&closed.table).expect("a valid table");
        assert_eq!(again.totals[2..], [Totals::default(); 14]);
    }
}

/// 11, 9, 3 and 7 leave the totals, those of unused slots too.
#[test]
fn a_refusal_leaves_the_totals() {
    let mut outside = run();
    outside.events[0].activity = 0;
    let wrong = with_totals(&run(), 0, OPEN);
    for mut record in [run(), close(run()), outside, wrong] {
        record.totals[9] = Totals::with_numbers([4, 3, 2, 1]);
        for event in [Event::new(31, 0), Event::new(30, 1)] {
            let (next, answer) = record.clone().take(event);
            assert!(answer.is_err());
            assert_eq!(next.totals, record.totals);
        }
        let (next, answer) = record.clone().close();
        assert!(answer.is_ok() || next.totals == record.totals);
    }
}
