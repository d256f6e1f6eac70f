//! Card 1 of document 02: a table's rules and a run's events in a lent buffer,
//! "with the length returned and the bytes beyond it untouched".

use evaluator::fabricate::{fill_unused, spread_numbers};
use evaluator::listing::{self, CYCLE, RULES};
use evaluator::random::{random_cycle, random_rules, Random};
use evaluator::stored::stored_texts;
use evaluator::Operator::{self, Equal, Greater, GreaterOrEqual, Less, LessOrEqual, NotEqual};
use evaluator::Standing::{Idle, Open, Violated};
use evaluator::{grown, notebook_record, place, read_cycle, read_rules, start};
use evaluator::{write_cycle_of, write_rules_of};
use evaluator::{Comparison, Event, Record, Refusal, Rule, TableRecord};
use std::collections::BTreeSet;

const OUTSIDE: Refusal = Refusal::plain(11);
const SHORT: Refusal = Refusal {
    number: 15,
    line: None,
};

fn table() -> TableRecord {
    TableRecord::of(&listing::rules())
}

/// The run of the listing, not closed.
fn run() -> Record {
    grown(&listing::rules(), &listing::events())
}

/// A buffer of bytes that are not all alike.
fn buffer(size: usize) -> Vec<u8> {
    (0..size).map(|at| (at % 251) as u8).collect()
}

/// A call, and the buffer that it has left.
type Left = (Result<usize, Refusal>, Vec<u8>);

fn rules_into(table: &TableRecord, size: usize) -> Left {
    let mut buffer = buffer(size);
    let answer = write_rules_of(table, &mut buffer);
    (answer, buffer)
}

fn cycle_into(run: &Record, size: usize) -> Left {
    let mut buffer = buffer(size);
    let answer = write_cycle_of(run, &mut buffer);
    (answer, buffer)
}

/// What is left if the text is written into a buffer of this size.
fn accepted(text: &str, size: usize) -> Left {
    let mut left = buffer(size);
    left[..text.len()].copy_from_slice(text.as_bytes());
    (Ok(text.len()), left)
}

fn refused(refusal: Refusal, size: usize) -> Left {
    (Err(refusal), buffer(size))
}

/// The text of a valid table.
fn rules_text(table: &TableRecord) -> String {
    text_in(rules_into(table, 3000))
}

/// The text of a valid run.
fn cycle_text(run: &Record) -> String {
    text_in(cycle_into(run, 16_000))
}

fn text_in((answer, mut left): Left) -> String {
    left.truncate(answer.expect("a valid record"));
    String::from_utf8(left).expect("ASCII")
}

/// "15, the lent buffer is shorter than the text, nothing written".
#[test]
fn the_listing_is_written_into_buffers_of_every_size() {
    for size in (0..RULES.len() + 70).chain([65_536]) {
        let expected = match size < RULES.len() {
            true => refused(SHORT, size),
            false => accepted(RULES, size),
        };
        assert_eq!(rules_into(&table(), size), expected);
    }
    for size in (0..CYCLE.len() + 70).chain([65_536]) {
        let expected = match size < CYCLE.len() {
            true => refused(SHORT, size),
            false => accepted(CYCLE, size),
        };
        assert_eq!(cycle_into(&run(), size), expected);
    }
}

/// 11 comes first, also where the buffer is too short, and leaves it as it was.
#[test]
fn the_order_is_11_and_then_15() {
    let mut table = table();
    table.rules[1].code = 13;
    let mut run = run();
    run.events[5].activity = 0;
    for size in 0..CYCLE.len() + 2 {
        assert_eq!(rules_into(&table, size), refused(OUTSIDE, size));
        assert_eq!(cycle_into(&run, size), refused(OUTSIDE, size));
    }
}

#[test]
fn no_rules_and_no_events_have_an_empty_text() {
    let empty = TableRecord::of(&[]);
    let running = start(&table()).expect("a valid table");
    let closed = running.clone().close().0;
    for size in [0, 1, 64] {
        assert_eq!(rules_into(&empty, size), (Ok(0), buffer(size)));
        assert_eq!(cycle_into(&running, size), (Ok(0), buffer(size)));
        assert_eq!(cycle_into(&closed, size), (Ok(0), buffer(size)));
    }
}

#[test]
fn a_run_is_written_alike_running_closed_and_from_the_notebook() {
    let (closed, answer) = run().close();
    assert_eq!(answer, Ok(()));
    let read = notebook_record(RULES.as_bytes(), CYCLE.as_bytes()).expect("a run");
    for run in [run(), closed, read] {
        assert_eq!(cycle_text(&run), CYCLE);
        assert_eq!(rules_text(&run.table), RULES);
    }
}

/// What 11 names, though it is not written: standings, totals, the run's table, and
/// what else is outside the limits.
#[test]
fn the_whole_run_is_checked() {
    for (number, run) in listing::with_causes().iter().enumerate() {
        for size in [0, CYCLE.len(), 200] {
            assert_eq!(cycle_into(run, size), refused(OUTSIDE, size), "{number}");
        }
    }
}

/// Standings that do not follow from the events are no cause of 11.
#[test]
fn stale_standings_do_not_matter() {
    let mut run = run();
    run.standings[place(1, 1)] = Idle;
    run.standings[place(1, 2)] = Open;
    run.standings[place(2, 3)] = Violated(6);
    run.count_totals();
    assert_eq!(cycle_text(&run), CYCLE);
}

#[test]
fn the_limits_of_a_table_are_checked() {
    let changes: [fn(&mut TableRecord); 8] = [
        |table| table.count = 17,
        |table| table.count = (1 << 32) + 2,
        |table| table.rules[0].code = 0,
        |table| table.rules[1].activation = 65,
        |table| table.rules[0].target = 0,
        |table| table.rules[0].a = 500,
        |table| table.rules[1].correlation.comparisons[0].reading = 5,
        |table| table.rules[1].activation_condition = table.rules[1].correlation,
    ];
    for (number, change) in changes.into_iter().enumerate() {
        let mut table = table();
        change(&mut table);
        for size in [0, RULES.len(), 200] {
            assert_eq!(rules_into(&table, size), refused(OUTSIDE, size), "{number}");
        }
    }
}

#[test]
fn unused_slots_are_not_written() {
    let mut random = Random::new(51);
    for closed in [false, true] {
        let mut run = run();
        if closed {
            run = run.close().0;
        }
        fill_unused(&mut random, &mut run);
        assert_eq!(rules_text(&run.table), RULES);
        assert_eq!(cycle_text(&run), CYCLE);
    }
    // Nor are they if they hold what could be written.
    let mut run = run();
    let next = Comparison::with_constant(2, Less, 5);
    run.table.rules[1].correlation.comparisons[1] = next;
    run.table.rules[1].activation_condition.comparisons[0] = next;
    run.table.rules[2] = run.table.rules[0];
    run.events[6] = Event::new(2000, 1);
    assert_eq!(rules_text(&run.table), RULES);
    assert_eq!(cycle_text(&run), CYCLE);
}

#[test]
fn the_numbers_of_a_rule_at_their_ends() {
    let most = 4_294_967_295;
    let lines = [
        (Rule::new(1, 1, 1, 0, Some(1)), "1\t1\t1\t0\t1\t-\t-\n"),
        (Rule::new(9, 9, 10, 9, Some(10)), "9\t9\t10\t9\t10\t-\t-\n"),
        (
            Rule::new(10, 10, 9, 10, Some(11)),
            "10\t10\t9\t10\t11\t-\t-\n",
        ),
        (Rule::new(12, 64, 64, 0, None), "12\t64\t64\t0\t-\t-\t-\n"),
        (
            Rule::new(2, 1, 64, 99, Some(100)),
            "2\t1\t64\t99\t100\t-\t-\n",
        ),
        (
            Rule::new(3, 64, 1, 1_000_000_000, Some(2_147_483_648)),
            "3\t64\t1\t1000000000\t2147483648\t-\t-\n",
        ),
        (
            Rule::new(4, 5, 6, most - 1, Some(most)),
            "4\t5\t6\t4294967294\t4294967295\t-\t-\n",
        ),
        (
            Rule::new(11, 7, 8, most, None),
            "11\t7\t8\t4294967295\t-\t-\t-\n",
        ),
    ];
    let (mut rules, mut text) = (Vec::new(), String::new());
    for (rule, line) in lines {
        rules.push(rule);
        text += line;
        assert_eq!(rules_text(&TableRecord::of(&rules)), text);
    }
}

/// A rule with these conditions, written out.
fn with_conditions(activation: &[Comparison], correlation: &[Comparison]) -> String {
    let rule = Rule::new(2, 1, 2, 0, None)
        .with_activation_condition(activation.to_vec())
        .with_correlation(correlation.to_vec());
    rules_text(&TableRecord::of(&[rule]))
}

#[test]
fn every_operator_has_its_byte() {
    let bytes: [(Operator, &str); 6] = [
        (Equal, "="),
        (NotEqual, "!"),
        (Less, "<"),
        (LessOrEqual, "l"),
        (Greater, ">"),
        (GreaterOrEqual, "g"),
    ];
    for (operator, byte) in bytes {
        let constant = Comparison::with_constant(3, operator, 12);
        let sum = Comparison::with_activation(1, operator, 4, -12);
        let expected = format!("2\t1\t2\t0\t-\t3{byte}12\t1{byte}@4:-12\n");
        assert_eq!(with_conditions(&[constant], &[sum]), expected);
        let expected = format!("2\t1\t2\t0\t-\t-\t3{byte}12\n");
        assert_eq!(with_conditions(&[], &[constant]), expected);
    }
}

#[test]
fn comparisons_are_written_in_their_order() {
    let four = [4, 2, 3, 1].map(|reading| Comparison::with_constant(reading, Equal, 0));
    let expected = "2\t1\t2\t0\t-\t4=0,2=0,3=0,1=0\t-\n";
    assert_eq!(with_conditions(&four, &[]), expected);
    let mixed = [
        Comparison::with_activation(2, Less, 1, 7),
        Comparison::with_constant(1, Greater, -1),
        Comparison::with_activation(4, NotEqual, 3, 0),
    ];
    let expected = "2\t1\t2\t0\t-\t4=0\t2<@1:7,1>-1,4!@3:0\n";
    assert_eq!(with_conditions(&four[..1], &mixed), expected);
    // A reading may come again, and so may a comparison.
    let band = [(Greater, 5), (Less, 7), (NotEqual, 6), (Less, 7)];
    let band = band.map(|(operator, k)| Comparison::with_constant(1, operator, k));
    let expected = "2\t1\t2\t0\t-\t1>5,1<7,1!6,1<7\t1>5,1<7,1!6\n";
    assert_eq!(with_conditions(&band, &band[..3]), expected);
}

/// Signed numbers at their ends and where a digit is added.
const SIGNED: [(i32, &str); 12] = [
    (-2_147_483_648, "-2147483648"),
    (-2_147_483_647, "-2147483647"),
    (-1_000_000_000, "-1000000000"),
    (-10, "-10"),
    (-9, "-9"),
    (-1, "-1"),
    (0, "0"),
    (1, "1"),
    (9, "9"),
    (10, "10"),
    (1_020_030_040, "1020030040"),
    (2_147_483_647, "2147483647"),
];

#[test]
fn k_is_written_over_its_whole_range() {
    for (k, digits) in SIGNED {
        let constant = Comparison::with_constant(1, Equal, k);
        let sum = Comparison::with_activation(1, Equal, 1, k);
        let expected = format!("2\t1\t2\t0\t-\t1={digits}\t1=@1:{digits}\n");
        assert_eq!(with_conditions(&[constant], &[sum]), expected);
    }
}

#[test]
fn readings_are_written_over_their_whole_range() {
    for (value, digits) in SIGNED {
        for (number, line) in [
            (1, format!("5\t1\t{digits}\t-\t-\t-\n")),
            (2, format!("5\t1\t-\t{digits}\t-\t-\n")),
            (3, format!("5\t1\t-\t-\t{digits}\t-\n")),
            (4, format!("5\t1\t-\t-\t-\t{digits}\n")),
        ] {
            let event = Event::new(5, 1).with_reading(number, value);
            assert_eq!(cycle_text(&grown(&[], &[event])), line);
        }
    }
}

#[test]
fn times_and_activities_are_written_over_their_whole_range() {
    let events = [
        (0, 1, "0\t1\t-\t-\t-\t-\n"),
        (9, 9, "9\t9\t-\t-\t-\t-\n"),
        (10, 10, "10\t10\t-\t-\t-\t-\n"),
        (2_147_483_648, 63, "2147483648\t63\t-\t-\t-\t-\n"),
        (4_294_967_295, 64, "4294967295\t64\t-\t-\t-\t-\n"),
        (4_294_967_295, 1, "4294967295\t1\t-\t-\t-\t-\n"),
    ];
    let taken = events.map(|(time, activity, _)| Event::new(time, activity));
    let expected = events.map(|(_, _, line)| line).concat();
    assert_eq!(cycle_text(&grown(&[], &taken)), expected);
}

/// 16 rules of 155 bytes and 256 events of 62.
#[test]
fn the_longest_texts() {
    let least = i32::MIN;
    let constants = [1, 2, 3, 4].map(|n| Comparison::with_constant(n, GreaterOrEqual, least));
    let sums = [1, 2, 3, 4].map(|n| Comparison::with_activation(n, GreaterOrEqual, n, least));
    let rule = Rule::new(12, 64, 64, u32::MAX - 1, Some(u32::MAX))
        .with_activation_condition(constants.to_vec())
        .with_correlation(sums.to_vec());
    let line = "12\t64\t64\t4294967294\t4294967295\t\
        1g-2147483648,2g-2147483648,3g-2147483648,4g-2147483648\t\
        1g@1:-2147483648,2g@2:-2147483648,3g@3:-2147483648,4g@4:-2147483648\n";
    let table = TableRecord::of(&vec![rule; 16]);
    assert_eq!(rules_into(&table, 2479), refused(SHORT, 2479));
    assert_eq!(rules_into(&table, 2480), accepted(&line.repeat(16), 2480));
    let mut run = start(&TableRecord::of(&[])).expect("a valid table");
    run.count = 256;
    run.events.fill(Event {
        time: u32::MAX,
        activity: 64,
        readings: [Some(least); 4],
    });
    let line = "4294967295\t64\t-2147483648\t-2147483648\t-2147483648\t-2147483648\n";
    assert_eq!(cycle_into(&run, 15_871), refused(SHORT, 15_871));
    assert_eq!(
        cycle_into(&run, 15_872),
        accepted(&line.repeat(256), 15_872)
    );
}

/// "A written text reads back as the same records".
#[test]
fn written_records_read_back_as_the_same() {
    let mut random = Random::new(52);
    let mut lengths = BTreeSet::new();
    for round in 0..2000 {
        let rules = random_rules(&mut random, round % 17);
        let events = random_cycle(&mut random, &rules, [0, 1, 2, 5, 9, 256][round % 6]);
        let mut run = start(&TableRecord::of(&rules)).expect("a valid table");
        run.count = events.len() as u64;
        run.events[..events.len()].copy_from_slice(&events);
        if random.one_in(2) {
            spread_numbers(&mut random, &mut run);
        }
        fill_unused(&mut random, &mut run);
        let rules = run.table.rules().expect("a valid table");
        let text = rules_text(&run.table);
        assert_eq!(read_rules(text.as_bytes()), Ok(rules));
        let text = cycle_text(&run);
        let events = &run.events[..events.len()];
        assert_eq!(read_cycle(text.as_bytes()).as_deref(), Ok(events));
        lengths.extend(text.split(['\t', '\n']).map(str::len));
    }
    // Numbers of every count of digits, with a sign and without.
    assert!((1..=11).all(|length| lengths.contains(&length)));
}

/// "an accepted text comes out again byte for byte"
#[test]
fn stored_texts_come_out_again() {
    let (mut rules, mut cycles) = (0, 0);
    for stored in stored_texts() {
        let text = stored.rules.unwrap_or_default();
        if let Ok(read) = read_rules(&text) {
            let written = rules_text(&TableRecord::of(&read));
            assert_eq!(written.as_bytes(), text, "{:?}", stored.folder);
            rules += usize::from(!text.is_empty());
        }
        let text = stored.cycle.unwrap_or_default();
        if let Ok(events) = read_cycle(&text) {
            let mut run = start(&table()).expect("a valid table");
            run.count = events.len() as u64;
            run.events[..events.len()].copy_from_slice(&events);
            assert_eq!(cycle_text(&run).as_bytes(), text, "{:?}", stored.folder);
            cycles += usize::from(!text.is_empty());
        }
    }
    // Folders where the cycle alone is refused, or nothing is, have such rules.
    assert!(rules >= 25 && cycles >= 30, "{rules} {cycles}");
}
