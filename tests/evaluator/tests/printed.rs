//! What `report` prints for a run in any phase and for two texts of any size, in
//! a lent buffer.

use evaluator::damage::{damaged_cycle_text, damaged_rules_text};
use evaluator::damage::{random_cycle_text, random_rules_text};
use evaluator::fabricate::{fill_unused, random_record};
use evaluator::listing::{self, CYCLE, PRINTED, RULES};
use evaluator::random::Random;
use evaluator::stored::stored_texts;
use evaluator::Standing::{self, Fulfilled, Idle, Open, Violated};
use evaluator::{grown, notebook_record, place, start};
use evaluator::{print_texts, printed, report, report_of, write_report_of};
use evaluator::{Event, Record, Refusal, Rule, TableRecord, Text};

/// Always enough: 16 rules, each with 256 lines such as `16 256 F 256` and a
/// total such as `total 16 256 128 128`.
const ENOUGH: usize = 53_584;

const OUTSIDE: Refusal = Refusal::plain(11);
const SHORT: Refusal = Refusal::plain(15);

/// The first events of the listing, taken in turn.
fn run_of(count: usize) -> Record {
    grown(&listing::rules(), &listing::events()[..count])
}

/// A run of so many rules and events with these standings, in order of rule and
/// position.
fn run_with(rules: usize, events: usize, standings: &[Standing]) -> Record {
    let rules = vec![Rule::new(2, 1, 2, 0, None); rules];
    let mut run = start(&TableRecord::of(&rules)).expect("a valid table");
    run.count = events as u64;
    for (cell, standing) in standings.iter().enumerate() {
        run.standings[place(cell / events + 1, cell % events + 1)] = *standing;
    }
    run.count_totals();
    run
}

/// A buffer of bytes that are not all alike.
fn buffer(size: usize) -> Vec<u8> {
    (0..size).map(|at| (at % 251) as u8).collect()
}

/// A call, and the buffer that it has left.
type Left = (Result<usize, Refusal>, Vec<u8>);

fn report_into(run: &Record, size: usize) -> Left {
    let mut buffer = buffer(size);
    let answer = write_report_of(run, &mut buffer);
    (answer, buffer)
}

fn texts_into(rules: &str, cycle: &str, size: usize) -> Left {
    let mut buffer = buffer(size);
    let answer = print_texts(rules.as_bytes(), cycle.as_bytes(), &mut buffer);
    (answer, buffer)
}

/// What is left of a buffer of this size if this text is to go into it.
fn left_with(text: &str, size: usize) -> Left {
    let mut left = buffer(size);
    if size < text.len() {
        return (Err(SHORT), left);
    }
    left[..text.len()].copy_from_slice(text.as_bytes());
    (Ok(text.len()), left)
}

fn string(bytes: Vec<u8>) -> String {
    String::from_utf8(bytes).expect("ASCII")
}

fn report_text(run: &Record) -> String {
    string(report_of(run).expect("a valid run"))
}

fn texts(rules: &str, cycle: &str) -> String {
    string(printed(rules.as_bytes(), cycle.as_bytes()))
}

#[test]
fn the_listing_is_printed_alike_from_texts_and_runs() {
    let (closed, answer) = run_of(6).close();
    assert_eq!(answer, Ok(()));
    let read = notebook_record(RULES.as_bytes(), CYCLE.as_bytes()).expect("a run");
    // Every activation of the listing is decided before it is closed.
    for run in [run_of(6), closed, read] {
        assert_eq!(report_text(&run), PRINTED);
    }
    assert_eq!(texts(RULES, CYCLE), PRINTED);
}

/// An open activation is printed with O and target 0, and counted among the
/// activations alone.
#[test]
fn the_listing_while_it_runs() {
    let after = [
        "total\t1\t0\t0\t0\ntotal\t2\t0\t0\t0\n",
        "1\t1\tO\t0\ntotal\t1\t1\t0\t0\ntotal\t2\t0\t0\t0\n",
        "1\t1\tF\t2\ntotal\t1\t1\t1\t0\ntotal\t2\t0\t0\t0\n",
        "1\t1\tF\t2\ntotal\t1\t1\t1\t0\n2\t3\tF\t2\ntotal\t2\t1\t1\t0\n",
        "1\t1\tF\t2\ntotal\t1\t1\t1\t0\n2\t3\tF\t2\n2\t4\tV\t0\ntotal\t2\t2\t1\t1\n",
        "1\t1\tF\t2\n1\t5\tO\t0\ntotal\t1\t2\t1\t0\n\
            2\t3\tF\t2\n2\t4\tV\t0\ntotal\t2\t2\t1\t1\n",
    ];
    for (count, expected) in after.into_iter().enumerate() {
        assert_eq!(report_text(&run_of(count)), expected, "{count}");
    }
    let (closed, _) = run_of(5).close();
    assert_eq!(report_text(&closed), PRINTED);
}

/// Standings that do not follow from the events, with every kind and target.
#[test]
fn a_run_is_printed_as_its_record_has_it() {
    let standings = [
        [Open, Fulfilled(0), Violated(3), Idle],
        [Idle, Idle, Idle, Idle],
        [Fulfilled(4), Open, Open, Violated(0)],
    ];
    let mut run = run_with(3, 4, &standings.concat());
    let expected = "1\t1\tO\t0\n1\t2\tF\t0\n1\t3\tV\t3\ntotal\t1\t3\t1\t1\n\
        total\t2\t0\t0\t0\n\
        3\t1\tF\t4\n3\t2\tO\t0\n3\t3\tO\t0\n3\t4\tV\t0\ntotal\t3\t4\t1\t1\n";
    assert_eq!(report_text(&run), expected);
    // What no call reads is not printed either.
    run.standings[place(4, 1)] = Fulfilled(1);
    run.standings[place(16, 256)] = Open;
    run.events[4] = Event::new(9, 1);
    assert_eq!(report_text(&run), expected);
    fill_unused(&mut Random::new(61), &mut run);
    assert_eq!(report_text(&run), expected);
}

#[test]
fn numbers_of_one_two_and_three_digits() {
    let mut run = run_with(16, 256, &[]);
    for (rule, position, standing) in [
        (1, 9, Fulfilled(9)),
        (9, 10, Violated(10)),
        (10, 99, Fulfilled(99)),
        (10, 100, Violated(100)),
        (16, 256, Fulfilled(256)),
    ] {
        run.standings[place(rule, position)] = standing;
    }
    run.count_totals();
    let text = report_text(&run);
    let lines: Vec<&str> = text.lines().collect();
    let none = [2, 3, 4, 5, 6, 7, 8].map(|rule| format!("total\t{rule}\t0\t0\t0"));
    assert_eq!(lines[..2], ["1\t9\tF\t9", "total\t1\t1\t1\t0"]);
    assert_eq!(lines[2..9], none);
    let two_digits = [
        "9\t10\tV\t10",
        "total\t9\t1\t0\t1",
        "10\t99\tF\t99",
        "10\t100\tV\t100",
        "total\t10\t2\t1\t1",
    ];
    assert_eq!(lines[9..14], two_digits);
    assert_eq!(lines[19..], ["16\t256\tF\t256", "total\t16\t1\t1\t0"]);
}

/// "15, the lent buffer is shorter than the text, nothing written".
#[test]
fn the_listing_goes_into_buffers_of_every_size() {
    let open = "1\t1\tO\t0\ntotal\t1\t1\t0\t0\ntotal\t2\t0\t0\t0\n";
    let refused = "refused\tcycle\t12\t1\n";
    for size in (0..PRINTED.len() + 70).chain([65_536]) {
        assert_eq!(report_into(&run_of(6), size), left_with(PRINTED, size));
        assert_eq!(report_into(&run_of(1), size), left_with(open, size));
        assert_eq!(texts_into(RULES, CYCLE, size), left_with(PRINTED, size));
        assert_eq!(texts_into(RULES, "x", size), left_with(refused, size));
    }
}

#[test]
fn no_rules_print_nothing() {
    let mut run = run_with(0, 0, &[]);
    for closed in [false, true] {
        run.closed = closed;
        for size in [0, 1, 64] {
            assert_eq!(report_into(&run, size), (Ok(0), buffer(size)));
            assert_eq!(texts_into("", CYCLE, size), (Ok(0), buffer(size)));
        }
    }
}

/// 11 comes before 15 and leaves the buffer as it was, whatever its size.
#[test]
fn the_whole_run_is_checked() {
    for (number, run) in listing::with_causes().iter().enumerate() {
        for size in [0, PRINTED.len() - 1, PRINTED.len(), 200] {
            let expected = (Err(OUTSIDE), buffer(size));
            assert_eq!(report_into(run, size), expected, "{number}");
        }
    }
}

#[test]
fn a_refused_text_is_printed_as_one_line() {
    let seventeen = RULES.repeat(9);
    for (rules, cycle, expected) in [
        ("x", CYCLE, "refused\trules\t12\t1\n"),
        ("\n", "x", "refused\trules\t1\t1\n"),
        (&seventeen, "", "refused\trules\t8\t17\n"),
        (RULES, "\n", "refused\tcycle\t1\t1\n"),
        ("", "0\t0\t-\t-\t-\t-\n", "refused\tcycle\t3\t1\n"),
    ] {
        assert_eq!(texts(rules, cycle), expected);
    }
    let falling = format!("{CYCLE}1499\t1\t-\t-\t-\t-\n");
    assert_eq!(texts(RULES, &falling), "refused\tcycle\t7\t7\n");
    let long = "0\t9\t-\t-\t-\t-\n".repeat(257);
    assert_eq!(texts(RULES, &long), "refused\tcycle\t8\t257\n");
}

/// 13 is for files alone.
#[test]
fn texts_have_no_limit_on_their_size() {
    let digits = |head: &str, size: usize| {
        let digits = "9".repeat(size - head.len() - 1);
        format!("{head}{digits}\n")
    };
    let (rules_line, cycle_line) = ("refused\trules\t3\t1\n", "refused\tcycle\t3\t1\n");
    for size in [32_768, 32_769, 65_536, 1_000_000] {
        let rules = digits("2\t1\t2\t0\t-\t-\t1=", size);
        assert_eq!(texts(&rules, CYCLE), rules_line);
        let cycle = digits("0\t1\t-\t-\t-\t", size);
        assert_eq!(texts(RULES, &cycle), cycle_line);
        let of_files = match size > 32_768 {
            true => "refused\tcycle\t13\t0\n",
            false => cycle_line,
        };
        let files = report(Some(RULES.into()), Some(cycle.into()));
        assert_eq!(string(files), of_files);
    }
}

/// Of 16 rules 9 have one digit and 7 have two; of 256 positions 9 have one, 90
/// two and 157 three. A line has three tabs, a letter and an LF besides.
const LONGEST_LINES: usize = 256 * (9 + 2 * 7) + 16 * (9 + 2 * 90 + 3 * 157) + 16 * 256 * (3 + 5);

#[test]
fn the_longest_report_of_a_run() {
    let half = |at: usize| match at % 2 {
        0 => Fulfilled(256),
        _ => Violated(256),
    };
    let standings: Vec<Standing> = (0..16 * 256).map(half).collect();
    let text = report_text(&run_with(16, 256, &standings));
    let longest = text.lines().map(|line| line.len() + 1);
    let (totals, others): (Vec<usize>, Vec<usize>) = longest.partition(|length| *length > 13);
    assert_eq!([totals.len(), others.len()], [16, 16 * 256]);
    assert_eq!([totals[15], others[16 * 256 - 1]], [21, 13]);
    assert_eq!(ENOUGH, 16 * (256 * 13 + 21));
    // A total has 20 bytes for a rule of one digit.
    assert_eq!(text.len(), LONGEST_LINES + 9 * 20 + 7 * 21);
    assert!(text.len() <= ENOUGH);
}

/// Every event is an activation of every rule and names the last one, which alone
/// has the reading 5.
#[test]
fn the_longest_print_of_two_texts() {
    let cycle = "0\t1\t-\t-\t-\t-\n".repeat(255) + "0\t1\t5\t-\t-\t-\n";
    for (code, letter, counts) in [(1, 'F', "256\t0"), (8, 'V', "0\t256")] {
        let rules = format!("{code}\t1\t1\t0\t-\t-\t1=5\n").repeat(16);
        let mut expected = String::new();
        for rule in 1..=16 {
            for position in 1..=256 {
                expected += &format!("{rule}\t{position}\t{letter}\t256\n");
            }
            expected += &format!("total\t{rule}\t256\t{counts}\n");
        }
        assert_eq!(texts(&rules, &cycle), expected);
        // A total has 18 bytes for a rule of one digit.
        assert_eq!(expected.len(), LONGEST_LINES + 9 * 18 + 7 * 19);
        for size in [expected.len() - 1, expected.len(), ENOUGH] {
            let left = texts_into(&rules, &cycle, size);
            assert_eq!(left, left_with(&expected, size));
        }
    }
}

/// The line that a standing has, and the total of a rule, by the calls of a run.
fn asked(run: &Record) -> Vec<String> {
    let mut lines = Vec::new();
    for rule in 1..=run.table.count {
        for position in 0..=run.count {
            let shown = match run.standing(rule, position) {
                Err(refusal) => {
                    // Only a rule about the cycle has position 0.
                    assert_eq!((refusal.number, position), (10, 0));
                    continue;
                }
                Ok(Idle) => continue,
                Ok(Open) => "O\t0".to_string(),
                Ok(Fulfilled(target)) => format!("F\t{target}"),
                Ok(Violated(target)) => format!("V\t{target}"),
            };
            lines.push(format!("{rule}\t{position}\t{shown}"));
        }
        let totals = run.totals(rule).expect("totals");
        let counts = [totals.activations, totals.fulfilled, totals.violated];
        let counts = counts.map(|count| count.to_string()).join("\t");
        lines.push(format!("total\t{rule}\t{counts}"));
    }
    lines
}

#[test]
fn a_report_has_what_standing_and_totals_answer() {
    let mut random = Random::new(62);
    let (mut open, mut closed, mut overall) = (0, 0, 0);
    for _ in 0..1000 {
        let run = random_record(&mut random, 7);
        let text = report_text(&run);
        assert_eq!(text.lines().collect::<Vec<&str>>(), asked(&run));
        assert!(text.is_empty() || text.ends_with('\n'));
        open += usize::from(text.contains("\tO\t0\n"));
        closed += usize::from(run.closed);
        overall += text.lines().filter(|line| line.contains("\t0\t")).count();
    }
    assert!(open >= 40 && closed >= 200, "{open} {closed}");
    assert!(overall >= 500, "{overall}");
}

/// Two texts are printed as the notebook's run is, and as two files are.
#[test]
fn texts_runs_and_files_are_printed_alike() {
    let mut random = Random::new(63);
    let mut refused = [0, 0];
    for round in 0..600 {
        let rules = match round % 4 {
            0 => damaged_rules_text(&mut random),
            count => random_rules_text(&mut random, count),
        };
        let cycle = match round % 3 {
            0 => damaged_cycle_text(&mut random),
            _ => random_cycle_text(&mut random, round % 9),
        };
        let found = printed(&rules, &cycle);
        match notebook_record(&rules, &cycle) {
            Ok(run) => assert_eq!(report_of(&run).as_ref(), Ok(&found)),
            Err((text, _)) => refused[usize::from(text == Text::Cycle)] += 1,
        }
        if rules.len().max(cycle.len()) <= 32_768 {
            assert_eq!(report(Some(rules), Some(cycle)), found);
        }
    }
    assert!(refused.iter().all(|count| *count >= 40), "{refused:?}");
}

/// The stored texts are within the limit of a file.
#[test]
fn stored_texts_are_printed_as_it_is_stored() {
    let mut compared = 0;
    for stored in stored_texts() {
        if let (Some(rules), Some(cycle)) = (stored.rules, stored.cycle) {
            let found = string(printed(&rules, &cycle));
            assert_eq!(found, string(stored.stdout), "{:?}", stored.folder);
            compared += 1;
        }
    }
    assert!(compared >= 50, "{compared}");
}
