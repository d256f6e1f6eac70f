//! Tables in which most conditions compare a reading more than once, live, closed
//! and from texts. `probe` is needed with the commands on tables and runs, N and p.

use differential::cases::bands::{banded, case, stale_case};
use differential::compare::agree;
use differential::counts::Counts;
use differential::probe::Probe;
use differential::script::{table_of, Case, Session};
use evaluator::Standing::{self, Fulfilled, Idle, Open, Violated};
use evaluator::{read_rules, standing_at_last, standings, Comparison, Event, Rule};
use std::ops::Range;

/// Two fifths of all conditions and more compare a reading again.
fn bands_are_many(counts: &Counts, least: usize) {
    let (all, bands) = (counts.conditions, counts.bands);
    assert!(all >= least && 5 * bands >= 2 * all, "{bands} of {all}");
}

/// Whether the last event is an activation that waits for a target if each
/// comparison is looked at by itself, and is decided if all of them are.
fn is_decided_jointly(rule: &Rule, events: &[Event]) -> bool {
    let judged = |correlation: &[Comparison]| {
        let rule = rule.clone().with_correlation(correlation.to_vec());
        standing_at_last(&rule, events, events.len())
    };
    let decided = [Violated(0), Fulfilled(0)].contains(&judged(&rule.correlation));
    decided && rule.correlation.iter().all(|c| judged(&[*c]) == Open)
}

/// The cases have what they are for: activations that are decided on arrival by
/// their comparisons together.
fn jointly_decided(seeds: Range<u64>) -> usize {
    let mut found = 0;
    for (rules, events) in seeds.map(banded) {
        for rule in rules.iter().filter(|rule| !rule.is_overall()) {
            let arrivals = (1..=events.len()).map(|taken| &events[..taken]);
            found += arrivals
                .filter(|events| is_decided_jointly(rule, events))
                .count();
        }
    }
    found
}

#[test]
fn random_runs() {
    let seeds = 12_000_000..12_000_800;
    let jointly = jointly_decided(seeds.clone());
    assert!(jointly >= 400, "{jointly}");
    let counts = agree(&Probe::find(), seeds.map(case));
    bands_are_many(&counts, 5000);
    assert_eq!(counts.cases, 800);
    assert!(counts.answered('e', 0) >= 5000);
    assert_eq!(counts.answered('x', 0), 800);
    assert_eq!([counts.calls('N'), counts.answered('N', 0)], [800; 2]);
    assert_eq!([counts.calls('p'), counts.answered('p', 0)], [800; 2]);
    assert!(counts.standings() >= 200_000);
    for code in 1..=16 {
        let [_, open, fulfilled, with_target, violated, against_target] = counts.standings_of(code);
        let named = with_target + against_target;
        let none = fulfilled + violated;
        let waits = ![5, 6, 7, 10, 12].contains(&code);
        assert!(named >= 50 && none >= 200, "code {code}: {named} {none}");
        assert_eq!(open >= 50, waits, "code {code}: {open}");
    }
}

#[test]
fn records_with_any_standings() {
    let counts = agree(&Probe::find(), (12_100_000..12_100_500).map(stale_case));
    bands_are_many(&counts, 3000);
    assert_eq!(counts.numbers('e'), [0]);
    assert!(counts.answered('e', 0) >= 600);
    assert_eq!(counts.answered('x', 0), 500);
    assert_eq!(counts.dumps('D'), counts.answered('e', 0) + 500);
}

/// The standing of an activation with reading 1 as given on its arrival, after an
/// event of activity 2 with a reading, and after close.
struct Example {
    code: u8,
    correlation: &'static str,
    activation: i32,
    next: i32,
    standings: [Standing; 3],
}

const fn example(
    code: u8,
    correlation: &'static str,
    [activation, next]: [i32; 2],
    standings: [Standing; 3],
) -> Example {
    Example {
        code,
        correlation,
        activation,
        next,
        standings,
    }
}

const WAITS: [Standing; 3] = [Open, Open, Violated(0)];
const MET: [Standing; 3] = [Open, Fulfilled(2), Fulfilled(2)];
const NONE: [Standing; 3] = [Violated(0); 3];

const EXAMPLES: [Example; 20] = [
    example(2, "1>5,1<7", [0, 5], WAITS),
    example(2, "1>5,1<7", [0, 6], MET),
    example(2, "1>5,1<7", [0, 7], WAITS),
    example(2, "1>5,1<7,1!6", [0, 6], NONE),
    example(9, "1>5,1<7,1!6", [0, 6], [Fulfilled(0); 3]),
    example(9, "1>5,1<7", [0, 6], [Open, Violated(2), Violated(2)]),
    example(4, "1!6,1<7,1>5", [0, 6], NONE),
    example(11, "1!6,1<7,1>5", [0, 6], [Fulfilled(0); 3]),
    example(2, "1=5,1=5", [0, 5], MET),
    example(2, "1=5,1=6", [0, 5], NONE),
    example(2, "1>5,2!0,1<6", [0, 6], NONE),
    example(2, "1>@1:5", [i32::MAX, 0], NONE),
    example(2, "1<@1:5,1>@1:-2", [i32::MAX, i32::MAX], MET),
    example(2, "1<@1:5,1g@1:0,1!2147483647", [i32::MAX, i32::MAX], NONE),
    example(2, "1<@1:-5,1>-7", [i32::MIN, 0], NONE),
    example(2, "1>@1:-5,1l@1:0", [i32::MIN, i32::MIN], MET),
    example(2, "1>@2:0,1<9", [0, 5], NONE),
    example(
        2,
        "1l-2147483646,1!-2147483648,1!-2147483647,1!-2147483646",
        [0, i32::MIN],
        NONE,
    ),
    example(
        2,
        "1l-2147483645,1!-2147483648,1!-2147483647,1!-2147483646",
        [0, -2147483645],
        MET,
    ),
    example(
        2,
        "1g2147483645,1!2147483647,1!2147483646,1!2147483645",
        [0, i32::MAX],
        NONE,
    ),
];

fn example_case(number: u64, example: &Example) -> Case {
    let text = format!("{}\t1\t2\t0\t-\t-\t{}\n", example.code, example.correlation);
    let rules = read_rules(text.as_bytes()).expect("a valid text");
    let mut session = Session::started("band-examples", number, &table_of(&rules));
    let events = [(1, example.activation), (2, example.next)];
    let events = events.map(|(activity, value)| Event::new(0, activity).with_reading(1, value));
    for (event, expected) in events.iter().zip(example.standings) {
        session.take(*event).expect("a well-formed event");
        assert_eq!(session.rows()[0][0], expected, "{text}");
        session.compare_standings();
        session.all_totals();
    }
    session.close().expect("a run that is not closed");
    let closed = [example.standings[2], Idle];
    assert_eq!(session.rows()[0], closed, "{text}");
    assert_eq!(standings(&rules[0], &events[..1])[0], example.standings[0]);
    session.compare_run();
    session.case
}

#[test]
fn written_out_bands() {
    let cases = (0..).zip(&EXAMPLES);
    let cases = cases.map(|(number, example)| example_case(number, example));
    let counts = agree(&Probe::find(), cases);
    assert_eq!([counts.cases, counts.dumps('D')], [EXAMPLES.len(); 2]);
}

/// Before any event: 13, 15 and 16 are violated and 14 is fulfilled if no reading
/// meets the condition, else they are open.
#[test]
fn start_decides_what_nothing_meets() {
    let decided = [Violated(0), Fulfilled(0), Violated(0), Violated(0)];
    let conditions = [
        ("1>5,1<7,1!6", decided),
        ("1=5,2=5,1=6", decided),
        ("1>5,1<7", [Open; 4]),
    ];
    let mut cases = Vec::new();
    for (number, (condition, expected)) in (0..).zip(conditions) {
        let text = [13, 14, 15, 16].map(|code| format!("{code}\t1\t2\t0\t-\t{condition}\t-\n"));
        let rules = read_rules(text.concat().as_bytes()).expect("a valid text");
        let mut session = Session::started("band-examples", number, &table_of(&rules));
        assert_eq!(session.run.overall[..4], expected, "{condition}");
        session.compare_standings();
        session.all_totals();
        session.compare_run();
        cases.push(session.case);
    }
    assert_eq!(agree(&Probe::find(), cases).dumps('D'), 3);
}
