//! Runs from start, compared after every take. `probe` is needed with the
//! commands on tables and runs.

use differential::cases::running::{case, full_case};
use differential::compare::agree;
use differential::counts::{Counts, SHOWN};
use differential::probe::Probe;
use differential::script::{table_of, Case, Session};
use evaluator::Operator::{Equal, Less};
use evaluator::Standing::{Fulfilled, Idle, Open, Violated};
use evaluator::{Comparison, Event, Rule, Standing};

/// Each template has shown every standing that it can have. Those about the cycle
/// are idle at events and stand at position 0.
fn every_template_is_shown(counts: &Counts, least: usize) {
    for code in 1..=16 {
        let past = [5, 6, 7, 10, 12].contains(&code);
        let negative = [8, 9, 10, 11, 12, 14].contains(&code);
        for (count, name) in counts.standings_of(code).iter().zip(SHOWN) {
            let possible = match name {
                // A verdict on the past is decided on arrival.
                "open" => !past,
                // An exclusive choice is violated by none and by both.
                "violated with a target" if code == 16 => true,
                "fulfilled" | "violated with a target" => negative,
                "violated" | "fulfilled with a target" => !negative,
                _ => true,
            };
            assert_eq!(*count >= least, possible, "code {code} {name}: {count}");
            assert!(possible || *count == 0, "code {code} {name}: {count}");
        }
    }
}

#[test]
fn random_runs() {
    let counts = agree(&Probe::find(), (1_000_000..1_004_800).map(case));
    assert_eq!(counts.cases, 4800);
    assert!(counts.answered('e', 0) >= 40_000);
    assert!(counts.answered('e', 3) >= 3000);
    assert!(counts.answered('e', 7) >= 2000);
    assert_eq!(counts.answered('e', 9), 2 * 4800);
    assert_eq!(counts.numbers('e'), [0, 3, 7, 9]);
    assert_eq!([0, 9].map(|number| counts.answered('x', number)), [4800; 2]);
    assert!(counts.answered('g', 0) >= 20_000 && counts.answered('g', 10) >= 2000);
    assert!(counts.answered('o', 0) >= 100_000);
    assert_eq!(counts.numbers('o'), [0]);
    assert!(counts.standings() >= 2_000_000);
    assert_eq!(counts.dumps('D'), 4800);
    every_template_is_shown(&counts, 500);
}

#[test]
fn runs_of_256_events() {
    let counts = agree(&Probe::find(), (2_000_000..2_000_008).map(full_case));
    assert_eq!(counts.answered('e', 0), 8 * 256);
    assert_eq!(counts.answered('e', 8), 8);
    assert!(counts.answered('e', 3) > 0 && counts.answered('e', 7) > 0);
}

/// The rules of every template with these windows, whose target is the
/// activation, if it may be, or another activity.
fn plain_rules() -> Vec<Rule> {
    let windows = [(0, None), (1, Some(2))];
    let mut rules = Vec::new();
    for code in 1..=16 {
        for (a, b) in windows {
            let both = [1, 2].map(|target| Rule::new(code, 1, target, a, b));
            rules.extend(both.into_iter().filter(Rule::fits_its_template));
        }
    }
    rules
}

/// Every cycle of so many events from time 3 on with steps of 0, 1 or 2 and
/// activities 1 to 3.
fn short_cycles(length: usize) -> Vec<Vec<Event>> {
    let mut cycles = vec![vec![at(3, 1)], vec![at(3, 2)], vec![at(3, 3)]];
    for _ in 1..length {
        let longer = cycles.iter().flat_map(|cycle| {
            let last = cycle[cycle.len() - 1].time;
            (0..9).map(move |n| [&cycle[..], &[at(last + n / 3, 1 + n as u8 % 3)]].concat())
        });
        cycles = longer.collect();
    }
    cycles
}

fn short_case(number: u64, rules: &[Rule], cycle: &[Event]) -> Case {
    let mut session = Session::started("short-cycles", number, &table_of(rules));
    session.compare_standings();
    for event in cycle {
        session.take(*event).expect("a well-formed event");
        session.compare_standings();
    }
    session.close().expect("a run that is not closed");
    session.compare_standings();
    session.all_totals();
    session.case
}

#[test]
fn every_short_cycle() {
    let rules = plain_rules();
    assert_eq!(rules.len(), 14 * 4 + 2 * 2);
    let cycles = short_cycles(4);
    assert_eq!(cycles.len(), 3 * 9 * 9 * 9);
    let pairs = rules
        .chunks(16)
        .flat_map(|rules| cycles.iter().map(move |c| (rules, c)));
    let cases = (0..).zip(pairs);
    let counts = agree(
        &Probe::find(),
        cases.map(|(number, (rules, cycle))| short_case(number, rules, cycle)),
    );
    assert_eq!(counts.calls('e'), 4 * 2187 * 4);
    assert_eq!(counts.numbers('e'), [0]);
    every_template_is_shown(&counts, 500);
}

/// Document 01's edge cycles: the standings at all positions after the last
/// event, and those after closing.
#[derive(Clone)]
struct Edge {
    rule: Rule,
    events: Vec<Event>,
    live: Vec<Standing>,
    closed: Vec<Standing>,
}

fn edge(rule: &Rule, events: &[Event], live: &[Standing], closed: &[Standing]) -> Edge {
    Edge {
        rule: rule.clone(),
        events: events.to_vec(),
        live: live.to_vec(),
        closed: closed.to_vec(),
    }
}

/// An edge cycle whose standings do not change at closing.
fn decided(rule: &Rule, events: &[Event], standings: &[Standing]) -> Edge {
    edge(rule, events, standings, standings)
}

fn edge_case(number: u64, edge: &Edge) -> Case {
    let table = table_of(std::slice::from_ref(&edge.rule));
    let mut session = Session::started("edge-cycles", number, &table);
    for event in &edge.events {
        session.take(*event).expect("a well-formed event");
    }
    assert_eq!(session.rows()[0], edge.live, "edge cycle {number}");
    ask_all(&mut session);
    session.close().expect("a run that is not closed");
    assert_eq!(session.rows()[0], edge.closed, "edge cycle {number}");
    ask_all(&mut session);
    session.compare_run();
    session.case
}

fn ask_all(session: &mut Session) {
    for position in 1..=session.run.count as u32 {
        session.standing(1, position).expect("a standing");
    }
    session.compare_standings();
    session.all_totals();
}

fn plain(code: u8) -> Rule {
    Rule::new(code, 1, 2, 0, None)
}

fn at(time: u32, activity: u8) -> Event {
    Event::new(time, activity)
}

/// C1 to C3: windows.
fn edges_of_windows() -> Vec<Edge> {
    let response = Rule::new(2, 1, 2, 0, Some(500));
    let late = Rule::new(2, 1, 2, u32::MAX, None);
    let (open, violated) = ([Open, Idle], [Violated(0), Idle]);
    vec![
        decided(&response, &[at(0, 1), at(499, 2)], &[Fulfilled(2), Idle]),
        decided(&response, &[at(0, 1), at(500, 2)], &violated),
        edge(&response, &[at(0, 1), at(499, 9)], &open, &violated),
        decided(&response, &[at(0, 1), at(500, 9)], &violated),
        edge(&late, &[at(0, 1)], &[Open], &[Violated(0)]),
        decided(&late, &[at(1, 1)], &[Violated(0)]),
    ]
}

/// C4, C5 and C10: readings.
fn edges_of_readings() -> Vec<Edge> {
    let rule = |code, operator, plus| {
        let comparison = Comparison::with_activation(1, operator, 1, plus);
        plain(code).with_correlation(vec![comparison])
    };
    let less = rule(2, Less, 0);
    let next = rule(2, Equal, 1);
    let reading = |value| at(0, 1).with_reading(1, value);
    let wrapped = [reading(i32::MAX), at(0, 2).with_reading(1, i32::MIN)];
    vec![
        decided(&less, &[reading(i32::MIN)], &[Violated(0)]),
        edge(&less, &[reading(i32::MIN + 1)], &[Open], &[Violated(0)]),
        decided(&rule(9, Equal, 0), &[at(0, 1)], &[Fulfilled(0)]),
        decided(&next, &[reading(i32::MAX)], &[Violated(0)]),
        decided(&next, &wrapped, &[Violated(0), Idle]),
    ]
}

/// C6 to C9: places.
fn edges_of_places() -> Vec<Edge> {
    let itself = Rule::new(2, 1, 1, 0, None);
    let alternate = Rule::new(3, 1, 1, 0, None);
    let two = [Fulfilled(2), Violated(0)];
    let short = Rule::new(3, 1, 2, 0, Some(100));
    let three = [at(0, 1), at(80, 9), at(150, 2)];
    vec![
        decided(&itself, &[at(0, 1)], &[Fulfilled(1)]),
        edge(
            &alternate,
            &[at(0, 1), at(0, 1)],
            &[Fulfilled(2), Open],
            &two,
        ),
        edge(
            &alternate,
            &[at(0, 1), at(u32::MAX, 1)],
            &[Fulfilled(2), Open],
            &two,
        ),
        decided(&short, &three, &[Violated(0), Idle, Idle]),
        decided(&plain(7), &[at(0, 1)], &[Violated(0)]),
        decided(&plain(12), &[at(0, 1)], &[Fulfilled(0)]),
    ]
}

#[test]
fn edge_cycles() {
    let edges = [edges_of_windows(), edges_of_readings(), edges_of_places()].concat();
    let cases = (1..)
        .zip(&edges)
        .map(|(number, edge)| edge_case(number, edge));
    let counts = agree(&Probe::find(), cases);
    assert_eq!(counts.cases, 17);
    assert_eq!(counts.numbers('e'), [0]);
}
