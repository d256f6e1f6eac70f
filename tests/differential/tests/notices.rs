//! Lists of takes and notices, and records with any kept time. `probe` is needed with
//! the commands on tables and runs, k, K, N and z.

use differential::cases::causes::{base, kept_times};
use differential::cases::notices::{case, compare_all, full_case, listed_case, stale_case, LISTED};
use differential::cases::records::allowed_case;
use differential::compare::agree;
use differential::probe::Probe;
use differential::script::{table_of, Case, Session};
use evaluator::notices::Call::{self, Notice, Take};
use evaluator::stored::stored_texts;
use evaluator::Standing::{Fulfilled, Open, Violated};
use evaluator::{grown, place, read_cycle, read_rules, Event, Record, Refusal, Rule, Standing};
use std::path::Path;

const LAST: u32 = u32::MAX;

fn at(time: u32, activity: u8) -> Event {
    Event::new(time, activity)
}

/// A notice at a time that is in the range.
fn notice(time: u32) -> Call {
    Notice(u64::from(time))
}

#[test]
fn random_runs() {
    let counts = agree(&Probe::find(), (11_000_000..11_002_400).map(case));
    assert_eq!(counts.cases, 2400);
    assert_eq!(counts.numbers('k'), [0, 3, 7, 9]);
    assert!(counts.answered('k', 0) >= 5000, "{counts}");
    assert!(counts.answered('k', 3) >= 800 && counts.answered('k', 7) >= 800);
    assert_eq!(counts.answered('k', 9), 4 * 2400);
    assert_eq!(counts.numbers('e'), [0, 3, 7, 9]);
    assert!(counts.answered('e', 0) >= 20_000);
    assert!(counts.answered('e', 3) >= 500 && counts.answered('e', 7) >= 500);
    // Each run is closed after its notices and again without them.
    assert_eq!([counts.calls('x'), counts.answered('x', 0)], [2 * 2400; 2]);
    assert_eq!([counts.calls('s'), counts.answered('s', 0)], [2 * 2400; 2]);
    assert_eq!([counts.calls('N'), counts.answered('N', 0)], [2400; 2]);
    assert!(counts.dumps('D') >= 30_000 && counts.dumps('z') >= 20_000);
    for code in [1, 2, 3, 4, 8, 9, 11, 13, 14, 15, 16] {
        let [_, open, fulfilled, _, violated, _] = counts.standings_of(code);
        let without_target = fulfilled + violated;
        assert!(open >= 500 && without_target >= 500, "code {code}");
    }
}

#[test]
fn runs_of_256_events() {
    let counts = agree(&Probe::find(), (11_100_000..11_100_006).map(full_case));
    assert_eq!(counts.answered('e', 0), 6 * 256);
    assert_eq!(counts.answered('e', 8), 6 * 4);
    assert!(counts.answered('k', 0) >= 6 * 60, "{counts}");
    assert_eq!(counts.answered('k', 8), 0);
    assert_eq!(counts.answered('x', 0), 6);
}

#[test]
fn random_records() {
    let counts = agree(&Probe::find(), (11_200_000..11_202_000).map(stale_case));
    assert_eq!(counts.cases, 2000);
    assert_eq!(counts.numbers('k'), [0, 3, 7, 9, 11]);
    assert!(counts.answered('k', 0) >= 1500, "{counts}");
    for number in [3, 7, 9, 11] {
        assert!(counts.answered('k', number) >= 50, "{number}: {counts}");
    }
    assert!(counts.answered('e', 0) >= 1000 && counts.answered('e', 7) >= 100);
    assert!(counts.dumps('D') >= 2000 + 5000);
}

/// A kept time below the events, at the last one and above it, in a run closed or not.
#[test]
fn no_kept_time_is_a_cause_of_11() {
    let (running, closed) = (kept_times(false), kept_times(true));
    let number = [running.len(), closed.len()];
    assert_eq!(number, [16; 2]);
    let runs = (0..).zip(running.into_iter().chain(closed));
    let cases = runs.map(|(number, (_, run))| allowed_case(number, run));
    let counts = agree(&Probe::find(), cases);
    assert_eq!([counts.answered('k', 0), counts.answered('e', 0)], [16; 2]);
    assert_eq!(counts.answered('k', 9), 16 * 4);
    assert_eq!(counts.numbers('k'), [0, 3, 7, 9]);
    assert_eq!(counts.numbers('x'), [0, 9]);
}

/// The command `K`: any kept time, which nothing but the record shows.
#[test]
fn kept_times_of_a_record() {
    let mut session = Session::on(LISTED, 0, base(false));
    for clock in [0, 1, 255, 256, 65_536, 0x0102_0304, LAST, 0] {
        session.set_clock(clock);
        session.compare_run();
        session.all_totals();
    }
    assert_eq!(agree(&Probe::find(), [session.case]).dumps('D'), 8);
}

/// A response at position 2, the last event at 20 and a kept time of 30.
fn short_run() -> Record {
    let rule = Rule::new(2, 1, 2, 0, Some(500));
    let mut run = grown(&[rule], &[at(10, 9), at(20, 1)]);
    run.clock = 30;
    run
}

/// The same with 256 events and no activation.
fn full_run() -> Record {
    let mut run = short_run();
    run.count = 256;
    run.events.fill(at(20, 9));
    run.standings[place(1, 2)] = Standing::Idle;
    run.count_totals();
    run
}

/// The run, what the notices of [`TIMES`] are answered with, and the same for runs that
/// are closed, outside the limits, or both.
fn answered(run: Record) -> [(Record, [Result<(), Refusal>; 8]); 4] {
    let [above, falls] = [3, 7].map(|number| Err(Refusal::at(number, 0)));
    let [closed, outside] = [9, 11].map(|number| Err(Refusal::plain(number)));
    let running = [above, above, above, falls, falls, falls, Ok(()), Ok(())];
    let finished = run.clone().close().0;
    let damaged = |mut run: Record| {
        run.events[1].activity = 65;
        run
    };
    [
        (damaged(run.clone()), [outside; 8]),
        (damaged(finished.clone()), [outside; 8]),
        (finished, [closed; 8]),
        (run, running),
    ]
}

const TIMES: [u64; 8] = [1 << 32, (1 << 32) + 30, u64::MAX, 0, 19, 29, 30, 31];

/// Each refusal with what comes after it in the order: 11, 9, 3, 7. None is 8.
#[test]
fn refusals_in_their_order() {
    let runs = [answered(short_run()), answered(full_run())].concat();
    let cases = (0..).zip(runs).map(|(number, (run, answers))| {
        let mut session = Session::on(LISTED, number, run);
        for (time, answer) in TIMES.into_iter().zip(answers) {
            assert_eq!(session.notice(time), answer, "{time}");
            session.compare_run();
        }
        session.case
    });
    let counts = agree(&Probe::find(), cases);
    assert_eq!([counts.cases, counts.calls('k')], [8, 8 * 8]);
    assert_eq!(counts.answered('k', 0), 2 * 2);
    assert_eq!(counts.numbers('k'), [0, 3, 7, 9, 11]);
}

/// A rule, calls, the standing at a position after the last call, and after close.
struct Edge {
    rule: Rule,
    calls: Vec<Call>,
    position: u32,
    live: Standing,
    closed: Standing,
}

fn edge(rule: &Rule, calls: &[Call], position: u32, live: Standing, closed: Standing) -> Edge {
    Edge {
        rule: rule.clone(),
        calls: calls.to_vec(),
        position,
        live,
        closed,
    }
}

const NONE: Standing = Violated(0);

/// Windows that a notice ends, and one tick before it.
fn edges_of_events() -> Vec<Edge> {
    let rule = |code| Rule::new(code, 1, 2, 0, Some(500));
    let mut edges = Vec::new();
    for (code, lapsed) in [1, 2, 3, 4]
        .map(|code| (code, NONE))
        .into_iter()
        .chain([8, 9, 11].map(|code| (code, Fulfilled(0))))
    {
        for time in [0, 7, LAST - 500] {
            let calls = |later| [Take(at(time, 1)), notice(time + later)];
            edges.push(edge(&rule(code), &calls(499), 1, Open, lapsed));
            edges.push(edge(&rule(code), &calls(500), 1, lapsed, lapsed));
        }
        let endless = Rule::new(code, 1, 2, 0, None);
        let calls = [Take(at(7, 1)), notice(LAST)];
        edges.push(edge(&endless, &calls, 1, Open, lapsed));
    }
    // Neighbours stay neighbours.
    let between = |first, second| [Take(at(0, first)), notice(400), Take(at(499, second))];
    for (code, decided) in [(4, Fulfilled(2)), (11, Violated(2))] {
        edges.push(edge(&rule(code), &between(1, 2), 1, decided, decided));
    }
    for (code, decided) in [(7, Fulfilled(1)), (12, Violated(1))] {
        edges.push(edge(&rule(code), &between(2, 1), 2, decided, decided));
    }
    edges
}

/// Position 0 without an event and with some.
fn edges_of_the_cycle() -> Vec<Edge> {
    let mut edges = Vec::new();
    for (code, empty) in [(13, NONE), (14, Fulfilled(0)), (15, NONE), (16, NONE)] {
        let rule = |a, b| Rule::new(code, 1, 2, a, b);
        for (a, b) in [(100, None), (100, Some(101)), (LAST, None)] {
            edges.push(edge(&rule(a, b), &[notice(LAST - a)], 0, Open, empty));
            let late = [notice(LAST - a + 1)];
            edges.push(edge(&rule(a, b), &late, 0, empty, empty));
        }
        edges.push(edge(&rule(0, Some(1)), &[notice(LAST)], 0, Open, empty));
        let within = rule(0, Some(500));
        let calls = |time| [Take(at(7, 9)), Take(at(8, 9)), notice(time)];
        edges.push(edge(&within, &calls(506), 0, Open, empty));
        edges.push(edge(&within, &calls(507), 0, empty, empty));
    }
    let one_sided = [Take(at(7, 9)), Take(at(8, 2)), notice(507)];
    let exclusive = Rule::new(16, 1, 2, 0, Some(500));
    edges.push(edge(&exclusive, &one_sided, 0, Fulfilled(2), Fulfilled(2)));
    edges
}

fn edge_case(number: u64, edge: &Edge) -> Case {
    let table = table_of(std::slice::from_ref(&edge.rule));
    let mut session = Session::started(LISTED, number, &table);
    for call in &edge.calls {
        session.call(*call).expect("an event or a notice");
        compare_all(&mut session);
    }
    let live = session.standing(1, edge.position);
    assert_eq!(live, Ok(edge.live), "edge {number}");
    let clock = session.run.clock;
    session.close().expect("a run that is not closed");
    let closed = session.standing(1, edge.position);
    assert_eq!(closed, Ok(edge.closed), "edge {number}");
    assert_eq!(session.run.clock, clock);
    compare_all(&mut session);
    session.case
}

#[test]
fn edges() {
    let edges: Vec<Edge> = edges_of_events()
        .into_iter()
        .chain(edges_of_the_cycle())
        .collect();
    let cases = (1..).zip(&edges).map(|(number, e)| edge_case(number, e));
    let counts = agree(&Probe::find(), cases);
    assert_eq!(counts.cases, 7 * 7 + 4 + 4 * 9 + 1);
    assert_eq!(counts.numbers('k'), [0]);
    assert_eq!(counts.answered('g', 0), 2 * counts.cases);
}

/// An event below a notice is not taken; the run goes on as if it had not come.
#[test]
fn an_event_below_a_notice_is_not_taken() {
    let rules: Vec<Rule> = (1..=16)
        .map(|code| Rule::new(code, 1, 2, 0, Some(500)))
        .collect();
    let falls = Err(Refusal::at(7, 0));
    let calls = [
        (notice(5), Ok(())),
        (Take(at(4, 1)), falls),
        (Take(at(5, 1)), Ok(())),
        (notice(300), Ok(())),
        (Take(at(5, 2)), falls),
        (Take(at(299, 2)), falls),
        (notice(299), falls),
        (notice(300), Ok(())),
        (Take(at(300, 2)), Ok(())),
        (Take(at(400, 1)), Ok(())),
        (notice(399), falls),
        (notice(300), falls),
        (Notice(1 << 32), Err(Refusal::at(3, 0))),
        (notice(900), Ok(())),
        (Take(at(899, 2)), falls),
        (Take(at(900, 2)), Ok(())),
    ];
    let counts = agree(&Probe::find(), [listed_case(1, &rules, &calls)]);
    // The taken events are taken once more, without the notices.
    assert_eq!(counts.answered('e', 0), 2 * 4);
    assert_eq!([counts.answered('e', 7), counts.answered('k', 7)], [4, 3]);
    assert_eq!(counts.answered('k', 0), 4);
}

/// The rules of every template with a window that ends after two and one that begins
/// after one.
fn plain_rules() -> Vec<Rule> {
    let windows = [(0, Some(2)), (1, None)];
    let all = windows.map(|(a, b)| (1..=16).map(move |code| Rule::new(code, 1, 2, a, b)));
    all.into_iter().flatten().collect()
}

/// Every list of so many calls from a time on, with steps of 0, 1 or 2: a notice, or a
/// take of the activity 1, 2 or 3.
fn short_lists(from: u32, length: usize) -> Vec<Vec<(u32, u8)>> {
    let mut lists = vec![Vec::new()];
    for _ in 0..length {
        let longer = lists.iter().flat_map(|list: &Vec<(u32, u8)>| {
            let last = list.last().map_or(from, |(time, _)| *time);
            (0..12).map(move |n| [&list[..], &[(last + n / 4, n as u8 % 4)]].concat())
        });
        lists = longer.collect();
    }
    lists
}

/// Activity 0 stands for a notice.
fn short_case(number: u64, rules: &[Rule], list: &[(u32, u8)]) -> Case {
    let mut session = Session::started("short-lists", number, &table_of(rules));
    for (time, activity) in list {
        let call = match activity {
            0 => notice(*time),
            _ => Take(at(*time, *activity)),
        };
        session.call(call).expect("an event or a notice");
        session.compare_standings();
        session.all_totals();
    }
    session.compare_run();
    session.close().expect("a run that is not closed");
    session.compare_standings();
    session.compare_run();
    session.case
}

#[test]
fn every_short_list() {
    let rules = plain_rules();
    assert_eq!(rules.len(), 2 * 16);
    // At the end of the range the window that begins after one is over early.
    let lists = [3, LAST - 6].map(|from| short_lists(from, 3)).concat();
    assert_eq!(lists.len(), 2 * 12 * 12 * 12);
    let pairs = rules
        .chunks(16)
        .flat_map(|rules| lists.iter().map(move |list| (rules, list)));
    let cases = (0..).zip(pairs);
    let counts = agree(
        &Probe::find(),
        cases.map(|(number, (rules, list))| short_case(number, rules, list)),
    );
    assert_eq!(counts.cases, 2 * 3456);
    assert_eq!(counts.calls('k') + counts.calls('e'), 3 * counts.cases);
    assert_eq!(counts.calls('k') * 4, 3 * counts.cases);
    assert_eq!([counts.numbers('k'), counts.numbers('e')], [[0], [0]]);
}

/// A line of the table in examples/swing-tower/stopped.md: call, time, event, answer and
/// standing.
fn stopped_lines() -> Vec<[String; 5]> {
    let path = Path::new(env!("CARGO_MANIFEST_DIR")).join("../../examples/swing-tower/stopped.md");
    let text = std::fs::read_to_string(path).expect("the example");
    let rows = text.lines().filter(|line| line.starts_with("| "));
    let cells = rows.map(|line| {
        line.trim_matches('|')
            .split('|')
            .map(|c| c.trim().to_string())
    });
    let lines = cells.map(|c| c.collect::<Vec<_>>().try_into().expect("five cells"));
    lines.skip(1).collect()
}

fn swing_tower() -> (Vec<Rule>, Vec<Event>) {
    let stored = stored_texts();
    let tower = stored.iter().find(|s| s.folder.ends_with("swing-tower"));
    let tower = tower.expect("the example");
    let rules = read_rules(tower.rules.as_ref().expect("rules")).expect("valid rules");
    let cycle = read_cycle(tower.cycle.as_ref().expect("a cycle")).expect("a valid cycle");
    (rules, cycle)
}

/// The event of a line: that of the cycle, or the report of all locks at another time.
fn stopped_event(cycle: &[Event], time: u32, words: &str) -> Event {
    let known = cycle.iter().find(|event| event.time == time);
    let mut report = *cycle
        .iter()
        .find(|event| event.time == 1600)
        .expect("a report");
    report.time = time;
    match words {
        "lock report, 32 of 32" => report,
        _ => *known.expect("an event of the cycle"),
    }
}

/// The example swing-tower, stopped: each answer and standing of its table, by the
/// evaluator and by the library.
#[test]
fn the_swing_tower_while_it_stands_still() {
    let (rules, cycle) = swing_tower();
    let mut session = Session::started(LISTED, 0, &table_of(&rules));
    let lines = stopped_lines();
    assert_eq!(lines.len(), 12);
    for [call, time, event, answer, standing] in &lines {
        let time = time.parse().unwrap_or(0);
        let found = match call.as_str() {
            "take" => session.take(stopped_event(&cycle, time, event)),
            "notice" => session.notice(time.into()),
            _ => session.close(),
        };
        let number = found.map_or_else(|refusal| refusal.number.to_string(), |_| "done".into());
        assert_eq!(number, *answer, "{call} {time}");
        let shown = match session.standing(5, 2) {
            Ok(Open) => "open",
            Ok(Violated(0)) => "violated, target 0",
            _ => "not taken yet",
        };
        assert_eq!(shown, standing, "{call} {time}");
    }
    session.compare_run();
    let counts = agree(&Probe::find(), [session.case]);
    assert_eq!([counts.calls('e'), counts.calls('k')], [6, 5]);
}
