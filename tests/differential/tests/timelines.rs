//! The timelines of docs/REFERENCE.md, section 2: each standing in brackets is
//! compared with the evaluator, and with the library, for which `probe` is
//! needed. A time in parentheses is a notice, with the standing after it.

use differential::answer::Answer;
use differential::command::Command;
use differential::compare::agree;
use differential::expected::Expected;
use differential::probe::Probe;
use differential::script::{table_of, Case};
use evaluator::notices::Call::{self, Notice, Take};
use evaluator::Standing::{self, Fulfilled, Open, Violated};
use evaluator::{read_rules, standing, verdict, Event, Rule};
use std::collections::BTreeSet;
use std::path::Path;

struct Timeline {
    /// The line itself, for what is said of a difference.
    line: String,
    rule: Rule,
    calls: Vec<Call>,
    /// That of the activation with the `*`, 0 for a line that begins with `start`.
    position: usize,
    /// The standing after the last calls: from the take of the activation on; at
    /// position 0 after start and after each call.
    live: Vec<Standing>,
    closed: Standing,
}

impl Timeline {
    /// The events that the first calls take.
    fn events(&self, calls: usize) -> Vec<Event> {
        let taken = self.calls[..calls].iter().filter_map(|call| match call {
            Take(event) => Some(*event),
            Notice(_) => None,
        });
        taken.collect()
    }

    /// Adds a take; the `*` is at the activation.
    fn add_event(&mut self, time: &str, word: &str) {
        let event = event_of(time, word.trim_end_matches('*'));
        self.calls.push(Take(event));
        if word.ends_with('*') {
            assert!(self.live.is_empty(), "two activations: {}", self.line);
            self.position = self.events(self.calls.len()).len();
        }
    }

    /// How many calls were made before the first standing in brackets.
    fn first_shown(&self) -> usize {
        self.calls.len() + 1 - self.live.len()
    }
}

fn section_2() -> String {
    let path = Path::new(env!("CARGO_MANIFEST_DIR")).join("../../docs/REFERENCE.md");
    let text = std::fs::read_to_string(path).expect("the reference");
    let (_, text) = text.split_once("\n## 2. ").expect("section 2");
    let (section, _) = text.split_once("\n## 3. ").expect("section 3");
    section.to_string()
}

/// The timelines of all blocks between two fences.
fn timelines() -> Vec<Timeline> {
    let section = section_2();
    let blocks = section.split("```\n").skip(1).step_by(2);
    blocks.flat_map(timelines_of).collect()
}

/// A rule line has tabs and is for the lines below it.
fn timelines_of(block: &str) -> Vec<Timeline> {
    let mut rule = None;
    let mut timelines = Vec::new();
    for line in block.lines() {
        match line.contains('\t') {
            true => rule = Some(rule_of(line)),
            false => timelines.push(timeline_of(rule.clone().expect("a rule line"), line)),
        }
    }
    timelines
}

fn rule_of(line: &str) -> Rule {
    let rules = read_rules(format!("{line}\n").as_bytes());
    rules.expect("a valid rule").remove(0)
}

fn timeline_of(rule: Rule, line: &str) -> Timeline {
    let (taken, closed) = line.split_once("close").expect("a close");
    let mut timeline = Timeline {
        line: line.to_string(),
        rule,
        calls: Vec::new(),
        position: 0,
        live: Vec::new(),
        closed: standing_of(closed.trim()),
    };
    let mut words = taken.split_whitespace();
    // A rule about the cycle stands from start on.
    if timeline.rule.is_overall() {
        assert_eq!(words.next(), Some("start"), "{line}");
        let standing = words.next().expect("a standing");
        timeline.live.push(standing_of(standing));
    }
    while let Some(time) = words.next() {
        match time.starts_with('(') {
            true => timeline.calls.push(notice_of(time)),
            false => timeline.add_event(time, words.next().expect("an event")),
        }
        // Before the activation there are no brackets.
        if timeline.position > 0 || timeline.rule.is_overall() {
            let standing = words.next().expect("a standing");
            timeline.live.push(standing_of(standing));
        }
    }
    assert!(!timeline.live.is_empty(), "no activation: {line}");
    timeline
}

/// A time in parentheses.
fn notice_of(word: &str) -> Call {
    let time = inside(word, '(', ')').parse();
    Notice(time.expect("a time"))
}

/// A letter, and reading 1 in parentheses if there is one.
fn event_of(time: &str, word: &str) -> Event {
    let (letter, reading) = word.split_at(1);
    let activity = match letter {
        "A" => 1,
        "B" => 2,
        "X" => 9,
        other => panic!("{other} is no activity"),
    };
    let event = Event::new(time.parse().expect("a time"), activity);
    match reading {
        "" => event,
        _ => {
            let value = inside(reading, '(', ')').parse();
            event.with_reading(1, value.expect("a reading"))
        }
    }
}

fn standing_of(word: &str) -> Standing {
    let shown = inside(word, '[', ']');
    let target = || shown[1..].parse().expect("a target");
    match shown.chars().next() {
        _ if shown == "open" => Open,
        Some('F') => Fulfilled(target()),
        Some('V') => Violated(target()),
        _ => panic!("{word} is no standing"),
    }
}

fn inside(word: &str, first: char, last: char) -> &str {
    let inner = word.strip_prefix(first);
    let inner = inner.and_then(|inner| inner.strip_suffix(last));
    inner.unwrap_or_else(|| panic!("{word} is not in {first}{last}"))
}

#[test]
fn every_timeline_is_found() {
    let timelines = timelines();
    assert!(timelines.len() >= 70, "{}", timelines.len());
    assert_eq!(timelines.len(), section_2().matches(" close [").count());
    let codes: BTreeSet<u8> = timelines.iter().map(|t| t.rule.code).collect();
    assert_eq!(codes, (1..=16).collect());
    let overall = timelines.iter().filter(|t| t.rule.is_overall());
    assert_eq!(overall.count(), section_2().matches("\nstart [").count());
    let calls = timelines.iter().flat_map(|timeline| &timeline.calls);
    let notices = calls.filter(|call| matches!(call, Notice(_)));
    assert_eq!(notices.count(), notices_of(&section_2()));
}

/// The words between two fences that begin with a parenthesis.
fn notices_of(section: &str) -> usize {
    let blocks = section.split("```\n").skip(1).step_by(2);
    let words = blocks.flat_map(str::split_whitespace);
    words.filter(|word| word.starts_with('(')).count()
}

/// Timelines with notices, for the way they are written.
const NOTICES: &str = "\
2\t1\t2\t0\t500\t-\t-
0 A* [open]   (499) [open]   (500) [V0]              close [V0]
0 A* [open]   (499) [open]   499 B [F2]              close [F2]
(7)   7 A* [open]   100 X [open]   (507) [V0]        close [V0]
9\t1\t2\t0\t500\t-\t-
0 A* [open]   (499) [open]   (500) [F0]   600 B [F0] close [F0]
4\t1\t2\t0\t500\t-\t-
0 X   5 A* [open]   (504) [open]   (505) [V0]        close [V0]
0 A* [open]   (400) [open]   450 B [F2]              close [F2]
13\t1\t2\t100\t-\t-\t-
start [open]   (4294967195) [open]   (4294967196) [V0]   close [V0]
14\t1\t2\t100\t500\t-\t-
start [open]   0 X [open]   (499) [open]   (500) [F0]    close [F0]
";

#[test]
fn timelines_with_notices() {
    let timelines = timelines_of(NOTICES);
    assert_eq!(timelines.len(), 8);
    let second = &timelines[1];
    let expected = [
        Take(Event::new(0, 1)),
        Notice(499),
        Take(Event::new(499, 2)),
    ];
    assert_eq!(second.calls, expected);
    assert_eq!(second.live, [Open, Open, Fulfilled(2)]);
    let third = &timelines[2];
    assert_eq!(third.calls[0], Notice(7));
    assert_eq!((third.position, third.first_shown()), (1, 2));
    let fifth = &timelines[4];
    assert_eq!((fifth.position, fifth.first_shown()), (2, 2));
    assert_eq!((timelines[6].position, timelines[6].first_shown()), (0, 0));
    for timeline in &timelines {
        evaluator_has(timeline);
    }
}

#[test]
fn the_evaluator_has_the_standings_of_the_timelines() {
    timelines().iter().for_each(evaluator_has);
}

/// Events and notices come in order of time, so that the last one of them says when
/// the next may come.
fn evaluator_has(timeline: &Timeline) {
    let Timeline {
        line,
        rule,
        position,
        ..
    } = timeline;
    for (calls, expected) in (timeline.first_shown()..).zip(&timeline.live) {
        let horizon = match timeline.calls[..calls].last() {
            None => 0,
            Some(Take(event)) => event.time,
            Some(Notice(time)) => u32::try_from(*time).expect("a time in the range"),
        };
        let found = standing(rule, &timeline.events(calls), horizon, *position);
        assert_eq!(found, *expected, "{line}, {calls} calls");
    }
    let closed = verdict(rule, &timeline.events(timeline.calls.len()), *position);
    assert_eq!(closed, timeline.closed, "{line}");
}

fn command_of(call: Call) -> Command {
    match call {
        Take(event) => Command::Take(event),
        Notice(time) => Command::Notice { time },
    }
}

/// What is expected of the library is what the timeline says.
fn case_of(number: u64, timeline: &Timeline) -> Case {
    let done = || Expected::Answer(Answer::plain(Ok(())));
    let position = timeline.position as u32;
    let ask = Command::Standing { rule: 1, position };
    let standing = |standing| Expected::Answer(Answer::standing(Ok(standing)));
    let mut case = Case::new("timelines", number);
    case.load_table(&table_of(std::slice::from_ref(&timeline.rule)));
    case.ask(Command::Start, done());
    let first = timeline.first_shown();
    if first == 0 {
        case.ask(ask.clone(), standing(timeline.live[0]));
    }
    for (calls, call) in (1..).zip(&timeline.calls) {
        case.ask(command_of(*call), done());
        if calls >= first {
            let expected = timeline.live[calls - first];
            case.ask(ask.clone(), standing(expected));
        }
    }
    case.ask(Command::Close, done());
    case.ask(ask, standing(timeline.closed));
    case
}

#[test]
fn the_library_has_the_standings_of_the_timelines() {
    let timelines: Vec<Timeline> = timelines()
        .into_iter()
        .chain(timelines_of(NOTICES))
        .collect();
    let brackets: usize = timelines.iter().map(|t| t.live.len() + 1).sum();
    let cases = (1..).zip(&timelines);
    let counts = agree(
        &Probe::find(),
        cases.map(|(n, timeline)| case_of(n, timeline)),
    );
    assert_eq!(counts.cases, timelines.len());
    assert_eq!(counts.answered('g', 0), brackets);
}
