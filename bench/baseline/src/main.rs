//! The measured workloads in plain Rust: the algorithm of the library, over references, with the
//! same checks.
//!
//! `baseline < INPUT` runs an input; `baseline data LETTER TURNS NAME` writes one;
//! `baseline count NAME` says its rule-events. `baseline copying BYTES < INPUT` copies so many
//! bytes before each call of a running cycle, and else does the same. `baseline report` does what
//! the program `report` does; `baseline files NAME` writes the two files that it reads.
mod copies;
mod data;
mod judge;
mod print;
mod report;
mod run;
mod text;
mod types;
mod write;

use copies::Copies;
use std::hint::black_box;
use std::io::Read;
use types::*;

fn joined(sum: u64, x: u64) -> u64 {
    (sum % (1 << 32) * 31).wrapping_add(x)
}

fn of_standing(s: Standing) -> u64 {
    match s {
        Standing::Idle => 0,
        Standing::Open => 1,
        Standing::Fulfilled(j) => joined(2, j as u64),
        Standing::Violated(j) => joined(3, j as u64),
    }
}

fn of_run(run: &Run) -> u64 {
    joined(of_standing(run.cells[0]), run.count as u64)
}

/// Every cell, and position 0 of every rule.
fn of_standings(run: &Run) -> u64 {
    let with = |sum, &s: &Standing| joined(sum, of_standing(s));
    let cells = run.cells.iter().fold(0, with);
    joined(cells, run.overall.iter().fold(0, with))
}

fn of_totals(t: Totals) -> u64 {
    black_box(t.violated);
    joined(
        joined(t.activations as u64, t.fulfilled as u64),
        t.open as u64,
    )
}

fn of_answer(a: Result<(), Cause>) -> u64 {
    a.err().map_or(0, |cause| cause as u64)
}

fn field<'a>(text: &mut &'a [u8], end: u8) -> usize {
    let at = text.iter().position(|&b| b == end).unwrap();
    let number = std::str::from_utf8(&text[..at]).unwrap().parse().unwrap();
    *text = &text[at + 1..];
    number
}

fn part<'a>(text: &mut &'a [u8], bytes: usize) -> &'a [u8] {
    let (first, rest) = text.split_at(bytes);
    *text = rest;
    first
}

fn taken(table: &Table, events: &[Event], copies: &mut Copies) -> Run {
    let mut run = Run::start(*table).unwrap();
    for &e in events {
        copies.make();
        run.take(e).unwrap();
    }
    run
}

/// The same run, judged at once.
fn judged(table: &Table, events: &[Event]) -> Run {
    let mut run = Run::start(*table).unwrap();
    run.count = events.len();
    run.events[..events.len()].copy_from_slice(events);
    run.judge(events.last().map_or(0, |e| e.time));
    run
}

/// Each turn begins with a copy of the run, so that the same event can be taken again; `l` is a
/// notice of its time, `x` closes, and `k` makes the copy only.
fn takes(letter: u8, run: &Run, event: Event, turns: usize, copies: &mut Copies) -> u64 {
    let mut sum = 0;
    for _ in 0..turns {
        copies.make();
        let mut next = *black_box(run);
        if letter != b'k' {
            let answer = match letter {
                b't' => next.take(event),
                b'l' => next.notice(event.time.into()),
                _ => next.close(),
            };
            sum = joined(sum, of_answer(answer));
        }
        sum = joined(sum, of_run(black_box(&next)));
    }
    sum
}

fn cycles(table: &Table, events: &[Event], turns: usize, copies: &mut Copies) -> u64 {
    let mut sum = 0;
    for _ in 0..turns {
        let mut run = taken(black_box(table), events, copies);
        copies.make();
        run.close().unwrap();
        sum = joined(sum, of_standings(&run));
    }
    sum
}

fn asked(letter: u8, run: &Run, turns: usize, copies: &mut Copies) -> u64 {
    let mut sum = 0;
    for i in 0..turns {
        copies.make();
        let run = black_box(run);
        let x = match letter {
            b's' => run
                .standing(i % 16 + 1, i % 256 + 1)
                .map_or_else(u64::from, of_standing),
            _ => run.totals(i % 16 + 1).map_or_else(u64::from, of_totals),
        };
        sum = joined(sum, x);
    }
    sum
}

fn cycles_read(cycle: &[u8], turns: usize) -> u64 {
    let mut sum = 0;
    for _ in 0..turns {
        let read = text::read_cycle(black_box(cycle));
        sum = joined(sum, read.map_or(0, |c| c.events[255].time as u64));
    }
    sum
}

fn rules_read(rules: &[u8], turns: usize) -> u64 {
    let mut sum = 0;
    for _ in 0..turns {
        let read = text::read_rules(black_box(rules));
        sum = joined(sum, read.map_or(0, |t| t.rules[15].window.from as u64));
    }
    sum
}

fn notebooks(letter: u8, rules: &[u8], cycles: &[&[u8]], turns: usize) -> u64 {
    let mut sum = 0;
    for _ in 0..turns {
        let mut all = 0;
        for cycle in cycles {
            let run = text::read_notebook(black_box(rules), cycle).unwrap();
            all = joined(
                all,
                if letter == b'n' {
                    of_run(&run)
                } else {
                    of_standings(&run)
                },
            );
        }
        sum = joined(sum, all);
    }
    sum
}

/// The record written so often, and then every byte of the buffer.
fn written(turns: usize, mut write: impl FnMut(&mut [u8]) -> Result<usize, Cause>) -> u64 {
    let mut out = vec![0; 65536];
    let mut sum = 0;
    for _ in 0..turns {
        let answer = write(black_box(&mut out));
        sum = joined(sum, answer.map_or_else(u64::from, |length| length as u64));
    }
    let bytes = out.iter().fold(0, |sum, &b| joined(sum, b as u64));
    joined(sum, bytes)
}

fn cycle_calls(letter: u8, turns: usize, rules: &[u8], cycle: &[u8], copies: &mut Copies) -> u64 {
    let table = text::read_rules(rules).unwrap();
    let read = text::read_cycle(cycle).unwrap();
    let events = &read.events[..read.count];
    let (last, before) = events.split_last().unwrap();
    match letter {
        b't' | b'k' => takes(letter, &judged(&table, before), *last, turns, copies),
        b'x' | b'l' => takes(letter, &judged(&table, events), *last, turns, copies),
        b'w' => {
            let run = judged(&table, events);
            written(turns, |out| write::write_cycle(black_box(&run), out))
        }
        b'p' => written(turns, |out| write::write_rules(black_box(&table), out)),
        b'c' => cycles(&table, events, turns, copies),
        _ => asked(letter, &judged(&table, events), turns, copies),
    }
}

fn work(text: &[u8], bytes_copied: usize) -> u64 {
    let letter = text[0];
    let mut rest = &text[2..];
    let turns = field(&mut rest, b'\t');
    let count = field(&mut rest, b'\t');
    let bytes = field(&mut rest, b'\n');
    let rules = part(&mut rest, bytes);
    let mut cycles = Vec::new();
    for _ in 0..count {
        let bytes = field(&mut rest, b'\n');
        cycles.push(part(&mut rest, bytes));
    }
    match letter {
        b'r' => cycles_read(cycles[0], turns),
        b'u' => rules_read(rules, turns),
        b'n' | b'v' => notebooks(letter, rules, &cycles, turns),
        _ => cycle_calls(
            letter,
            turns,
            rules,
            cycles[0],
            &mut Copies::of(bytes_copied),
        ),
    }
}

fn input() -> Vec<u8> {
    let mut text = Vec::new();
    std::io::stdin().read_to_end(&mut text).unwrap();
    text
}

fn main() {
    let words: Vec<String> = std::env::args().skip(1).collect();
    let words: Vec<&str> = words.iter().map(String::as_str).collect();
    match words[..] {
        ["data", letter, turns, name] => print!("{}", data::input(letter, turns, name)),
        ["count", name] => print!("{}", data::rule_events(name)),
        ["files", name] => data::write_files(name),
        ["report"] => report::report(),
        ["copying", bytes] => print!("{}", work(&input(), bytes.parse().unwrap())),
        _ => print!("{}", work(&input(), 0)),
    }
}
