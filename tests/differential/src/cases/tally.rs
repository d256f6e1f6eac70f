//! Runs absorbed into a tally near its limits.

use crate::cases::records::FILLED;
use crate::script::{Case, Session};
use evaluator::fabricate::{fabricated, fill_unused, random_record};
use evaluator::random::Random;
use evaluator::{Record, Tally};

pub const KIND: &str = "tally";
/// Written-out tallies; their numbers stand for seeds.
pub const WRITTEN: &str = "written-tallies";

const LARGEST: u32 = u32::MAX;

/// A record, mostly closed, absorbed up to four times.
pub fn case(seed: u64) -> Case {
    let mut random = Random::new(seed);
    let run = random_run(&mut random);
    let mut session = Session::on(KIND, seed, run);
    session.set_tally(Tally::default());
    for _ in 0..1 + random.below(4) {
        let rule = rule_number(&mut random, &session.run);
        if random.one_in(2) {
            let tally = near_limits(&mut random, &session.run, rule);
            session.set_tally(tally);
        }
        let _ = session.absorb(rule);
    }
    if seed.is_multiple_of(4) {
        session.compare_run();
    }
    session.case
}

fn random_run(random: &mut Random) -> Record {
    let mut run = random_record(random, 9);
    if !random.one_in(4) {
        run = run.close().0;
    }
    if random.one_in(FILLED) {
        fill_unused(random, &mut run);
    }
    let changes = random.pick(&[0, 0, 0, 1, 2]);
    fabricated(random, run, changes)
}

fn rule_number(random: &mut Random, run: &Record) -> u64 {
    let count = run.table.count;
    match random.below(6) {
        0 => random.pick(&[0, 16, 17, 1 << 32, (1 << 32) + 1, u64::MAX]),
        1 => count.wrapping_add(1),
        _ => 1 + random.bits() % count.clamp(1, 16),
    }
}

/// A tally whose fields are small, or reach their limit, or pass it by 1.
fn near_limits(random: &mut Random, run: &Record, rule: u64) -> Tally {
    let totals = run.totals(rule).unwrap_or_default();
    let mut field = |added: u16| {
        let added = u32::from(added);
        let near = [
            LARGEST,
            LARGEST - 1,
            LARGEST - added,
            (LARGEST - added).saturating_add(1),
        ];
        match random.below(3) {
            0 => random.pick(&near),
            1 => LARGEST - added,
            _ => random.below(1000) as u32,
        }
    };
    Tally {
        cycles: field(1),
        activations: field(totals.activations),
        fulfilled: field(totals.fulfilled),
        violated: field(totals.violated),
    }
}

/// Every choice of edge values for the four fields, for one rule of a run:
/// 0, as far as the field may go, one further, one below the largest number,
/// and the largest.
pub fn edge_cases(seed: u64, run: &Record, rule: u64) -> Case {
    let totals = run.totals(rule).expect("a rule of the run");
    let edges = |added: u16| {
        let last = LARGEST - u32::from(added);
        [0, last, last.saturating_add(1), LARGEST - 1, LARGEST]
    };
    let mut session = Session::on(WRITTEN, seed, run.clone());
    for cycles in edges(1) {
        for activations in edges(totals.activations) {
            for fulfilled in edges(totals.fulfilled) {
                for violated in edges(totals.violated) {
                    session.set_tally(Tally {
                        cycles,
                        activations,
                        fulfilled,
                        violated,
                    });
                    let _ = session.absorb(rule);
                }
            }
        }
    }
    session.compare_run();
    session.case
}
