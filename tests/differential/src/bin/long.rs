//! The comparisons of the tests as a long run by hand.
//!
//! ```text
//! long SEED CASES [KIND ..]
//! ```
//!
//! Compares so many cases of each kind, with seeds from SEED on, and prints what
//! was compared, or the first difference. A difference names its kind and seed;
//! `long THAT_SEED 1 THAT_KIND` shows it again.

use differential::cases::{bands, crowded, notebook, notices, overall, printed, records};
use differential::cases::{reported, reports, running, tally, texts, written};
use differential::compare::compare;
use differential::counts::Counts;
use differential::differ::Difference;
use differential::probe::Probe;
use differential::report::Report;
use differential::script::Case;
use std::process::ExitCode;
use std::time::Instant;

/// The name of a kind, and its case for a seed.
type Kind = (&'static str, fn(u64) -> Case);

/// Each kind of case that `probe` answers.
const KINDS: [Kind; 23] = [
    (running::KIND, running::case),
    (crowded::KIND, crowded::case),
    (crowded::STALE, crowded::stale_case),
    (bands::KIND, bands::case),
    (bands::STALE, bands::stale_case),
    (overall::KIND, overall::case),
    (overall::STALE, overall::stale_case),
    (notices::KIND, notices::case),
    (notices::STALE, notices::stale_case),
    (records::KIND, records::case),
    (records::STALE, records::stale_case),
    (texts::RULES, texts::rules_case),
    (texts::CYCLES, texts::cycle_case),
    (texts::PAIRS, texts::pair_case),
    (texts::LONG, texts::long_case),
    (notebook::KIND, notebook::case),
    (tally::KIND, tally::case),
    (written::KIND, written::case),
    (written::GROWN, written::grown_case),
    (written::AGAIN, written::again_case),
    (reported::KIND, reported::case),
    (reported::GROWN, reported::grown_case),
    (printed::KIND, printed::case),
];

/// The kinds of long cycles; of these a hundredth of the cases is compared.
const FULL_KINDS: [Kind; 4] = [
    (running::FULL, running::full_case),
    (crowded::FULL, crowded::full_case),
    (notices::FULL, notices::full_case),
    (notebook::FULL, notebook::full_case),
];

struct Arguments {
    seed: u64,
    cases: u64,
    kinds: Vec<String>,
}

fn main() -> ExitCode {
    let Some(arguments) = arguments() else {
        eprintln!("usage: long SEED CASES [KIND ..]");
        eprintln!("kinds: {}", all_kinds().join(" "));
        return ExitCode::from(2);
    };
    for kind in &arguments.kinds {
        let begin = Instant::now();
        match compared(kind, arguments.seed, arguments.cases) {
            Ok(shown) => {
                let seconds = begin.elapsed().as_secs_f64();
                println!("{kind}: {shown}, 0 differences, {seconds:.1} s");
            }
            Err(difference) => {
                println!("{}", difference.with_kept_script());
                return ExitCode::FAILURE;
            }
        }
    }
    ExitCode::SUCCESS
}

fn all_kinds() -> Vec<String> {
    let of_probe = KINDS.iter().chain(&FULL_KINDS).map(|(name, _)| *name);
    of_probe
        .chain([reports::KIND])
        .map(str::to_string)
        .collect()
}

fn arguments() -> Option<Arguments> {
    let mut given = std::env::args().skip(1);
    let seed = given.next()?.parse().ok()?;
    let cases = given.next()?.parse().ok()?;
    let mut kinds: Vec<String> = given.collect();
    if kinds.is_empty() {
        kinds = all_kinds();
    }
    let known = all_kinds();
    let arguments = Arguments { seed, cases, kinds };
    let all_known = arguments.kinds.iter().all(|kind| known.contains(kind));
    all_known.then_some(arguments)
}

/// Compares the cases of a kind and says what was compared.
fn compared(kind: &str, seed: u64, cases: u64) -> Result<String, Box<Difference>> {
    if kind == reports::KIND {
        return compared_reports(seed, cases);
    }
    if let Some((_, case)) = FULL_KINDS.iter().find(|(name, _)| *name == kind) {
        return compared_cases(*case, seed, cases.div_ceil(100));
    }
    let known = KINDS.iter().find(|(name, _)| *name == kind);
    let (_, case) = known.expect("a known kind");
    compared_cases(*case, seed, cases)
}

fn compared_cases(case: fn(u64) -> Case, seed: u64, cases: u64) -> Result<String, Box<Difference>> {
    let counts: Counts = compare(&Probe::find(), (seed..seed + cases).map(case))?;
    Ok(counts.to_string())
}

/// Every second pair of files is of texts alone.
fn compared_reports(seed: u64, cases: u64) -> Result<String, Box<Difference>> {
    let program = Report::find();
    for seed in seed..seed + cases {
        let (rules, cycle) = match seed % 2 {
            0 => reports::files(seed),
            _ => reports::texts_of(seed),
        };
        reports::compare(&program, seed, &rules, &cycle)?;
    }
    Ok(format!("{cases} pairs of files"))
}
