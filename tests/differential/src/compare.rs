//! Running cases on `probe` in batches and comparing every answer.

use crate::counts::Counts;
use crate::differ::{Difference, Mismatch};
use crate::probe::{Answers, Program};
use crate::script::{Case, Step};

/// A batch is run when its script or its answers have so many bytes.
const BATCH_BYTES: usize = 8_000_000;

/// Runs the cases and compares all answers, up to the first difference.
pub fn compare(
    program: &dyn Program,
    cases: impl IntoIterator<Item = Case>,
) -> Result<Counts, Box<Difference>> {
    let mut counts = Counts::default();
    let mut batch = Batch::default();
    for case in cases {
        batch.add(case);
        if batch.is_full() {
            std::mem::take(&mut batch).run(program, &mut counts)?;
        }
    }
    batch.run(program, &mut counts)?;
    Ok(counts)
}

/// [`compare`] for a test: a difference is printed.
pub fn agree(program: &dyn Program, cases: impl IntoIterator<Item = Case>) -> Counts {
    match compare(program, cases) {
        Ok(counts) => {
            println!("{counts}");
            counts
        }
        Err(difference) => panic!("{}", difference.with_kept_script()),
    }
}

#[derive(Default)]
struct Batch {
    cases: Vec<Case>,
    script: usize,
    answers: usize,
}

impl Batch {
    fn add(&mut self, case: Case) {
        for step in &case.steps {
            self.script += step.command.length();
            self.answers += answer_length(step);
        }
        self.cases.push(case);
    }

    fn is_full(&self) -> bool {
        self.script.max(self.answers) >= BATCH_BYTES
    }

    fn run(self, program: &dyn Program, counts: &mut Counts) -> Result<(), Box<Difference>> {
        let Some(last) = self.cases.last() else {
            return Ok(());
        };
        let mut script = Vec::with_capacity(self.script);
        for case in &self.cases {
            script.extend(case.script());
        }
        let answers = program.answers(&script);
        let mut rest = &answers.bytes[..];
        for case in &self.cases {
            rest = check(case, rest, &answers)?;
            counts.add(case);
        }
        if rest.is_empty() && answers.bad_end.is_none() {
            return Ok(());
        }
        let at = last.steps.len() - 1;
        let mismatch = ended("the end of the answers".to_string(), rest, &answers);
        Err(Box::new(Difference::in_case(last, at, mismatch)))
    }
}

fn answer_length(step: &Step) -> usize {
    step.expected.as_ref().map_or(0, |e| e.length())
}

/// Too few bytes are left, or too many, or the program ended badly.
fn ended(expected: String, left: &[u8], answers: &Answers) -> Mismatch {
    let end = answers.bad_end.as_deref().unwrap_or("probe ended well");
    Mismatch {
        expected,
        found: format!("{} bytes left, {end}", left.len()),
    }
}

/// Compares the answers of a case, which are the first of these bytes, and
/// gives back the rest of them.
fn check<'a>(
    case: &Case,
    mut found: &'a [u8],
    answers: &Answers,
) -> Result<&'a [u8], Box<Difference>> {
    for (at, step) in case.steps.iter().enumerate() {
        let Some(expected) = &step.expected else {
            continue;
        };
        let checked = match found.split_at_checked(expected.length()) {
            Some((answer, rest)) => {
                found = rest;
                expected.check(answer)
            }
            None => Err(ended(format!("{expected:?}"), found, answers)),
        };
        checked.map_err(|mismatch| Box::new(Difference::in_case(case, at, mismatch)))?;
    }
    Ok(found)
}
