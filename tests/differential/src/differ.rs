//! What is said of a difference.

use crate::script::Case;
use evaluator::{place, Record};
use std::fmt::{self, Debug, Display};

/// So many fields of a run are shown.
const SHOWN_FIELDS: usize = 12;
/// So many commands of a script are shown.
const SHOWN_COMMANDS: usize = 60;
/// So many bytes of a buffer are shown.
const SHOWN_BYTES: usize = 80;

/// What was expected in place of what was found.
#[derive(Debug, Clone, PartialEq, Eq)]
pub struct Mismatch {
    pub expected: String,
    pub found: String,
}

/// A difference between a program and the evaluator.
#[derive(Debug, Clone)]
pub struct Difference {
    pub kind: &'static str,
    pub seed: u64,
    /// What was given to the program up to the difference.
    pub given: String,
    /// The whole script for `probe`, if that was the program.
    pub script: Vec<u8>,
    pub mismatch: Mismatch,
}

impl Difference {
    /// The step at `at` of a case differs.
    pub fn in_case(case: &Case, at: usize, mismatch: Mismatch) -> Difference {
        let steps = &case.steps[..=at];
        let left_out = steps.len().saturating_sub(SHOWN_COMMANDS);
        let mut given = "the script so far:".to_string();
        if left_out > 0 {
            given += &format!("\n  ({left_out} commands)");
        }
        for step in &steps[left_out..] {
            given += &format!("\n  {}", step.command);
        }
        Difference {
            kind: case.kind,
            seed: case.seed,
            given,
            script: case.script(),
            mismatch,
        }
    }

    /// Keeps the script in a file, so that `probe` can be run on it, and says
    /// where.
    pub fn with_kept_script(mut self) -> Difference {
        if !self.script.is_empty() {
            let name = format!("differential-{}-{}.script", self.kind, self.seed);
            let path = std::env::temp_dir().join(name);
            let kept = match std::fs::write(&path, &self.script) {
                Ok(()) => format!("the whole script is in {}", path.display()),
                Err(error) => format!("the whole script could not be kept: {error}"),
            };
            self.given = format!("{}\n{kept}", self.given);
        }
        self
    }
}

impl Display for Difference {
    fn fmt(&self, f: &mut fmt::Formatter<'_>) -> fmt::Result {
        writeln!(f, "{}, seed {}: a difference", self.kind, self.seed)?;
        writeln!(f, "{}", self.given)?;
        writeln!(f, "expected: {}", self.mismatch.expected)?;
        write!(f, "found: {}", self.mismatch.found)
    }
}

/// The fields of two runs that differ.
#[derive(Default)]
struct Fields(Vec<(String, String)>);

impl Fields {
    fn compare<T: PartialEq + Debug>(&mut self, name: impl Display, expected: T, found: T) {
        if expected != found {
            let expected = format!("{name}: {expected:?}");
            self.0.push((expected, format!("{name}: {found:?}")));
        }
    }

    fn standings(&mut self, expected: &Record, found: &Record, rules: usize) {
        for rule in 1..=rules {
            for position in 1..=256 {
                let at = place(rule, position);
                let name = format_args!("standing of rule {rule} at position {position}");
                self.compare(name, expected.standings[at], found.standings[at]);
            }
        }
    }

    /// Position 0 of these rules.
    fn overall(&mut self, expected: &Record, found: &Record, rules: &[usize]) {
        for rule in rules {
            let name = format_args!("standing of rule {rule} at position 0");
            let at = rule - 1;
            self.compare(name, expected.overall[at], found.overall[at]);
        }
    }

    /// The stored totals of every rule slot.
    fn totals(&mut self, expected: &Record, found: &Record) {
        for (index, totals) in expected.totals.iter().enumerate() {
            let name = format_args!("totals of rule slot {index}");
            self.compare(name, *totals, found.totals[index]);
        }
    }

    fn mismatch(self) -> Mismatch {
        let more = self.0.len().saturating_sub(SHOWN_FIELDS);
        let (expected, found): (Vec<String>, Vec<String>) =
            self.0.into_iter().take(SHOWN_FIELDS).unzip();
        Mismatch {
            expected: expected.join("; "),
            found: format!("{} (and {more} more)", found.join("; ")),
        }
    }
}

/// The slots and cells in which two runs differ.
pub fn differing_fields(expected: &Record, found: &Record) -> Mismatch {
    let mut fields = Fields::default();
    fields.compare("closed", expected.closed, found.closed);
    fields.compare("kept time", expected.clock, found.clock);
    fields.compare("event count", expected.count, found.count);
    fields.compare("rule count", expected.table.count, found.table.count);
    for (index, rule) in expected.table.rules.iter().enumerate() {
        let name = format_args!("rule slot {index}");
        fields.compare(name, *rule, found.table.rules[index]);
    }
    for (index, event) in expected.events.iter().enumerate() {
        let name = format_args!("event slot {index}");
        fields.compare(name, *event, found.events[index]);
    }
    fields.standings(expected, found, 16);
    fields.overall(expected, found, &Vec::from_iter(1..=16));
    fields.totals(expected, found);
    fields.mismatch()
}

/// The rules of the run's table that have position 0.
fn overall_rules(run: &Record) -> Vec<usize> {
    let rules = (1..).zip(&run.table.rules).take(run.table.count as usize);
    let overall = rules.filter(|(_, rule)| (13..=16).contains(&rule.code));
    overall.map(|(number, _)| number).collect()
}

/// The same for a run of the notebook: rule slots past the count, the rows of
/// rules that the table does not have, and position 0 of these and of the rules 1
/// to 12 are not compared. The totals of all slots are.
pub fn differing_used_fields(expected: &Record, found: &Record) -> Result<(), Mismatch> {
    let mut fields = Fields::default();
    fields.compare("closed", expected.closed, found.closed);
    fields.compare("kept time", expected.clock, found.clock);
    fields.compare("event count", expected.count, found.count);
    fields.compare("rules", expected.table.rules(), found.table.rules());
    for (index, event) in expected.events.iter().enumerate() {
        let name = format_args!("event slot {index}");
        fields.compare(name, *event, found.events[index]);
    }
    fields.standings(expected, found, expected.table.count as usize);
    fields.overall(expected, found, &overall_rules(expected));
    fields.totals(expected, found);
    match fields.0.is_empty() {
        true => Ok(()),
        false => Err(fields.mismatch()),
    }
}

/// Whether two buffers are the same: where they are not, the bytes from the
/// first one on that differs.
pub fn differing_bytes(expected: &[u8], found: &[u8]) -> Result<(), Mismatch> {
    if expected == found {
        return Ok(());
    }
    let same = expected.iter().zip(found).take_while(|(e, f)| e == f);
    let at = same.count();
    let shown = |buffer: &[u8]| {
        let end = buffer.len().min(at + SHOWN_BYTES);
        let bytes = buffer[at..end].escape_ascii();
        format!("buffer from byte {at} on: \"{bytes}\"")
    };
    Err(Mismatch {
        expected: shown(expected),
        found: shown(found),
    })
}

#[cfg(test)]
mod tests {
    use super::*;
    use evaluator::{grown, start, Event, Rule, Standing, TableRecord};

    fn run() -> Record {
        let rules = [2, 9, 13].map(|code| Rule::new(code, 1, 2, 0, None));
        grown(&rules, &[Event::new(5, 1), Event::new(8, 1)])
    }

    #[test]
    fn fields_that_differ_are_named() {
        let mut other = run();
        other.closed = true;
        other.clock = 77;
        other.events[255].time = 9;
        other.standings[place(16, 256)] = Standing::Fulfilled(3);
        other.overall[0] = Standing::Violated(7);
        other.totals[15].open = 3;
        let mismatch = differing_fields(&run(), &other);
        for part in [
            "closed: false",
            "kept time: 0",
            "event slot 255: ",
            "rule 16 at position 256: Idle",
            "rule 1 at position 0: Idle",
            "totals of rule slot 15: ",
        ] {
            assert!(mismatch.expected.contains(part), "{mismatch:?}");
        }
        assert!(mismatch.found.contains("kept time: 77"));
        assert!(mismatch.found.contains("position 256: Fulfilled(3)"));
        assert!(mismatch.found.contains("position 0: Violated(7)"));
        assert!(mismatch.found.contains("open: 3"));
        assert!(mismatch.found.ends_with("(and 0 more)"));
    }

    #[test]
    fn every_used_field_of_a_notebook_run_is_compared() {
        let changes: [fn(&mut Record); 14] = [
            |run| run.closed = true,
            |run| run.clock = 1,
            |run| run.count = 3,
            |run| run.table.count = 1,
            |run| run.table.rules[1].target = 3,
            |run| run.events[1].activity = 2,
            |run| run.events[2].activity = 2,
            |run| run.standings[place(2, 256)] = Standing::Open,
            |run| run.overall[2] = Standing::Open,
            |run| run.totals[0].activations = 3,
            |run| run.totals[1].fulfilled = 1,
            |run| run.totals[2].violated = 1,
            |run| run.totals[2].open = 1,
            |run| run.totals[15].open = 1,
        ];
        for change in changes {
            let mut other = run();
            change(&mut other);
            assert!(differing_used_fields(&run(), &other).is_err());
        }
    }

    #[test]
    fn unused_fields_of_a_notebook_run_are_free() {
        let mut other = run();
        other.table.rules[3].code = 0;
        other.table.rules[1].correlation.comparisons[0].reading = 0;
        other.standings[place(4, 1)] = Standing::Open;
        other.overall[0] = Standing::Open;
        other.overall[3] = Standing::Violated(1);
        assert_eq!(differing_used_fields(&run(), &other), Ok(()));
    }

    #[test]
    fn every_byte_of_a_buffer_is_compared() {
        let buffer = b"0\t1\n\xa5".to_vec();
        assert_eq!(differing_bytes(&buffer, &buffer), Ok(()));
        for at in 0..buffer.len() {
            let mut other = buffer.clone();
            other[at] = b'x';
            let mismatch = differing_bytes(&buffer, &other).expect_err("a difference");
            let shown = format!("buffer from byte {at} on: \"x");
            assert!(mismatch.found.starts_with(&shown), "{mismatch:?}");
            assert!(mismatch.expected.ends_with("\\xa5\""), "{mismatch:?}");
        }
        assert!(differing_bytes(&buffer, &buffer[1..]).is_err());
        assert!(differing_bytes(&buffer, &buffer[..3]).is_err());
    }

    #[test]
    fn a_difference_shows_seed_and_script() {
        let mut case = Case::new("example", 42);
        case.load_table(&TableRecord::of(&[]));
        let mismatch = Mismatch {
            expected: "one".to_string(),
            found: "two".to_string(),
        };
        let shown = Difference::in_case(&case, 0, mismatch).to_string();
        for part in [
            "example, seed 42",
            "t NewTable",
            "expected: one",
            "found: two",
        ] {
            assert!(shown.contains(part), "{shown}");
        }
        let empty = start(&TableRecord::of(&[])).expect("a run");
        assert_eq!(differing_used_fields(&empty, &empty), Ok(()));
    }
}
