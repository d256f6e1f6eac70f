//! How much was compared.

use crate::command::{kind_and_target, Command};
use crate::expected::Expected;
use crate::script::Case;
use evaluator::Standing;
use std::collections::BTreeMap;
use std::fmt;

/// What a standing shows: its kind, and whether it names a target.
pub const SHOWN: [&str; 6] = [
    "idle",
    "open",
    "fulfilled",
    "fulfilled with a target",
    "violated",
    "violated with a target",
];

/// The place in [`SHOWN`].
fn shown(standing: Standing) -> usize {
    match kind_and_target(standing) {
        (kind @ 0..=1, _) => usize::from(kind),
        (kind, target) => 2 * usize::from(kind) - 2 + usize::from(target != 0),
    }
}

/// Numbers of things compared without a difference.
#[derive(Debug, Clone, Default)]
pub struct Counts {
    pub cases: usize,
    /// Runs handed in that are refused with 11 for their totals alone.
    pub miscounted: usize,
    /// Conditions of the valid tables handed in and of the rules texts accepted,
    /// without the correlations of rules about the cycle.
    pub conditions: usize,
    /// Those in which a reading is compared more than once.
    pub bands: usize,
    /// By the command's letter and the number answered.
    answers: BTreeMap<(char, u8), usize>,
    /// Dumps by their letter.
    dumps: BTreeMap<char, usize>,
    /// By template code and [`SHOWN`]. The rules 13 to 16 are idle at events, and
    /// their other standings are those at position 0.
    standings: [[usize; 6]; 17],
}

impl Counts {
    pub fn add(&mut self, case: &Case) {
        self.cases += 1;
        self.miscounted += case.miscounted;
        self.conditions += case.conditions;
        self.bands += case.bands;
        for step in &case.steps {
            if let Some(expected) = &step.expected {
                self.add_step(&step.command, expected);
            }
        }
    }

    fn add_step(&mut self, command: &Command, expected: &Expected) {
        let letter = command.letter();
        if let Some(answer) = expected.answer() {
            *self.answers.entry((letter, answer.number)).or_default() += 1;
            return;
        }
        *self.dumps.entry(letter).or_default() += 1;
        match expected {
            Expected::Standings { codes, rows } => {
                for (code, row) in codes.iter().zip(rows) {
                    row.iter().for_each(|s| self.add_standing(*code, *s));
                }
            }
            Expected::Overall { codes, cells } => {
                let overall = codes.iter().zip(cells).filter(|(code, _)| **code >= 13);
                for (code, cell) in overall {
                    cell.iter().for_each(|s| self.add_standing(*code, *s));
                }
            }
            _ => {}
        }
    }

    fn add_standing(&mut self, code: u8, standing: Standing) {
        self.standings[usize::from(code)][shown(standing)] += 1;
    }

    pub fn merge(&mut self, other: &Counts) {
        self.cases += other.cases;
        self.miscounted += other.miscounted;
        self.conditions += other.conditions;
        self.bands += other.bands;
        for (key, count) in &other.answers {
            *self.answers.entry(*key).or_default() += count;
        }
        for (letter, count) in &other.dumps {
            *self.dumps.entry(*letter).or_default() += count;
        }
        for (row, other) in self.standings.iter_mut().zip(&other.standings) {
            for (count, other) in row.iter_mut().zip(other) {
                *count += other;
            }
        }
    }

    /// The calls of a letter, whatever the answer.
    pub fn calls(&self, letter: char) -> usize {
        let of_letter = self.answers.iter().filter(|(key, _)| key.0 == letter);
        of_letter.map(|(_, count)| count).sum()
    }

    /// The calls of a letter that were answered with this number.
    pub fn answered(&self, letter: char, number: u8) -> usize {
        self.answers.get(&(letter, number)).copied().unwrap_or(0)
    }

    /// The numbers answered to the calls of a letter.
    pub fn numbers(&self, letter: char) -> Vec<u8> {
        let of_letter = self.answers.keys().filter(|key| key.0 == letter);
        of_letter.map(|key| key.1).collect()
    }

    /// The dumps of a letter.
    pub fn dumps(&self, letter: char) -> usize {
        self.dumps.get(&letter).copied().unwrap_or(0)
    }

    /// The standings compared one by one.
    pub fn standings(&self) -> usize {
        self.standings.iter().flatten().sum()
    }

    /// The standings of a template code, in the order of [`SHOWN`].
    pub fn standings_of(&self, code: u8) -> [usize; 6] {
        self.standings[usize::from(code)]
    }
}

/// The calls by their letters.
const CALLS: [(char, &str); 14] = [
    ('s', "starts"),
    ('e', "takes"),
    ('k', "notices"),
    ('x', "closes"),
    ('g', "standings asked"),
    ('o', "totals"),
    ('b', "tallies"),
    ('R', "rules texts"),
    ('Y', "cycle texts"),
    ('N', "pairs of texts"),
    ('w', "writes of rules"),
    ('W', "writes of events"),
    ('v', "reports of runs"),
    ('p', "prints of two texts"),
];

/// The dumps by their letters, but for that of the tally.
const DUMPS: [(char, &str); 3] = [
    ('d', "lists of standings"),
    ('z', "lists of standings at position 0"),
    ('D', "whole records"),
];

impl fmt::Display for Counts {
    fn fmt(&self, f: &mut fmt::Formatter<'_>) -> fmt::Result {
        write!(f, "{} cases", self.cases)?;
        for (letter, name) in CALLS {
            let calls = self.calls(letter);
            if calls > 0 {
                let accepted = self.answered(letter, 0);
                write!(f, ", {calls} {name} ({accepted} accepted)")?;
            }
        }
        for (letter, name) in DUMPS {
            if self.dumps(letter) > 0 {
                write!(f, ", {} {name}", self.dumps(letter))?;
            }
        }
        if self.miscounted > 0 {
            write!(f, ", {} runs with wrong totals alone", self.miscounted)?;
        }
        if self.conditions > 0 {
            let (all, bands) = (self.conditions, self.bands);
            write!(f, ", {all} conditions")?;
            write!(f, " ({bands} with a reading compared twice or more)")?;
        }
        Ok(())
    }
}
