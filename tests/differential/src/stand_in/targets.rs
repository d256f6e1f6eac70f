//! Mistakes in the choice of the target.

use super::{Mistake, State};
use evaluator::{eligible, notebook_record, place, printed, report_of, Record, Standing};
use std::collections::BTreeSet;

/// One of the eligible positions of the activation at a position.
type Choice = fn(&BTreeSet<usize>, usize) -> Option<usize>;

impl State {
    /// The targets of a take that was accepted.
    pub(super) fn change_targets(&self, run: &mut Record) {
        let choice: Choice = match self.mistake {
            Mistake::NamesTheEarliest => earliest,
            Mistake::NamesTheLatest => latest,
            Mistake::PrefersTheOneAfter => one_after,
            _ => return,
        };
        name(choice, run, &self.run.standings);
    }

    /// The targets of a run of the notebook.
    pub(super) fn change_read_targets(&self, run: &mut Record) {
        let choice: Choice = match self.mistake {
            Mistake::ReadsTheEarliest => earliest,
            Mistake::ReadsTheLatest => latest,
            _ => return,
        };
        name(choice, run, &[]);
    }
}

/// Two texts printed with the earliest eligible positions as targets.
pub(super) fn printed_with_earliest(rules: &[u8], cycle: &[u8]) -> Vec<u8> {
    let Ok(mut run) = notebook_record(rules, cycle) else {
        return printed(rules, cycle);
    };
    name(earliest, &mut run, &[]);
    report_of(&run).expect("a valid run")
}

fn earliest(eligible: &BTreeSet<usize>, _: usize) -> Option<usize> {
    eligible.first().copied()
}

fn latest(eligible: &BTreeSet<usize>, _: usize) -> Option<usize> {
    eligible.last().copied()
}

fn one_after(eligible: &BTreeSet<usize>, position: usize) -> Option<usize> {
    let after = eligible.range(position + 1..).next();
    after.or(eligible.last()).copied()
}

/// Gives the standings that were not decided before the targets of a choice.
fn name(choice: Choice, run: &mut Record, before: &[Standing]) {
    let rules = run.table.rules().expect("a valid table");
    let events = &run.events[..run.count as usize];
    let judged = rules.iter().enumerate().filter(|(_, rule)| rule.code <= 12);
    for (index, rule) in judged {
        for position in 1..=events.len() {
            let cell = place(index + 1, position);
            let kept = before.get(cell).is_some_and(|s| s.is_decided());
            let chosen = choice(&eligible(rule, events, position), position);
            if let (false, Some(target)) = (kept, chosen) {
                let standing = &mut run.standings[cell];
                *standing = with_target(*standing, target as u16);
            }
        }
    }
}

pub(super) fn with_target(standing: Standing, target: u16) -> Standing {
    match standing {
        Standing::Fulfilled(_) => Standing::Fulfilled(target),
        Standing::Violated(_) => Standing::Violated(target),
        other => other,
    }
}
