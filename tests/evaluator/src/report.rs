//! The bytes that the program `report` prints, from document 01, "Day tally and
//! `report`", for a run as it is, for two texts and for two files. Every line
//! printed ends with LF.

use crate::model::Standing;
use crate::notebook::{notebook, Row, Text};
use crate::record::Record;
use crate::refusal::Refusal;
use crate::slots::EVENT_SLOTS;
use crate::text::read_rules;
use std::collections::BTreeMap;

/// "file absent or above 32768 bytes (`report` only)"
pub const LARGEST_FILE: usize = 32_768;

/// What `report` prints if `rules.tsv` and `cycle.tsv` have these bytes; an
/// absent or unreadable file is `None`.
pub fn report(rules: Option<Vec<u8>>, cycle: Option<Vec<u8>>) -> Vec<u8> {
    match files_read(rules, cycle) {
        Ok((rules, cycle)) => printed(&rules, &cycle),
        Err((text, refusal)) => refusal_line(text, refusal).into_bytes(),
    }
}

/// "The cycle file is opened after the rules are accepted; 13 precedes its
/// file's other checks."
fn files_read(
    rules: Option<Vec<u8>>,
    cycle: Option<Vec<u8>>,
) -> Result<(Vec<u8>, Vec<u8>), (Text, Refusal)> {
    let rules = small_enough(rules).map_err(|refusal| (Text::Rules, refusal))?;
    read_rules(&rules).map_err(|refusal| (Text::Rules, refusal))?;
    let cycle = small_enough(cycle).map_err(|refusal| (Text::Cycle, refusal))?;
    Ok((rules, cycle))
}

fn small_enough(file: Option<Vec<u8>>) -> Result<Vec<u8>, Refusal> {
    file.filter(|bytes| bytes.len() <= LARGEST_FILE)
        .ok_or(Refusal::at(13, 0))
}

/// What `report` prints for two texts of any size.
pub fn printed(rules: &[u8], cycle: &[u8]) -> Vec<u8> {
    let lines = match notebook(rules, cycle) {
        Ok(rows) => lines(rows.len(), &activations_of_rows(&rows)),
        Err((text, refusal)) => refusal_line(text, refusal),
    };
    lines.into_bytes()
}

/// What `report` prints for a run as its record has it, closed or not. The whole
/// record is checked.
pub fn report_of(run: &Record) -> Result<Vec<u8>, Refusal> {
    let (rules, count) = run.checked()?;
    let mut activations = activations_of_cells(&run.standings, rules.len(), count);
    for (rule, _) in (1..).zip(&rules).filter(|(_, rule)| rule.is_overall()) {
        activations.push(at_position_0(rule, run.overall[rule - 1]));
    }
    Ok(lines(rules.len(), &activations).into_bytes())
}

/// A rule and a position with a standing that is not idle.
struct Activation {
    rule: usize,
    position: usize,
    standing: Standing,
}

/// "`report` prints it as position 0."
fn at_position_0(rule: usize, standing: Standing) -> Activation {
    Activation {
        rule,
        position: 0,
        standing,
    }
}

fn activations_of_rows(rows: &[Row]) -> Vec<Activation> {
    let mut activations = Vec::new();
    for (rule, row) in (1..).zip(rows) {
        activations.extend(row.overall.map(|standing| at_position_0(rule, standing)));
        for (position, standing) in (1..).zip(&row.events) {
            activations.push(Activation {
                rule,
                position,
                standing: *standing,
            });
        }
    }
    activations.retain(|activation| activation.standing != Standing::Idle);
    activations
}

/// Those at the events of so many rules and events among the 16 rows of 256 cells.
fn activations_of_cells(cells: &[Standing], rules: usize, count: usize) -> Vec<Activation> {
    let numbered = cells.iter().enumerate().map(|(cell, standing)| Activation {
        rule: cell / EVENT_SLOTS + 1,
        position: cell % EVENT_SLOTS + 1,
        standing: *standing,
    });
    numbered
        .filter(|activation| activation.standing != Standing::Idle)
        .filter(|activation| activation.rule <= rules && activation.position <= count)
        .collect()
}

/// Where a line stands: its rule, and its position or the place after them all.
type Place = (usize, usize);

const AFTER_ALL_POSITIONS: usize = usize::MAX;

/// "rule by rule, a line per activation in order of position (rule, position, F
/// or V, target) and then `total`, rule, activations, fulfilled, violated"
fn lines(rules: usize, activations: &[Activation]) -> String {
    let mut lines: BTreeMap<Place, String> = BTreeMap::new();
    for rule in 1..=rules {
        let of_rule = activations.iter().filter(|a| a.rule == rule);
        let standings: Vec<Standing> = of_rule.map(|a| a.standing).collect();
        lines.insert((rule, AFTER_ALL_POSITIONS), total_line(rule, &standings));
    }
    for activation in activations {
        let place = (activation.rule, activation.position);
        lines.insert(place, activation_line(activation));
    }
    lines.into_values().collect()
}

/// An activation that is still open has the letter O and, like every one without
/// a target, target 0. It is counted among the activations alone.
fn activation_line(activation: &Activation) -> String {
    let (letter, target) = match activation.standing {
        Standing::Fulfilled(target) => ('F', target),
        Standing::Violated(target) => ('V', target),
        Standing::Open => ('O', 0),
        Standing::Idle => panic!("an activation is not idle"),
    };
    let Activation { rule, position, .. } = activation;
    format!("{rule}\t{position}\t{letter}\t{target}\n")
}

fn total_line(rule: usize, standings: &[Standing]) -> String {
    let activations = standings.len();
    let fulfilled = standings.iter().filter(|s| s.is_fulfilled()).count();
    let violated = standings.iter().filter(|s| s.is_violated()).count();
    format!("total\t{rule}\t{activations}\t{fulfilled}\t{violated}\n")
}

/// "the one line `refused`, `rules` or `cycle`, number, line"
fn refusal_line(text: Text, refusal: Refusal) -> String {
    let name = match text {
        Text::Rules => "rules",
        Text::Cycle => "cycle",
    };
    let line = refusal.line.expect("a refused text has a line");
    format!("refused\t{name}\t{}\t{line}\n", refusal.number)
}
