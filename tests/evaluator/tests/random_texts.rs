//! Random valid texts are read as they were written, and damaged ones are
//! refused for a cause that the text itself shows.

use evaluator::damage::{damage, damaged_cycle_text, damaged_rules_text};
use evaluator::damage::{random_cycle_text, random_rules_text, Damage};
use evaluator::random::{random_cycle, random_rules, Random};
use evaluator::{read_cycle, read_rules, write_cycle, write_rules, Refusal};
use std::collections::{BTreeMap, BTreeSet};

#[test]
fn written_rules_and_cycles_are_read_back() {
    let mut random = Random::new(21);
    for round in 0..3000 {
        let rules = random_rules(&mut random, round % 17);
        assert_eq!(read_rules(&write_rules(&rules)), Ok(rules.clone()));
        let length = [0, 1, 2, 5, 9][round % 5];
        let events = random_cycle(&mut random, &rules, length);
        assert_eq!(read_cycle(&write_cycle(&events)), Ok(events));
    }
    for length in [255, 256] {
        let events = random_cycle(&mut random, &[], length);
        assert_eq!(read_cycle(&write_cycle(&events)), Ok(events));
    }
}

#[test]
fn generated_texts_are_valid_up_to_the_limits() {
    let mut random = Random::new(22);
    for _ in 0..50 {
        let read = read_rules(&random_rules_text(&mut random, 16));
        assert_eq!(read.map(|rules| rules.len()), Ok(16));
        let read = read_rules(&random_rules_text(&mut random, 17));
        assert_eq!(read, Err(Refusal::at(8, 17)));
        let read = read_cycle(&random_cycle_text(&mut random, 256));
        assert_eq!(read.map(|events| events.len()), Ok(256));
        let read = read_cycle(&random_cycle_text(&mut random, 257));
        assert_eq!(read, Err(Refusal::at(8, 257)));
    }
}

/// The text's lines, each with its LF.
fn lines(text: &[u8]) -> Vec<&[u8]> {
    text.split_inclusive(|byte| *byte == b'\n').collect()
}

/// What holds of every refusal of a text with `fields` fields a line and at
/// most `limit` lines, whatever the number.
fn shape_is_right(text: &[u8], refusal: Refusal, fields: usize, limit: usize) {
    let line = refusal.line.expect("a line");
    let lines = lines(text);
    assert!((1..=limit + 1).contains(&line) && line <= lines.len());
    let content = lines[line - 1];
    let tabs = content.iter().filter(|byte| **byte == b'\t').count();
    let ended = content.ends_with(b"\n");
    assert_eq!(refusal.number == 12, !ended, "{refusal:?}");
    if ended {
        assert_eq!(refusal.number == 1, tabs + 1 != fields, "{refusal:?}");
    }
    if refusal.number == 8 {
        assert_eq!(line, limit + 1);
    }
}

/// The fields of the refused line, cut at tabs.
fn fields_of(text: &[u8], refusal: Refusal) -> Vec<String> {
    let line = lines(text)[refusal.line.expect("a line") - 1];
    let content = String::from_utf8_lossy(line);
    let content = content.strip_suffix('\n').unwrap_or(&content);
    content.split('\t').map(str::to_string).collect()
}

/// Whether a condition has a fifth comparison, and its first five have the length
/// of one.
fn has_a_fifth(condition: &str) -> bool {
    let parts: Vec<&str> = condition.split(',').collect();
    parts.len() > 4 && parts[..5].iter().all(|part| part.len() >= 3)
}

/// A number outside its range is 0 or has two digits or more.
fn has_far_number(fields: &[String]) -> bool {
    let digits = |field: &str| field.chars().filter(char::is_ascii_digit).count();
    fields
        .iter()
        .any(|field| field == "0" || digits(field) >= 2)
}

fn rules_cause_is_right(text: &[u8], refusal: Refusal) {
    let fields = fields_of(text, refusal);
    match refusal.number {
        1 | 8 | 12 => {}
        2 => assert!(fields[..5].iter().any(|field| field.parse::<u64>().is_err()
            || field.starts_with('+')
            || (field.starts_with('0') && field != "0"))),
        3 => assert!(has_far_number(&fields)),
        4 => assert!(fields[5..].iter().any(|field| field != "-")),
        6 => {
            let [a, b] = [&fields[3], &fields[4]].map(|field| field.parse::<u64>());
            assert!(b.expect("b is a number") <= a.expect("a is a number"));
        }
        16 => {
            let code: u64 = fields[0].parse().expect("a code");
            let equal = fields[1] == fields[2] && code >= 15;
            assert!((13..=16).contains(&code) && (equal || fields[6] != "-"));
        }
        17 => assert!(fields[5..].iter().any(|field| has_a_fifth(field))),
        other => panic!("{other} is no refusal of a rules text"),
    }
}

/// The answer on the lines up to the refused one is the same, and the lines
/// before it are accepted.
fn only_the_line_matters<T: std::fmt::Debug>(
    text: &[u8],
    refusal: Refusal,
    read: fn(&[u8]) -> Result<Vec<T>, Refusal>,
) {
    let line = refusal.line.expect("a line");
    let head = lines(text)[..line].concat();
    assert_eq!(read(&head).err(), Some(refusal));
    let before = lines(text)[..line - 1].concat();
    assert_eq!(read(&before).map(|records| records.len()), Ok(line - 1));
}

#[test]
fn damaged_rules_texts() {
    let mut random = Random::new(23);
    let mut seen: BTreeMap<u8, usize> = BTreeMap::new();
    for _ in 0..20_000 {
        let text = damaged_rules_text(&mut random);
        let number = match read_rules(&text) {
            // Every number and condition has one text alone.
            Ok(rules) => {
                assert_eq!(write_rules(&rules), text);
                0
            }
            Err(refusal) => {
                shape_is_right(&text, refusal, 7, 16);
                rules_cause_is_right(&text, refusal);
                only_the_line_matters(&text, refusal, read_rules);
                refusal.number
            }
        };
        *seen.entry(number).or_default() += 1;
    }
    let numbers: Vec<u8> = seen.keys().copied().collect();
    assert_eq!(numbers, [0, 1, 2, 3, 4, 6, 8, 12, 16, 17], "{seen:?}");
    assert!(seen.values().all(|count| *count > 40), "{seen:?}");
}

fn cycle_cause_is_right(text: &[u8], refusal: Refusal) {
    let fields = fields_of(text, refusal);
    match refusal.number {
        1 | 8 | 12 => {}
        2 => assert!(fields.iter().any(|field| field.parse::<i64>().is_err()
            || field.starts_with('+')
            || field.starts_with('-')
            || (field.starts_with('0') && field != "0"))),
        3 => assert!(has_far_number(&fields)),
        7 => {
            let line = refusal.line.expect("a line");
            let before = fields_of(text, Refusal::at(7, line - 1));
            let [time, last] = [&fields[0], &before[0]].map(|field| field.parse::<u64>());
            assert!(time.expect("a number") < last.expect("a number"));
        }
        other => panic!("{other} is no refusal of a cycle text"),
    }
}

#[test]
fn damaged_cycle_texts() {
    let mut random = Random::new(24);
    let mut seen: BTreeMap<u8, usize> = BTreeMap::new();
    for _ in 0..6000 {
        let text = damaged_cycle_text(&mut random);
        let number = match read_cycle(&text) {
            Ok(events) => {
                assert_eq!(write_cycle(&events), text);
                0
            }
            Err(refusal) => {
                shape_is_right(&text, refusal, 6, 256);
                cycle_cause_is_right(&text, refusal);
                only_the_line_matters(&text, refusal, read_cycle);
                refusal.number
            }
        };
        *seen.entry(number).or_default() += 1;
    }
    let numbers: Vec<u8> = seen.keys().copied().collect();
    assert_eq!(numbers, [0, 1, 2, 3, 7, 8, 12], "{seen:?}");
    assert!(seen.values().all(|count| *count > 40), "{seen:?}");
}

/// The refusals of 300 valid texts of two rules with one damage of this kind,
/// 0 for those that are still valid, and how many texts were changed.
fn after_damage(kind: Damage) -> (BTreeSet<u8>, usize) {
    let mut random = Random::new(25);
    let mut numbers = BTreeSet::new();
    let mut changed = 0;
    for _ in 0..300 {
        let text = random_rules_text(&mut random, 2);
        let damaged = damage(&mut random, &text, kind, 16);
        changed += usize::from(damaged != text);
        numbers.insert(read_rules(&damaged).map_or_else(|refusal| refusal.number, |_| 0));
    }
    (numbers, changed)
}

#[test]
fn each_kind_of_damage_has_its_refusals() {
    for (kind, numbers) in [
        (Damage::AddReturn, &[4][..]),
        (Damage::TabAtStart, &[1]),
        (Damage::TabAtEnd, &[1]),
        (Damage::DropField, &[1]),
        (Damage::DoubleField, &[1]),
        (Damage::EmptyLine, &[1]),
        (Damage::RemoveLastFeed, &[12]),
        (Damage::OneTooMany, &[8]),
        (Damage::Full, &[0]),
        (Damage::SwapLines, &[0]),
        (Damage::DropLine, &[0]),
        (Damage::DoubleLine, &[0]),
        // `-` alone becomes `-,-`, four comparisons become five.
        (Damage::RepeatComparison, &[0, 4, 17]),
        // A rule about the cycle has no correlation.
        (Damage::OddComparison, &[0, 3, 4, 16, 17]),
        (Damage::MixedComparison, &[0, 3, 4, 16, 17]),
        (Damage::ManyComparisons, &[0, 16, 17]),
        (Damage::ManyAndOdd, &[0, 3, 4, 16, 17]),
        (Damage::OverallCode, &[0, 16]),
        (Damage::EqualActivities, &[0, 16]),
        // An end of 0 is outside its range.
        (Damage::EmptyWindow, &[3, 6]),
    ] {
        let found: Vec<u8> = after_damage(kind).0.into_iter().collect();
        assert_eq!(found, numbers, "{kind:?}");
    }
}

#[test]
fn each_kind_of_damage_changes_texts() {
    for kind in Damage::ALL {
        let (_, changed) = after_damage(kind);
        assert!(changed > 100, "{kind:?} {changed}");
    }
}
