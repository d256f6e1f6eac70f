//! The readers of the two texts of document 01, "The texts", and their
//! writers.
//!
//! "Lines are read downward, the first refusal ends it." In a line: 12, 1, then
//! field by field 2 or 4, 3, 17 (in a condition comparison by comparison), then 6
//! or 7, then 16, then 8. Of these, cards of document 02 add 16, "it follows 6",
//! and 17, "a fifth comparison in one condition".

use crate::model::{Comparison, Event, Operator, Reference, Rule};
use crate::natural::Natural;
use crate::refusal::Refusal;
use crate::slots::{COMPARISON_SLOTS, EVENT_SLOTS, RULE_SLOTS};
use std::ops::RangeInclusive;

const CODES: RangeInclusive<i128> = 1..=16;
const ACTIVITIES: RangeInclusive<i128> = 1..=64;
/// Times and a.
const TIMES: RangeInclusive<i128> = 0..=4_294_967_295;
const ENDS: RangeInclusive<i128> = 1..=4_294_967_295;
/// Readings and k.
const READINGS: RangeInclusive<i128> = -2_147_483_648..=2_147_483_647;

/// The operators with their bytes, "in the order of the six above".
const OPERATORS: [(u8, Operator); 6] = [
    (b'=', Operator::Equal),
    (b'!', Operator::NotEqual),
    (b'<', Operator::Less),
    (b'l', Operator::LessOrEqual),
    (b'>', Operator::Greater),
    (b'g', Operator::GreaterOrEqual),
];

/// The rules of a rules text, in order.
pub fn read_rules(text: &[u8]) -> Result<Vec<Rule>, Refusal> {
    read_records(text, RULE_SLOTS, |fields, _| rule_of(fields))
}

/// The events of a cycle text, in order.
pub fn read_cycle(text: &[u8]) -> Result<Vec<Event>, Refusal> {
    read_records(text, EVENT_SLOTS, |fields, last: Option<&Event>| {
        let event = event_of(fields)?;
        // "time below the last taken"
        match last {
            Some(last) if event.time < last.time => Err(7),
            _ => Ok(event),
        }
    })
}

/// "One record a line, fields parted by a tab, each line ended by LF (byte 10).
/// An empty text has no records." `read` gets the fields and the record before,
/// and answers the record or a number.
fn read_records<T>(
    text: &[u8],
    limit: usize,
    read: impl Fn(&[&[u8]], Option<&T>) -> Result<T, u8>,
) -> Result<Vec<T>, Refusal> {
    let mut records = Vec::new();
    for (index, line) in text.split_inclusive(|byte| *byte == b'\n').enumerate() {
        let refused = |number| Refusal::at(number, index + 1);
        // "last line lacks LF"
        let content = line.strip_suffix(b"\n").ok_or(refused(12))?;
        let fields: Vec<&[u8]> = content.split(|byte| *byte == b'\t').collect();
        let record = read(&fields, records.last()).map_err(refused)?;
        if records.len() == limit {
            return Err(refused(8));
        }
        records.push(record);
    }
    Ok(records)
}

/// "A rule line: code, activation activity, target activity, a, b, activation
/// condition, correlation condition."
fn rule_of(fields: &[&[u8]]) -> Result<Rule, u8> {
    let [code, activation, target, a, b, activation_condition, correlation] = fields else {
        return Err(1);
    };
    let code = unsigned(code, CODES)? as u8;
    let activation = unsigned(activation, ACTIVITIES)? as u8;
    let target = unsigned(target, ACTIVITIES)? as u8;
    let a = unsigned(a, TIMES)? as u32;
    let b = unless_dash(b, |b| unsigned(b, ENDS))?.map(|b| b as u32);
    let activation_condition = condition_of(activation_condition, false)?;
    let correlation = condition_of(correlation, true)?;
    // "b not above a"
    if b.is_some_and(|b| b <= a) {
        return Err(6);
    }
    let rule = Rule::new(code, activation, target, a, b)
        .with_activation_condition(activation_condition)
        .with_correlation(correlation);
    // "equal activities under 15 or 16, or a correlation under 13 to 16"
    Some(rule).filter(Rule::fits_its_template).ok_or(16)
}

/// "A cycle line: time, activity, four readings."
fn event_of(fields: &[&[u8]]) -> Result<Event, u8> {
    let [time, activity, readings @ ..] = fields else {
        return Err(1);
    };
    let readings: &[&[u8]; 4] = readings.try_into().map_err(|_| 1)?;
    let time = unsigned(time, TIMES)? as u32;
    let activity = unsigned(activity, ACTIVITIES)? as u8;
    let mut event = Event::new(time, activity);
    for (slot, field) in event.readings.iter_mut().zip(readings) {
        *slot = unless_dash(field, |field| signed(field, READINGS, 2))?.map(|value| value as i32);
    }
    Ok(event)
}

/// "`-` alone means blank reading, no end, or empty condition".
fn unless_dash<T>(field: &[u8], read: impl Fn(&[u8]) -> Result<T, u8>) -> Result<Option<T>, u8> {
    match field {
        b"-" => Ok(None),
        other => read(other).map(Some),
    }
}

/// The value of a field without a sign; refused with 2 or 3.
fn unsigned(field: &[u8], range: RangeInclusive<i128>) -> Result<i128, u8> {
    if !has_unsigned_form(field) {
        return Err(2);
    }
    within(field, range)
}

/// The value of a reading or k; refused with `malformed` or 3.
fn signed(field: &[u8], range: RangeInclusive<i128>, malformed: u8) -> Result<i128, u8> {
    // "readings and k may have one `-` before the non-zero digit"
    let digits = match field {
        [b'-', digits @ ..] if digits != b"0" => digits,
        whole => whole,
    };
    if !has_unsigned_form(digits) {
        return Err(malformed);
    }
    within(field, range)
}

/// "A number is `0`, or a non-zero digit and digits".
fn has_unsigned_form(field: &[u8]) -> bool {
    match field {
        b"0" => true,
        [b'1'..=b'9', digits @ ..] => digits.iter().all(u8::is_ascii_digit),
        _ => false,
    }
}

/// "number outside its range": the value of a field of the number form.
fn within(field: &[u8], range: RangeInclusive<i128>) -> Result<i128, u8> {
    let (sign, digits) = match field {
        [b'-', digits @ ..] => (-1, digits),
        whole => (1, whole),
    };
    // No range has a number of more than 64 bits.
    let size = Natural::of_decimal(digits).small().ok_or(3)?;
    let value = sign * i128::from(size);
    Some(value).filter(|value| range.contains(value)).ok_or(3)
}

/// "Comparisons are parted by commas". The fifth is read before it is refused, and
/// what follows it is not looked at.
fn condition_of(field: &[u8], correlation: bool) -> Result<Vec<Comparison>, u8> {
    if field == b"-" {
        return Ok(Vec::new());
    }
    let mut condition: Vec<Comparison> = Vec::new();
    for part in field.split(|byte| *byte == b',') {
        let comparison = comparison_of(part, correlation)?;
        // "a fifth comparison in one condition"
        if condition.len() == COMPARISON_SLOTS {
            return Err(17);
        }
        condition.push(comparison);
    }
    Ok(condition)
}

/// "a digit `1` to `4` for the reading, then one byte of `=` `!` `<` `l` `>`
/// `g` .., then k, or `@`, a digit `1` to `4` for the activation's reading,
/// `:`, k. A k not of the number form is 4, one outside its range 3."
fn comparison_of(part: &[u8], correlation: bool) -> Result<Comparison, u8> {
    let [digit @ b'1'..=b'4', byte, reference @ ..] = part else {
        return Err(4);
    };
    let (_, operator) = OPERATORS.iter().find(|(b, _)| b == byte).ok_or(4)?;
    let reading = digit - b'0';
    match reference {
        // "`@` in an activation condition included"
        [b'@', ..] if !correlation => Err(4),
        [b'@', digit @ b'1'..=b'4', b':', k @ ..] => {
            let k = signed(k, READINGS, 4)? as i32;
            let g = digit - b'0';
            Ok(Comparison::with_activation(reading, *operator, g, k))
        }
        k => {
            let k = signed(k, READINGS, 4)? as i32;
            Ok(Comparison::with_constant(reading, *operator, k))
        }
    }
}

/// The rules text of these rules.
pub fn write_rules(rules: &[Rule]) -> Vec<u8> {
    rules
        .iter()
        .flat_map(|rule| rule_line(rule).into_bytes())
        .collect()
}

/// The cycle text of these events.
pub fn write_cycle(events: &[Event]) -> Vec<u8> {
    events
        .iter()
        .flat_map(|event| event_line(event).into_bytes())
        .collect()
}

fn rule_line(rule: &Rule) -> String {
    format!(
        "{}\t{}\t{}\t{}\t{}\t{}\t{}\n",
        rule.code,
        rule.activation,
        rule.target,
        rule.a,
        or_dash(rule.b),
        condition_text(&rule.activation_condition),
        condition_text(&rule.correlation),
    )
}

fn event_line(event: &Event) -> String {
    let readings = event.readings.map(or_dash).join("\t");
    format!("{}\t{}\t{readings}\n", event.time, event.activity)
}

fn or_dash<T: ToString>(value: Option<T>) -> String {
    value.map_or("-".to_string(), |value| value.to_string())
}

fn condition_text(condition: &[Comparison]) -> String {
    if condition.is_empty() {
        return "-".to_string();
    }
    let parts: Vec<String> = condition.iter().map(comparison_text).collect();
    parts.join(",")
}

fn comparison_text(comparison: &Comparison) -> String {
    let (byte, _) = OPERATORS
        .iter()
        .find(|(_, operator)| *operator == comparison.operator)
        .expect("every operator has a byte");
    let reference = match comparison.reference {
        Reference::Constant(k) => k.to_string(),
        Reference::Activation { reading, plus } => format!("@{reading}:{plus}"),
    };
    format!("{}{}{reference}", comparison.reading, char::from(*byte))
}
