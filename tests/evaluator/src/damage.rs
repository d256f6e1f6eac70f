//! Seeded random texts: valid ones, and ones damaged in a named way.

use crate::random::{random_cycle, random_rules, Random};
use crate::slots::{EVENT_SLOTS, RULE_SLOTS};
use crate::text::{write_cycle, write_rules};

/// The ways to damage a text. A damaged text may still be valid.
#[derive(Debug, Clone, Copy, PartialEq, Eq, PartialOrd, Ord, Hash)]
pub enum Damage {
    ChangeByte,
    DropByte,
    DoubleByte,
    InsertByte,
    SwapFields,
    DropField,
    DoubleField,
    ReplaceField,
    AddReturn,
    TabAtStart,
    TabAtEnd,
    EmptyLine,
    SwapLines,
    DropLine,
    DoubleLine,
    RemoveLastFeed,
    /// In a rule's condition: a comparison of the list below in place of the
    /// field, or added to it.
    OddComparison,
    /// In a rule's condition: a comparison put together from random parts, in
    /// place of the field or added to it.
    MixedComparison,
    /// In a rule's condition: one of its own comparisons once more.
    RepeatComparison,
    /// In a rule's condition: four to six comparisons.
    ManyComparisons,
    /// In a rule's condition: four to six comparisons, of which one of the last
    /// ones is of the list below or put together from random parts.
    ManyAndOdd,
    /// In a rule's condition: another byte in place of an operator.
    OtherOperator,
    /// In a rule: a code from 13 to 16 in place of its code.
    OverallCode,
    /// In a rule: its activation activity also as its target activity.
    EqualActivities,
    /// In a rule: its a also as its b.
    EmptyWindow,
    /// One line more than the text may have.
    OneTooMany,
    /// As many lines as the text may have.
    Full,
}

impl Damage {
    pub const ALL: [Damage; 27] = [
        Damage::ChangeByte,
        Damage::DropByte,
        Damage::DoubleByte,
        Damage::InsertByte,
        Damage::SwapFields,
        Damage::DropField,
        Damage::DoubleField,
        Damage::ReplaceField,
        Damage::AddReturn,
        Damage::TabAtStart,
        Damage::TabAtEnd,
        Damage::EmptyLine,
        Damage::SwapLines,
        Damage::DropLine,
        Damage::DoubleLine,
        Damage::RemoveLastFeed,
        Damage::OddComparison,
        Damage::MixedComparison,
        Damage::RepeatComparison,
        Damage::ManyComparisons,
        Damage::ManyAndOdd,
        Damage::OtherOperator,
        Damage::OverallCode,
        Damage::EqualActivities,
        Damage::EmptyWindow,
        Damage::OneTooMany,
        Damage::Full,
    ];
}

/// Field contents at the edges of document 01's number form and ranges.
pub const EDGE_FIELDS: [&str; 32] = [
    "",
    "-",
    "0",
    "00",
    "01",
    "-0",
    "-1",
    "+1",
    "1",
    "4",
    "5",
    "12",
    "13",
    "16",
    "17",
    "64",
    "65",
    "255",
    "256",
    "4294967295",
    "4294967296",
    "2147483647",
    "2147483648",
    "-2147483648",
    "-2147483649",
    "--1",
    "1-",
    " 1",
    "1 ",
    "1.0",
    "0x1",
    "18446744073709551616",
];

/// Bytes that have a meaning in a text, and some that have none.
const BYTES: &[u8] = b"0123456789-+,@:=!<l>g\t\n\r ~LG.\x00\x7f\x80\xff";

/// Comparisons of the right form and of forms close to it.
pub const ODD_COMPARISONS: [&str; 48] = [
    "1=0",
    "2!-1",
    "3<7",
    "4l2147483647",
    "1>-2147483648",
    "2g0",
    "1=@1:0",
    "4g@4:-2147483648",
    "1=2147483648",
    "1=-2147483649",
    "1=@1:2147483648",
    "3!@2:-2147483649",
    "0=1",
    "5=1",
    "11=1",
    "-1=1",
    "1",
    "1=",
    "=1",
    "",
    "-",
    "1==1",
    "1<=1",
    "1=>1",
    "1L1",
    "1G1",
    "1~1",
    "1≤1",
    "1=-0",
    "1=+1",
    "1=01",
    "1=-",
    "1= 1",
    " 1=1",
    "1 =1",
    "1=1 ",
    "1=@",
    "1=@1",
    "1=@1:",
    "1=@:1",
    "1=@0:1",
    "1=@5:1",
    "1=@5:2147483648",
    "1=@1:-0",
    "1=@1:+1",
    "1=@@1:1",
    "1=@1;1",
    "1=1@1:1",
];

/// A rules text of `count` valid rules.
pub fn random_rules_text(random: &mut Random, count: usize) -> Vec<u8> {
    write_rules(&random_rules(random, count))
}

/// A cycle text of `count` valid events.
pub fn random_cycle_text(random: &mut Random, count: usize) -> Vec<u8> {
    let rules = random_rules(random, 2);
    write_cycle(&random_cycle(random, &rules, count))
}

/// A rules text with one to three kinds of damage.
pub fn damaged_rules_text(random: &mut Random) -> Vec<u8> {
    let count = random.pick(&[1, 1, 2, 3, RULE_SLOTS - 1, RULE_SLOTS, RULE_SLOTS + 1]);
    let text = random_rules_text(random, count);
    damaged(random, text, RULE_SLOTS)
}

/// A cycle text with one to three kinds of damage.
pub fn damaged_cycle_text(random: &mut Random) -> Vec<u8> {
    let count = random.pick(&[1, 1, 2, 2, 3, 3, 5, EVENT_SLOTS, EVENT_SLOTS + 1]);
    let text = random_cycle_text(random, count);
    damaged(random, text, EVENT_SLOTS)
}

fn damaged(random: &mut Random, mut text: Vec<u8>, limit: usize) -> Vec<u8> {
    for _ in 0..random.pick(&[1, 1, 1, 2, 3]) {
        let kind = match random.one_in(8) && limit == RULE_SLOTS {
            true => random.pick(&[Damage::ManyComparisons, Damage::ManyAndOdd]),
            false => random.pick(&Damage::ALL),
        };
        text = damage(random, &text, kind, limit);
    }
    text
}

/// The text with one damage of a kind; `limit` is the number of lines the text
/// may have. A text that the kind does not fit stays as it is.
pub fn damage(random: &mut Random, text: &[u8], kind: Damage, limit: usize) -> Vec<u8> {
    use Damage::*;
    if text.is_empty() {
        return text.to_vec();
    }
    match kind {
        ChangeByte | DropByte | DoubleByte | InsertByte => damage_byte(random, text, kind),
        RemoveLastFeed => text.strip_suffix(b"\n").unwrap_or(text).to_vec(),
        EmptyLine | SwapLines | DropLine | DoubleLine => damage_lines(random, text, kind),
        OneTooMany => repeat_last_line(text, limit + 1),
        Full => repeat_last_line(text, limit),
        _ => damage_one_line(random, text, kind),
    }
}

fn damage_byte(random: &mut Random, text: &[u8], kind: Damage) -> Vec<u8> {
    let mut bytes = text.to_vec();
    let at = random.below(bytes.len());
    match kind {
        Damage::ChangeByte => bytes[at] = random_byte(random),
        Damage::DropByte => drop(bytes.remove(at)),
        Damage::DoubleByte => bytes.insert(at, bytes[at]),
        _ => bytes.insert(at, random_byte(random)),
    }
    bytes
}

fn random_byte(random: &mut Random) -> u8 {
    if random.one_in(4) {
        return random.below(256) as u8;
    }
    random.pick(BYTES)
}

/// The lines, each with its LF where it has one.
fn lines_of(text: &[u8]) -> Vec<Vec<u8>> {
    let lines = text.split_inclusive(|byte| *byte == b'\n');
    lines.map(<[u8]>::to_vec).collect()
}

fn damage_lines(random: &mut Random, text: &[u8], kind: Damage) -> Vec<u8> {
    let mut lines = lines_of(text);
    let at = random.below(lines.len());
    let other = random.below(lines.len());
    match kind {
        Damage::EmptyLine => lines.insert(at, b"\n".to_vec()),
        Damage::SwapLines => lines.swap(at, other),
        Damage::DropLine => drop(lines.remove(at)),
        _ => lines.insert(at, lines[at].clone()),
    }
    lines.concat()
}

fn repeat_last_line(text: &[u8], count: usize) -> Vec<u8> {
    let mut lines = lines_of(text);
    let last = lines[lines.len() - 1].clone();
    lines.resize(count, last);
    lines.concat()
}

fn damage_one_line(random: &mut Random, text: &[u8], kind: Damage) -> Vec<u8> {
    let mut lines = lines_of(text);
    let at = random.below(lines.len());
    let feed = lines[at].ends_with(b"\n");
    let content = lines[at].strip_suffix(b"\n").unwrap_or(&lines[at]);
    let mut changed = damaged_content(random, content, kind);
    if feed {
        changed.push(b'\n');
    }
    lines[at] = changed;
    lines.concat()
}

fn damaged_content(random: &mut Random, content: &[u8], kind: Damage) -> Vec<u8> {
    match kind {
        Damage::AddReturn => [content, b"\r"].concat(),
        Damage::TabAtStart => [b"\t", content].concat(),
        Damage::TabAtEnd => [content, b"\t"].concat(),
        _ => {
            let fields = content.split(|byte| *byte == b'\t');
            let mut fields: Vec<Vec<u8>> = fields.map(<[u8]>::to_vec).collect();
            damage_fields(random, &mut fields, kind);
            fields.join(&b'\t')
        }
    }
}

fn damage_fields(random: &mut Random, fields: &mut Vec<Vec<u8>>, kind: Damage) {
    let at = random.below(fields.len());
    let other = random.below(fields.len());
    match kind {
        Damage::SwapFields => fields.swap(at, other),
        Damage::DropField => drop(fields.remove(at)),
        Damage::DoubleField => fields.insert(at, fields[at].clone()),
        Damage::ReplaceField => fields[at] = edge_field(random),
        Damage::OverallCode => {
            let code = random.pick(&["13", "14", "15", "16"]);
            fields[0] = code.as_bytes().to_vec();
        }
        Damage::EqualActivities if fields.len() > 2 => fields[2] = fields[1].clone(),
        Damage::EmptyWindow if fields.len() > 4 => fields[4] = fields[3].clone(),
        Damage::EqualActivities | Damage::EmptyWindow => {}
        _ => {
            // The conditions are the last two fields of a rule line.
            let back = 1 + random.below(2).min(fields.len() - 1);
            let last = fields.len() - back;
            damage_condition(random, &mut fields[last], kind, back == 1);
        }
    }
}

/// An edge value, or a number of thousands of digits.
fn edge_field(random: &mut Random) -> Vec<u8> {
    if random.one_in(12) {
        let digit = random.pick(b"0123456789");
        let sign = random.pick(&[&b""[..], b"-"]);
        return [sign, &vec![digit; 1000 + random.below(3000)]].concat();
    }
    random.pick(&EDGE_FIELDS).as_bytes().to_vec()
}

fn damage_condition(random: &mut Random, field: &mut Vec<u8>, kind: Damage, correlation: bool) {
    match kind {
        Damage::ManyComparisons => *field = many_comparisons(random, correlation).join(&b','),
        Damage::ManyAndOdd => {
            let mut parts = many_comparisons(random, correlation);
            let at = parts.len() - 1 - random.below(3);
            parts[at] = match random.one_in(2) {
                true => random.pick(&ODD_COMPARISONS).as_bytes().to_vec(),
                false => mixed_comparison(random),
            };
            *field = parts.join(&b',');
        }
        Damage::OddComparison => {
            let odd = random.pick(&ODD_COMPARISONS).as_bytes();
            put_comparison(random, field, odd);
        }
        Damage::MixedComparison => {
            let mixed = mixed_comparison(random);
            put_comparison(random, field, &mixed);
        }
        Damage::RepeatComparison => {
            let parts: Vec<&[u8]> = field.split(|byte| *byte == b',').collect();
            let again = random.pick(&parts);
            *field = [&field[..], b",", again].concat();
        }
        _ => {
            let byte = random.pick(b"=!<l>gLG~@:01- ");
            if let Some(operator) = field.get_mut(1) {
                *operator = byte;
            }
        }
    }
}

/// In place of the field, after it, or before it.
fn put_comparison(random: &mut Random, field: &mut Vec<u8>, comparison: &[u8]) {
    *field = match random.below(3) {
        0 => comparison.to_vec(),
        1 => [&field[..], b",", comparison].concat(),
        _ => [comparison, b",", &field[..]].concat(),
    };
}

/// Four to six comparisons of the right form, on any readings.
fn many_comparisons(random: &mut Random, correlation: bool) -> Vec<Vec<u8>> {
    let count = random.pick(&[4, 5, 5, 6]);
    let one = |random: &mut Random| {
        let reading = random.pick(b"11112234");
        let operator = random.pick(b"=!<l>g");
        let reference = match correlation && random.one_in(2) {
            true => random.pick(&["@1:", "@4:"]),
            false => "",
        };
        let k = random.pick(&["0", "5", "7", "-1", "2147483647", "-2147483648"]);
        [&[reading, operator], reference.as_bytes(), k.as_bytes()].concat()
    };
    (0..count).map(|_| one(random)).collect()
}

/// A reading, an operator, a reference and an edge value for k, each of them
/// mostly right.
fn mixed_comparison(random: &mut Random) -> Vec<u8> {
    let reading = random.pick(b"1234123412341234059-");
    let operator = random.pick(b"=!<l>g=!<l>g=!<l>gLG:");
    let references = [
        "", "", "", "", "@1:", "@4:", "@0:", "@5:", "@", "@1", ":", "@@2:",
    ];
    let reference = random.pick(&references).as_bytes();
    let k = edge_field(random);
    [&[reading, operator], reference, &k].concat()
}
