//! Cycle texts, rules texts, and the notebook that reads both.
use crate::judge::{judge_cells, judge_overall};
use crate::types::*;

/// The number up to `end`, and past it; each byte once.
fn digits(f: &[u8], i: &mut usize, end: u8) -> Result<u64, Cause> {
    let mut k = *i;
    let mut v = 0u64;
    while k < f.len() && f[k] != end {
        let d = f[k].wrapping_sub(b'0');
        if d > 9 {
            return Err(2);
        }
        if v < 1 << 32 {
            v = v * 10 + d as u64;
        }
        k += 1;
    }
    if k == *i || (f[*i] == b'0' && k > *i + 1) {
        return Err(2);
    }
    *i = k + 1;
    Ok(v)
}

fn natural(f: &[u8], i: &mut usize, low: u64, high: u64) -> Result<u64, Cause> {
    let v = digits(f, i, b'\t')?;
    if v < low || v > high {
        Err(3)
    } else {
        Ok(v)
    }
}

fn negative(f: &[u8], i: &mut usize, end: u8) -> Result<i32, Cause> {
    if *i < f.len() && f[*i] == b'0' {
        return Err(2);
    }
    let v = digits(f, i, end)?;
    if v > 2147483648 {
        Err(3)
    } else {
        Ok((-(v as i64)) as i32)
    }
}

fn positive(f: &[u8], i: &mut usize, end: u8) -> Result<i32, Cause> {
    let v = digits(f, i, end)?;
    if v > 2147483647 {
        Err(3)
    } else {
        Ok(v as i32)
    }
}

fn reading(f: &[u8], i: &mut usize) -> Result<Reading, Cause> {
    if *i < f.len() && f[*i] == b'-' {
        *i += 1;
        if *i == f.len() || f[*i] == b'\t' {
            *i += 1;
            return Ok(Reading::Blank);
        }
        return negative(f, i, b'\t').map(Reading::Value);
    }
    positive(f, i, b'\t').map(Reading::Value)
}

/// Where LF ends the line, and the tabs before it.
fn scan_line(text: &[u8]) -> (usize, usize) {
    let mut end = 0;
    let mut tabs = 0;
    while end < text.len() && text[end] != b'\n' {
        if text[end] == b'\t' {
            tabs += 1;
        }
        end += 1;
    }
    (end, tabs)
}

/// The first line without its end, if it has one and has so many tabs.
fn first_line(text: &[u8], tabs: usize) -> Result<&[u8], Cause> {
    let (end, found) = scan_line(text);
    if end == text.len() {
        return Err(12);
    }
    if found != tabs {
        return Err(1);
    }
    Ok(&text[..end])
}

fn event(line: &[u8]) -> Result<Event, Cause> {
    let mut i = 0;
    let time = natural(line, &mut i, 0, 4294967295)? as u32;
    let activity = natural(line, &mut i, 1, 64)? as u8;
    let mut readings = [Reading::Blank; 4];
    for x in &mut readings {
        *x = reading(line, &mut i)?;
    }
    Ok(Event {
        time,
        activity,
        readings,
    })
}

pub struct Cycle {
    pub count: usize,
    pub events: [Event; 256],
}

/// The events, or the cause and the line.
#[inline(never)]
pub fn read_cycle(text: &[u8]) -> Result<Cycle, (Cause, usize)> {
    let mut cycle = Cycle {
        count: 0,
        events: [SLOT; 256],
    };
    let mut last = 0;
    let mut rest = text;
    while !rest.is_empty() {
        let number = cycle.count + 1;
        let line = first_line(rest, 5).map_err(|c| (c, number))?;
        let e = event(line).map_err(|c| (c, number))?;
        if e.time < last {
            return Err((7, number));
        }
        if number > 256 {
            return Err((8, number));
        }
        cycle.events[cycle.count] = e;
        cycle.count = number;
        last = e.time;
        rest = &rest[line.len() + 1..];
    }
    Ok(cycle)
}

fn operator(byte: u8) -> Result<Operator, Cause> {
    match byte {
        b'=' => Ok(Operator::Equal),
        b'!' => Ok(Operator::NotEqual),
        b'<' => Ok(Operator::Less),
        b'l' => Ok(Operator::AtMost),
        b'>' => Ok(Operator::Greater),
        b'g' => Ok(Operator::AtLeast),
        _ => Err(4),
    }
}

fn reading_digit(byte: u8) -> Result<u8, Cause> {
    let k = byte.wrapping_sub(b'0');
    if (1..=4).contains(&k) {
        Ok(k)
    } else {
        Err(4)
    }
}

fn constant(f: &[u8], i: &mut usize) -> Result<i32, Cause> {
    let value = if *i < f.len() && f[*i] == b'-' {
        *i += 1;
        negative(f, i, b',')
    } else {
        positive(f, i, b',')
    };
    value.map_err(|c| if c == 2 { 4 } else { c })
}

fn reference(f: &[u8], i: &mut usize, correlation: bool) -> Result<Reference, Cause> {
    let byte = |at: usize| f.get(at).copied().unwrap_or(0);
    if byte(*i) != b'@' {
        return Ok(Reference::Constant(constant(f, i)?));
    }
    if !correlation {
        return Err(4);
    }
    let g = reading_digit(byte(*i + 1))?;
    if byte(*i + 2) != b':' {
        return Err(4);
    }
    *i += 3;
    Ok(Reference::Activation(g, constant(f, i)?))
}

fn condition(f: &[u8], correlation: bool) -> Result<Condition, Cause> {
    let mut c = NO_CONDITION;
    if f == b"-" {
        return Ok(c);
    }
    let mut i = 0;
    while i <= f.len() {
        let byte = |at: usize| f.get(at).copied().unwrap_or(0);
        let reading = reading_digit(byte(i))?;
        let operator = operator(byte(i + 1))?;
        i += 2;
        let reference = reference(f, &mut i, correlation)?;
        if c.count == 4 {
            return Err(17);
        }
        c.comparisons[c.count as usize] = Comparison {
            reading,
            operator,
            reference,
        };
        c.count += 1;
    }
    Ok(c)
}

fn window(line: &[u8], i: &mut usize) -> Result<Window, Cause> {
    let from = natural(line, i, 0, 4294967295)? as u32;
    if line[*i..].starts_with(b"-\t") {
        *i += 2;
        return Ok(Window { from, until: None });
    }
    let until = natural(line, i, 1, 4294967295)? as u32;
    Ok(Window {
        from,
        until: Some(until),
    })
}

fn rule(line: &[u8]) -> Result<Rule, Cause> {
    let mut i = 0;
    let code = natural(line, &mut i, 1, 16)? as u8;
    let activation = natural(line, &mut i, 1, 64)? as u8;
    let target = natural(line, &mut i, 1, 64)? as u8;
    let window = window(line, &mut i)?;
    let rest = &line[i..];
    let tab = rest.iter().position(|&b| b == b'\t').unwrap_or(rest.len());
    let condition_field = condition(&rest[..tab], false)?;
    let correlation = condition(&rest[tab + 1..], true)?;
    if window.until.is_some_and(|b| window.from >= b) {
        return Err(6);
    }
    let rule = Rule {
        code,
        activation,
        target,
        window,
        condition: condition_field,
        correlation,
    };
    if !rule.fits_template() {
        return Err(16);
    }
    Ok(rule)
}

/// The table, or the cause and the line.
#[inline(never)]
pub fn read_rules(text: &[u8]) -> Result<Table, (Cause, usize)> {
    let mut table = Table {
        count: 0,
        rules: [NO_RULE; 16],
    };
    let mut rest = text;
    while !rest.is_empty() {
        let number = table.count + 1;
        let line = first_line(rest, 6).map_err(|c| (c, number))?;
        let r = rule(line).map_err(|c| (c, number))?;
        if number > 16 {
            return Err((8, number));
        }
        table.rules[table.count] = r;
        table.count = number;
        rest = &rest[line.len() + 1..];
    }
    Ok(table)
}

/// The closed run of two texts, or the first refusal.
#[inline(never)]
pub fn read_notebook(rules: &[u8], cycle: &[u8]) -> Result<Run, (Which, Cause, usize)> {
    let table = read_rules(rules).map_err(|(cause, line)| (Which::Rules, cause, line))?;
    let read = read_cycle(cycle).map_err(|(cause, line)| (Which::Cycle, cause, line))?;
    let events = &read.events[..read.count];
    let mut run = Run {
        closed: true,
        table,
        count: read.count,
        events: read.events,
        cells: [Standing::Idle; 4096],
        overall: [Standing::Idle; 16],
        totals: [NO_TOTALS; 16],
        clock: 0,
    };
    judge_overall(false, table.used(), events, 0, &mut run.overall);
    run.begin_totals();
    judge_cells(
        false,
        table.used(),
        events,
        0,
        &mut run.cells,
        &mut run.totals,
    );
    Ok(run)
}
