//! The texts of rules and events, written into a lent buffer.
use crate::run::{valid_run, valid_table};
use crate::types::*;

/// A text under way.
pub struct Text<const ROOM: usize> {
    bytes: [u8; ROOM],
    length: usize,
}

impl<const ROOM: usize> Text<ROOM> {
    pub fn new() -> Self {
        Text {
            bytes: [0; ROOM],
            length: 0,
        }
    }

    pub fn byte(&mut self, byte: u8) {
        self.bytes[self.length] = byte;
        self.length += 1;
    }

    pub fn bytes(&mut self, bytes: &[u8]) {
        let end = self.length + bytes.len();
        self.bytes[self.length..end].copy_from_slice(bytes);
        self.length = end;
    }

    fn number(&mut self, mut n: u32) {
        if n < 10 {
            return self.byte(b'0' + n as u8);
        }
        let mut digits = [0; 10];
        let mut first = 10;
        while n > 0 {
            first -= 1;
            digits[first] = b'0' + (n % 10) as u8;
            n /= 10;
        }
        self.bytes(&digits[first..]);
    }

    fn integer(&mut self, z: i32) {
        if z < 0 {
            self.byte(b'-');
        }
        self.number(z.unsigned_abs());
    }

    pub fn field(&mut self, n: u32, end: u8) {
        self.number(n);
        self.byte(end);
    }

    fn reading(&mut self, reading: Reading, end: u8) {
        match reading {
            Reading::Blank => self.byte(b'-'),
            Reading::Value(z) => self.integer(z),
        }
        self.byte(end);
    }

    fn event(&mut self, e: &Event) {
        let [one, two, three, four] = e.readings;
        self.field(e.time, b'\t');
        self.field(e.activity as u32, b'\t');
        self.reading(one, b'\t');
        self.reading(two, b'\t');
        self.reading(three, b'\t');
        self.reading(four, b'\n');
    }

    fn comparison(&mut self, c: &Comparison) {
        self.number(c.reading as u32);
        self.byte(match c.operator {
            Operator::Equal => b'=',
            Operator::NotEqual => b'!',
            Operator::Less => b'<',
            Operator::AtMost => b'l',
            Operator::Greater => b'>',
            Operator::AtLeast => b'g',
        });
        match c.reference {
            Reference::Constant(k) => self.integer(k),
            Reference::Activation(g, k) => {
                self.byte(b'@');
                self.number(g as u32);
                self.byte(b':');
                self.integer(k);
            }
        }
    }

    fn condition(&mut self, c: &Condition, end: u8) {
        if c.count == 0 {
            self.byte(b'-');
        }
        for (k, comparison) in c.used().iter().enumerate() {
            if k > 0 {
                self.byte(b',');
            }
            self.comparison(comparison);
        }
        self.byte(end);
    }

    fn rule(&mut self, r: &Rule) {
        self.field(r.code as u32, b'\t');
        self.field(r.activation as u32, b'\t');
        self.field(r.target as u32, b'\t');
        self.field(r.window.from, b'\t');
        match r.window.until {
            None => self.byte(b'-'),
            Some(b) => self.number(b),
        }
        self.byte(b'\t');
        self.condition(&r.condition, b'\t');
        self.condition(&r.correlation, b'\n');
    }

    /// The text in front of the buffer, if that has room.
    pub fn write(&self, out: &mut [u8]) -> Result<usize, Cause> {
        let text = &self.bytes[..self.length];
        let front = out.get_mut(..text.len()).ok_or(15)?;
        front.copy_from_slice(text);
        Ok(text.len())
    }
}

#[inline(never)]
pub fn write_rules(table: &Table, out: &mut [u8]) -> Result<usize, Cause> {
    if !valid_table(table) {
        return Err(11);
    }
    let mut text = Text::<2480>::new();
    for r in &table.rules[..table.count] {
        text.rule(r);
    }
    text.write(out)
}

#[inline(never)]
pub fn write_cycle(run: &Run, out: &mut [u8]) -> Result<usize, Cause> {
    if !valid_run(run) {
        return Err(11);
    }
    let mut text = Text::<15872>::new();
    for e in &run.events[..run.count] {
        text.event(e);
    }
    text.write(out)
}
