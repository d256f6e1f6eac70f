//! The program `report`: reads rules.tsv and cycle.tsv in the current folder, and prints the
//! verdicts or a refusal.
use crate::print::{print_texts, write_refused, PRINTED_BYTES};
use crate::text::read_rules;
use crate::types::*;
use std::fs::File;
use std::io::{Read, Write};

/// The most bytes of a file.
const FILE_BYTES: usize = 32768;

/// Reads until the buffer is full, the file ends or a read fails.
fn read_full(file: &mut File, text: &mut [u8]) -> usize {
    let mut length = 0;
    while length < text.len() {
        match file.read(&mut text[length..]) {
            Ok(0) | Err(_) => break,
            Ok(more) => length += more,
        }
    }
    length
}

/// The whole file, unless it is absent, cannot be read, as a folder cannot, or does not fit.
fn read_file<'a>(name: &str, text: &'a mut [u8; FILE_BYTES]) -> Option<&'a [u8]> {
    let mut file = File::open(name).ok()?;
    let length = read_full(&mut file, text);
    let at_end = matches!(file.read(&mut [0]), Ok(0));
    at_end.then_some(&text[..length])
}

/// Puts what is printed in front of the buffer. The cycle file is opened only after the rules are
/// accepted.
fn put_report(out: &mut [u8]) -> Result<usize, Cause> {
    let mut rules = [0; FILE_BYTES];
    let Some(rules) = read_file("rules.tsv", &mut rules) else {
        return write_refused(Which::Rules, 13, 0, out);
    };
    if let Err((cause, line)) = read_rules(rules) {
        return write_refused(Which::Rules, cause, line, out);
    }
    let mut cycle = [0; FILE_BYTES];
    let Some(cycle) = read_file("cycle.tsv", &mut cycle) else {
        return write_refused(Which::Cycle, 13, 0, out);
    };
    print_texts(rules, cycle, out)
}

/// Unlike `report`, it does not say so if standard output cannot be written.
pub fn report() {
    let mut out = [0; PRINTED_BYTES];
    if let Ok(length) = put_report(&mut out) {
        let _ = std::io::stdout().write_all(&out[..length]);
    }
}
