//! Mistakes in reading long numbers: what the digits of a text are taken for.

use super::{Mistake, State};

/// What is read in place of some digits.
type Misread = fn(&str) -> String;

impl State {
    /// The text with each of its numbers as it is misread.
    pub(super) fn misread(&self, text: &[u8]) -> Vec<u8> {
        let misread: Misread = match self.mistake {
            Mistake::CountsIn32Bits => |digits| wrapped(digits, 1 << 32),
            Mistake::CountsIn64Bits => |digits| wrapped(digits, 1 << 64),
            Mistake::ReadsTenDigits => |digits| digits[..digits.len().min(10)].to_string(),
            Mistake::MalformsLongNumbers => |digits| match digits.len() {
                0..20 => digits.to_string(),
                _ => format!("{digits}x"),
            },
            _ => return text.to_vec(),
        };
        let parts = text.chunk_by(|a, b| a.is_ascii_digit() == b.is_ascii_digit());
        let parts = parts.map(|part| match std::str::from_utf8(part) {
            Ok(digits) if part[0].is_ascii_digit() => misread(digits).into_bytes(),
            _ => part.to_vec(),
        });
        parts.collect::<Vec<_>>().concat()
    }
}

/// The digits' value in a counter that goes round at `end`; digits that begin with 0 stay.
fn wrapped(digits: &str, end: u128) -> String {
    if digits.starts_with('0') {
        return digits.to_string();
    }
    let value = |v: u128, byte: u8| (v * 10 + u128::from(byte - b'0')) % end;
    digits.bytes().fold(0, value).to_string()
}
