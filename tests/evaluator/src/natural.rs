//! Natural numbers of any size, for the numbers in texts: document 01 bounds
//! their values, not how many digits may stand in a field.

/// So many decimal digits always fit 32 bits.
const CHUNK: usize = 9;

/// Digits to the base 2^32, the lowest first; the last one is not 0.
#[derive(Debug, Clone, PartialEq, Eq)]
pub struct Natural(Vec<u32>);

impl Natural {
    /// The number with these digits to the base 2^32, the lowest first.
    pub fn of_words(mut words: Vec<u32>) -> Natural {
        while words.last() == Some(&0) {
            words.pop();
        }
        Natural(words)
    }

    /// The value of decimal digits, of which nine are taken at a time.
    pub fn of_decimal(digits: &[u8]) -> Natural {
        let mut number = Natural(Vec::new());
        let (first, rest) = digits.split_at(digits.len() % CHUNK);
        for chunk in std::iter::once(first).chain(rest.chunks(CHUNK)) {
            let value = chunk
                .iter()
                .fold(0, |v, byte| v * 10 + (byte - b'0') as u32);
            number.extend(10u32.pow(chunk.len() as u32), value);
        }
        number
    }

    /// The number times `factor` plus `term`.
    fn extend(&mut self, factor: u32, term: u32) {
        let mut carry = term as u64;
        for word in &mut self.0 {
            carry += *word as u64 * factor as u64;
            *word = carry as u32;
            carry >>= 32;
        }
        if carry > 0 {
            self.0.push(carry as u32);
        }
    }

    /// The number divided by `divisor`, and the rest.
    fn divide(&mut self, divisor: u32) -> u32 {
        let mut rest = 0u64;
        for word in self.0.iter_mut().rev() {
            let value = (rest << 32) + *word as u64;
            *word = (value / divisor as u64) as u32;
            rest = value % divisor as u64;
        }
        while self.0.last() == Some(&0) {
            self.0.pop();
        }
        rest as u32
    }

    /// The decimal digits, without a zero before them.
    pub fn decimal(mut self) -> Vec<u8> {
        let mut digits = Vec::new();
        while !self.0.is_empty() {
            let chunk = self.divide(10u32.pow(CHUNK as u32));
            digits.extend(format!("{chunk:09}").bytes().rev());
        }
        while digits.last() == Some(&b'0') {
            digits.pop();
        }
        if digits.is_empty() {
            digits.push(b'0');
        }
        digits.reverse();
        digits
    }

    /// The value, if it is one of 64 bits.
    pub fn small(&self) -> Option<u64> {
        match self.0[..] {
            [] => Some(0),
            [low] => Some(low as u64),
            [low, high] => Some(((high as u64) << 32) + low as u64),
            _ => None,
        }
    }
}
