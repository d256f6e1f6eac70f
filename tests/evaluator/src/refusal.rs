//! The refusals of document 01, "When a call is refused", and those that the
//! cards of document 02 add.

/// A refusal as the table's column "Returned" has it: a number, and a line
/// where the column names one. From take the line of 3, 7 and 8 is 0, and so is
/// that of 3 and 7 from a notice. Of the cards' numbers "a number caused by a line
/// comes with that line", so 15 has none, and 16 and 17 have one.
#[derive(Debug, Clone, Copy, PartialEq, Eq, PartialOrd, Ord, Hash)]
pub struct Refusal {
    pub number: u8,
    pub line: Option<usize>,
}

impl Refusal {
    /// A refusal for which the table returns the number alone.
    pub const fn plain(number: u8) -> Refusal {
        Refusal { number, line: None }
    }

    /// A refusal for which the table returns "number, line".
    pub const fn at(number: u8, line: usize) -> Refusal {
        Refusal {
            number,
            line: Some(line),
        }
    }
}
