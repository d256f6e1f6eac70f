//! The totals of a rule in a run of document 01, "A running cycle".

use crate::model::Standing;

/// "Totals are four numbers". A record has 16 bits for each of them, which hold
/// more than a rule has positions.
#[derive(Debug, Clone, Copy, PartialEq, Eq, Default)]
pub struct Totals {
    pub activations: u16,
    pub fulfilled: u16,
    pub violated: u16,
    pub open: u16,
}

impl Totals {
    /// "activations (positions not idle ..), fulfilled, violated, open, each the
    /// count of such positions"
    pub fn of(standings: &[Standing]) -> Totals {
        let number = |such: fn(&Standing) -> bool| {
            let such = standings.iter().filter(|s| such(s));
            u16::try_from(such.count()).expect("a rule has at most 257 positions")
        };
        Totals {
            activations: number(|s| *s != Standing::Idle),
            fulfilled: number(|s| s.is_fulfilled()),
            violated: number(|s| s.is_violated()),
            open: number(|s| *s == Standing::Open),
        }
    }

    /// The four in their order.
    pub fn numbers(self) -> [u16; 4] {
        [self.activations, self.fulfilled, self.violated, self.open]
    }

    /// The totals with these four numbers.
    pub fn with_numbers([activations, fulfilled, violated, open]: [u16; 4]) -> Totals {
        Totals {
            activations,
            fulfilled,
            violated,
            open,
        }
    }

    /// The same with another number at a place of the four, 0 to 3.
    pub fn with_number(self, place: usize, number: u16) -> Totals {
        let mut numbers = self.numbers();
        numbers[place] = number;
        Totals::with_numbers(numbers)
    }
}
