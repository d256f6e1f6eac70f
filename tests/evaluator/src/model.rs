//! Events, rules and standings, and the limits that document 01 sets on them.

use crate::slots::COMPARISON_SLOTS;

/// The limits on events. The default has document 01's values; a small world
/// can be enumerated in full.
#[derive(Debug, Clone, Copy, PartialEq, Eq)]
pub struct World {
    pub largest_time: u32,
    pub largest_activity: u8,
    pub least_reading: i32,
    pub largest_reading: i32,
}

impl World {
    /// "An event has a time 0 to 4294967295 (milliseconds), an activity 1 to
    /// 64 and four readings, each a signed whole number −2147483648 to
    /// 2147483647 or blank."
    pub const DOCUMENT: World = World {
        largest_time: 4_294_967_295,
        largest_activity: 64,
        least_reading: -2_147_483_648,
        largest_reading: 2_147_483_647,
    };

    pub fn has_activity(&self, activity: u8) -> bool {
        (1..=self.largest_activity).contains(&activity)
    }

    /// A blank is allowed in every world.
    pub fn has_reading(&self, reading: Option<i32>) -> bool {
        reading.is_none_or(|value| (self.least_reading..=self.largest_reading).contains(&value))
    }
}

impl Default for World {
    fn default() -> Self {
        World::DOCUMENT
    }
}

/// One event; a blank reading is `None`.
#[derive(Debug, Clone, Copy, PartialEq, Eq, Hash)]
pub struct Event {
    pub time: u32,
    pub activity: u8,
    pub readings: [Option<i32>; 4],
}

impl Event {
    /// An event with four blank readings.
    pub fn new(time: u32, activity: u8) -> Event {
        Event {
            time,
            activity,
            readings: [None; 4],
        }
    }

    /// The same event with reading `number` (1 to 4) set to `value`.
    pub fn with_reading(mut self, number: u8, value: i32) -> Event {
        self.readings[usize::from(number) - 1] = Some(value);
        self
    }

    /// Reading `number`, 1 to 4.
    pub fn reading(&self, number: u8) -> Option<i32> {
        self.readings[usize::from(number) - 1]
    }

    /// "A well-formed event has each number in its range."
    pub fn is_well_formed(&self, world: &World) -> bool {
        self.time <= world.largest_time
            && world.has_activity(self.activity)
            && self.readings.iter().all(|r| world.has_reading(*r))
    }
}

/// Whether all events are well-formed and "times may repeat but never fall".
pub fn is_cycle(world: &World, events: &[Event]) -> bool {
    events.iter().all(|event| event.is_well_formed(world))
        && events.windows(2).all(|pair| pair[0].time <= pair[1].time)
}

#[derive(Debug, Clone, Copy, PartialEq, Eq, Hash)]
pub enum Operator {
    Equal,
    NotEqual,
    Less,
    LessOrEqual,
    Greater,
    GreaterOrEqual,
}

impl Operator {
    /// In document 01's order: =, ≠, <, ≤, >, ≥.
    pub const ALL: [Operator; 6] = [
        Operator::Equal,
        Operator::NotEqual,
        Operator::Less,
        Operator::LessOrEqual,
        Operator::Greater,
        Operator::GreaterOrEqual,
    ];
}

/// What a reading is compared with.
#[derive(Debug, Clone, Copy, PartialEq, Eq, Hash)]
pub enum Reference {
    /// "a constant k"
    Constant(i32),
    /// "activation's reading g plus k"
    Activation { reading: u8, plus: i32 },
}

#[derive(Debug, Clone, Copy, PartialEq, Eq, Hash)]
pub struct Comparison {
    /// The reading of the event under test, 1 to 4.
    pub reading: u8,
    pub operator: Operator,
    pub reference: Reference,
}

impl Comparison {
    pub fn with_constant(reading: u8, operator: Operator, k: i32) -> Comparison {
        Comparison {
            reading,
            operator,
            reference: Reference::Constant(k),
        }
    }

    pub fn with_activation(reading: u8, operator: Operator, g: u8, k: i32) -> Comparison {
        Comparison {
            reading,
            operator,
            reference: Reference::Activation {
                reading: g,
                plus: k,
            },
        }
    }

    fn names_known_readings(&self) -> bool {
        let reference_known = match self.reference {
            Reference::Constant(_) => true,
            Reference::Activation { reading, .. } => (1..=4).contains(&reading),
        };
        (1..=4).contains(&self.reading) && reference_known
    }
}

/// A rule; `b` is `None` for a window without an end.
#[derive(Debug, Clone, PartialEq, Eq, Hash)]
pub struct Rule {
    /// Template code, 1 to 16.
    pub code: u8,
    pub activation: u8,
    pub target: u8,
    pub a: u32,
    pub b: Option<u32>,
    pub activation_condition: Vec<Comparison>,
    pub correlation: Vec<Comparison>,
}

impl Rule {
    /// A rule with both conditions empty.
    pub fn new(code: u8, activation: u8, target: u8, a: u32, b: Option<u32>) -> Rule {
        Rule {
            code,
            activation,
            target,
            a,
            b,
            activation_condition: Vec::new(),
            correlation: Vec::new(),
        }
    }

    pub fn with_activation_condition(mut self, condition: Vec<Comparison>) -> Rule {
        self.activation_condition = condition;
        self
    }

    pub fn with_correlation(mut self, condition: Vec<Comparison>) -> Rule {
        self.correlation = condition;
        self
    }

    /// Whether the rule is one of the "rules about the cycle as such": existence
    /// 13, absence 14, choice 15, exclusive choice 16. It is judged at position 0.
    pub fn is_overall(&self) -> bool {
        (13..=16).contains(&self.code)
    }

    /// Whether an event of the target activity counts as one of the activation
    /// activity does. "For 13 and 14 the target activity is read, kept and not
    /// judged."
    pub fn has_two_activities(&self) -> bool {
        [15, 16].contains(&self.code)
    }

    /// The limits on a rule. A world narrows the activities alone: a, b and k keep
    /// document 01's ranges, which their types are.
    pub fn is_valid(&self, world: &World) -> bool {
        (1..=16).contains(&self.code)
            && world.has_activity(self.activation)
            && world.has_activity(self.target)
            && self.has_valid_window()
            && is_valid_condition(&self.activation_condition)
            && is_valid_condition(&self.correlation)
            && self.activation_condition.iter().all(has_constant)
            && self.fits_its_template()
    }

    /// No "equal activities under 15 or 16, or a correlation under 13 to 16".
    pub fn fits_its_template(&self) -> bool {
        let equal = self.has_two_activities() && self.activation == self.target;
        let correlated = self.is_overall() && !self.correlation.is_empty();
        !equal && !correlated
    }

    /// "b (1 to 4294967295, or no end)" and "a < b".
    fn has_valid_window(&self) -> bool {
        self.b.is_none_or(|b| b >= 1 && self.a < b)
    }
}

/// "up to four comparisons in a condition, on any readings", which are 1 to 4.
fn is_valid_condition(condition: &[Comparison]) -> bool {
    condition.len() <= COMPARISON_SLOTS && condition.iter().all(Comparison::names_known_readings)
}

/// "or in a correlation also": an activation condition has constants only.
fn has_constant(comparison: &Comparison) -> bool {
    matches!(comparison.reference, Reference::Constant(_))
}

/// "A standing is one of four answers: idle, open, fulfilled with its target,
/// violated with its target." Target 0 means no target.
#[derive(Debug, Clone, Copy, PartialEq, Eq, PartialOrd, Ord, Hash)]
pub enum Standing {
    Idle,
    Open,
    Fulfilled(u16),
    Violated(u16),
}

impl Standing {
    pub fn is_fulfilled(self) -> bool {
        matches!(self, Standing::Fulfilled(_))
    }

    pub fn is_violated(self) -> bool {
        matches!(self, Standing::Violated(_))
    }

    pub fn is_decided(self) -> bool {
        self.is_fulfilled() || self.is_violated()
    }
}
