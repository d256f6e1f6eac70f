//! The types of cycles and rules, and the run that holds them.

#[derive(Clone, Copy)]
pub enum Reading {
    Blank,
    Value(i32),
}

#[derive(Clone, Copy)]
pub struct Event {
    pub time: u32,
    pub activity: u8,
    pub readings: [Reading; 4],
}

#[derive(Clone, Copy)]
pub enum Operator {
    Equal,
    NotEqual,
    Less,
    AtMost,
    Greater,
    AtLeast,
}

#[derive(Clone, Copy)]
pub enum Reference {
    Constant(i32),
    Activation(u8, i32),
}

#[derive(Clone, Copy)]
pub struct Comparison {
    pub reading: u8,
    pub operator: Operator,
    pub reference: Reference,
}

#[derive(Clone, Copy)]
pub struct Condition {
    pub count: u8,
    pub comparisons: [Comparison; 4],
}

#[derive(Clone, Copy)]
pub struct Window {
    pub from: u32,
    pub until: Option<u32>,
}

#[derive(Clone, Copy)]
pub struct Rule {
    pub code: u8,
    pub activation: u8,
    pub target: u8,
    pub window: Window,
    pub condition: Condition,
    pub correlation: Condition,
}

#[derive(Clone, Copy)]
pub struct Table {
    pub count: usize,
    pub rules: [Rule; 16],
}

#[derive(Clone, Copy, PartialEq)]
pub enum Standing {
    Idle,
    Open,
    Fulfilled(u16),
    Violated(u16),
}

/// Why a call is refused: document 01's number.
pub type Cause = u8;

/// Which of the two texts is refused.
#[derive(Clone, Copy, Debug)]
pub enum Which {
    Rules,
    Cycle,
}

#[derive(Clone, Copy, PartialEq)]
pub struct Totals {
    pub activations: u16,
    pub fulfilled: u16,
    pub violated: u16,
    pub open: u16,
}

#[derive(Clone, Copy)]
pub struct Run {
    pub closed: bool,
    pub table: Table,
    pub count: usize,
    pub events: [Event; 256],
    pub cells: [Standing; 4096],
    /// Position 0 of each rule.
    pub overall: [Standing; 16],
    pub totals: [Totals; 16],
    /// The time of the last clock notice.
    pub clock: u32,
}

pub const SLOT: Event = Event {
    time: 0,
    activity: 1,
    readings: [Reading::Blank; 4],
};

const NO_COMPARISON: Comparison = Comparison {
    reading: 0,
    operator: Operator::Equal,
    reference: Reference::Constant(0),
};

pub const NO_CONDITION: Condition = Condition {
    count: 0,
    comparisons: [NO_COMPARISON; 4],
};

pub const NO_RULE: Rule = Rule {
    code: 0,
    activation: 0,
    target: 0,
    window: Window {
        from: 0,
        until: None,
    },
    condition: NO_CONDITION,
    correlation: NO_CONDITION,
};

pub const NO_TOTALS: Totals = Totals {
    activations: 0,
    fulfilled: 0,
    violated: 0,
    open: 0,
};

impl Totals {
    pub fn count(&mut self, s: Standing) {
        self.activations += (s != Standing::Idle) as u16;
        self.fulfilled += matches!(s, Standing::Fulfilled(_)) as u16;
        self.violated += matches!(s, Standing::Violated(_)) as u16;
        self.open += matches!(s, Standing::Open) as u16;
    }
}

impl Rule {
    /// Whether it is about the cycle as such: it stands at position 0, and idle at events.
    pub fn is_overall(&self) -> bool {
        (13..=16).contains(&self.code)
    }

    /// Whether such a rule judges its target activity too.
    pub fn counts_target(&self) -> bool {
        self.code >= 15
    }

    /// Such a rule has no correlation, and activities that differ where both count.
    pub fn fits_template(&self) -> bool {
        !self.is_overall()
            || self.correlation.count == 0
                && !(self.counts_target() && self.activation == self.target)
    }
}

impl Table {
    pub fn used(&self) -> &[Rule] {
        &self.rules[..self.count]
    }
}

impl Condition {
    pub fn used(&self) -> &[Comparison] {
        &self.comparisons[..self.count as usize]
    }
}
