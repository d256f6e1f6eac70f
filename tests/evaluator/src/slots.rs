//! The slots of a rule table as a caller may fill them, and which of them are
//! within the limits.
//!
//! A slot may hold a number that no valid rule has. "Slots past a count are
//! neither checked nor read".

use crate::model::{Comparison, Event, Operator, Rule, World};

/// "A run has 0 to 16 rules and at most 256 events."
pub const RULE_SLOTS: usize = 16;
pub const EVENT_SLOTS: usize = 256;
/// "up to four comparisons in a condition, on any readings"
pub const COMPARISON_SLOTS: usize = 4;

/// An event slot; its activity may be outside 1 to 64.
pub type EventSlot = Event;

/// A comparison slot; its readings may be outside 1 to 4.
pub type ComparisonSlot = Comparison;

/// A condition; the comparisons up to the count belong to it.
#[derive(Debug, Clone, Copy, PartialEq, Eq)]
pub struct ConditionSlot {
    pub count: u8,
    pub comparisons: [ComparisonSlot; COMPARISON_SLOTS],
}

impl ConditionSlot {
    /// The slot of a condition of at most four comparisons, in their order.
    /// The slots past its count have `1=0`.
    pub fn of(condition: &[Comparison]) -> ConditionSlot {
        let unused = Comparison::with_constant(1, Operator::Equal, 0);
        let mut comparisons = [unused; COMPARISON_SLOTS];
        comparisons[..condition.len()].copy_from_slice(condition);
        ConditionSlot {
            count: condition.len() as u8,
            comparisons,
        }
    }

    /// The comparisons of its count; `None` if the count is above 4.
    fn comparisons(&self) -> Option<Vec<Comparison>> {
        let used = self.comparisons.get(..usize::from(self.count))?;
        Some(used.to_vec())
    }
}

/// A rule; `end` is `None` for a window without an end.
#[derive(Debug, Clone, Copy, PartialEq, Eq)]
pub struct RuleSlot {
    pub code: u8,
    pub activation: u8,
    pub target: u8,
    pub a: u32,
    pub end: Option<u32>,
    pub activation_condition: ConditionSlot,
    pub correlation: ConditionSlot,
}

impl RuleSlot {
    pub fn of(rule: &Rule) -> RuleSlot {
        RuleSlot {
            code: rule.code,
            activation: rule.activation,
            target: rule.target,
            a: rule.a,
            end: rule.b,
            activation_condition: ConditionSlot::of(&rule.activation_condition),
            correlation: ConditionSlot::of(&rule.correlation),
        }
    }

    /// The rule of this slot; `None` if it is outside the limits.
    pub fn rule(&self) -> Option<Rule> {
        let rule = Rule {
            code: self.code,
            activation: self.activation,
            target: self.target,
            a: self.a,
            b: self.end,
            activation_condition: self.activation_condition.comparisons()?,
            correlation: self.correlation.comparisons()?,
        };
        rule.is_valid(&World::DOCUMENT).then_some(rule)
    }
}

/// A table of rules; the slots up to the count belong to it.
#[derive(Debug, Clone, PartialEq, Eq)]
pub struct TableRecord {
    pub count: u64,
    pub rules: [RuleSlot; RULE_SLOTS],
}

impl TableRecord {
    /// The table of at most 16 rules, in their order. The slots past its count
    /// have the plain rule of code 1, activities 1 and window 0 to no end.
    pub fn of(rules: &[Rule]) -> TableRecord {
        let mut slots = [RuleSlot::of(&Rule::new(1, 1, 1, 0, None)); RULE_SLOTS];
        for (slot, rule) in slots[..rules.len()].iter_mut().zip(rules) {
            *slot = RuleSlot::of(rule);
        }
        TableRecord {
            count: rules.len() as u64,
            rules: slots,
        }
    }

    /// The rules of its count; `None` if the count or one of them is outside
    /// the limits. "A table of rules is valid when nothing in it is a cause of
    /// 11."
    pub fn rules(&self) -> Option<Vec<Rule>> {
        let count = usize::try_from(self.count).ok()?;
        self.rules
            .get(..count)?
            .iter()
            .map(RuleSlot::rule)
            .collect()
    }
}
