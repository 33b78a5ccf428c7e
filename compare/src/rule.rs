//! The rule of a table (docs/RULES.md, 1.12): whether its commits are judged backwards or forwards.

use crate::header::{RULE_BACKWARD, RULE_FORWARD};

#[derive(Clone, Copy, PartialEq, Eq, Debug)]
pub enum Rule {
    /// Rule 1: by what has committed since the action's reads.
    Backward,
    /// Rule 2: by what those who are still live have read.
    Forward,
    /// Of a lent table, or asked of an opening: a number that is no rule's.
    Unknown(u64),
}

pub const RULES: [Rule; 2] = [Rule::Backward, Rule::Forward];

impl Rule {
    pub fn of(number: u64) -> Rule {
        match number {
            RULE_BACKWARD => Rule::Backward,
            RULE_FORWARD => Rule::Forward,
            other => Rule::Unknown(other),
        }
    }

    pub fn number(self) -> u64 {
        match self {
            Rule::Backward => RULE_BACKWARD,
            Rule::Forward => RULE_FORWARD,
            Rule::Unknown(other) => other,
        }
    }
}
