// Made of crates/cfgx_syntax/src/logic/kleene.rt
// by bindings/rust/engine/make, which leaves its contracts out. Nobody edits this file.

//! Sixty-four answers that may be unknown, joined all at once.

use super::Logic;

/// Sixty-four answers, each true, false or unknown: lane `i` is bit `i` of two planes, where bit 0
/// is the lowest. No lane is both true and false. Equal answers are equal in each lane.
#[derive(Clone, Copy, Debug)]
pub struct Kleene64 {
    is_true: u64,
    is_false: u64,
}

impl PartialEq for Kleene64 {
    fn eq(&self, other: &Self) -> bool {
        (self.is_true, self.is_false) == (other.is_true, other.is_false)
    }
}

impl Eq for Kleene64 {}

impl Kleene64 {
    /// The answers whose true lanes are the bits of `is_true`, and whose false lanes are those of
    /// `is_false`. No bit may stand in both.
    pub fn new(is_true: u64, is_false: u64) -> Kleene64 {
        Kleene64 { is_true, is_false }
    }

    /// The lanes that are true, as bits.
    pub fn is_true(&self) -> u64 {
        self.is_true
    }

    /// The lanes that are false, as bits.
    pub fn is_false(&self) -> u64 {
        self.is_false
    }

    /// Whether no lane is both true and false, which is so of every value.
    pub(super) fn is_disjoint(&self) -> bool {
        (self.is_true & self.is_false) == 0
    }

    /// The answer in lane `i`, which is below 64: `None` if it is unknown.
    pub fn lane(&self, i: usize) -> Option<bool> {
        if (self.is_true >> i) & 1 == 1 {
            Some(true)
        } else if (self.is_false >> i) & 1 == 1 {
            Some(false)
        } else {
            None
        }
    }

    /// Moves each lane up by one, and puts `answer` into lane 0. What was in lane 63 is gone.
    pub fn push_front(self, answer: Option<bool>) -> Kleene64 {
        Kleene64 {
            is_true: self.is_true << 1 | u64::from(answer == Some(true)),
            is_false: self.is_false << 1 | u64::from(answer == Some(false)),
        }
    }
}

/// Each operation does in every lane what it does on `Option<bool>`.
impl Logic for Kleene64 {
    fn top() -> Kleene64 {
        Kleene64::new(u64::MAX, 0)
    }

    fn bottom() -> Kleene64 {
        Kleene64::new(0, u64::MAX)
    }

    fn and(self, other: Kleene64) -> Kleene64 {
        Kleene64 {
            is_true: self.is_true & other.is_true,
            is_false: self.is_false | other.is_false,
        }
    }

    fn or(self, other: Kleene64) -> Kleene64 {
        Kleene64 {
            is_true: self.is_true | other.is_true,
            is_false: self.is_false & other.is_false,
        }
    }

    fn not(self) -> Kleene64 {
        Kleene64 {
            is_true: self.is_false,
            is_false: self.is_true,
        }
    }
}
