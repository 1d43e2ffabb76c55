// Made of crates/cfgx_parser/src/function.rt
// by bindings/rust/engine/make, which leaves its contracts out. Nobody edits this file.

//! The functions of conditions, and their order.

use std::cmp::Ordering;

/// A function of a condition, by its name alone.
#[derive(Clone, Copy)]
pub(crate) enum FuncKind {
    /// `not`
    Not,
    /// `all`
    All,
    /// `any`
    Any,
}

/// A function of a condition, with the number of its members.
#[derive(Clone, Copy, Debug)]
pub enum Func {
    /// `not()`, which has one member
    Not,
    /// `all()`, with the number of its members
    All(usize),
    /// `any()`, with the number of its members
    Any(usize),
}

impl Func {
    /// Returns the rank of the name in the order of functions.
    fn rank(self) -> u8 {
        match self {
            Func::Not => 0,
            Func::All(_) => 1,
            Func::Any(_) => 2,
        }
    }

    /// Returns the number of members.
    pub fn members(self) -> usize {
        match self {
            Func::Not => 1,
            Func::All(count) | Func::Any(count) => count,
        }
    }
}

/// Two functions are equal if they have the same name and the same number of members.
impl PartialEq for Func {
    fn eq(&self, other: &Self) -> bool {
        match (self, other) {
            (Func::Not, Func::Not) => true,
            (Func::All(one), Func::All(other)) | (Func::Any(one), Func::Any(other)) => one == other,
            _ => false,
        }
    }
}

impl Eq for Func {}

impl PartialOrd for Func {
    fn partial_cmp(&self, other: &Self) -> Option<Ordering> {
        Some(self.cmp(other))
    }
}

/// Functions are ordered by name (`not`, `all`, `any`), and then by the number of their members.
impl Ord for Func {
    fn cmp(&self, other: &Self) -> Ordering {
        self.rank()
            .cmp(&other.rank())
            .then(self.members().cmp(&other.members()))
    }
}
