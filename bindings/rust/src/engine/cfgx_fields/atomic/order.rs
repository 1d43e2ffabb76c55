// Made of crates/cfgx_fields/src/atomic/order.rt
// by bindings/rust/engine/make, which leaves its contracts out. Nobody edits this file.

//! The order of widths.

use super::HasAtomic;
use std::cmp::Ordering;

impl PartialOrd for HasAtomic {
    fn partial_cmp(&self, other: &Self) -> Option<Ordering> {
        Some(self.cmp(other))
    }
}

impl Ord for HasAtomic {
    fn cmp(&self, other: &Self) -> Ordering {
        match (self, other) {
            (HasAtomic::IntegerSize(bits), HasAtomic::IntegerSize(others)) => bits.cmp(others),
            (HasAtomic::IntegerSize(_), HasAtomic::Pointer) => Ordering::Less,
            (HasAtomic::Pointer, HasAtomic::IntegerSize(_)) => Ordering::Greater,
            (HasAtomic::Pointer, HasAtomic::Pointer) => Ordering::Equal,
        }
    }
}
