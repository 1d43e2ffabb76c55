// Made of crates/cfgx_fields/src/endian/order.rt
// by bindings/rust/engine/make, which leaves its contracts out. Nobody edits this file.

//! The order of byte orders.

use super::Endian;
use std::cmp::Ordering;

impl PartialOrd for Endian {
    fn partial_cmp(&self, other: &Self) -> Option<Ordering> {
        Some(self.cmp(other))
    }
}

impl Ord for Endian {
    fn cmp(&self, other: &Self) -> Ordering {
        match (self, other) {
            (Endian::big, Endian::little) => Ordering::Less,
            (Endian::little, Endian::big) => Ordering::Greater,
            _ => Ordering::Equal,
        }
    }
}
