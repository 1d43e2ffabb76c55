//! Methods of formatters.

use std::fmt::{Debug, DebugList, Display, Formatter, Result};

/// What a formatter of Rattle can do besides.
pub trait FormatterExt {
    /// Writes what a value displays, whatever form is asked for.
    fn write<D: Display>(&mut self, value: D) -> Result;
}

impl FormatterExt for Formatter<'_> {
    fn write<D: Display>(&mut self, value: D) -> Result {
        self.write_fmt(format_args!("{value}"))
    }
}

/// What a printer of lists can do besides.
pub trait ListExt {
    /// Prints each of the items.
    fn slice<T: Debug>(&mut self, items: &[T]) -> &mut Self;
}

impl ListExt for DebugList<'_, '_> {
    fn slice<T: Debug>(&mut self, items: &[T]) -> &mut Self {
        self.entries(items)
    }
}
