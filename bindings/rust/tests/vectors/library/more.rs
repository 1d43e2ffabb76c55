//! What the program of `cfgx_vectors` has without an import besides.

use super::alloc::{AllocError, Allocator, Global};
use super::string::String;
use std::{fmt, io};

/// The system, by which the program prints and reads.
pub struct HostRuntime;

impl HostRuntime {
    /// Returns the allocator.
    pub fn alloc(&self) -> Global {
        Global
    }
}

/// Returns what is formatted. `format!` calls this.
pub fn formatted<A: Allocator>(
    alloc: A,
    text: fmt::Arguments<'_>,
) -> Result<String<A>, AllocError> {
    let mut formatted = String::new(alloc);
    formatted.write_fmt(text)?;
    Ok(formatted)
}

macro_rules! format {
    (in $alloc:expr; $($text:tt)*) => {
        $crate::engine::rattle::prelude::formatted($alloc, format_args!($($text)*))
    };
}
pub(crate) use format;

macro_rules! println {
    ($rt:expr; $($text:tt)*) => {{
        let HostRuntime = $rt;
        std::println!($($text)*);
        std::io::Result::Ok(())
    }};
}
pub(crate) use println;

/// `replace` of a text, under a name that Rust's text has not.
pub trait Replaced {
    /// Returns the text with `to` in place of each `from`.
    fn replaced<A: Allocator>(
        &self,
        alloc: A,
        from: &str,
        to: &str,
    ) -> Result<String<A>, AllocError>;
}

impl Replaced for str {
    fn replaced<A: Allocator>(
        &self,
        alloc: A,
        from: &str,
        to: &str,
    ) -> Result<String<A>, AllocError> {
        String::from_str(alloc, &self.replace(from, to))
    }
}

/// `clone`, which may be refused memory in Rattle, under another name.
pub trait TryCopy: Clone {
    /// Returns a copy.
    fn try_copy(&self) -> Result<Self, AllocError> {
        Ok(self.clone())
    }
}

impl<T: Clone> TryCopy for T {}

impl From<AllocError> for fmt::Error {
    fn from(_error: AllocError) -> fmt::Error {
        fmt::Error
    }
}

impl From<AllocError> for io::Error {
    fn from(_error: AllocError) -> io::Error {
        io::ErrorKind::OutOfMemory.into()
    }
}
