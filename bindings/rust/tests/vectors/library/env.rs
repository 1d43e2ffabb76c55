//! The words of the program.

use super::alloc::{AllocError, Global};
use super::prelude::{HostRuntime, String};
use std::io;

/// Returns the words, the name of the program first.
pub fn args(_rt: &HostRuntime) -> io::Result<std::vec::IntoIter<String>> {
    let copy = |word: std::string::String| String::from_str(Global, &word);
    let words: Result<std::vec::Vec<_>, AllocError> = std::env::args().map(copy).collect();
    Ok(words?.into_iter())
}
