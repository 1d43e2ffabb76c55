//! Files.

use super::alloc::Global;
use super::prelude::{HostRuntime, String};
use std::io;

/// Returns the text of a file.
pub fn read_to_string(_rt: &HostRuntime, name: &str) -> io::Result<String> {
    Ok(String::from_str(Global, &std::fs::read_to_string(name)?)?)
}
