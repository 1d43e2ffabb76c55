//! Targets of a `rustc` that is there when the program runs.

use super::{RustcCfgError, TargetInfo};
use crate::audit::Facts;
use std::env;
use std::error::Error;
use std::ffi::{OsStr, OsString};
use std::fmt;
use std::io;
use std::process::Command;

/// What a `rustc` says about some targets. It may be another compiler than the one that
/// [`rustc_version`](super::rustc_version) names. It was asked once about each target.
///
/// ```no_run
/// use cfgx::targets::Rustc;
///
/// let rustc = Rustc::ask(["x86_64-unknown-linux-gnu", "wasm32-unknown-unknown"])?;
/// assert_eq!(rustc.targets()[1].arch.as_str(), "wasm32");
/// # Ok::<(), cfgx::targets::RustcError>(())
/// ```
#[derive(Clone, Debug)]
pub struct Rustc {
    targets: Vec<TargetInfo>,
    facts: Vec<Facts>,
}

/// Why `rustc` describes no target.
///
/// ```
/// use cfgx::targets::{Rustc, RustcError};
///
/// match Rustc::ask(["nowhere"]) {
///     Err(RustcError::Refused { triple, .. }) => assert_eq!(triple, "nowhere"),
///     Err(RustcError::NotRun(error)) => println!("there is no rustc: {error}"),
///     other => panic!("{other:?}"),
/// }
/// ```
#[derive(Debug)]
#[non_exhaustive]
pub enum RustcError {
    /// It could not be run.
    NotRun(io::Error),
    /// It ended with a failure, as for a target that it does not know.
    Refused {
        /// The triple of the target.
        triple: String,
        /// What it wrote to its standard error.
        message: String,
    },
    /// What it printed describes no target.
    Unread {
        /// The triple of the target.
        triple: String,
        /// What is wrong with what it printed.
        error: RustcCfgError,
    },
}

impl fmt::Display for RustcError {
    fn fmt(&self, f: &mut fmt::Formatter<'_>) -> fmt::Result {
        match self {
            RustcError::NotRun(error) => write!(f, "rustc could not be run: {error}"),
            RustcError::Refused { triple, message } => {
                write!(f, "rustc does not know {triple}: {}", message.trim_end())
            }
            RustcError::Unread { triple, error } => write!(f, "rustc of {triple}: {error}"),
        }
    }
}

impl Error for RustcError {
    fn source(&self) -> Option<&(dyn Error + 'static)> {
        match self {
            RustcError::NotRun(error) => Some(error),
            RustcError::Refused { .. } => None,
            RustcError::Unread { error, .. } => Some(error),
        }
    }
}

impl Rustc {
    /// Asks a `rustc` about each target: the program that the environment variable `RUSTC` names,
    /// or else the `rustc` on the path. Cargo takes the same one, unless a configuration file of
    /// Cargo names another.
    ///
    /// # Errors
    ///
    /// `NotRun` if it could not be run, `Refused` if it failed for one of the targets, as for one
    /// that it does not know, and `Unread` if what it printed about one describes no target.
    ///
    /// ```no_run
    /// use cfgx::targets::Rustc;
    ///
    /// let rustc = Rustc::ask(["x86_64-unknown-linux-gnu"])?;
    /// assert_eq!(rustc.targets().len(), 1);
    /// # Ok::<(), cfgx::targets::RustcError>(())
    /// ```
    pub fn ask<I>(triples: I) -> Result<Rustc, RustcError>
    where
        I: IntoIterator,
        I::Item: AsRef<str>,
    {
        let program = env::var_os("RUSTC").unwrap_or_else(|| OsString::from("rustc"));
        Rustc::ask_program(program, triples)
    }

    /// Asks `program` about each target. `program` is the path of a `rustc`, or a name that is
    /// looked up on the path.
    ///
    /// # Errors
    ///
    /// Those of [`ask`](Rustc::ask).
    ///
    /// ```no_run
    /// use cfgx::targets::Rustc;
    ///
    /// let rustc = Rustc::ask_program("/opt/rust/bin/rustc", ["wasm32-unknown-unknown"])?;
    /// assert_eq!(rustc.targets()[0].pointer_width, 32);
    /// # Ok::<(), cfgx::targets::RustcError>(())
    /// ```
    pub fn ask_program<I>(program: impl AsRef<OsStr>, triples: I) -> Result<Rustc, RustcError>
    where
        I: IntoIterator,
        I::Item: AsRef<str>,
    {
        let mut rustc = Rustc {
            targets: Vec::new(),
            facts: Vec::new(),
        };
        for triple in triples {
            let triple = triple.as_ref();
            let lines = printed_by(program.as_ref(), triple)?;
            let target = TargetInfo::from_rustc_cfg(triple, &lines);
            let unread = |error| RustcError::Unread {
                triple: triple.to_string(),
                error,
            };
            rustc.targets.push(target.map_err(unread)?);
            let facts = lines.lines().filter(|line| !line.is_empty());
            rustc.facts.push(Facts::new(facts));
        }
        Ok(rustc)
    }

    /// Returns the targets, in the order of the triples.
    ///
    /// ```no_run
    /// use cfgx::targets::Rustc;
    ///
    /// let rustc = Rustc::ask(["wasm32-unknown-unknown"])?;
    /// assert_eq!(rustc.targets()[0].pointer_width, 32);
    /// # Ok::<(), cfgx::targets::RustcError>(())
    /// ```
    #[must_use]
    pub fn targets(&self) -> &[TargetInfo] {
        &self.targets
    }

    /// Returns the target with this triple, if `rustc` was asked about it.
    ///
    /// ```no_run
    /// use cfgx::targets::Rustc;
    ///
    /// let rustc = Rustc::ask(["wasm32-unknown-unknown"])?;
    /// assert!(rustc.target("wasm32-unknown-unknown").is_some());
    /// # Ok::<(), cfgx::targets::RustcError>(())
    /// ```
    #[must_use]
    pub fn target(&self, triple: &str) -> Option<&TargetInfo> {
        self.targets
            .iter()
            .find(|target| target.triple.as_str() == triple)
    }

    /// Returns the facts of each target, in the order of the triples, for an
    /// [`audit`](crate::audit()).
    ///
    /// ```no_run
    /// use cfgx::targets::Rustc;
    /// use cfgx::{Expression, audit};
    ///
    /// let rustc = Rustc::ask(["x86_64-unknown-linux-gnu", "wasm32-unknown-unknown"])?;
    /// let values = audit(&[Expression::parse("unix").unwrap()], rustc.facts()).unwrap();
    /// assert_eq!(values.row(0), [Some(true), Some(false)]);
    /// # Ok::<(), cfgx::targets::RustcError>(())
    /// ```
    #[must_use]
    pub fn facts(&self) -> &[Facts] {
        &self.facts
    }
}

/// Returns what `--print cfg` of a program prints for a target.
fn printed_by(program: &OsStr, triple: &str) -> Result<String, RustcError> {
    let output = Command::new(program)
        .args(["--print", "cfg", "--target", triple])
        .output()
        .map_err(RustcError::NotRun)?;
    if output.status.success() {
        return Ok(String::from_utf8_lossy(&output.stdout).into_owned());
    }
    Err(RustcError::Refused {
        triple: triple.to_string(),
        message: String::from_utf8_lossy(&output.stderr).into_owned(),
    })
}
