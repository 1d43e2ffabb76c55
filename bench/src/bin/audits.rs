//! What `bench/measure` counts of audits, which `cfg-expr` does not have.
//!
//! usage: `audits`, with conditions on standard input. Prints how many values the audit has: one
//! for each condition on each built-in target.

use cfgx::targets::{ALL_BUILTINS, builtin_facts};
use cfgx::{Audit, Expression, FactError, Facts, audit};
use std::error::Error;
use std::hint::black_box;
use std::io::{self, read_to_string};

/// Evaluates each condition on each target.
#[inline(never)]
fn audit_all(conditions: &[Expression], targets: &[Facts]) -> Result<Audit, FactError> {
    audit(conditions, targets)
}

fn main() -> Result<(), Box<dyn Error>> {
    let input = read_to_string(io::stdin())?;
    let conditions = input.lines().map(Expression::parse);
    let conditions: Vec<Expression> = conditions.collect::<Result<_, _>>()?;
    let triples = ALL_BUILTINS.iter().map(|target| target.triple.as_str());
    let targets: Vec<Facts> = triples.flat_map(builtin_facts).collect();
    let values = black_box(audit_all(&conditions, &targets)?);
    println!("{}", values.condition_count() * values.target_count());
    Ok(())
}
