//! Prints of each line of standard input, which is a condition, whether it holds on a target of
//! macOS, or what is wrong with it. What is not on the target is false.

use cfgx::targets::get_builtin_target_by_triple;
use cfgx::{Expression, Predicate};
use std::io::{self, BufWriter, Write, read_to_string};

fn main() -> io::Result<()> {
    let target = get_builtin_target_by_triple("aarch64-apple-darwin").expect("it is built in");
    let mut output = BufWriter::new(io::stdout().lock());
    for line in read_to_string(io::stdin())?.lines() {
        match Expression::parse(line) {
            Ok(expression) => {
                let value = expression.eval(|predicate| match predicate {
                    Predicate::Target(asked) => asked.matches(target),
                    _ => false,
                });
                writeln!(output, "{value}")?;
            }
            Err(error) => writeln!(output, "{error}")?,
        }
    }
    output.flush()
}
