//! What both crates say of a text, in the same form.

/// A value of a logic without a law: a number that tells how it was made.
#[derive(Clone, Debug, PartialEq)]
struct Made(u64);

/// Returns what an operation makes of two values, in this order.
fn made(operation: u64, one: u64, other: u64) -> Made {
    let mixed = one.rotate_left(23).wrapping_mul(0x9e37_79b9_7f4a_7c15) ^ other;
    let spread = mixed.wrapping_mul(0xd6e8_feb8_6659_fd93);
    Made(spread.wrapping_add(operation))
}

/// Returns a number that the text determines.
fn number_of(text: &str) -> u64 {
    text.bytes().fold(7, |number: u64, byte| {
        number.wrapping_mul(131) ^ u64::from(byte)
    })
}

/// Writes the same function and the same logic for each crate.
macro_rules! answers_of {
    ($name:ident, $crate_name:ident) => {
        impl $crate_name::expr::Logic for Made {
            fn top() -> Self {
                Made(1)
            }

            fn bottom() -> Self {
                Made(2)
            }

            fn and(self, other: Self) -> Self {
                made(3, self.0, other.0)
            }

            fn or(self, other: Self) -> Self {
                made(4, self.0, other.0)
            }

            fn not(self) -> Self {
                made(5, self.0, 0)
            }
        }

        /// Returns what the crate says of the text.
        pub fn $name(text: &str) -> Vec<String> {
            use $crate_name::expr::lexer::Lexer;
            use $crate_name::targets::ALL_BUILTINS;
            use $crate_name::{Expression, Predicate};

            let mut said = Vec::new();
            for item in Lexer::new(text) {
                let is_fault = item.is_err();
                said.push(match item {
                    Ok(token) => format!("{token:?}"),
                    Err(fault) => format!("{fault:?}\n{fault}"),
                });
                // `cfg-expr` repeats its fault, and `cfgx` ends after it.
                if is_fault {
                    break;
                }
            }
            let expression = match Expression::parse(text) {
                Ok(expression) => expression,
                Err(fault) => {
                    let parts = (&fault.original, &fault.span, &fault.reason);
                    said.push(format!("{parts:?}\n{fault:?}\n{fault}"));
                    return said;
                }
            };
            said.push(String::from(expression.original()));
            said.push(format!("{}", expression.clone() == expression));
            said.extend(expression.predicates().map(|one| format!("{one:?}")));
            let value: Made = expression.eval(|predicate| {
                let text = format!("{predicate:?}");
                let number = number_of(&text);
                said.push(text);
                Made(number)
            });
            said.push(format!("{value:?}"));
            let third = |predicate: &Predicate<'_>| number_of(&format!("{predicate:?}")) % 3;
            let two_valued: bool = expression.eval(|predicate| third(predicate) == 0);
            let three_valued: Option<bool> = expression.eval(|predicate| match third(predicate) {
                0 => Some(true),
                1 => Some(false),
                _ => None,
            });
            said.push(format!("{two_valued} {three_valued:?}"));
            for target in ALL_BUILTINS.iter().step_by(37) {
                let value: bool = expression.eval(|predicate| match predicate {
                    Predicate::Target(asked) => asked.matches(target),
                    other => third(other) == 0,
                });
                said.push(value.to_string());
            }
            said
        }
    };
}

answers_of!(of_cfgx, cfgx);
answers_of!(of_cfg_expr, cfg_expr);
