//! beside COUNT: generates as many texts, and compares what `cfg-expr` and `cfgx` say of each: the
//! tokens up to a fault, the fault in each form, the predicates, the order of asking, and the values
//! in `bool`, in `Option<bool>`, on targets, and in a logic in which no two operands commute.
//!
//! A text with several members at the root is counted, and not compared: by name, the crates differ
//! there, as in `true` and `false`, which no text has.

mod answers;
mod texts;

use cfgx::Expression;
use cfgx::error::Reason;
use std::process::ExitCode;

/// Returns whether the crates differ on the text by name.
fn has_several_roots(text: &str) -> bool {
    let fault = Expression::parse(text).err();
    fault.is_some_and(|fault| fault.reason == Reason::MultipleRootPredicates)
}

fn main() -> ExitCode {
    let count = std::env::args().nth(1).and_then(|word| word.parse().ok());
    let Some(count) = count else {
        eprintln!("usage: beside COUNT");
        return ExitCode::from(2);
    };
    let mut texts = texts::Texts::new();
    let (mut conditions, mut several, mut differences) = (0, 0, 0);
    for _ in 0..count {
        let text = texts.next_text();
        let (ours, theirs) = (answers::of_cfgx(&text), answers::of_cfg_expr(&text));
        conditions += usize::from(Expression::parse(&text).is_ok());
        if has_several_roots(&text) {
            several += 1;
        } else if ours != theirs {
            differences += 1;
            println!("{text:?}\n  cfgx:     {ours:?}\n  cfg-expr: {theirs:?}");
        }
    }
    println!(
        "{count} texts, of which {conditions} are conditions and {several} have several members \
         at the root: {differences} differences"
    );
    ExitCode::from(u8::from(differences > 0))
}
