//! Expressions in several threads.

use super::trees::{Numbers, Tree};
use cfgx::error::{HasAtomicParseError, Reason};
use cfgx::expr::lexer::{Lexer, LexerToken, Token};
use cfgx::expr::{Func, Predicate, TargetPredicate};
use cfgx::targets::{
    Abi, Arch, Endian, Env, Families, Family, HasAtomic, HasAtomics, Os, Panic, Rustc,
    RustcCfgError, RustcError, TargetInfo, Triple, Vendor,
};
use cfgx::{Audit, Decision, Expression, FactError, Facts, Otherwise, ParseError};
use std::error::Error;
use std::thread;

fn is_shared<T: Send + Sync>() {}

/// Does not compile unless all types may be shared by threads.
macro_rules! are_shared {
    ($($name:ty),* $(,)?) => {
        $(is_shared::<$name>();)*
    };
}

#[test]
fn types_are_send_and_sync() {
    are_shared!(Expression, Predicate<'_>, TargetPredicate, Decision);
    are_shared!(Lexer<'_>, LexerToken<'_>, Token<'_>, Func);
    are_shared!(Audit, Facts, FactError, Otherwise);
    are_shared!(ParseError, Reason, HasAtomicParseError);
    are_shared!(
        TargetInfo, Triple, Abi, Arch, Env, Family, Os, Panic, Vendor
    );
    are_shared!(Endian, HasAtomic, Families, HasAtomics);
    are_shared!(Rustc, RustcError, RustcCfgError);
}

#[test]
fn errors_are_errors() {
    fn is_error<T: Error + 'static>() {}
    is_error::<ParseError>();
    is_error::<HasAtomicParseError>();
    is_error::<FactError>();
    is_error::<RustcCfgError>();
    is_error::<RustcError>();
}

/// Parses and evaluates 1,000 conditions.
fn check(seed: u64) {
    let mut numbers = Numbers(seed);
    for _ in 0..1000 {
        let tree = Tree::generate(&mut numbers, 5);
        let text = tree.text(&mut numbers);
        let expression = Expression::parse(&text).unwrap();
        let value = tree.value_over(&mut std::iter::repeat(None));
        assert_eq!(expression.eval(|_| None), value);
    }
}

#[test]
fn two_threads_call_at_once() {
    let shared = Expression::parse("any(a, not(b))").unwrap();
    thread::scope(|scope| {
        for seed in [1, 2] {
            let shared = &shared;
            scope.spawn(move || {
                check(seed);
                assert!(shared.eval(|_| true));
            });
        }
    });
}
