//! A run under valgrind, which finds no leak and no wrong access.

use super::child;
use cfgx::expr::lexer::Lexer;
use cfgx::targets::TargetInfo;
use cfgx::{Expression, Facts, audit};
use std::env;
use std::process::Command;
use std::slice;

/// Makes each call that takes a condition.
fn call_with(expression: Expression) {
    assert!(expression.clone().eval(|_| None::<bool>).is_none());
    let _ = expression.decide(|_| None);
    let targets = [
        Facts::new(["unix", "target_thread_local"]),
        Facts::new(["a b"]),
    ];
    assert!(audit(slice::from_ref(&expression), &targets[..1]).is_ok());
    assert!(audit(&[expression], &targets).is_err());
}

/// Makes each call of the crate that calls the engine. The test below runs it under valgrind.
#[test]
fn calls_that_are_watched() {
    let long = format!("all({})", "unix, any(key = \"x\"), ".repeat(100));
    for text in ["cfg(all(unix, not(feature = \"x\")))", &long] {
        call_with(Expression::parse(text).unwrap());
        assert!(Lexer::new(text).all(|item| item.is_ok()));
        assert!(Lexer::new(text).next().is_some());
    }
    assert!(Lexer::new("a \"b").last().unwrap().is_err());
    assert!(Lexer::new("a 8").next().unwrap().is_ok());
    let faults = ["not()", "all(", "a b"].map(|text| Expression::parse(text).is_err());
    assert_eq!(faults, [true; 3]);
    assert!(TargetInfo::from_rustc_cfg("mine", "unix\ntarget_thread_local").is_err());
}

#[test]
fn valgrind_finds_nothing() {
    if !child::is_there(
        "valgrind",
        "neither leaks nor wrong accesses were looked for",
    ) {
        return;
    }
    let output = Command::new("valgrind")
        .args(["-q", "--leak-check=full", "--error-exitcode=9"])
        .args(["--show-leak-kinds=definite,indirect"])
        .args(["--errors-for-leak-kinds=definite,indirect"])
        .arg(env::current_exe().unwrap())
        .args([
            "--exact",
            "leaks::calls_that_are_watched",
            "--test-threads=1",
        ])
        .output()
        .unwrap();
    let said = String::from_utf8_lossy(&output.stderr);
    assert!(output.status.success(), "{said}");
    let printed = String::from_utf8_lossy(&output.stdout);
    assert!(printed.contains("1 passed"), "{printed}");
}
