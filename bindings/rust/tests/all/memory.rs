//! Calls in a process that gets little memory.

use super::child;
use cfgx::{Decision, Expression};
use std::env;
use std::process::{Command, Output};

/// The number of bytes of a long text.
const LENGTH: usize = 1 << 20;

/// Parses and decides a long text, and says so.
#[test]
#[ignore = "the test below runs it in a process that gets little memory"]
fn calls_that_may_lack_memory() {
    println!("begun");
    let text = format!("all({})", "a,".repeat(LENGTH / 2));
    let expression = Expression::parse(&text).unwrap();
    let decision = expression.decide(|_| None);
    assert!(matches!(decision, Decision::Unknown { .. }));
    println!("done");
}

/// Runs those calls in a process that may have this number of KiB of addresses.
fn run_within(kib: usize) -> Output {
    let command = format!("ulimit -v {kib} && exec \"$0\" \"$@\"");
    Command::new("sh")
        .args(["-c", &command])
        .arg(env::current_exe().unwrap())
        .args(child::arguments("memory::calls_that_may_lack_memory"))
        .env("RUST_BACKTRACE", "0")
        .output()
        .unwrap()
}

#[test]
fn without_memory_the_process_ends() {
    let (mut ended, mut done) = (0, 0);
    for kib in (8..1 << 10).step_by(8).map(|mib| mib << 10) {
        let output = run_within(kib);
        let printed = String::from_utf8_lossy(&output.stdout);
        let said = String::from_utf8_lossy(&output.stderr);
        if printed.contains("done") {
            assert!(output.status.success(), "{said}");
            done += 1;
        } else if printed.contains("begun") {
            assert!(said.contains("memory allocation of "), "{kib}: {said}");
            ended += 1;
        }
        if done == 3 {
            break;
        }
    }
    assert!(ended > 0 && done > 0, "{ended} ended, {done} done");
}
