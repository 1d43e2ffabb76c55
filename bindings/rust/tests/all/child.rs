//! Tests that run in a process of their own, and what tests say of what they leave out.

use std::env;
use std::process::Command;

/// Returns the arguments with which this program runs one ignored test alone.
pub fn arguments(test: &str) -> [&str; 5] {
    [
        "--exact",
        test,
        "--ignored",
        "--nocapture",
        "--test-threads=1",
    ]
}

/// Returns the command that runs this program: by the runner that Cargo is told of, if it is a
/// program for another processor.
pub fn own_program() -> Command {
    let processor = env::consts::ARCH.to_uppercase();
    let named = format!("CARGO_TARGET_{processor}_UNKNOWN_LINUX_GNU_RUNNER");
    let runner = env::var(named).unwrap_or_default();
    let program = env::current_exe().unwrap();
    let mut words = runner.split_whitespace();
    match words.next() {
        Some(first) => {
            let mut command = Command::new(first);
            command.args(words).arg(program);
            command
        }
        None => Command::new(program),
    }
}

/// Returns the command that runs an ignored test in a process of its own.
pub fn command_of(test: &str) -> Command {
    let mut command = own_program();
    command.args(arguments(test)).env("RUST_BACKTRACE", "0");
    command
}

/// Panics unless the process runs its one test, which passes. Returns what it prints.
pub fn pass(command: &mut Command) -> String {
    let output = command.output().unwrap();
    let said = String::from_utf8_lossy(&output.stderr);
    let printed = String::from_utf8(output.stdout).unwrap();
    assert!(output.status.success(), "{printed}{said}");
    assert!(printed.contains("1 passed"), "{printed}{said}");
    printed
}

/// Returns whether a program runs on this machine. If not, says which tests are left out. A program
/// that rustup stands in for may be on the path without its toolchain.
pub fn is_there(program: &str, untested: &str) -> bool {
    let output = Command::new(program).arg("--version").output();
    let is_there = output.is_ok_and(|output| output.status.success());
    if !is_there {
        println!("skipped: {program} does not run here, so {untested}");
    }
    is_there
}
