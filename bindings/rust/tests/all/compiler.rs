//! `Rustc` over a program that stands in for `rustc`, which the target tells what to print, and
//! over none. The program is on the path, or named.

use super::child;
use cfgx::targets::{Rustc, RustcCfgError, RustcError};
use std::error::Error;
use std::path::{Path, PathBuf};
use std::process::Command;

/// Returns the path of a folder of the crate.
fn path_of(folder: &str) -> PathBuf {
    Path::new(env!("CARGO_MANIFEST_DIR")).join(folder)
}

/// Returns the command that runs an ignored test in a process whose path has this folder alone.
fn command_with_path(folder: &str, test: &str) -> Command {
    let mut command = child::command_of(test);
    command.env("PATH", path_of(folder)).env_remove("RUSTC");
    command
}

/// Runs an ignored test in a process whose path has this folder alone.
fn pass_with_path(folder: &str, test: &str) {
    child::pass(&mut command_with_path(folder, test));
}

/// Returns the lines that the program prints for a target that has its name as architecture.
fn lines_of(name: &str) -> Vec<String> {
    let lines = "debug_assertions panic=\"unwind\" target_arch=\"NAME\" target_endian=\"little\" \
        target_feature=\"fxsr\" target_feature=\"sse\" target_os=\"linux\" \
        target_pointer_width=\"64\" target_thread_local proc_macro unix";
    lines
        .replace("NAME", name)
        .split(' ')
        .map(str::to_string)
        .collect()
}

#[test]
#[ignore = "the test below runs it with a path of its own"]
fn is_asked_of_targets() {
    let triples = ["one-two", "one", "warned", "spaced", "one"];
    let rustc = Rustc::ask(triples).unwrap();
    assert_eq!(rustc.targets().len(), triples.len());
    assert_eq!(rustc.facts().len(), triples.len());
    for (place, name) in triples.iter().enumerate() {
        let target = &rustc.targets()[place];
        assert_eq!(target.triple.as_str(), *name);
        assert_eq!(target.arch.as_str(), *name);
        let facts = &rustc.facts()[place];
        let lines: Vec<&str> = (0..facts.len()).filter_map(|one| facts.get(one)).collect();
        assert_eq!(lines, lines_of(name));
        assert_eq!(rustc.target(name), Some(target));
    }
    let others = ["", "o", "on", "one-", "two", "one ", "One"];
    assert_eq!(others.map(|other| rustc.target(other)), [None; 7]);
    assert!(Rustc::ask([""; 0]).unwrap().targets().is_empty());
}

/// Targets of which the program says nothing, what it says, and what the error prints.
const REFUSED: [(&str, &str, &str); 4] = [
    (
        "refused",
        "error: no refused\n  help: none\n\n",
        "rustc does not know refused: error: no refused\n  help: none",
    ),
    (
        "refused-late",
        "error: late\n",
        "rustc does not know refused-late: error: late",
    ),
    (
        "refused-on-stdout",
        "",
        "rustc does not know refused-on-stdout: ",
    ),
    ("killed", "", "rustc does not know killed: "),
];

#[test]
#[ignore = "the test below runs it with a path of its own"]
fn is_refused_by_the_program() {
    for (name, said, printed) in REFUSED {
        let error = Rustc::ask(["one", name, "nothing"]).unwrap_err();
        assert_eq!(error.to_string(), printed);
        assert!(error.source().is_none());
        match error {
            RustcError::Refused { triple, message } => {
                assert_eq!((&*triple, &*message), (name, said))
            }
            other => panic!("{name}: {other:?}"),
        }
    }
}

/// Targets that the program does not describe, and what the error prints.
const UNREAD: [(&str, &str); 5] = [
    ("nothing", "no line has a target_arch"),
    ("on-stderr", "no line has a target_arch"),
    ("less", "no line has a target_pointer_width"),
    ("faulty", "line 12:\nall(\n   - unclosed parens"),
    ("twice", "line 12: another target_os"),
];

#[test]
#[ignore = "the test below runs it with a path of its own"]
fn is_not_described_by_the_program() {
    for (name, said) in UNREAD {
        let error = Rustc::ask(["one", name, "refused"]).unwrap_err();
        assert_eq!(error.to_string(), format!("rustc of {name}: {said}"));
        let source = error.source().unwrap();
        assert_eq!(source.to_string(), said);
        assert!(source.is::<RustcCfgError>());
        match error {
            RustcError::Unread { triple, .. } => assert_eq!(triple, name),
            other => panic!("{name}: {other:?}"),
        }
    }
}

#[test]
#[ignore = "the test below runs it with a path of its own"]
fn is_not_there() {
    let error = Rustc::ask(["one"]).unwrap_err();
    assert!(error.to_string().starts_with("rustc could not be run: "));
    assert!(error.source().unwrap().is::<std::io::Error>());
    assert!(matches!(error, RustcError::NotRun(_)), "{error:?}");
    assert!(Rustc::ask([""; 0]).is_ok());
}

#[test]
fn what_rustc_prints_becomes_targets_and_facts() {
    pass_with_path("tests/fake/rustc", "compiler::is_asked_of_targets");
}

#[test]
fn what_rustc_refuses_is_an_error() {
    pass_with_path("tests/fake/rustc", "compiler::is_refused_by_the_program");
    pass_with_path(
        "tests/fake/rustc",
        "compiler::is_not_described_by_the_program",
    );
}

#[test]
fn without_rustc_there_is_an_error() {
    pass_with_path("tests/fake", "compiler::is_not_there");
}

#[test]
fn the_variable_names_the_program() {
    let program = path_of("tests/fake/rustc/rustc");
    let mut asked = command_with_path("tests/fake", "compiler::is_asked_of_targets");
    child::pass(asked.env("RUSTC", program));
    let mut missing = command_with_path("tests/fake/rustc", "compiler::is_not_there");
    child::pass(missing.env("RUSTC", path_of("tests/fake/rustc/none")));
    // Cargo takes an empty name too, and fails.
    let mut empty = command_with_path("tests/fake/rustc", "compiler::is_not_there");
    child::pass(empty.env("RUSTC", ""));
}

#[test]
fn a_program_is_asked_by_its_path() {
    let program = path_of("tests/fake/rustc/rustc");
    let rustc = Rustc::ask_program(&program, ["one"]).unwrap();
    assert_eq!(rustc.targets()[0].arch.as_str(), "one");
    let none = Rustc::ask_program(path_of("tests/fake/rustc/none"), ["one"]);
    assert!(matches!(none, Err(RustcError::NotRun(_))), "{none:?}");
}
