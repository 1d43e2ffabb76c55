//! Each growth of each call of the crate refused in turn: the process ends, as it does for `Vec`.
//! `tests/engine` has the calls of the engine, which return an error.

#![cfg(unix)]

#[allow(dead_code)]
#[path = "all/child.rs"]
mod child;
#[allow(dead_code)]
#[path = "engine/memory.rs"]
mod memory;

use cfgx::expr::lexer::Lexer;
use cfgx::targets::TargetInfo;
use cfgx::{Expression, Facts, Otherwise, Predicate, audit, audit_with};
use std::collections::BTreeSet;
use std::env;
use std::os::unix::process::ExitStatusExt;

/// A condition of which each call takes memory. `cfg( )` makes it longer than what is kept of it.
const CONDITION: &str = "cfg(all(unix, any(key = \"value\", not(target_os = \"not named\"))))";

/// The value of its last predicate, of which a predicate has a copy.
const COPIED: &str = "not named";

/// A condition whose values on the target are all named, so no predicate has a copy of one.
const NAMED: &str = "all(unix, feature = \"x\", target_os = \"linux\", not(loom))";

/// A text that is no condition.
const FAULTY: &str = "cfg(all(unix, any(key = \"value\", not(a, b))))";

/// A text with a quote that is never closed.
const UNCLOSED: &str = "cfg(all(unix, any(key = \"value, not(test))))";

/// A line that no condition can ask.
const PASSED_OVER: &str = "target_something_that_no_condition_can_ask_for=\"x\"";

/// What a call is passed, which is made before a growth is refused.
struct Given {
    conditions: [Expression; 1],
    named: Expression,
    long: String,
    long_condition: Expression,
    targets: [Facts; 2],
    no_targets: [Facts; 2],
}

impl Given {
    fn new() -> Self {
        let long = format!("all({})", "a,".repeat(200));
        Given {
            conditions: [Expression::parse(CONDITION).unwrap()],
            named: Expression::parse(NAMED).unwrap(),
            long_condition: Expression::parse(&long).unwrap(),
            long,
            targets: [Facts::new(["unix", PASSED_OVER, "?a"]), Facts::default()],
            no_targets: [Facts::new(["unix"]), Facts::new(["test", "all( "])],
        }
    }

    /// Calls the function with this name.
    fn call(&self, name: &str) {
        let [condition] = &self.conditions;
        let is_key = |one: &Predicate<'_>| matches!(one, Predicate::KeyValue { .. });
        match name {
            "parse" => drop(Expression::parse(CONDITION)),
            "parse a faulty text" => drop(Expression::parse(FAULTY)),
            "parse a long text" => drop(Expression::parse(&self.long)),
            "list tokens" => assert!(Lexer::new(CONDITION).all(|token| token.is_ok())),
            "list tokens up to a fault" => drop(Lexer::new(UNCLOSED).last()),
            "decide" => drop(condition.decide(|_| None)),
            "audit" => drop(audit(&self.conditions, &self.targets)),
            "audit_with" => drop(audit_with(
                &self.conditions,
                &self.targets,
                Otherwise::False,
            )),
            "audit over a faulty fact" => drop(audit(&self.conditions, &self.no_targets)),
            "read a line" => drop(TargetInfo::from_rustc_cfg("mine", PASSED_OVER)),
            "eval" => assert_eq!(condition.eval(|_| None::<bool>), None),
            "eval of named values" => assert_eq!(self.named.eval(|_| None::<bool>), None),
            "eval of a long condition" => assert!(self.long_condition.eval(|_| true)),
            "predicates" => assert_eq!(condition.predicates().filter(is_key).count(), 1),
            "predicates of named values" => {
                assert_eq!(self.named.predicates().filter(is_key).count(), 0);
            }
            "clone" => drop(condition.clone()),
            other => panic!("{other}"),
        }
    }
}

#[test]
#[ignore = "the test below runs it in a process of its own"]
fn a_call_with_a_refused_growth() {
    let given = Given::new();
    let name = env::var("CFGX_TEST_CALL").unwrap();
    let growth = env::var("CFGX_TEST_GROWTH").unwrap().parse().unwrap();
    let (growths, ()) = memory::growths_of(|| given.call(&name));
    println!("{growths} growths");
    if growth < growths {
        memory::refusing(growth, || given.call(&name));
        println!("returned");
    }
}

/// Makes the call in a process of its own. Returns the number of bytes that its end names, or
/// `None` if the call asks for no growth with this number. Panics if it returns all the same.
fn bytes_named(name: &str, growth: usize) -> Option<usize> {
    let output = child::command_of("a_call_with_a_refused_growth")
        .env("CFGX_TEST_CALL", name)
        .env("CFGX_TEST_GROWTH", growth.to_string())
        .output()
        .unwrap();
    let printed = String::from_utf8_lossy(&output.stdout);
    let said = String::from_utf8_lossy(&output.stderr);
    assert!(printed.contains(" growths\n"), "{name}, {growth}: {said}");
    assert!(!printed.contains("returned"), "{name}, {growth}: {said}");
    if output.status.success() {
        return None;
    }
    assert_eq!(output.status.signal(), Some(6), "{name}, {growth}: {said}");
    let (_, behind) = said.split_once("memory allocation of ").unwrap();
    let (bytes, _) = behind.split_once(" bytes failed").unwrap();
    Some(bytes.parse().unwrap())
}

/// Each call, and a number of bytes that is named if a growth is refused: if it is one of the
/// engine, that of the text or of the facts which it was passed. `None` if the call takes no
/// memory.
const CALLS: &[(&str, Option<usize>)] = &[
    ("parse", Some(CONDITION.len())),
    ("parse a faulty text", Some(FAULTY.len())),
    ("parse a long text", Some(405)),
    ("list tokens", None),
    ("list tokens up to a fault", Some(UNCLOSED.len() - 5)),
    ("decide", Some(CONDITION.len() - 5)),
    ("audit", Some(PASSED_OVER.len() + 6)),
    ("audit_with", Some(PASSED_OVER.len() + 6)),
    ("audit over a faulty fact", Some(9)),
    ("read a line", Some(PASSED_OVER.len())),
    ("eval", Some(COPIED.len())),
    ("eval of named values", None),
    ("eval of a long condition", Some(405)),
    ("predicates", Some(COPIED.len())),
    ("predicates of named values", None),
    ("clone", Some(CONDITION.len() - 5)),
];

#[test]
fn each_refused_growth_ends_the_process() {
    for (name, expected) in CALLS {
        let named = |growth| bytes_named(name, growth);
        let bytes: BTreeSet<usize> = (0..).map_while(named).collect();
        assert_eq!(bytes.is_empty(), expected.is_none(), "{name}: {bytes:?}");
        assert!(
            expected.is_none_or(|one| bytes.contains(&one)),
            "{name}: {bytes:?}"
        );
    }
}
