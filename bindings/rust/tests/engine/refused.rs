//! Calls of the engine, each growth of which is refused in turn. The call returns its error, leaves
//! no block behind, and keeps what it says that it keeps.

use crate::engine::cfg_expr::error::Failure;
use crate::engine::cfg_expr::expr::logic::Kleene64;
use crate::engine::cfg_expr::expr::{ConditionReader, StepsError, eval_steps};
use crate::engine::cfg_expr::targets::{
    Env, Families, Family, HasAtomic, HasAtomicFailure, HasAtomics, TargetInfo, TargetTable,
    Triple, builtins,
};
use crate::engine::cfg_expr::{Decision, Expression, Predicate, TargetPredicate};
use crate::engine::cfgx_engine::resolve::{
    AuditError, Decider, Facts, FactsError, Otherwise, Section, audit, audit_facts, pick,
};
use crate::engine::cfgx_parser::unaskable::is_unaskable;
use crate::engine::rattle::alloc::{AllocError, Global};
use crate::engine::rattle::prelude::String as Owned;
use crate::memory::{growths_of, refuse_each, refusing};

/// A condition with more nodes than fit inside, in lists and below each other.
const NESTED: &str = "cfg(all(unix, any(a, b, not(c)), any(d = \"1\", all(e, f), not(all(g, h)))))";

/// Triples of built-in targets.
const BUILTIN: [&str; 2] = ["aarch64-apple-darwin", "aarch64-apple-ios"];

/// Returns a condition of so many predicates.
fn many(count: usize) -> String {
    format!("any({})", "a, ".repeat(count))
}

/// Returns a condition below so many functions.
fn deep(count: usize) -> String {
    format!("{}a{}", "not(".repeat(count), ")".repeat(count))
}

/// Parses a text.
fn parsed(text: &str) -> Expression {
    Expression::parse(Global, text).unwrap()
}

/// Whether a failure is that of memory.
fn is_memory(failure: &Failure) -> bool {
    matches!(failure, Failure::Memory(AllocError))
}

/// Refuses each growth of a call whose error can only be that of memory.
fn refuse<T>(call: impl Fn() -> Result<T, AllocError>) -> usize {
    refuse_each(call, |error| *error == AllocError)
}

#[test]
fn parse() {
    // The text is copied, and all else lies inside.
    assert_eq!(
        refuse_each(|| Expression::parse(Global, "unix"), is_memory),
        1
    );
    for text in [NESTED, &many(100), &deep(50), &deep(1000)] {
        assert!(refuse_each(|| Expression::parse(Global, text), is_memory) > 2);
    }
}

#[test]
fn parse_of_a_fault() {
    for text in [
        "",
        "(",
        "all(unix, \"",
        "target_has_atomic = \"x\"",
        &many(100)[1..],
    ] {
        let parse = || match Expression::parse(Global, text) {
            Err(Failure::Parse(error)) => Ok(error.description()),
            Err(failure) => Err(failure),
            Ok(_) => panic!("the text has a fault"),
        };
        let growths = refuse_each(parse, is_memory);
        assert!(growths > 0 || text.is_empty());
    }
}

#[test]
fn clones() {
    for (text, growths) in [("unix", 1), (NESTED, 3)] {
        let condition = parsed(text);
        assert_eq!(refuse(|| condition.try_clone(Global)), growths);
    }
}

#[test]
fn values() {
    for count in [30, 100] {
        let condition = parsed(&many(count));
        let growths = usize::from(count > 36);
        let eval = || condition.eval(Global, &mut |_: &Predicate<'_>| false);
        assert_eq!(refuse(eval), growths);
        let lanes = vec![Kleene64::new(1, 2); count];
        assert_eq!(refuse(|| condition.eval_lanes(Global, &lanes)), growths);
        let given = || {
            condition
                .condition()
                .eval_over(Global, (0..count).map(|_| true))
        };
        assert_eq!(refuse(given), growths);
        assert_eq!(given(), Ok(true));
    }
}

#[test]
fn a_refused_value_asks_nothing() {
    let condition = parsed(&many(100));
    let mut asked = 0;
    let mut ask = |_: &Predicate<'_>| {
        asked += 1;
        false
    };
    assert_eq!(
        refusing(0, || condition.eval(Global, &mut ask)),
        Err(AllocError)
    );
    assert_eq!(asked, 0);
}

#[test]
fn steps() {
    for count in [30, 100] {
        let condition = parsed(&many(count));
        assert_eq!(refuse(|| condition.steps(Global)), 1);
        let steps = condition.steps(Global).unwrap();
        let answers = vec![false; count];
        let value = || eval_steps(Global, &steps, &answers);
        let is_memory = |error: &StepsError| matches!(error, StepsError::Memory(AllocError));
        assert_eq!(refuse_each(value, is_memory), usize::from(count > 36));
    }
}

/// Returns the filling that makes `any` of so many predicates true, or false.
fn all_of(value: bool, count: usize) -> Vec<bool> {
    vec![value; count]
}

#[test]
fn decisions() {
    for count in [3, 100] {
        let condition = parsed(&many(count));
        let answers = vec![None; count];
        let growths = refuse(|| condition.decide(Global, &answers));
        // Those of both fillings, and of lists that do not lie inside.
        assert_eq!(growths == 2, count <= 36);
        assert_eq!(
            refuse(|| condition.polar_fillings(Global, &answers)),
            growths
        );
    }
}

#[test]
fn a_refused_decision_keeps_the_last_one() {
    let condition = parsed(&many(100));
    let (growths, _) = growths_of(|| condition.decide(Global, &[None; 100]));
    for growth in 0..growths {
        let mut decision = parsed("any(a, b)").decide(Global, &[None, None]).unwrap();
        let decide = || {
            condition
                .condition()
                .decide(Global, &[None; 100], &mut decision)
        };
        assert_eq!(refusing(growth, decide), Err(AllocError));
        let Decision::Unknown { if_true, if_false } = decision else {
            panic!("the decision is lost");
        };
        assert_eq!(if_true.as_slice(), all_of(true, 2));
        assert_eq!(if_false.as_slice(), all_of(false, 2));
    }
}

#[test]
fn refused_fillings_keep_the_buffers() {
    let condition = parsed(&many(100));
    let (mut if_true, mut if_false) = ([7; 100], [8; 100]);
    let mut write = || {
        let condition = condition.condition();
        condition.write_fillings(Global, &[None; 100], &mut if_true, &mut if_false)
    };
    let (growths, written) = growths_of(&mut write);
    assert_eq!(written, Ok(()));
    for growth in 0..growths {
        assert_eq!(refusing(growth, &mut write), Err(AllocError));
    }
    assert_eq!((if_true, if_false), ([1; 100], [0; 100]));
}

#[test]
fn readers() {
    let texts = ["unix", NESTED, &many(100), "all(", &deep(100)];
    let read = || {
        let mut reader = ConditionReader::new(Global);
        for text in &texts {
            match reader.read(text) {
                Ok(condition) => assert!(text.contains(condition.original())),
                Err(Failure::Parse(error)) => assert_eq!(error.original.as_str(), "all("),
                Err(Failure::Memory(error)) => return Err(error),
            }
        }
        Ok(())
    };
    assert!(refuse(read) > 5);
}

#[test]
fn a_reader_reads_on_after_a_refusal() {
    let text = many(100);
    let mut reader = ConditionReader::new(Global);
    assert!(refusing(0, || reader
        .read(&text)
        .is_err_and(|failure| is_memory(&failure))));
    let count = reader.read(&text).unwrap().predicates().count();
    assert_eq!(count, 100);
}

/// Facts of a target.
const FACTS: [&str; 5] = [
    "unix",
    "?any(a, b)",
    "feature = \"x\"",
    "target_env = \"gnu\"",
    "?c",
];

/// Returns facts.
fn facts() -> Facts {
    Facts::from_flags(Global, &FACTS).unwrap()
}

#[test]
fn facts_of_a_target() {
    let is_memory = |error: &FactsError| matches!(error, FactsError::Memory(AllocError));
    assert!(refuse_each(|| Facts::from_flags(Global, &FACTS), is_memory) > 4);
    let lines = ["unix", "target_unknown = \"x\"", "feature"];
    assert!(refuse_each(|| Facts::from_rustc(Global, &lines), is_memory) > 4);
    let is_unaskable = || is_unaskable(Global, "target_unknown = \"x\"");
    assert_eq!(is_unaskable(), Ok(true));
    assert!(refuse(is_unaskable) > 0);
}

#[test]
fn audits() {
    let many = many(100);
    let targets: Vec<_> = (0..70).map(|_| facts()).collect();
    let is_memory = |error: &AuditError| is_memory(&error.failure);
    let audit_texts = || {
        audit_facts(
            Global,
            &["unix", NESTED, &many],
            &targets,
            Otherwise::Unknown,
        )
    };
    assert!(refuse_each(audit_texts, is_memory) > 70);
    let rows = TargetTable::builtins(Global).unwrap();
    for text in ["unix", &many] {
        let condition = parsed(text);
        assert!(refuse(|| audit(Global, &condition, rows.rows())) >= 2);
        let section = Section {
            name: Owned::from_str(Global, "name").unwrap(),
            condition,
        };
        let sections = [section];
        let growths = refuse(|| pick(Global, &sections, &rows.rows()[0]));
        assert_eq!(growths, if text == "unix" { 1 } else { 2 });
    }
}

#[test]
fn a_refused_decider_keeps_what_it_held() {
    let row = builtins::builtin(Global, BUILTIN[0]).unwrap().unwrap();
    let (first, second) = (parsed("any(unix, a)"), parsed(&many(100)));
    let (growths, _) = growths_of(|| Decider::new(Global).decide(&second.condition(), &row));
    assert!(growths > 5);
    for growth in 0..growths {
        let mut decider = Decider::new(Global);
        decider.decide(&first.condition(), &row).unwrap();
        let decide = || decider.decide(&second.condition(), &row);
        assert_eq!(refusing(growth, decide), Err(AllocError));
        assert_eq!(decider.answers.as_slice(), [Some(true), None]);
        assert!(matches!(decider.decision, Decision::Known(true)));
    }
}

#[test]
fn targets() {
    assert!(refuse(|| TargetTable::builtins(Global)) > BUILTIN.len());
    for triple in BUILTIN {
        assert_eq!(refuse(|| builtins::builtin(Global, triple)), 2);
    }
    let row = builtins::builtin(Global, BUILTIN[0]).unwrap().unwrap();
    let owned = TargetInfo {
        triple: Triple::new(Owned::from_str(Global, "triple").unwrap()),
        env: Some(Env::new(Owned::from_str(Global, "env").unwrap())),
        ..row
    };
    assert_eq!(refuse(|| owned.try_clone(Global)), 4);
}

#[test]
fn lists_and_fields() {
    let names = ["b", "a", "c", "a", "b"];
    let families = || Families::new(Global, names.iter().map(|name| Family::new_const(name)));
    assert_eq!(refuse(families), 2);
    let widths = || HasAtomics::new(Global, (0..9).map(HasAtomic::IntegerSize));
    assert_eq!(refuse(widths), 3);
    let refused = refusing(0, || HasAtomic::read(Global, "none"));
    assert_eq!(refused, Err(HasAtomicFailure::Memory(AllocError)));
    let predicate = TargetPredicate::Env(Env::new(Owned::from_str(Global, "env").unwrap()));
    assert_eq!(refuse(|| predicate.try_clone(Global)), 1);
}
