//! Audits.

use super::lexing::counts_of;
use super::model;
use cfgx::error::Reason;
use cfgx::{Audit, Expression, FactError, Facts, Otherwise, audit, audit_with};
use std::ops::Range;
use std::panic::catch_unwind;

#[test]
fn values_are_those_of_each_condition_on_each_target() {
    let texts = [
        "unix",
        "any(windows, feature = \"x\")",
        "not(test)",
        "true",
        "cfg(a)",
    ];
    let conditions = texts.map(|text| Expression::parse(text).unwrap());
    let lists: [&[&str]; 4] = [
        &["unix", "target_thread_local"],
        &["windows", "?a"],
        &[],
        &["feature = \"x\"", "?feature = \"x\"", "a"],
    ];
    let targets = lists.map(Facts::new);
    let values = audit(&conditions, &targets).unwrap();
    for (row, expression) in conditions.iter().enumerate() {
        for (column, facts) in lists.iter().enumerate() {
            let answers = model::answers(expression.original(), facts);
            let expected = model::value(expression.original(), &answers);
            assert_eq!(
                values.value(row, column),
                expected,
                "{expression} {facts:?}"
            );
        }
        assert_eq!(values.row(row).len(), lists.len());
    }
}

/// A condition, facts that a semicolon separates, and two values by the rules of `docs/RULES.md`: 1
/// for true, 0 for false, ? for unknown. The first value is that if other predicates are unknown,
/// and the second one that if they are false.
const VALUES: &[(&str, &str, &str)] = &[
    ("unix", "unix", "11"),
    ("unix", "target_family = \"unix\"", "11"),
    ("unix", "windows", "00"),
    ("unix", "", "00"),
    ("unix", "?unix", "??"),
    ("unix", "?unix;unix", "11"),
    ("not(unix)", "?unix", "??"),
    ("test", "", "?0"),
    ("not(test)", "", "?1"),
    ("target_feature = \"sse\"", "", "?0"),
    ("target_feature = \"sse\"", "target_feature=\"sse\"", "11"),
    ("feature = \"x\"", "", "?0"),
    ("feature = \"x\"", "feature", "?0"),
    ("panic = \"abort\"", "panic", "00"),
    ("panic = \"abort\"", "panic=\"abort\"", "11"),
    ("target_has_atomic = \"8\"", "target_has_atomic", "00"),
    (
        "target_has_atomic = \"8\"",
        "target_has_atomic=\"+08\"",
        "11",
    ),
    ("any(a, not(a))", "", "?1"),
    ("any(a, not(a))", "?a", "??"),
    ("all(a, b)", "a", "?0"),
    ("all(a, b)", "not(any(a, b))", "11"),
    ("all()", "", "11"),
    ("any()", "a", "00"),
    // White space within a value is part of it.
    ("feature = \"a\nb\"", "feature = \"a\nb\"", "11"),
    ("feature = \"a\nb\"", "feature = \"a b\"", "?0"),
    ("feature = \"a\tb\"", "feature = \"a\tb\"", "11"),
];

/// Returns the digit of a value.
fn digit(value: Option<bool>) -> &'static str {
    match value {
        Some(false) => "0",
        Some(true) => "1",
        None => "?",
    }
}

#[test]
fn values_over_facts() {
    for (text, facts, expected) in VALUES {
        let conditions = [Expression::parse(text).unwrap()];
        let targets = [Facts::new(facts.split(';').filter(|fact| !fact.is_empty()))];
        let known = audit_with(&conditions, &targets, Otherwise::False).unwrap();
        let unknown = audit_with(&conditions, &targets, Otherwise::Unknown).unwrap();
        let found = digit(unknown.value(0, 0)).to_string() + digit(known.value(0, 0));
        assert_eq!(found, *expected, "{text} over {facts}");
        assert_eq!(audit(&conditions, &targets), Ok(unknown));
    }
}

#[test]
fn other_predicates_are_unknown_by_default() {
    assert_eq!(Otherwise::default(), Otherwise::Unknown);
}

/// No conditions.
const NONE: [Expression; 0] = [];

/// No targets.
const NO_TARGETS: [Facts; 0] = [];

/// Returns the error of an audit of no conditions on these targets.
fn error_of(targets: &[Facts]) -> FactError {
    audit(NONE, targets).unwrap_err()
}

/// The number of facts of each target, one of which is faulty in turn.
const COUNTS: [usize; 9] = [0, 2, 0, 0, 3, 1, 0, 5, 0];

/// Texts that are no facts.
const NO_FACTS: [&str; 8] = [
    "",
    " ",
    "?",
    "all(",
    " ?all( ",
    "a b\n",
    "é",
    "\ttarget_os,",
];

/// Returns targets with these numbers of facts, of which one is `fact`.
fn targets_with(fact: &str, target: usize, number: usize) -> Vec<Facts> {
    let text = |place: (usize, usize)| {
        if place == (target, number) {
            fact.to_string()
        } else {
            format!("key{}", place.1)
        }
    };
    let facts = |(target, count): (usize, &usize)| -> Facts {
        let texts: Vec<String> = (0..*count).map(|number| text((target, number))).collect();
        Facts::new(texts)
    };
    COUNTS.iter().enumerate().map(facts).collect()
}

#[test]
fn each_faulty_fact_is_named() {
    let places = COUNTS
        .iter()
        .enumerate()
        .flat_map(|(target, count)| (0..*count).map(move |number| (target, number)));
    let texts = NO_FACTS.iter().cycle();
    let mut seen = 0;
    for ((target, number), text) in places.cycle().zip(texts).take(11 * NO_FACTS.len()) {
        let error = error_of(&targets_with(text, target, number));
        let (printed, end) = (error.to_string(), format!(": {}: {text}", error.reason));
        let start = format!("fact {number} of target {target} is faulty in bytes ");
        assert!(
            printed.starts_with(&start) && printed.ends_with(&end),
            "{printed}"
        );
        let found = (error.target, error.number, error.fact.as_str());
        assert_eq!(found, (target, number, *text));
        seen += 1;
    }
    assert_eq!(seen, 88);
}

/// Faulty facts, with the reason and the bytes at fault by `docs/RULES.md`. A `?` and a `cfg(` in
/// front of what is faulty are bytes of the fact too.
const FACT_FAULTS: [(&str, Reason, Range<usize>); 11] = [
    ("", Reason::Empty, 0..0),
    ("?", Reason::Empty, 1..1),
    ("all(", Reason::UnclosedParens, 3..4),
    ("?all(", Reason::UnclosedParens, 4..5),
    ("cfg(all()", Reason::UnclosedParens, 7..8),
    ("?cfg(all()", Reason::UnclosedParens, 8..9),
    ("key)", Reason::UnopenedParens, 3..4),
    ("a = \"é\")", Reason::UnopenedParens, 8..9),
    ("not(a, b)", Reason::InvalidNot(2), 0..9),
    ("?not()", Reason::InvalidNot(0), 1..6),
    (
        "\"x\"",
        Reason::Unexpected(&["<key>", "all", "any", "not"]),
        0..3,
    ),
];

#[test]
fn a_faulty_fact_has_its_reason_and_the_bytes_at_fault() {
    for (fact, reason, span) in FACT_FAULTS {
        let targets = [Facts::new(["unix"]), Facts::new(["test", fact])];
        let error = error_of(&targets);
        assert_eq!((error.target, error.number), (1, 1));
        assert_eq!((error.reason, error.span.clone()), (reason, span.clone()));
        assert_eq!(error.fact, fact);
        let printed = format!("fact 1 of target 1 is faulty in bytes {span:?}: {reason}: {fact}");
        assert_eq!(error.to_string(), printed);
    }
}

#[test]
fn the_first_faulty_fact_is_named() {
    let targets = [
        Facts::default(),
        Facts::new(["unix", "test"]),
        Facts::default(),
        Facts::new(["unix", "key)", "all("]),
    ];
    let error = error_of(&targets);
    assert_eq!(
        (error.target, error.number, error.fact.as_str()),
        (3, 1, "key)")
    );
    let error = error_of(&[Facts::new(["all("])]);
    assert_eq!((error.target, error.number), (0, 0));
}

#[test]
fn nothing_to_audit() {
    let condition = Expression::parse("unix").unwrap();
    let values = audit(&[condition], NO_TARGETS).unwrap();
    assert_eq!((values.condition_count(), values.target_count()), (1, 0));
    assert_eq!(values.row(0), []);
    for number in [1, usize::MAX] {
        let said = panic_of(&values, |values| values.row(number).len());
        assert_eq!(said, format!("no condition has the number {number}"));
    }
    let values = audit(NONE, &[Facts::new(["unix"])]).unwrap();
    assert_eq!((values.condition_count(), values.target_count()), (0, 1));
    assert_ne!(Ok(values), audit(NONE, NO_TARGETS));
}

/// Lists of facts. The fifth one has the texts of the one before it in one fact.
const LISTS: [&[&str]; 6] = [
    &[],
    &[""],
    &["", "", "a"],
    &["a", "", "é "],
    &["aé "],
    &["a", "b", "c", "d", "e", "f", "g", "h", "i", "j", "k", "l"],
];

#[test]
fn facts_are_the_texts_in_order() {
    for list in LISTS {
        let facts = Facts::new(list);
        let found: Vec<&str> = (0..facts.len()).filter_map(|one| facts.get(one)).collect();
        assert_eq!(found, list);
        assert_eq!(facts.iter().collect::<Vec<&str>>(), list);
        assert_eq!(facts.iter().len(), list.len());
        assert!(facts.iter().rev().eq(list.iter().rev().copied()));
        assert_eq!(list.iter().copied().collect::<Facts>(), facts);
        assert_eq!(format!("{facts:?}"), format!("{list:?}"));
        assert_eq!(facts.get(list.len()), None);
        assert_eq!(facts.is_empty(), list.is_empty(), "{list:?}");
        let equal = LISTS.map(|other| Facts::new(other) == facts);
        assert_eq!(equal, LISTS.map(|other| other == list));
    }
}

#[test]
fn facts_are_added_behind_those_that_are_there() {
    let mut facts = Facts::new(["unix"]);
    facts.extend([String::from("test"), String::new()]);
    facts.extend(Some(&"loom"));
    assert_eq!(facts, Facts::new(["unix", "test", "", "loom"]));
}

/// Returns the values of two conditions on two targets.
fn two_by_two() -> Audit {
    let conditions = ["unix", "a"].map(|text| Expression::parse(text).unwrap());
    audit(&conditions, &["unix", "a"].map(|fact| Facts::new([fact]))).unwrap()
}

/// Returns what the call says when it panics, or an empty text if it does not.
fn panic_of<T>(values: &Audit, call: impl Fn(&Audit) -> T) -> String {
    let call = std::panic::AssertUnwindSafe(|| call(values));
    let payload = catch_unwind(call).err();
    let text = payload.and_then(|payload| payload.downcast::<String>().ok());
    text.map_or(String::new(), |text| *text)
}

/// A number that twice is more than the largest one.
const HALF: usize = usize::MAX / 2 + 1;

#[test]
fn conditions_that_are_not_there_panic() {
    let values = two_by_two();
    assert_eq!((values.condition_count(), values.target_count()), (2, 2));
    assert_eq!(panic_of(&values, |values| values.row(1)[1]), "");
    for condition in [2, 3, HALF, HALF + 1, usize::MAX] {
        let expected = format!("no condition has the number {condition}");
        let said = panic_of(&values, |values| values.row(condition)[0]);
        assert_eq!(said, expected);
        let said = panic_of(&values, |values| values.value(condition, 0));
        assert_eq!(said, expected);
    }
}

#[test]
fn targets_that_are_not_there_panic() {
    let values = two_by_two();
    assert_eq!(panic_of(&values, |values| values.value(1, 1)), "");
    for target in [2, 3, HALF, usize::MAX] {
        let expected = format!("no target has the number {target}");
        for condition in [0, 1] {
            let said = panic_of(&values, |values| values.value(condition, target));
            assert_eq!(said, expected);
        }
    }
}

#[test]
fn values_that_are_not_there_are_none() {
    let values = two_by_two();
    for (condition, target) in [(0, 0), (0, 1), (1, 0), (1, 1)] {
        let value = values.value(condition, target);
        assert_eq!(values.get(condition, target), Some(value));
    }
    for (condition, target) in [(2, 0), (0, 2), (HALF, 0), (0, HALF), (usize::MAX, 1)] {
        assert_eq!(values.get(condition, target), None);
    }
}

#[test]
fn facts_are_iterated_from_both_ends() {
    let facts = Facts::new(["a", "b", "c"]);
    let mut left = (&facts).into_iter();
    assert_eq!((left.next(), left.next_back()), (Some("a"), Some("c")));
    assert_eq!((left.len(), left.size_hint()), (1, (1, Some(1))));
    assert_eq!((left.next_back(), left.next_back()), (Some("b"), None));
    assert_eq!((left.next(), left.len()), (None, 0));
    let mut count = 0;
    for fact in &facts {
        assert_eq!(facts.get(count), Some(fact));
        count += 1;
    }
    assert_eq!(count, 3);
    assert_eq!(counts_of(facts.iter()), (3, 0));
}

#[test]
fn conditions_and_facts_come_from_iterators() {
    let texts = ["unix", "not(unix)"];
    let owned = texts.map(|text| Expression::parse(text).unwrap());
    let targets = ["unix", "windows"].map(|fact| Facts::new([fact]));
    let expected = audit(&owned, &targets);
    assert_eq!(audit(owned.iter(), targets.iter()), expected);
    let parsed = texts.iter().map(|text| Expression::parse(text).unwrap());
    let made = ["unix", "windows"].iter().map(|fact| Facts::new([fact]));
    assert_eq!(audit(parsed, made), expected);
    let boxed = owned.clone().map(Box::new);
    assert_eq!(audit(boxed, targets), expected);
}

/// The number of targets, around those whose values are found at once.
const TARGET_COUNTS: [usize; 8] = [1, 2, 63, 64, 65, 127, 128, 321];

#[test]
fn values_on_many_targets() {
    let texts = [
        "a",
        "not(a)",
        "any(a, b)",
        "all(a, not(b))",
        "any()",
        "all(b, c)",
    ];
    let conditions = texts.map(|text| Expression::parse(text).unwrap());
    // Each target is one of five.
    let lists: [&[&str]; 5] = [&["a"], &["?a"], &["b", "c"], &["?b", "c"], &[]];
    for count in TARGET_COUNTS {
        let facts = (0..count).map(|number| Facts::new(lists[number * 7 % 5]));
        let values = audit_with(&conditions, facts, Otherwise::False).unwrap();
        assert_eq!(
            (values.condition_count(), values.target_count()),
            (6, count)
        );
        for (row, text) in texts.iter().enumerate() {
            let expected = |number: usize| {
                let facts = lists[number * 7 % 5];
                let single = audit_with([&conditions[row]], [Facts::new(facts)], Otherwise::False);
                single.unwrap().value(0, 0)
            };
            let expected: Vec<_> = (0..count).map(expected).collect();
            assert_eq!(values.row(row), expected, "{text} on {count}");
        }
    }
}
