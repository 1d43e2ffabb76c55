//! Deep and wide texts of a megabyte, and texts of every length up to some hundred bytes.

use super::model;
use cfgx::error::Reason;
use cfgx::{Decision, Expression, Predicate};

/// The least number of bytes of a long text.
const LENGTH: usize = 1 << 20;

/// Returns the value of a text whose predicates are all true.
fn value_of(text: &str) -> bool {
    assert!(text.len() >= LENGTH);
    let expression = Expression::parse(text).unwrap();
    let value = expression.eval(|_| true);
    assert_eq!(expression.decide(|_| Some(true)), Decision::Known(value));
    value
}

#[test]
fn deep_texts() {
    let depth = LENGTH / 5;
    assert!(!value_of(&format!(
        "{}a{}",
        "not(".repeat(depth | 1),
        ")".repeat(depth | 1)
    )));
    assert!(value_of(&format!(
        "{}a{}",
        "all(b,".repeat(depth),
        ")".repeat(depth)
    )));
    assert!(value_of(&format!(
        "{}a{}",
        "any(".repeat(depth),
        ",b)".repeat(depth)
    )));
}

#[test]
fn wide_texts() {
    assert!(value_of(&format!("all({})", "a,".repeat(LENGTH / 2))));
    assert!(value_of(&format!(
        "any(all(), {})",
        "not(unix), ".repeat(LENGTH / 11 + 1)
    )));
    assert!(value_of(&format!("key = \"{}\"", "é".repeat(LENGTH / 2))));
}

/// Returns the value of a list of `count` flags, where the answer to the flag at `place` is `odd`,
/// and that to each other one is not.
fn value_with_one(name: &str, count: usize, place: usize, odd: bool) -> bool {
    let expression = Expression::parse(&format!("{name}({})", "a,".repeat(count))).unwrap();
    let mut numbers = 0..count;
    let value = expression.eval(|_| odd == (numbers.next().unwrap() == place));
    assert!(numbers.is_empty());
    value
}

#[test]
fn one_member_decides_a_wide_list() {
    let counts = [1, 2, 9, 64, 65, 130, 1000, 65_537, LENGTH / 2];
    let places = |count| [0, 1, 9, count / 2, count - 1].map(|place| (count, place));
    for (count, place) in counts.into_iter().flat_map(places) {
        let is_there = place < count;
        assert_eq!(value_with_one("all", count, place, false), !is_there);
        assert_eq!(value_with_one("any", count, place, true), is_there);
    }
}

#[test]
fn long_decisions() {
    let text = format!("all({})", "a,".repeat(LENGTH / 2));
    let expression = Expression::parse(&text).unwrap();
    let Decision::Unknown {
        if_true, if_false, ..
    } = expression.decide(|_| None)
    else {
        panic!("nothing is known")
    };
    assert_eq!((if_true.len(), if_false.len()), (LENGTH / 2, LENGTH / 2));
    assert!(if_true.iter().all(|value| *value));
    assert!(!if_false.iter().any(|value| *value));
}

#[test]
fn long_faults() {
    let text = format!("{})", "a".repeat(LENGTH));
    let error = Expression::parse(&text).unwrap_err();
    assert_eq!(
        (&error.span, &error.reason),
        (&(LENGTH..LENGTH + 1), &Reason::UnopenedParens)
    );
    let reason = "unopened parens";
    assert_eq!(
        error.to_string(),
        model::printed(&text, LENGTH, "^", reason)
    );
    let text = format!("cfg(not({}))", "a,".repeat(LENGTH / 2));
    let error = Expression::parse(&text).unwrap_err();
    assert_eq!(error.reason, Reason::InvalidNot(LENGTH / 2));
    let (inside, marks) = (&text[4..text.len() - 1], "^".repeat(LENGTH + 5));
    let reason = format!("not() takes 1 predicate, found {}", LENGTH / 2);
    assert_eq!(
        error.to_string(),
        model::printed(inside, 0, &marks, &reason)
    );
}

#[test]
fn texts_of_every_length() {
    for length in 1..600 {
        let key = "k".repeat(length);
        let expression = Expression::parse(&key).unwrap();
        assert!(expression.predicates().eq([Predicate::Flag(&key)]));
        let text = format!("any({})", "k,".repeat(length));
        let expression = Expression::parse(&text).unwrap();
        assert_eq!(expression.predicates().count(), length);
        assert!(!expression.eval(|_| false));
        // No text of this length has more steps.
        let text = format!("all({})", vec!["k"; length].join(","));
        let expression = Expression::parse(&text).unwrap();
        assert_eq!(expression.predicates().count(), length);
        assert!(expression.eval(|_| true));
    }
}
