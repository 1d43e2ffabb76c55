//! Logics of a caller.

use cfgx::Expression;
use cfgx::expr::{Logic, Predicate};
use std::cell::Cell;

/// A logic whose values are terms: `T`, `F`, `(x&y)`, `(x|y)`, `!x`, or what a caller answers.
#[derive(Clone, Debug, PartialEq)]
pub struct Term(pub String);

impl Logic for Term {
    fn top() -> Self {
        Term(String::from("T"))
    }

    fn bottom() -> Self {
        Term(String::from("F"))
    }

    fn and(self, other: Self) -> Self {
        Term(format!("({}&{})", self.0, other.0))
    }

    fn or(self, other: Self) -> Self {
        Term(format!("({}|{})", self.0, other.0))
    }

    fn not(self) -> Self {
        Term(format!("!{}", self.0))
    }
}

/// Returns the term of a condition, in which each predicate is its name and the number of its
/// question.
fn term(text: &str) -> String {
    let mut count = 0;
    let value = Expression::parse(text).unwrap().eval(|predicate| {
        count += 1;
        match predicate {
            Predicate::Flag(name) => Term(format!("{name}{count}")),
            _ => Term(format!("?{count}")),
        }
    });
    value.0
}

#[test]
fn terms_show_the_order_of_questions_and_of_joining() {
    assert_eq!(term("a"), "a1");
    assert_eq!(term("all()"), "T");
    assert_eq!(term("not(any())"), "!F");
    assert_eq!(term("all(test)"), "(T&?1)");
    assert_eq!(term("all(a, any(b), c)"), "(((T&c3)&a2)&(F|b1))");
    assert_eq!(
        term("any(a, all(b, not(c)), d)"),
        "(((F|d4)|a3)|((T&b2)&!c1))"
    );
    assert_eq!(
        term("all(a, true, any(b), false)"),
        "((((T&F)&T)&a2)&(F|b1))"
    );
}

#[test]
fn terms_of_functions_among_predicates() {
    assert_eq!(term("true"), "T");
    assert_eq!(term("not(not(a))"), "!!a1");
    assert_eq!(term("any(false)"), "(F|F)");
    assert_eq!(term("cfg(all(a, any(b), c))"), "(((T&c3)&a2)&(F|b1))");
    assert_eq!(
        term("any(not(a), b, all(c, not(d), e), f)"),
        "((((F|f6)|b5)|(((T&e4)&c3)&!d2))|!a1)"
    );
    assert_eq!(
        term("not(all(any(a, true), b, any()))"),
        "!(((T&b2)&F)&((F|T)|a1))"
    );
    assert_eq!(
        term("all(not(a), not(b), any(c, d), e)"),
        "((((T&e5)&((F|d4)|c3))&!b2)&!a1)"
    );
    // As many steps as take no memory, and one more
    assert_eq!(term("all(a, b, c, d, e)"), "(((((T&e5)&d4)&c3)&b2)&a1)");
    assert_eq!(
        term("any(a, b, c, d, e, f)"),
        "((((((F|f6)|e5)|d4)|c3)|b2)|a1)"
    );
}

/// Returns the term of a list of this many flags, which begins with `first` and is joined from the
/// last flag back.
fn joined(first: &str, sign: char, count: usize) -> String {
    let numbers = (1..=count).rev();
    numbers.fold(first.to_string(), |term, number| {
        format!("({term}{sign}a{number})")
    })
}

#[test]
fn members_of_wide_lists_are_joined_from_the_last_back() {
    for count in 0..=130 {
        let flags = vec!["a"; count].join(",");
        assert_eq!(term(&format!("all({flags})")), joined("T", '&', count));
        assert_eq!(term(&format!("any({flags})")), joined("F", '|', count));
    }
}

#[test]
fn values_of_outer_lists_wait_for_those_of_inner_ones() {
    for depth in 0..=130 {
        let text = "any(not(a),".repeat(depth) + "a" + &")".repeat(depth);
        let innermost = format!("a{}", depth + 1);
        let levels = (1..=depth).rev();
        let expected = levels.fold(innermost, |inner, level| format!("((F|{inner})|!a{level})"));
        assert_eq!(term(&text), expected);
    }
}

/// A number of questions that cannot be copied.
struct Asked(u32);

impl Logic for Asked {
    fn top() -> Self {
        Asked(0)
    }

    fn bottom() -> Self {
        Asked(0)
    }

    fn and(self, other: Self) -> Self {
        Asked(self.0 + other.0)
    }

    fn or(self, other: Self) -> Self {
        Asked(self.0 + other.0)
    }

    fn not(self) -> Self {
        self
    }
}

#[test]
fn each_occurrence_is_asked_once() {
    let expression = Expression::parse("any(a, not(a), all(a, a), true)").unwrap();
    assert_eq!(expression.eval(|_| Asked(1)).0, 4);
    assert_eq!(expression.predicates().count(), 4);
}

thread_local! {
    /// How often values were joined or negated.
    static JOINED: Cell<u32> = const { Cell::new(0) };
}

/// A value whose operations are counted.
struct Counted;

impl Counted {
    /// Counts an operation.
    fn join(self) -> Self {
        JOINED.set(JOINED.get() + 1);
        self
    }
}

impl Logic for Counted {
    fn top() -> Self {
        Counted
    }

    fn bottom() -> Self {
        Counted
    }

    fn and(self, _: Self) -> Self {
        self.join()
    }

    fn or(self, _: Self) -> Self {
        self.join()
    }

    fn not(self) -> Self {
        self.join()
    }
}

#[test]
fn all_is_asked_before_values_are_joined() {
    for (text, count) in [
        ("a", 0),
        ("any(a, not(b), all(c, d), true)", 7),
        ("all(a, any(b, c), not(d), any(e, f), g)", 10),
    ] {
        JOINED.set(0);
        let expression = Expression::parse(text).unwrap();
        let _ = expression.eval(|_| {
            assert_eq!(JOINED.get(), 0, "{text}");
            Counted
        });
        assert_eq!(JOINED.get(), count, "{text}");
    }
}
