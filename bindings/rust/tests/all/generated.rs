//! 10,000 generated conditions.

use super::logics::Term;
use super::model;
use super::spelling::spelled;
use super::trees::{Numbers, Tree};
use cfgx::{Decision, Expression, Facts, audit};
use std::cell::Cell;

/// Calls `check` with 10,000 conditions, which are the same each time.
fn for_each(check: impl Fn(&Tree, &Expression, &mut Numbers)) {
    let mut numbers = Numbers(0x1234_5678_9abc_def1);
    for _ in 0..10_000 {
        let tree = Tree::generate(&mut numbers, 6);
        let text = tree.text(&mut numbers);
        check(&tree, &Expression::parse(&text).unwrap(), &mut numbers);
    }
}

/// Returns one answer for each predicate.
fn answers_to(expression: &Expression, numbers: &mut Numbers) -> Vec<Option<bool>> {
    expression.predicates().map(|_| numbers.answer()).collect()
}

#[test]
fn predicates_are_listed_in_order() {
    for_each(|tree, expression, _| {
        let mut asked = Vec::new();
        tree.push_asked(&mut asked);
        let listed: Vec<String> = expression.predicates().map(|one| spelled(&one)).collect();
        assert_eq!(listed, asked, "{expression}");
    });
}

#[test]
fn terms_are_joined_as_by_the_model() {
    for_each(|tree, expression, _| {
        let terms = || (0..).map(|number| Term(number.to_string()));
        let mut answers = terms();
        let value = expression.eval(|_| answers.next().unwrap());
        assert_eq!(value, tree.value(&mut terms()), "{expression}");
    });
}

#[test]
fn values_are_those_of_the_model() {
    for_each(|tree, expression, numbers| {
        let answers = answers_to(expression, numbers);
        let mut left = answers.iter();
        let value: Option<bool> = expression.eval(|_| *left.next().unwrap());
        let expected = tree.value_over(&mut answers.iter().copied());
        assert_eq!(value, expected, "{expression} {answers:?}");

        let answers: Vec<bool> = answers.iter().map(|one| *one == Some(true)).collect();
        let mut left = answers.iter();
        let value = expression.eval(|_| *left.next().unwrap());
        let expected = tree.value_over(&mut answers.iter().copied().map(Some));
        assert_eq!(Some(value), expected, "{expression} {answers:?}");
    });
}

/// Panics unless the condition has this value with the filling, which keeps the known answers.
fn check_filling(expression: &Expression, answers: &[Option<bool>], filling: &[bool], value: bool) {
    assert_eq!(filling.len(), answers.len());
    for (answer, filled) in answers.iter().zip(filling) {
        assert_eq!(answer.unwrap_or(*filled), *filled, "{expression}");
    }
    let mut left = filling.iter();
    assert_eq!(
        expression.eval(|_| *left.next().unwrap()),
        value,
        "{expression}"
    );
}

#[test]
fn fillings_show_what_depends_on_unknown_answers() {
    let unknown = Cell::new(0);
    for_each(|tree, expression, numbers| {
        let answers = answers_to(expression, numbers);
        let mut left = answers.iter();
        let decision = expression.decide(|_| *left.next().unwrap());
        let value = tree.value_over(&mut answers.iter().copied());
        match (decision, value) {
            (Decision::Known(value), Some(expected)) => assert_eq!(value, expected),
            (
                Decision::Unknown {
                    if_true, if_false, ..
                },
                None,
            ) => {
                check_filling(expression, &answers, &if_true, true);
                check_filling(expression, &answers, &if_false, false);
                let fillings = [true, false].map(|value| tree.filling(&answers, value));
                assert_eq!([if_true, if_false], fillings, "{expression}");
                unknown.set(unknown.get() + 1);
            }
            (decision, value) => panic!("{expression}: {decision:?}, {value:?}"),
        }
    });
    // Both kinds are common.
    assert!((1000..9000).contains(&unknown.get()), "{unknown:?}");
}

/// Facts of four targets, on which each generated predicate is true, false or unknown somewhere.
const FACTS: [&[&str]; 4] = [
    &["unix", "target_os = \"linux\"", "a", "feature = \"x\""],
    &["windows", "?test", "?a", "target_pointer_width = \"64\""],
    &["?unix", "?target_os = \"linux\"", "b", "?feature = \"x\""],
    &[],
];

#[test]
fn audits_are_those_of_the_model() {
    let targets = FACTS.map(Facts::new);
    for_each(|tree, expression, _| {
        let values = audit([expression], &targets).unwrap();
        let value_on = |facts: &&[&str]| {
            let answers = model::answers(expression.original(), facts);
            tree.value_over(&mut answers.into_iter())
        };
        let expected: Vec<Option<bool>> = FACTS.iter().map(value_on).collect();
        assert_eq!(values.row(0), expected, "{expression}");
    });
}
