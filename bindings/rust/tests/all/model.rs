//! What the crate should find, by plain models that share no code with it.

use super::spelling::spelled;
use cfgx::{Expression, Predicate};

/// Returns the answers to the predicates of a condition by facts, each of which names its
/// predicates: as unknown if it begins with `?`, and otherwise as true. What no fact names is false
/// if it tests the target, and unknown otherwise. A fact that is no condition says nothing.
pub fn answers(text: &str, facts: &[&str]) -> Vec<Option<bool>> {
    let mut named: Vec<(String, bool)> = Vec::new();
    for fact in facts {
        let text = fact.strip_prefix('?').unwrap_or(fact);
        if let Ok(expression) = Expression::parse(text) {
            let spelled = expression.predicates().map(|one| spelled(&one));
            named.extend(spelled.map(|one| (one, text.len() == fact.len())));
        }
    }
    let answer = |predicate: Predicate<'_>| {
        let is_named = |is_true| named.contains(&(spelled(&predicate), is_true));
        match predicate {
            _ if is_named(true) => Some(true),
            _ if is_named(false) => None,
            Predicate::Target(_) => Some(false),
            _ => None,
        }
    };
    let expression = Expression::parse(text).unwrap();
    expression.predicates().map(answer).collect()
}

/// Returns the value of a condition over as many answers as it has predicates: the one that each
/// way leads to in which its unknown answers can be filled, or `None` if there is no such value. A
/// condition in these tests has few unknown answers.
pub fn value(text: &str, answers: &[Option<bool>]) -> Option<bool> {
    let expression = Expression::parse(text).unwrap();
    let unknown = answers.iter().filter(|answer| answer.is_none()).count();
    assert!(unknown < 16, "{text}");
    let values = (0..1_u32 << unknown).map(|bits| {
        let (mut left, mut bits) = (answers.iter(), bits);
        expression.eval(|_| {
            left.next().unwrap().unwrap_or_else(|| {
                let bit = bits & 1 == 1;
                bits >>= 1;
                bit
            })
        })
    });
    let values: Vec<bool> = values.collect();
    let is_same = values.iter().all(|value| *value == values[0]);
    is_same.then_some(values[0])
}

/// Returns what the fault of a text prints, which is `marks` below the bytes from `start` on, and
/// `reason`.
pub fn printed(text: &str, start: usize, marks: &str, reason: &str) -> String {
    format!("{text}\n{}{marks} {reason}", " ".repeat(start))
}
