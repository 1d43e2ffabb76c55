//! The real conditions of `bench/conditions.txt`, which a target decides.

use super::programs;
use cfgx::targets::{TargetInfo, builtin_facts, get_builtin_target_by_triple};
use cfgx::{Expression, Otherwise, Predicate, audit_with};
use std::fs::{self, File};
use std::path::Path;

/// Returns the conditions, one on each line.
fn conditions() -> String {
    let path = Path::new(env!("CARGO_MANIFEST_DIR")).join("../../bench/conditions.txt");
    let conditions = fs::read_to_string(path).unwrap();
    assert_eq!(conditions.lines().count(), 197);
    conditions
}

/// Returns the value of a condition on a built-in target, which decides it.
fn value_on(text: &str, target: &TargetInfo) -> bool {
    let expression = Expression::parse(text).unwrap();
    expression.eval(|predicate| match predicate {
        Predicate::Target(asked) => asked.matches(target),
        other => panic!("{other:?} of {text}"),
    })
}

/// Returns the values that Cargo gave: each target with those of the conditions in order. The file
/// is made by `tests/real/record`.
fn values_of_cargo() -> Vec<(String, Vec<bool>)> {
    let path = Path::new(env!("CARGO_MANIFEST_DIR")).join("tests/real/values.txt");
    let file = fs::read_to_string(path).unwrap();
    let rows = file.lines().skip(1).map(|row| {
        let (triple, digits) = row.split_once('\t').unwrap();
        let digits = digits.chars().map(|digit| digit.to_digit(16).unwrap());
        let bits = digits.flat_map(|digit| [8, 4, 2, 1].map(|bit| digit & bit != 0));
        (triple.to_string(), bits.take(197).collect())
    });
    rows.collect()
}

/// Cargo knows 317 of the built-in targets. The audit below has the others that it knows too.
#[test]
fn each_has_the_value_of_cargo_on_each_built_in_target() {
    let conditions = conditions();
    let mut count = 0;
    for (triple, values) in values_of_cargo() {
        assert_eq!(values.len(), conditions.lines().count());
        let Some(target) = get_builtin_target_by_triple(&triple) else {
            continue;
        };
        for (text, value) in conditions.lines().zip(values) {
            assert_eq!(value_on(text, target), value, "{text} on {triple}");
        }
        count += 1;
    }
    assert_eq!(count, 317);
}

#[test]
fn an_audit_has_the_values_of_cargo() {
    let conditions: Vec<Expression> = conditions()
        .lines()
        .map(|text| Expression::parse(text).unwrap())
        .collect();
    let expected = values_of_cargo();
    assert_eq!(expected.len(), 320);
    let facts: Vec<_> = expected
        .iter()
        .map(|(triple, _)| builtin_facts(triple).unwrap())
        .collect();
    let values = audit_with(&conditions, &facts, Otherwise::Unknown).unwrap();
    for (row, condition) in conditions.iter().enumerate() {
        for (column, (triple, expected)) in expected.iter().enumerate() {
            let found = values.value(row, column);
            assert_eq!(found, Some(expected[row]), "{condition} on {triple}");
        }
    }
}

/// Returns what the example prints of an input.
fn printed_by_the_example(input: &str) -> String {
    let room = programs::room("example");
    let file = room.join("input");
    fs::write(&file, input).unwrap();
    let own = Path::new(env!("CARGO_MANIFEST_DIR"));
    let output = programs::cargo(own, &["run", "--quiet", "--example", "values"])
        .env("CARGO_TARGET_DIR", &room)
        .stdin(File::open(file).unwrap())
        .output()
        .unwrap();
    assert!(output.status.success(), "{output:?}");
    String::from_utf8(output.stdout).unwrap()
}

#[test]
fn the_example_prints_the_values_on_macos() {
    let conditions = conditions();
    let target = get_builtin_target_by_triple("aarch64-apple-darwin").unwrap();
    let value = |text| format!("{}\n", value_on(text, target));
    let values: String = conditions.lines().map(value).collect();
    let input = conditions + "not(test)\nfoo (\n";
    let fault = "foo (\n    ^ expected one of `=`, `,`, `)` here\n";
    assert_eq!(printed_by_the_example(&input), values + "true\n" + fault);
}
