//! Triples as targets, with the feature `targets`. `tests/debian/run` runs this over the real
//! crate `target-lexicon`, and compares every answer with those of `cfg-expr`.

#![cfg(feature = "target-lexicon")]

use cfgx::target_lexicon::Triple;
use cfgx::targets::{ALL_BUILTINS, TargetInfo};
use cfgx::{Expression, Predicate};
use std::collections::BTreeSet;
use std::fs;
use std::path::Path;

/// Returns a file of the repository.
fn read(path: &str) -> String {
    let root = Path::new(env!("CARGO_MANIFEST_DIR")).join("../..");
    fs::read_to_string(root.join(path)).unwrap()
}

/// Returns a condition for each value of each key of the built-in targets, and for the keys of
/// which a triple says nothing.
fn conditions() -> BTreeSet<String> {
    let table = read("bindings/targets/cfg-expr/targets.tsv");
    let mut rows = table.lines().skip(1).map(|row| row.split('\t').collect());
    let heads: Vec<&str> = rows.next().unwrap();
    let cells = rows.flat_map(|row: Vec<&str>| heads.clone().into_iter().zip(row).skip(1));
    let values = cells.flat_map(|(key, cell)| cell.split(' ').map(move |value| (key, value)));
    let values = values.filter(|(_, value)| *value != "-");
    values
        .map(|(key, value)| format!("{key} = \"{value}\""))
        .collect()
}

/// Returns the answers of a row and of a triple, if the condition asks for the target.
fn answers(text: &str, row: &TargetInfo, triple: &Triple) -> Option<(bool, bool)> {
    let condition = Expression::parse(text).ok()?;
    match condition.predicates().next() {
        Some(Predicate::Target(asked)) => Some((asked.matches(row), asked.matches(triple))),
        _ => None,
    }
}

/// The keys of which a triple says nothing.
const UNSAID: [&str; 3] = ["target_abi", "target_has_atomic", "panic"];

#[test]
fn a_triple_differs_from_its_row_as_in_cfg_expr() {
    let mut found = String::new();
    for row in ALL_BUILTINS {
        let Ok(triple) = row.triple.as_str().parse::<Triple>() else {
            found += &format!("{}\tis not known\n", row.triple);
            continue;
        };
        for text in conditions() {
            let Some((by_row, by_triple)) = answers(&text, row, &triple) else {
                continue;
            };
            if UNSAID.iter().any(|key| text.starts_with(key)) {
                assert!(!by_triple, "{text} on {triple}");
            } else if by_row != by_triple {
                found += &format!("{}\t{text}\t{by_row}\t{by_triple}\n", row.triple);
            }
        }
    }
    assert_eq!(found, read("bindings/rust/tests/debian/differences.tsv"));
}

/// Triples that are no target of rustc, and predicates with their answers over `cfg-expr`.
const ROWS: [(&str, &str, bool); 10] = [
    ("x86_64-pc-darwin", "target_os = \"macos\"", true),
    ("x86_64-pc-darwin", "unix", true),
    ("x86_64-apple-macosx10.7.0", "target_os = \"macos\"", false),
    ("arm64-apple-ios14.0", "target_os = \"ios\"", false),
    ("aarch64-apple-ios", "target_env = \"sim\"", true),
    ("aarch64-linux-android", "target_os = \"linux\"", true),
    (
        "x86_64-unknown-linux-gnux32",
        "target_pointer_width = \"32\"",
        true,
    ),
    ("armv7-rtems-eabihf", "target_os = \"rtems\"", true),
    (
        "mips64-openwrt-linux-musl",
        "target_vendor = \"openwrt\"",
        true,
    ),
    (
        "powerpc64le-unknown-linux-gnu",
        "target_endian = \"big\"",
        false,
    ),
];

#[test]
fn other_triples() {
    for (triple, text, expected) in ROWS {
        let parsed: Triple = triple.parse().unwrap();
        let value = Expression::parse(text)
            .unwrap()
            .eval(|predicate| match predicate {
                Predicate::Target(asked) => asked.matches(&parsed),
                _ => panic!("{text}"),
            });
        assert_eq!(value, expected, "{text} of {triple}");
    }
}
