//! The built-in targets, and what targets meet.

use super::model;
use super::rows::table;
use cfgx::error::Reason;
use cfgx::expr::{Predicate, TargetPredicate};
use cfgx::targets::{
    ALL_BUILTINS, Abi, Endian, Env, Family, HasAtomic, Os, TargetInfo, Vendor, builtin_facts,
    get_builtin_target_by_triple, rustc_version,
};
use cfgx::{Expression, Facts, audit};
use std::collections::BTreeSet;
use std::fs;
use std::path::Path;

/// Returns the targets that are built into the engine too, in the order of their triples.
fn targets_of_the_engine() -> Vec<&'static TargetInfo> {
    let triples = &table("triples.txt", "all built-in targets")[0][0];
    let found = triples.split(' ').map(get_builtin_target_by_triple);
    found.map(Option::unwrap).collect()
}

/// Returns the value of a condition on a target. What is not on the target is unknown.
fn value_on(expression: &Expression, target: &TargetInfo) -> Option<bool> {
    expression.eval(|predicate| match predicate {
        Predicate::Target(asked) => Some(asked.matches(target)),
        _ => None,
    })
}

/// The table of what `cfg-expr` 0.20.10 has built in, and that of what rustc 1.95 prints.
const TABLES: [&str; 2] = ["cfg-expr/targets.tsv", "targets.tsv"];

/// Returns the cells of a table of targets, with its heads first. A head is a key, but for that of
/// the triples.
fn cells(table: &str) -> Vec<Vec<String>> {
    let path = Path::new(env!("CARGO_MANIFEST_DIR")).join("../targets");
    let table = fs::read_to_string(path.join(table)).unwrap();
    let lines = table.lines().skip(1);
    lines
        .map(|line| line.split('\t').map(str::to_string).collect())
        .collect()
}

/// Conditions on each key of a target, with each value that a target of a table has, and with
/// others.
fn conditions() -> Vec<String> {
    let others = [
        "target_has_atomic=256",
        "target_has_atomic=+08",
        "target_pointer_width=+064",
        "feature=x",
    ];
    let mut asked: BTreeSet<String> = others.map(str::to_string).into();
    for cells in TABLES.map(cells) {
        for (column, key) in cells[0].iter().enumerate().skip(1) {
            let values = cells[1..].iter().flat_map(|row| row[column].split(' '));
            let all = values.chain(["", "none", "unknown"]);
            asked.extend(all.map(|value| format!("{key}={value}")));
        }
    }
    let texts = asked.iter().map(|one| one.replacen('=', "=\"", 1) + "\"");
    let texts = texts.chain(["unix", "windows"].map(str::to_string));
    let conditions: Vec<String> = texts
        .filter(|text| Expression::parse(text).is_ok())
        .collect();
    assert!(conditions.len() > 140);
    conditions
}

/// A target meets one value at most of most keys, so its fields are those that its facts name.
#[test]
fn the_five_rows_meet_what_their_facts_answer_by_the_model() {
    let conditions = conditions();
    assert_eq!(targets_of_the_engine().len(), 5);
    for target in targets_of_the_engine() {
        let facts = builtin_facts(target.triple.as_str()).unwrap();
        let facts: Vec<&str> = facts.iter().collect();
        for text in &conditions {
            let expression = Expression::parse(text).unwrap();
            if let Some(value) = value_on(&expression, target) {
                let answers = model::answers(text, &facts);
                assert_eq!(answers, [Some(value)], "{} {text}", target.triple);
            }
        }
    }
}

#[test]
fn recorded_values_on_the_five_rows() {
    for row in table("values.txt", "values on built-in targets") {
        let expression = Expression::parse(&row[0]).unwrap();
        let digit = |target| match value_on(&expression, target) {
            Some(true) => '1',
            Some(false) => '0',
            None => '?',
        };
        let found: String = targets_of_the_engine().into_iter().map(digit).collect();
        // The last digit is that of the lanes past the targets.
        assert_eq!(found, row[1][..row[1].len() - 1], "{}", row[0]);
    }
}

#[test]
fn missing_fields() {
    let mut bare = ALL_BUILTINS[0].clone();
    (bare.os, bare.vendor) = (None, None);
    assert!(TargetPredicate::Os(Os::new_const("none")).matches(&bare));
    assert!(!TargetPredicate::Os(Os::new_const("")).matches(&bare));
    assert!(TargetPredicate::Vendor(Vendor::unknown).matches(&bare));
    assert!(TargetPredicate::Env(Env::new_const("")).matches(&bare));
    assert!(!TargetPredicate::Env(Env::new_const("none")).matches(&bare));
}

#[test]
fn built_in_targets_are_found_by_their_triples() {
    assert!(ALL_BUILTINS.is_sorted_by(|one, other| one.triple < other.triple));
    for target in ALL_BUILTINS {
        let triple = target.triple.as_str();
        assert_eq!(get_builtin_target_by_triple(triple), Some(target));
    }
    let rows = table("triples.txt", "built-in target");
    // The engine does not know this triple, which is built in here.
    for row in rows.iter().filter(|row| row[0] != "aarch64-apple-tvos-sim") {
        let found = get_builtin_target_by_triple(&row[0]);
        let triple = found.map_or("nowhere", |target| target.triple.as_str());
        assert_eq!(triple, row[1]);
    }
    let nowhere = ["", "-", "a", "aarch64-apple", "x86_64", "zzz", "\u{10ffff}"];
    let found = nowhere.map(get_builtin_target_by_triple);
    assert_eq!(found, [None; 7]);
}

/// Returns what the table has of a target in its first columns.
fn first_cells(target: &TargetInfo) -> [String; 11] {
    let cell = |text: Option<&str>| text.unwrap_or("-").to_string();
    let list = |items: Vec<String>| match &*items {
        [] => String::from("-"),
        items => items.join(" "),
    };
    [
        target.triple.to_string(),
        cell(target.os.as_ref().map(Os::as_str)),
        cell(target.abi.as_ref().map(Abi::as_str)),
        target.arch.to_string(),
        cell(target.env.as_ref().map(Env::as_str)),
        cell(target.vendor.as_ref().map(Vendor::as_str)),
        list(target.families.iter().map(Family::to_string).collect()),
        target.pointer_width.to_string(),
        format!("{:?}", target.endian),
        list(
            target
                .has_atomics
                .iter()
                .map(HasAtomic::to_string)
                .collect(),
        ),
        target.panic.to_string(),
    ]
}

/// `tests/debian/run` compares the table with `cfg-expr`, and then each row and each named value.
#[test]
fn the_rows_of_cfg_expr_are_built_in() {
    let [cells, _] = TABLES.map(cells);
    let heads = "triple target_os target_abi target_arch target_env target_vendor target_family \
        target_pointer_width target_endian target_has_atomic panic";
    assert_eq!(cells[0].join(" "), heads);
    assert_eq!((cells.len(), ALL_BUILTINS.len()), (332, 331));
    for (target, row) in ALL_BUILTINS.iter().zip(&cells[1..]) {
        assert_eq!(first_cells(target), row[..]);
    }
}

/// The documentation of `cfg-expr` 0.20.10 has this version, which is no release.
#[test]
fn the_version_is_that_of_cfg_expr() {
    assert_eq!(rustc_version(), "1.99.0");
}

#[test]
fn a_triple_is_compared_byte_for_byte() {
    for target in ALL_BUILTINS {
        let triple = target.triple.as_str();
        let others = [
            format!(" {triple}"),
            format!("{triple}\n"),
            format!("{triple}\0"),
            triple.to_uppercase(),
            triple.replace('-', "_"),
        ];
        let found = others.map(|other| get_builtin_target_by_triple(&other));
        assert_eq!(found, [None; 5], "{triple}");
    }
}

/// Targets that many programs name: the triple, and the system, the architecture, the environment,
/// the vendor and the width of a pointer. These were written by hand, and not taken from the table.
const KNOWN: [(&str, &str); 8] = [
    ("aarch64-apple-darwin", "macos aarch64 - apple 64"),
    ("aarch64-linux-android", "android aarch64 - unknown 64"),
    ("i686-pc-windows-msvc", "windows x86 msvc pc 32"),
    ("thumbv7em-none-eabihf", "none arm - unknown 32"),
    ("wasm32-unknown-unknown", "unknown wasm32 - unknown 32"),
    ("x86_64-pc-windows-gnu", "windows x86_64 gnu pc 64"),
    ("x86_64-unknown-linux-gnu", "linux x86_64 gnu unknown 64"),
    ("x86_64-unknown-linux-musl", "linux x86_64 musl unknown 64"),
];

#[test]
fn values_on_targets_that_programs_name() {
    let keys = ["os", "arch", "env", "vendor", "pointer_width"];
    for (triple, values) in KNOWN {
        let target = get_builtin_target_by_triple(triple).unwrap();
        for (key, value) in keys.into_iter().zip(values.split(' ')) {
            let value = value.trim_start_matches('-');
            let text = format!("target_{key} = \"{value}\"");
            let expression = Expression::parse(&text).unwrap();
            assert_eq!(value_on(&expression, target), Some(true), "{triple} {text}");
        }
    }
}

/// Facts of targets: as rustc 1.95 prints them to Cargo, and of one that it does not know, what the
/// row of `cfg-expr` says.
const FACTS: [(&str, &str); 3] = [
    (
        "msp430-none-elf",
        r#"debug_assertions panic="abort" target_abi="" target_arch="msp430" target_endian="little"
        target_env="" target_os="none" target_pointer_width="16" target_vendor="unknown""#,
    ),
    (
        "x86_64-unknown-linux-musl",
        r#"debug_assertions panic="unwind" target_abi="" target_arch="x86_64" target_endian="little"
        target_env="musl" target_family="unix" target_feature="fxsr" target_feature="sse"
        target_feature="sse2" target_has_atomic="16" target_has_atomic="32" target_has_atomic="64"
        target_has_atomic="8" target_has_atomic="ptr" target_os="linux" target_pointer_width="64"
        target_vendor="unknown" unix"#,
    ),
    (
        "riscv32imfc-unknown-none-elf",
        r#"panic="abort" target_abi="" target_arch="riscv32" target_endian="little" target_env=""
        target_os="none" target_pointer_width="32" target_vendor="unknown""#,
    ),
];

#[test]
fn facts_of_built_in_targets() {
    for (triple, lines) in FACTS {
        assert_eq!(
            builtin_facts(triple),
            Some(Facts::new(lines.split_whitespace()))
        );
    }
    assert_eq!(builtin_facts("x86_64-linux-musl"), None);
    assert_eq!(builtin_facts(""), None);
}

/// Returns what rustc prints of the cell of a key.
fn printed_of(key: &str, cell: &str) -> Vec<String> {
    let line = |value: &str| format!("{key}=\"{value}\"");
    match (key, cell) {
        ("debug_assertions", "yes") => vec![key.to_string()],
        ("target_os", "-") => vec![line("none")],
        ("target_abi" | "target_env", "-") => vec![line("")],
        (_, "-") => Vec::new(),
        ("target_family", families) => {
            let flags = families.split(' ').filter(|one| *one != "wasm");
            let lines = families.split(' ').map(line);
            lines.chain(flags.map(str::to_string)).collect()
        }
        (_, values) => values.split(' ').map(line).collect(),
    }
}

/// Returns the triples of a table with the facts that the rows have.
fn facts_in(table: &str) -> Vec<(String, Facts)> {
    let cells = cells(table);
    let rows = cells[1..].iter().map(|row| {
        let keys = cells[0].iter().zip(row).skip(1);
        let mut lines: Vec<String> = keys.flat_map(|(key, cell)| printed_of(key, cell)).collect();
        lines.sort_unstable();
        (row[0].clone(), Facts::new(lines))
    });
    rows.collect()
}

#[test]
fn facts_are_those_of_the_compiler_or_else_of_the_row() {
    let [rows, of_rustc] = TABLES.map(facts_in);
    assert_eq!(of_rustc.len(), 320);
    for (triple, facts) in &of_rustc {
        assert_eq!(builtin_facts(triple).as_ref(), Some(facts), "{triple}");
    }
    let is_of_rustc = |triple| of_rustc.iter().any(|(other, _)| other == triple);
    let others: Vec<_> = rows
        .iter()
        .filter(|(triple, _)| !is_of_rustc(triple))
        .collect();
    assert_eq!(others.len(), 14);
    for (triple, facts) in others {
        assert_eq!(builtin_facts(triple).as_ref(), Some(facts), "{triple}");
    }
}

/// The facts and the fields of a target say the same of each predicate that is on the target.
#[test]
fn built_in_targets_meet_what_their_facts_answer() {
    let conditions: Vec<Expression> = conditions()
        .iter()
        .map(|text| Expression::parse(text).unwrap())
        .collect();
    let facts = ALL_BUILTINS
        .iter()
        .map(|target| builtin_facts(target.triple.as_str()));
    let facts: Vec<Facts> = facts.map(Option::unwrap).collect();
    let values = audit(&conditions, &facts).unwrap();
    for (row, condition) in conditions.iter().enumerate() {
        for (place, target) in ALL_BUILTINS.iter().enumerate() {
            let met = value_on(condition, target);
            if met.is_some() {
                assert_eq!(
                    values.value(row, place),
                    met,
                    "{condition} {}",
                    target.triple
                );
            }
        }
    }
}

#[test]
fn texts_of_byte_orders() {
    assert_eq!("big".parse(), Ok(Endian::big));
    assert_eq!("little".parse(), Ok(Endian::little));
    for other in [
        "", " ", "Big", "big ", " big", "bigger", "LITTLE", "little\n", "l", "middle",
    ] {
        let reason = Reason::Unexpected(&["big", "little"]);
        assert_eq!(other.parse::<Endian>(), Err(reason), "{other:?}");
    }
    assert_eq!(
        "Little".parse::<Endian>().unwrap_err().to_string(),
        "expected one of `big`, `little` here"
    );
}

/// The order of `cfg-expr`: that in which its documentation lists the variants.
#[test]
fn byte_orders_and_widths_are_in_order() {
    assert!(Endian::big < Endian::little);
    let widths = [0, 8, 16, 65_535].map(HasAtomic::IntegerSize);
    assert!(widths.is_sorted());
    assert!(widths[3] < HasAtomic::Pointer);
}

/// Returns the triples that a sentence of the page on calls from Rust names, from `start` on.
fn triples_on_the_page(start: &str) -> Vec<String> {
    let path = Path::new(env!("CARGO_MANIFEST_DIR")).join("../../docs/RUST.md");
    let page = fs::read_to_string(path).unwrap().replace('\n', " ");
    let sentence = page
        .split(start)
        .nth(1)
        .unwrap()
        .split(". ")
        .next()
        .unwrap();
    let quoted = sentence.split('`').skip(1).step_by(2);
    let triples = quoted.filter(|text| text.matches('-').count() > 1);
    triples.map(str::to_string).collect()
}

#[test]
fn the_page_names_the_targets_that_differ() {
    let [built_in, of_rustc] = TABLES.map(|table| {
        let rows = cells(table).into_iter().skip(1);
        rows.map(|row| row[0].clone()).collect::<BTreeSet<_>>()
    });
    let named = ["These 14 built-in targets", "these three are not built in"]
        .map(|start| BTreeSet::from_iter(triples_on_the_page(start)));
    let differing = [&built_in - &of_rustc, &of_rustc - &built_in];
    assert_eq!(named, differing);
    assert_eq!(differing.map(|triples| triples.len()), [14, 3]);
}

/// Texts that name no width of atomics in `cfg-expr` either.
const NO_WIDTHS: [&str; 10] = [
    "", " ", " ptr", "ptr ", "\tptr", "Ptr", "ptrs", " 8", "8 ", "-8",
];

#[test]
fn texts_that_name_no_width_are_errors() {
    for text in NO_WIDTHS {
        let error = text.parse::<HasAtomic>().unwrap_err();
        assert_eq!(
            error.to_string(),
            format!("expected integer or \"ptr\", found {text}")
        );
    }
}
