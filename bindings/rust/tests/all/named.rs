//! The named values and lists, beside those that the documentation of cfg-expr 0.20.10 has:
//! `bindings/targets/cfg-expr/named.tsv` has what its rustdoc lists.

use cfgx::expr::TargetPredicate;
use cfgx::targets::{
    Abi, Arch, Env, Families, Family, HasAtomic, HasAtomics, Os, Panic, Triple, Vendor,
};
use cfgx::{Expression, Predicate};
use std::borrow::Cow;
use std::collections::BTreeMap;
use std::fs;
use std::path::Path;

/// Makes a function that returns the name of each named value, what it prints, and its text by the
/// rows.
macro_rules! named_values {
    ($($field:ident::$name:ident $text:literal,)*) => {
        fn named_values() -> Vec<(&'static str, String, &'static str)> {
            vec![$((
                concat!(stringify!($field), "::", stringify!($name)),
                $field::$name.to_string(),
                $text,
            )),*]
        }
    };
}

include!("../surface/named_values.rs");

#[test]
fn texts_of_named_values() {
    assert_eq!(named_values().len(), 140);
    for (name, printed, text) in named_values() {
        assert_eq!(printed, text, "{name}");
    }
}

/// The lists of cfg-expr 0.20.10. The tests below have their items.
const LISTS: [(&str, &str); 7] = [
    ("Families::unix", "unix"),
    ("Families::unix_wasm", "unix wasm"),
    ("Families::wasm", "wasm"),
    ("Families::windows", "windows"),
    (
        "HasAtomics::atomic_8_16_32_64_128_ptr",
        "8 16 32 64 128 ptr",
    ),
    ("HasAtomics::atomic_8_16_32_64_ptr", "8 16 32 64 ptr"),
    ("HasAtomics::atomic_8_16_32_ptr", "8 16 32 ptr"),
];

/// So no name of cfg-expr is missing in these tests.
#[test]
fn the_named_values_are_all_that_cfg_expr_has() {
    let table = read("bindings/targets/cfg-expr/named.tsv");
    let rows = table.lines().skip(2).map(|row| {
        let [field, name, text] = row.split('\t').collect::<Vec<_>>()[..] else {
            panic!("{row}");
        };
        (format!("{field}::{name}"), text.to_string())
    });
    let listed: BTreeMap<String, String> = rows.collect();
    let values = named_values()
        .into_iter()
        .map(|(name, _, text)| (name, text));
    let named = values.chain(LISTS);
    let named = named.map(|(name, text)| (name.to_string(), text.to_string()));
    assert_eq!(named.collect::<BTreeMap<_, _>>(), listed);
    assert_eq!(listed.len(), 147);
}

#[test]
fn families() {
    let [unix, wasm, windows] = ["unix", "wasm", "windows"].map(Family::new_const);
    for (list, families, printed) in [
        (Families::unix, vec![unix.clone()], "{unix}"),
        (
            Families::unix_wasm,
            vec![unix, wasm.clone()],
            "{unix, wasm}",
        ),
        (Families::wasm, vec![wasm], "{wasm}"),
        (Families::windows, vec![windows], "{windows}"),
    ] {
        assert_eq!(*list, families);
        assert_eq!(list, Families::new(families));
        assert_eq!(list.to_string(), printed);
    }
}

#[test]
fn widths() {
    for (list, widths) in [
        (
            HasAtomics::atomic_8_16_32_64_128_ptr,
            "8, 16, 32, 64, 128, ptr",
        ),
        (HasAtomics::atomic_8_16_32_64_ptr, "8, 16, 32, 64, ptr"),
        (HasAtomics::atomic_8_16_32_ptr, "8, 16, 32, ptr"),
    ] {
        let items = widths.split(", ").map(|width| match width {
            "ptr" => HasAtomic::Pointer,
            bits => HasAtomic::IntegerSize(bits.parse().unwrap()),
        });
        assert_eq!(list, HasAtomics::new(items));
        assert_eq!(list.to_string(), format!("{{{widths}}}"));
    }
}

/// Texts of fields, with white space at their ends.
const TEXTS: [&str; 6] = ["", " ", " a ", "\tlinux\n", "Linux", "\u{a0}é"];

/// Panics unless a field of each type has this text, and prints it in any width.
macro_rules! check_fields {
    ($text:ident: $($field:ident),*) => {
        $(
            let field = $field::new_const($text);
            assert_eq!(field.as_str(), $text);
            assert_eq!(field.as_ref(), $text);
            assert_eq!(field, $field::new($text.to_string()));
            assert_eq!(format!("{field}"), $text);
            assert_eq!(format!("{field:>9}{field:9}{field:.1}"), $text.repeat(3));
        )*
    };
}

#[test]
fn texts_of_fields() {
    for text in TEXTS {
        check_fields!(text: Triple, Abi, Arch, Vendor, Os, Family, Env, Panic);
    }
}

/// Returns the text of a file of the repository.
fn read(path: &str) -> String {
    let root = Path::new(env!("CARGO_MANIFEST_DIR")).join("../..");
    fs::read_to_string(root.join(path)).unwrap()
}

/// Returns the texts of the named values in a file of `crates/cfgx_fields`.
fn values_of_the_engine(file: &str) -> Vec<String> {
    let code = read(&format!("crates/cfgx_fields/src/builtins/{file}"));
    let rests = code.split("Self::new_const(\"").skip(1);
    rests
        .map(|rest| rest.split('"').next().unwrap().to_string())
        .collect()
}

/// Returns the values in the column of a key in a table of targets.
fn values_of_the_table(table: &str, key: &str) -> Vec<String> {
    let table = read(table);
    let mut rows = table.lines().skip(1).map(|line| line.split('\t'));
    let column = rows.next().unwrap().position(|head| head == key).unwrap();
    let cells = rows.flat_map(|mut cells| cells.nth(column).unwrap().split(' '));
    let values = cells.filter(|cell| *cell != "-");
    values.map(str::to_string).collect()
}

/// Returns the field of the one predicate of a condition, if it is of this type.
macro_rules! asked_field {
    ($field:ident, $condition:expr) => {{
        let condition = Expression::parse($condition).unwrap();
        let asked = condition.predicates().next();
        match asked {
            Some(Predicate::Target(TargetPredicate::$field(field))) => field,
            other => panic!("{other:?} of {condition}"),
        }
    }};
}

/// The targets of cfg-expr 0.20.10, and those of rustc 1.95.
const TABLES: [&str; 2] = [
    "bindings/targets/cfg-expr/targets.tsv",
    "bindings/targets/targets.tsv",
];

/// Panics unless each value of a file of `crates/cfgx_fields`, and each one that a key has in a
/// table of targets, is a named value. A condition that asks for it copies no text then.
macro_rules! check_named {
    ($field:ident, $file:literal, $key:literal) => {
        let [rows, of_rustc] = TABLES.map(|table| values_of_the_table(table, $key));
        for values in [values_of_the_engine($file), rows, of_rustc] {
            assert!(values.len() > 1, "{} {}", $file, $key);
            for text in values {
                let field = asked_field!($field, &format!("{} = \"{text}\"", $key));
                assert_eq!(field, $field::new(text));
                assert!(matches!(field.0, Cow::Borrowed(_)), "{field}");
            }
        }
    };
}

#[test]
fn each_value_of_a_target_is_named() {
    check_named!(Abi, "abis.rt", "target_abi");
    check_named!(Arch, "architectures.rt", "target_arch");
    check_named!(Env, "environments.rt", "target_env");
    check_named!(Family, "families.rt", "target_family");
    check_named!(Os, "systems.rt", "target_os");
    check_named!(Panic, "panics.rt", "panic");
    check_named!(Vendor, "vendors.rt", "target_vendor");
}

#[test]
fn no_other_text_is_named() {
    for text in ["", "x", "Linux", "linu", "linux "] {
        let field = asked_field!(Os, &format!("target_os = \"{text}\""));
        assert_eq!(field.as_str(), text);
        assert!(matches!(field.0, Cow::Owned(_)), "{text}");
    }
}
