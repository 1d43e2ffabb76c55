//! What `predicates` lists, as values of the crate. Their texts are those of the condition, byte
//! for byte.

use cfgx::expr::TargetPredicate;
use cfgx::targets::{Abi, Arch, Endian, Env, Family, HasAtomic, Os, Panic, Vendor};
use cfgx::{Expression, Predicate};
use std::collections::HashSet;

/// Texts of values, with white space at their ends, and some that named values have.
const TEXTS: &[&str] = &[
    "",
    " ",
    " linux",
    "linux ",
    "\tlinux\n",
    "Linux",
    "\u{a0}é\u{3000}",
    ") = (,",
    "a\0b",
    "linux",
    "unknown",
    "abort",
    "8",
];

/// Panics unless the condition has this one predicate, with and without an outer `cfg( )`, alone
/// and below functions.
fn check(condition: &str, expected: &Predicate<'_>) {
    for [before, after] in [
        ["", ""],
        ["cfg(", ")"],
        [" ", ","],
        ["all(not(", "))"],
        ["cfg(any(true, ", ",,),)"],
    ] {
        let text = format!("{before}{condition}{after}");
        let expression = Expression::parse(&text).unwrap();
        let found: Vec<Predicate<'_>> = expression.predicates().collect();
        assert_eq!(found, std::slice::from_ref(expected), "{text}");
        assert!(expression.eval(|asked| asked == expected) != text.contains("not("));
    }
}

/// Returns the predicates on the target with this text, and their keys.
fn on_target(text: &str) -> [(&'static str, TargetPredicate); 7] {
    let text = || text.to_string();
    [
        ("target_abi", TargetPredicate::Abi(Abi::new(text()))),
        ("target_arch", TargetPredicate::Arch(Arch::new(text()))),
        ("target_env", TargetPredicate::Env(Env::new(text()))),
        (
            "target_family",
            TargetPredicate::Family(Family::new(text())),
        ),
        ("target_os", TargetPredicate::Os(Os::new(text()))),
        ("panic", TargetPredicate::Panic(Panic::new(text()))),
        (
            "target_vendor",
            TargetPredicate::Vendor(Vendor::new(text())),
        ),
    ]
}

#[test]
fn texts_on_the_target() {
    let keys = TEXTS
        .iter()
        .flat_map(|text| on_target(text).map(|(key, asked)| (text, key, asked)));
    for (text, key, asked) in keys {
        let condition = format!("{key} = \"{text}\"");
        check(&condition, &Predicate::Target(asked));
    }
}

#[test]
fn texts_of_features() {
    for name in TEXTS {
        check(&format!("feature = \"{name}\""), &Predicate::Feature(name));
    }
}

#[test]
fn texts_of_other_keys() {
    let keys = ["key", "_", "Unix", "features", "Panic"];
    for (key, val) in keys
        .iter()
        .flat_map(|key| TEXTS.iter().map(move |val| (key, val)))
    {
        let expected = Predicate::KeyValue { key, val };
        check(&format!("{key}\n=\t\"{val}\""), &expected);
    }
}

/// White space, by the property of Unicode, and none.
const SPACES: &[&str] = &[
    "",
    " ",
    "\n\t",
    "\u{b}\u{c}",
    "\r",
    "\u{85}",
    "\u{a0}",
    "\u{1680}",
    "\u{2003}",
    "\u{2028}",
    "\u{2029}",
    "\u{202f}",
    "\u{205f}",
    "\u{3000}",
];

#[test]
fn white_space_around_the_sign_of_another_key() {
    let pairs = SPACES
        .iter()
        .flat_map(|before| SPACES.iter().map(move |behind| (before, behind)));
    for (before, behind) in pairs {
        let expected = Predicate::KeyValue {
            key: "key_1",
            val: " = ",
        };
        check(&format!("key_1{before}={behind}\" = \""), &expected);
    }
}

#[test]
fn texts_of_target_features() {
    for name in &TEXTS[1..] {
        let condition = format!("target_feature = \"{name}\"");
        check(&condition, &Predicate::TargetFeature(name));
    }
}

#[test]
fn keys_alone() {
    let family = |family| Predicate::Target(TargetPredicate::Family(family));
    for (key, expected) in [
        ("unix", family(Family::unix)),
        ("windows", family(Family::windows)),
        ("test", Predicate::Test),
        ("debug_assertions", Predicate::DebugAssertions),
        ("proc_macro", Predicate::ProcMacro),
        ("loom", Predicate::Flag("loom")),
        ("_", Predicate::Flag("_")),
        ("wasm", Predicate::Flag("wasm")),
        ("features", Predicate::Flag("features")),
        ("Test", Predicate::Flag("Test")),
        ("alls", Predicate::Flag("alls")),
        ("True", Predicate::Flag("True")),
    ] {
        check(key, &expected);
    }
}

#[test]
fn byte_orders() {
    for endian in [Endian::big, Endian::little] {
        let condition = format!("target_endian = \"{endian:?}\"");
        check(
            &condition,
            &Predicate::Target(TargetPredicate::Endian(endian)),
        );
    }
}

#[test]
fn widths_of_pointers() {
    for bits in 0..=u8::MAX {
        let expected = Predicate::Target(TargetPredicate::PointerWidth(bits));
        check(&format!("target_pointer_width = \"{bits}\""), &expected);
        check(&format!("target_pointer_width = \"+0{bits}\""), &expected);
    }
}

#[test]
fn widths_of_atomics() {
    let widths = (0..16).map(|power| (1 << power) - 1);
    for bits in widths.chain([8, 16, 32, 64, 128, 32_768, 65_535]) {
        let width = HasAtomic::IntegerSize(bits);
        let expected = Predicate::Target(TargetPredicate::HasAtomic(width));
        check(&format!("target_has_atomic = \"{bits}\""), &expected);
    }
    let expected = Predicate::Target(TargetPredicate::HasAtomic(HasAtomic::Pointer));
    check("target_has_atomic = \"ptr\"", &expected);
}

#[test]
fn a_set_has_each_predicate_once() {
    let text = "all(a, b = \"1\", unix, target_os = \"x\", not(a), b = \"1\", unix, a = \"1\")";
    let expression = Expression::parse(text).unwrap();
    let found: HashSet<Predicate<'_>> = expression.predicates().collect();
    let key_value = |key| Predicate::KeyValue { key, val: "1" };
    let expected = [
        Predicate::Flag("a"),
        key_value("b"),
        key_value("a"),
        Predicate::Target(TargetPredicate::Family(Family::new(String::from("unix")))),
        Predicate::Target(TargetPredicate::Os(Os::new_const("x"))),
    ];
    assert_eq!(found, HashSet::from(expected));
    assert_eq!(found.len(), 5);
}
