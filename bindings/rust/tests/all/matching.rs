//! Which predicates a target meets.

use super::rows::table;
use cfgx::Expression;
use cfgx::expr::{Predicate, TargetPredicate};
use cfgx::targets::{
    Abi, Arch, Endian, Env, Families, Family, HasAtomic, HasAtomics, Os, Panic, TargetInfo, Triple,
    Vendor, get_builtin_target_by_triple,
};

/// Returns a target without any text but that of its triple, of its architecture and of its panic
/// strategy.
fn bare() -> TargetInfo {
    TargetInfo {
        triple: Triple::new_const("mine"),
        os: None,
        abi: None,
        arch: Arch::aarch64,
        env: None,
        vendor: None,
        families: Families::new([]),
        pointer_width: 64,
        endian: Endian::little,
        has_atomics: HasAtomics::new([]),
        panic: Panic::unwind,
    }
}

/// Returns a target with Windows on x86.
fn windows(vendor: Vendor) -> TargetInfo {
    TargetInfo {
        os: Some(Os::windows),
        arch: Arch::x86,
        env: Some(Env::msvc),
        vendor: Some(vendor),
        families: Families::windows,
        pointer_width: 32,
        ..bare()
    }
}

#[test]
fn values_on_targets_made_by_hand() {
    let built_in = |triple| get_builtin_target_by_triple(triple).unwrap().clone();
    let targets = [
        bare(),
        built_in("aarch64-apple-ios"),
        windows(Vendor::pc),
        windows(Vendor::uwp),
        built_in("aarch64-apple-darwin"),
    ];
    for row in table("values.txt", "values on targets made by hand") {
        let expression = Expression::parse(&row[0]).unwrap();
        let value = |target: &TargetInfo| {
            expression.eval(|predicate| match predicate {
                Predicate::Target(asked) => asked.matches(target),
                _ => true,
            })
        };
        let digits = targets.iter().map(|target| u8::from(value(target)));
        let found: String = digits.map(|digit| digit.to_string()).collect();
        assert_eq!(found + "?", row[1], "{}", row[0]);
    }
}

/// A field of a target, the key, the value that is asked, and whether the target meets it. A field
/// is `-` if the target has none.
const FIELDS: &[(&str, &str, &str, bool)] = &[
    ("-", "target_os", "none", true),
    ("-", "target_os", "", false),
    ("-", "target_os", "unknown", false),
    ("", "target_os", "", true),
    ("", "target_os", "none", false),
    ("none", "target_os", "none", true),
    ("linux", "target_os", "linux", true),
    ("linux", "target_os", "Linux", false),
    ("linux", "target_os", "", false),
    ("linux", "target_os", "none", false),
    ("-", "target_abi", "", true),
    ("-", "target_abi", "none", false),
    ("-", "target_abi", "unknown", false),
    ("", "target_abi", "", true),
    ("eabi", "target_abi", "eabi", true),
    ("eabi", "target_abi", "eabihf", false),
    ("eabi", "target_abi", "", false),
    ("-", "target_env", "", true),
    ("-", "target_env", "none", false),
    ("", "target_env", "", true),
    ("gnu", "target_env", "gnu", true),
    ("gnu", "target_env", "", false),
    ("gnu", "target_env", " gnu", false),
    ("-", "target_vendor", "unknown", true),
    ("-", "target_vendor", "", false),
    ("-", "target_vendor", "none", false),
    ("", "target_vendor", "", true),
    ("", "target_vendor", "unknown", false),
    ("pc", "target_vendor", "pc", true),
    ("pc", "target_vendor", "", false),
    ("pc", "target_vendor", "unknown", false),
    ("", "target_arch", "", true),
    ("arm", "target_arch", "arm", true),
    ("arm", "target_arch", "", false),
    ("arm", "target_arch", "arm64ec", false),
    ("", "panic", "", true),
    ("", "panic", "abort", false),
    ("abort", "panic", "abort", true),
    ("abort", "panic", "unwind", false),
    ("abort", "panic", "", false),
    ("-", "target_family", "", false),
    ("-", "target_family", "unix", false),
    ("", "target_family", "", true),
    ("unix", "target_family", "unix", true),
    ("unix", "target_family", "", false),
    ("unix", "target_family", "windows", false),
];

/// Returns a target with this field, which is `-` for none.
fn target_with(key: &str, field: &'static str) -> TargetInfo {
    let given = (field != "-").then_some(field);
    let mut target = bare();
    match key {
        "target_os" => target.os = given.map(Os::new),
        "target_abi" => target.abi = given.map(Abi::new),
        "target_env" => target.env = given.map(Env::new),
        "target_vendor" => target.vendor = given.map(Vendor::new),
        "target_arch" => target.arch = Arch::new(field),
        "panic" => target.panic = Panic::new(field),
        "target_family" => target.families = Families::new(given.map(Family::new)),
        other => panic!("{other}"),
    }
    target
}

#[test]
fn texts_and_missing_fields() {
    for (field, key, value, expected) in FIELDS {
        let expression = Expression::parse(&format!("{key} = \"{value}\"")).unwrap();
        let target = target_with(key, field);
        let met = expression.eval(|predicate| match predicate {
            Predicate::Target(asked) => asked.matches(&target),
            other => panic!("{other:?}"),
        });
        assert_eq!(met, *expected, "{key} = {value:?} where it is {field:?}");
    }
}

#[test]
fn widths_of_pointers() {
    for width in 0..=u8::MAX {
        let target = TargetInfo {
            pointer_width: width,
            ..bare()
        };
        let is_met = |bits: &u8| TargetPredicate::PointerWidth(*bits).matches(&target);
        let met: Vec<u8> = (0..=u8::MAX).filter(is_met).collect();
        assert_eq!(met, [width]);
    }
}

/// Widths of atomics.
const WIDTHS: [HasAtomic; 7] = [
    HasAtomic::IntegerSize(0),
    HasAtomic::IntegerSize(8),
    HasAtomic::IntegerSize(16),
    HasAtomic::IntegerSize(24),
    HasAtomic::IntegerSize(264),
    HasAtomic::IntegerSize(u16::MAX),
    HasAtomic::Pointer,
];

#[test]
fn widths_of_atomics() {
    for chosen in 0..1 << WIDTHS.len() {
        let is_chosen = |place: usize| chosen >> place & 1 == 1;
        let places = (0..WIDTHS.len()).filter(|place| is_chosen(*place));
        let target = TargetInfo {
            has_atomics: HasAtomics::new(places.map(|place| WIDTHS[place])),
            ..bare()
        };
        let met = WIDTHS.map(|width| TargetPredicate::HasAtomic(width).matches(&target));
        assert_eq!(met, std::array::from_fn(is_chosen));
    }
}

#[test]
fn byte_orders() {
    for endian in [Endian::big, Endian::little] {
        let target = TargetInfo { endian, ..bare() };
        let met = [Endian::big, Endian::little].map(TargetPredicate::Endian);
        let met = met.map(|asked| asked.matches(&target));
        assert_eq!(met, [endian == Endian::big, endian == Endian::little]);
    }
}
