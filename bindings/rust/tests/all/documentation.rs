//! The example of the documentation of `cfg-expr`, with the crate under that name.

use cfgx as cfg_expr;

use cfg_expr::targets::{
    Abi, Arch, Endian, Env, Families, HasAtomics, Os, Panic, TargetInfo, Triple, Vendor,
    get_builtin_target_by_triple,
};
use cfg_expr::{Expression, Predicate};

/// The condition of the example.
const CONDITION: &str = r#"all(
    target_os = "windows",
    target_arch = "x86",
    windows,
    target_env = "msvc",
    target_feature = "fxsr",
    target_feature = "sse",
    target_feature = "sse2",
    target_pointer_width = "32",
    target_endian = "little",
    not(target_vendor = "uwp"),
    feature = "cool_thing",
)"#;

/// What `rustc --print cfg` prints for Windows on x86.
const LINES: &str = r#"debug_assertions
panic="unwind"
target_abi=""
target_arch="x86"
target_endian="little"
target_env="msvc"
target_family="windows"
target_feature="fxsr"
target_feature="sse"
target_feature="sse2"
target_has_atomic
target_has_atomic="16"
target_has_atomic="32"
target_has_atomic="64"
target_has_atomic="8"
target_has_atomic="ptr"
target_os="windows"
target_pointer_width="32"
target_thread_local
target_vendor="pc"
windows
"#;

/// Returns a row of Windows on x86, made by hand.
fn windows(triple: &'static str, vendor: Vendor) -> TargetInfo {
    TargetInfo {
        triple: Triple::new_const(triple),
        os: Some(Os::windows),
        abi: None,
        arch: Arch::x86,
        env: Some(Env::msvc),
        vendor: Some(vendor),
        families: Families::windows,
        pointer_width: 32,
        endian: Endian::little,
        has_atomics: HasAtomics::atomic_8_16_32_64_ptr,
        panic: Panic::unwind,
    }
}

/// Returns the value of the condition on a target, with this feature of the package.
fn value_on(target: &TargetInfo, feature: &str) -> bool {
    let avail_targ_feats = ["fxsr", "sse", "sse2"];
    let specific = Expression::parse(CONDITION).unwrap();
    specific.eval(|pred| match pred {
        Predicate::Target(tp) => tp.matches(target),
        Predicate::TargetFeature(feat) => avail_targ_feats.contains(feat),
        Predicate::Feature(feat) => *feat == feature,
        _ => false,
    })
}

#[test]
fn the_example_has_its_values() {
    let x86_win = get_builtin_target_by_triple("i686-pc-windows-msvc").unwrap();
    // This satisfies all requirements
    assert!(value_on(x86_win, "cool_thing"));

    // This lacks the feature `cool_thing`. This target is not built in.
    let x86_pentium_win = windows("i586-pc-windows-msvc", Vendor::pc);
    assert!(!value_on(&x86_pentium_win, ""));
    assert!(value_on(&x86_pentium_win, "cool_thing"));

    // This has the vendor `uwp`
    let uwp_win = get_builtin_target_by_triple("i686-uwp-windows-msvc").unwrap();
    assert!(!value_on(uwp_win, "cool_thing"));

    // This is no Windows
    let mac = get_builtin_target_by_triple("x86_64-apple-darwin").unwrap();
    assert!(!value_on(mac, "cool_thing"));
}

#[test]
fn the_targets_of_the_example_are_built_in() {
    let triple = "i686-pc-windows-msvc";
    let made = windows(triple, Vendor::pc);
    assert_eq!(TargetInfo::from_rustc_cfg(triple, LINES).unwrap(), made);
    assert_eq!(get_builtin_target_by_triple(triple), Some(&made));

    let triple = "i686-uwp-windows-msvc";
    let made = TargetInfo {
        abi: Some(Abi::uwp),
        ..windows(triple, Vendor::uwp)
    };
    assert_eq!(get_builtin_target_by_triple(triple), Some(&made));
}
