//! The facts of the built-in targets.

use super::builtins::{OTHER_FACTS, RUSTC_FACTS, RUSTC_TARGETS, TARGETS};
use super::{Abi, Endian, Env, Os, TargetInfo, Vendor, place_in};
use crate::audit::Facts;

/// Returns the facts of the target with this triple, for an [`audit`](crate::audit()): of one of
/// the 320 targets of rustc 1.95.0, or of a built-in one.
///
/// Those of a target of rustc 1.95.0 are the lines that this compiler prints to Cargo, but for
/// `proc_macro`, which Cargo ignores. For some targets [`Rustc`](super::Rustc) has one more fact,
/// `target_feature="crt-static"`: the compiler does not print it to Cargo. Those of another
/// built-in target are what its fields say: no target feature, and not `debug_assertions`.
///
/// ```
/// use cfgx::targets::builtin_facts;
/// use cfgx::{Expression, audit};
///
/// let triples = ["x86_64-unknown-linux-gnu", "wasm32-unknown-unknown"];
/// let facts = triples.map(|triple| builtin_facts(triple).unwrap());
/// let condition = Expression::parse("all(unix, target_feature = \"sse2\")").unwrap();
/// let values = audit(&[condition], &facts).unwrap();
/// assert_eq!(values.row(0), [Some(true), Some(false)]);
/// ```
#[must_use]
pub fn builtin_facts(triple: &str) -> Option<Facts> {
    let (target, (has_assertions, features)) = described(triple)?;
    let mut lines = lines_of(target);
    let features = features.split_whitespace();
    lines.extend(features.map(|feature| line("target_feature", feature)));
    if has_assertions {
        lines.push(String::from("debug_assertions"));
    }
    lines.sort_unstable();
    Some(Facts::new(lines))
}

/// Returns the target with this triple, as rustc 1.95.0 describes it or else as it is built in,
/// with whether `debug_assertions` is printed for it, and its target features.
fn described(triple: &str) -> Option<(&'static TargetInfo, (bool, &'static str))> {
    let find = |targets: &'static [TargetInfo], facts: &[(bool, &'static str)]| {
        place_in(targets, triple).map(|place| (&targets[place], facts[place]))
    };
    find(RUSTC_TARGETS, RUSTC_FACTS).or_else(|| find(TARGETS, OTHER_FACTS))
}

/// Returns the line of a key and its value.
fn line(key: &str, value: &str) -> String {
    format!("{key}=\"{value}\"")
}

/// Returns the lines of the fields of a target.
fn lines_of(target: &TargetInfo) -> Vec<String> {
    let families = target.families.iter().map(|family| family.as_str());
    let widths = target.has_atomics.iter().map(|width| width.to_string());
    let endian = match target.endian {
        Endian::big => "big",
        Endian::little => "little",
    };
    let mut lines = vec![
        line("panic", target.panic.as_str()),
        line("target_abi", target.abi.as_ref().map_or("", Abi::as_str)),
        line("target_arch", target.arch.as_str()),
        line("target_endian", endian),
        line("target_env", target.env.as_ref().map_or("", Env::as_str)),
        line("target_os", target.os.as_ref().map_or("none", Os::as_str)),
        line("target_pointer_width", &target.pointer_width.to_string()),
    ];
    let vendor = target.vendor.as_ref().map(Vendor::as_str);
    lines.extend(vendor.map(|vendor| line("target_vendor", vendor)));
    lines.extend(families.clone().map(|family| line("target_family", family)));
    let flags = families.filter(|family| matches!(*family, "unix" | "windows"));
    lines.extend(flags.map(str::to_string));
    lines.extend(widths.map(|width| line("target_has_atomic", &width)));
    lines
}
