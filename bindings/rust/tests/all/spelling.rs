//! How predicates are spelled, as `docs/RULES.md` says.

use cfgx::expr::{Predicate, TargetPredicate};
use cfgx::targets::Endian;

/// Returns the spelling of a predicate.
pub fn spelled(predicate: &Predicate<'_>) -> String {
    match predicate {
        Predicate::Target(target) => spelled_target(target),
        Predicate::Test => String::from("test"),
        Predicate::DebugAssertions => String::from("debug_assertions"),
        Predicate::ProcMacro => String::from("proc_macro"),
        Predicate::Feature(name) => format!("feature = \"{name}\""),
        Predicate::TargetFeature(name) => format!("target_feature = \"{name}\""),
        Predicate::Flag(key) => key.to_string(),
        Predicate::KeyValue { key, val } => format!("{key} = \"{val}\""),
    }
}

fn spelled_target(target: &TargetPredicate) -> String {
    match target {
        TargetPredicate::Abi(abi) => format!("target_abi = \"{abi}\""),
        TargetPredicate::Arch(arch) => format!("target_arch = \"{arch}\""),
        TargetPredicate::Endian(Endian::big) => String::from("target_endian = \"big\""),
        TargetPredicate::Endian(Endian::little) => String::from("target_endian = \"little\""),
        TargetPredicate::Env(env) => format!("target_env = \"{env}\""),
        TargetPredicate::Family(family) => format!("target_family = \"{family}\""),
        TargetPredicate::HasAtomic(width) => format!("target_has_atomic = \"{width}\""),
        TargetPredicate::Os(os) => format!("target_os = \"{os}\""),
        TargetPredicate::Panic(panic) => format!("panic = \"{panic}\""),
        TargetPredicate::PointerWidth(bits) => format!("target_pointer_width = \"{bits}\""),
        TargetPredicate::Vendor(vendor) => format!("target_vendor = \"{vendor}\""),
    }
}
