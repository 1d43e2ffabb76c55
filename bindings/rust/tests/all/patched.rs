//! The package `cfg-expr` of this repository in the place of that of a registry, for a program and
//! for a dependency of it. The registry is a folder, whose `cfg-expr` is a stand-in. Then the
//! package under its own name.

use super::{manifests, programs};
use std::fs;
use std::path::{Path, PathBuf};
use std::process::Command;

/// What the program depends on.
const DEPENDENCIES: &str = "[dependencies]\nasking = \"1.0\"\n\
    cfg-expr = { version = \"0.20.9\", features = [\"default\"] }\n\n";

/// The program, which passes an expression to a function of its dependency.
const PROGRAM: &str = r#"
fn main() {
    let expression = cfg_expr::Expression::parse("any(unix, a)").unwrap();
    println!("{} {}", asking::count(&expression), cfg_expr::targets::rustc_version());
}
"#;

/// The code of the dependency.
const ASKING: &str = "pub fn count(expression: &cfg_expr::Expression) -> usize {\n    \
    expression.predicates().count()\n}\n";

/// The code of the stand-in for `cfg-expr`.
const STAND_IN: &str = r#"
pub struct Expression;

impl Expression {
    pub fn parse(_: &str) -> Result<Expression, ()> {
        Ok(Expression)
    }

    pub fn predicates(&self) -> impl Iterator<Item = ()> {
        std::iter::empty()
    }
}

pub mod targets {
    pub fn rustc_version() -> &'static str {
        "stand-in"
    }
}
"#;

/// What the program prints over the stand-in, and over this crate.
const OVER_STAND_IN: &str = "0 stand-in\n";
const OVER_CFGX: &str = "2 1.99.0\n";

/// Puts a package into the registry.
fn publish(registry: &Path, name: &str, version: &str, rest: &str, code: &str) {
    let folder = registry.join(format!("{name}-{version}"));
    fs::create_dir_all(folder.join("src")).unwrap();
    let head = format!("[package]\nname = \"{name}\"\nversion = \"{version}\"\n");
    let manifest = format!("{head}edition = \"2021\"\n\n{rest}");
    fs::write(folder.join("Cargo.toml"), manifest).unwrap();
    fs::write(folder.join("src/lib.rs"), code).unwrap();
    write_sums(&folder);
}

/// Writes the file by which Cargo takes a folder for a package of a registry.
fn write_sums(folder: &Path) {
    let sums = format!("{{\"files\":{{}},\"package\":\"{}\"}}", "0".repeat(64));
    fs::write(folder.join(".cargo-checksum.json"), sums).unwrap();
}

/// Puts the one dependency of the crate into the registry.
fn publish_smallvec(registry: &Path) {
    let source = programs::folder_of_smallvec();
    let folder = registry.join(source.file_name().unwrap());
    programs::copy(&source, &folder);
    write_sums(&folder);
}

/// Makes the folder of the program, which takes its packages from a registry with these versions of
/// `cfg-expr`.
pub fn folder_with(room: &Path, versions: &[&str]) -> PathBuf {
    let registry = room.join("registry");
    let _ = fs::remove_dir_all(&registry);
    let needs = "[dependencies]\ncfg-expr = \"0.20\"\n";
    publish(&registry, "asking", "1.0.0", needs, ASKING);
    for version in versions {
        let features = "[features]\ndefault = []\ntargets = []\n";
        publish(&registry, "cfg-expr", version, features, STAND_IN);
    }
    publish_smallvec(&registry);
    let folder = programs::folder_in(room);
    let _ = fs::remove_file(folder.join("Cargo.lock"));
    fs::create_dir_all(folder.join(".cargo")).unwrap();
    let config = "[source.crates-io]\nreplace-with = \"folder\"\n\n\
        [source.folder]\ndirectory = \"../registry\"\n";
    fs::write(folder.join(".cargo/config.toml"), config).unwrap();
    folder
}

/// Returns the lines of the page that put the package in the place of the other.
pub fn patch() -> String {
    let blocks = manifests::blocks();
    let patch = blocks.last().unwrap();
    assert!(patch.starts_with("[patch.crates-io]\n"), "{patch}");
    patch.clone()
}

/// Builds the program and runs it. Returns what Cargo says and what the program prints.
pub fn run(folder: &Path) -> (String, String) {
    let said = programs::succeed(&mut programs::cargo(folder, &["build"]));
    let output = Command::new(programs::path_in(folder)).output().unwrap();
    assert!(output.status.success(), "{output:?}");
    (said, String::from_utf8(output.stdout).unwrap())
}

/// What Cargo says of a patch that it ignores.
const UNUSED: &str = "patch `cfg-expr v0.20.10";

/// Panics unless the program has this crate, and Cargo says nothing of a patch that it ignores.
fn check_patched(folder: &Path) {
    let (said, printed) = run(folder);
    assert_eq!(printed, OVER_CFGX, "{said}");
    assert!(!said.contains(UNUSED), "{said}");
}

/// Panics unless Cargo ignores the patch if a lock has an older version, up to an update.
fn check_locked(room: &Path, patched: &str) {
    let folder = folder_with(room, &["0.20.9"]);
    programs::write(&folder, DEPENDENCIES, PROGRAM);
    let (said, printed) = run(&folder);
    assert_eq!(printed, OVER_STAND_IN, "{said}");

    programs::write(&folder, patched, PROGRAM);
    let (said, printed) = run(&folder);
    assert_eq!(printed, OVER_STAND_IN, "{said}");
    assert!(said.contains(UNUSED), "{said}");

    let update = ["update", "-p", "cfg-expr"];
    programs::succeed(&mut programs::cargo(&folder, &update));
    check_patched(&folder);
    // Nothing more than without the optional dependency.
    let locked = programs::locked_in(&folder);
    assert_eq!(locked, ["asking", "cfg-expr", "cfgx", "mine", "smallvec"]);
}

// One test, since all builds share a folder, where the crate is built once.
#[test]
fn a_program_and_its_dependency_have_one_type() {
    let room = programs::room("patched");
    let patched = DEPENDENCIES.to_string() + &patch();
    check_locked(&room, &patched);
    // Without a lock Cargo takes the patch, whatever the registry has.
    for versions in [&["0.20.9"][..], &[]] {
        let folder = folder_with(&room, versions);
        programs::write(&folder, &patched, PROGRAM);
        check_patched(&folder);
    }
}

/// A program that names what `cfgx` has beside the items of `cfg-expr`.
const BEYOND: &str = r#"
use cfg_expr::targets::{Rustc, RustcCfgError, RustcError, builtin_facts};
use cfg_expr::{Audit, Decision, Expression, FactError, FactIter, Facts, Otherwise};
use cfg_expr::{audit, audit_with};

fn values(facts: &[Facts]) -> Result<Audit, FactError> {
    audit_with(&[Expression::parse("test").unwrap()], facts, Otherwise::False)
}

fn main() {
    let facts = [builtin_facts("wasm32-unknown-unknown").unwrap()];
    let decision = Expression::parse("unix").unwrap().decide(|_| Some(true));
    assert_eq!(decision, Decision::Known(true));
    assert_eq!(values(&facts).unwrap().row(0), [Some(false)]);
    assert!(audit(&[], &facts).is_ok());
    let _: fn(&Rustc, RustcError, RustcCfgError, FactIter<'_>) = |_, _, _, _| ();
}
"#;

#[test]
fn the_package_has_all_that_the_crate_has() {
    let folder = programs::folder_in(&programs::room("beyond"));
    let needs = "[dependencies]\ncfg-expr = { path = \"../cfgx/bindings/rust/cfg-expr\" }\n";
    let program = programs::built(&folder, needs, BEYOND);
    assert!(Command::new(program).status().unwrap().success());
}
