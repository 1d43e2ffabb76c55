//! Every target of the `rustc` on the path: what it meets, that its facts are built in, and that it
//! is built in as this compiler describes it.

use super::{child, model};
use cfgx::expr::Predicate;
use cfgx::targets::{ALL_BUILTINS, Rustc, builtin_facts, get_builtin_target_by_triple};
use cfgx::{Expression, Facts, audit};
use std::fs;
use std::path::Path;
use std::process::Command;
use std::sync::Mutex;
use std::thread;

/// Asks for each key of a target, with values that some targets have.
const CONDITION: &str = r#"any(unix, windows, target_family = "wasm", target_os = "linux",
    target_os = "none", target_os = "windows", target_arch = "x86_64", target_arch = "arm",
    target_env = "gnu", target_env = "", target_abi = "", target_abi = "eabihf",
    target_vendor = "unknown", target_vendor = "apple", target_endian = "big",
    target_pointer_width = "16", target_pointer_width = "64", target_has_atomic = "8",
    target_has_atomic = "64", target_has_atomic = "ptr", panic = "abort", panic = "unwind")"#;

/// Returns what the `rustc` on the path prints with these words.
fn printed(words: &[&str]) -> String {
    let output = Command::new("rustc").args(words).output().unwrap();
    assert!(output.status.success(), "{output:?}");
    String::from_utf8(output.stdout).unwrap()
}

/// Returns the version of the `rustc` on the path.
fn version() -> String {
    let printed = printed(&["-vV"]);
    let mut lines = printed.lines();
    let release = lines.find_map(|line| line.strip_prefix("release: "));
    release.unwrap().to_string()
}

/// Returns the version of the compiler whose facts are built in, and the triples of its targets.
fn version_and_triples() -> (String, Vec<String>) {
    let path = Path::new(env!("CARGO_MANIFEST_DIR")).join("../targets/targets.tsv");
    let table = fs::read_to_string(path).unwrap();
    let rest = table.strip_prefix("# Targets of rustc ").unwrap();
    let (version, _) = rest.split_once(',').unwrap();
    let cells = table.lines().skip(2).map(|row| row.split('\t').next());
    let triples = cells.map(|cell| cell.unwrap().to_string());
    (version.to_string(), triples.collect())
}

/// Returns the lines of facts.
fn lines_of(facts: &Facts) -> Vec<&str> {
    (0..facts.len())
        .filter_map(|number| facts.get(number))
        .collect()
}

/// Panics unless what each target meets is what its facts answer by the model.
fn check(rustc: &Rustc, triples: &[String]) {
    let expression = Expression::parse(CONDITION).unwrap();
    let values = audit(std::slice::from_ref(&expression), rustc.facts()).unwrap();
    for (place, target) in rustc.targets().iter().enumerate() {
        let lines = lines_of(&rustc.facts()[place]);
        let met: Vec<Option<bool>> = expression
            .predicates()
            .map(|predicate| match predicate {
                Predicate::Target(asked) => Some(asked.matches(target)),
                _ => None,
            })
            .collect();
        assert_eq!(met, model::answers(CONDITION, &lines), "{}", target.triple);
        assert_eq!(values.value(0, place), model::value(CONDITION, &met));
        assert_eq!(rustc.target(&triples[place]), Some(target));
    }
}

/// Panics unless the facts that are built in for each target are those of `rustc`, but for
/// `crt-static`, which it does not print to Cargo.
fn check_facts(rustc: &Rustc) {
    for (target, printed) in rustc.targets().iter().zip(rustc.facts()) {
        let built_in = builtin_facts(target.triple.as_str()).unwrap();
        let mut printed = lines_of(printed);
        printed.retain(|line| *line != "target_feature=\"crt-static\"");
        assert_eq!(lines_of(&built_in), printed, "{}", target.triple);
    }
}

/// Returns those targets of `rustc` that are built in, each with whether all of its fields are.
fn compared(rustc: &Rustc) -> Vec<(String, bool)> {
    let shared = rustc.targets().iter().filter_map(|target| {
        let triple = target.triple.as_str();
        let built_in = get_builtin_target_by_triple(triple)?;
        Some((triple.to_string(), built_in == target))
    });
    shared.collect()
}

/// Panics unless the compiler that was asked describes the built-in targets as they are, and has
/// those whose facts are built in. Another version may differ somewhat, which is told.
fn check_built_in(compared: &[(String, bool)], triples: &[String]) {
    let differing: Vec<&str> = compared
        .iter()
        .filter_map(|(triple, is_same)| (!is_same).then_some(triple.as_str()))
        .collect();
    let (version, (own, own_triples)) = (version(), version_and_triples());
    let (own_count, count, shared) = (ALL_BUILTINS.len(), triples.len(), compared.len());
    if version == own {
        assert_eq!(own_triples, triples);
        assert_eq!(differing, [""; 0]);
    } else {
        println!(
            "skipped: the built-in facts are those of rustc {own}, and here is {version}, so they \
             were not compared; of {own_count} built-in targets, {shared} were compared with its \
             {count}; {} differ: {differing:?}",
            differing.len()
        );
    }
    assert!(shared * 10 > own_count * 9, "{shared} of {own_count}");
    assert!(differing.len() * 10 < shared, "{differing:?}");
}

#[test]
fn every_target_of_the_compiler() {
    if !child::is_there("rustc", "no target of a compiler was looked at") {
        return;
    }
    let list = printed(&["--print", "target-list"]);
    let mut triples: Vec<String> = list.lines().map(str::to_string).collect();
    triples.sort_unstable();
    assert!(triples.iter().any(|one| one == "x86_64-unknown-linux-gnu"));
    let count = thread::available_parallelism().map_or(1, usize::from);
    let is_own = version() == version_and_triples().0;
    let all = Mutex::new(Vec::new());
    let all_compared = &all;
    thread::scope(|scope| {
        for part in triples.chunks(triples.len().div_ceil(count)) {
            scope.spawn(move || {
                let rustc = Rustc::ask_program("rustc", part).unwrap();
                assert_eq!(rustc.targets().len(), part.len());
                check(&rustc, part);
                if is_own {
                    check_facts(&rustc);
                }
                all_compared.lock().unwrap().extend(compared(&rustc));
            });
        }
    });
    check_built_in(&all.into_inner().unwrap(), &triples);
}
