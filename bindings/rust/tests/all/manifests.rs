//! The manifests and the examples of `docs/RUST.md`, each that of a program in a folder of its own.
//! `patched.rs` has the last manifest. Its table of differences is that of the documentation.

use super::programs;
use std::fs;
use std::path::Path;
use std::process::Command;

/// Returns the blocks of the page in this language.
fn blocks_in(language: &str) -> Vec<String> {
    let path = Path::new(env!("CARGO_MANIFEST_DIR")).join("../../docs/RUST.md");
    let page = fs::read_to_string(path).unwrap();
    let head = format!("```{language}\n");
    let starts = page.split(head.as_str()).skip(1);
    let block = |text: &str| text.split("```").next().unwrap().to_string();
    starts.map(block).collect()
}

/// Returns the blocks of the page that are manifests, or parts of one.
pub fn blocks() -> Vec<String> {
    blocks_in("toml")
}

/// Panics unless the program runs with this manifest, and knows the crate by this name.
fn check(folder: &Path, manifest: &str, name: &str) {
    let call = format!("{name}::Expression::parse(\"cfg(a)\").unwrap()");
    let code = format!("fn main() {{ println!(\"{{}}\", {call}) }}");
    let program = programs::built(folder, manifest, &code);
    let output = Command::new(program).output().unwrap();
    assert_eq!(output.stdout, b"a\n", "{manifest}");
}

#[test]
fn each_manifest_of_the_page_builds() {
    let folder = programs::folder_in(&programs::room("manifests"));
    let [own_name, old_name, _] = &blocks()[..] else {
        panic!("the page does not have three manifests")
    };
    check(&folder, own_name, "cfgx");
    check(&folder, old_name, "cfg_expr");
    // Without the feature `targets`, which the suite over Debian's packages tests, nothing more is
    // locked.
    assert_eq!(programs::locked_in(&folder), ["cfgx", "mine", "smallvec"]);
}

#[test]
fn each_example_of_the_page_runs() {
    let folder = programs::folder_in(&programs::room("examples"));
    let examples = blocks_in("rust");
    assert!(!examples.is_empty());
    for example in examples {
        let code = format!("fn main() {{\n{example}}}\n");
        let program = programs::built(&folder, &blocks()[0], &code);
        let output = Command::new(program).output().unwrap();
        assert!(output.status.success(), "{example}: {output:?}");
    }
}

/// Returns the first cells of the rows of a table, without the targets of links.
fn first_cells(table: &str) -> Vec<String> {
    let rows = table.lines().filter_map(|row| row.strip_prefix("| "));
    let cells = rows.map(|row| row.split(" |").next().unwrap());
    let pieces = |cell: &str| -> String {
        let links = cell.split("](");
        let plain = links.map(|piece| piece.split_once(')').map_or(piece, |(_, rest)| rest));
        plain.collect()
    };
    cells
        .map(|cell| pieces(cell).replace(['[', ']'], ""))
        .collect()
}

#[test]
fn the_documentation_has_the_differences_of_the_page() {
    let own = Path::new(env!("CARGO_MANIFEST_DIR"));
    let page = fs::read_to_string(own.join("../../docs/RUST.md")).unwrap();
    let (_, rest) = page.split_once("## What differs\n\n").unwrap();
    let (table, _) = rest.split_once("\n\n").unwrap();
    let documented = fs::read_to_string(own.join("src/differences.txt")).unwrap();
    assert_eq!(first_cells(&documented), first_cells(table));
    assert_eq!(first_cells(table).len(), 7);
}
