//! A program over cfg-expr 0.20.10 that uses each public item of it but `target_lexicon`, without a
//! change. `tests/surface` has the program, the items as rustdoc lists them, and what the program
//! prints over cfg-expr.

use super::{patched, programs};
use std::fs;
use std::path::Path;

/// Returns a file of `tests/surface`.
fn read(name: &str) -> String {
    let folder = Path::new(env!("CARGO_MANIFEST_DIR")).join("tests/surface");
    fs::read_to_string(folder.join(name)).unwrap()
}

/// Returns the words of a text.
fn words_of(text: &str) -> Vec<&str> {
    let is_inside = |letter: char| letter.is_ascii_alphanumeric() || letter == '_';
    text.split(|letter| !is_inside(letter)).collect()
}

#[test]
fn the_program_names_each_item() {
    let (program, named, items) = (
        read("program.rs"),
        read("named_values.rs"),
        read("items.txt"),
    );
    let words = [words_of(&program), words_of(&named)].concat();
    assert_eq!(items.lines().count(), 155);
    for item in items.lines() {
        let name = words_of(item).pop().unwrap();
        assert!(words.contains(&name), "{item}");
    }
}

#[test]
fn the_program_prints_what_it_prints_over_cfg_expr() {
    let folder = patched::folder_with(&programs::room("surface"), &[]);
    let needs = "[dependencies]\ncfg-expr = \"0.20.10\"\n\n";
    let manifest = needs.to_string() + &patched::patch();
    fs::write(folder.join("src/named_values.rs"), read("named_values.rs")).unwrap();
    programs::write(&folder, &manifest, &read("program.rs"));
    let (said, printed) = patched::run(&folder);
    assert_eq!(printed, read("printed.txt"), "{said}");
    assert!(!said.contains("warning"), "{said}");
}
