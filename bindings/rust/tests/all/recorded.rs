//! The recorded answers of cfg-expr 0.20.10 to 1,962 texts.

use super::rows::{read_file, unescape};
use super::spelling::spelled;
use cfgx::Expression;

/// Returns the status of `cfgx parse` on a text and what it prints, by the crate alone.
fn parsed(text: &str) -> (u32, String) {
    match Expression::parse(text) {
        Ok(expression) => (
            0,
            expression
                .predicates()
                .map(|predicate| spelled(&predicate) + "\n")
                .collect(),
        ),
        Err(error) => (1, format!("{error}\n")),
    }
}

/// Returns the recorded rows: a text, a status, and an output.
pub fn rows() -> Vec<[String; 3]> {
    let file = read_file("rust_crate.tsv");
    let lines = file.lines().filter(|line| !line.starts_with("# "));
    let fields = |line: &str| -> Vec<String> { line.split('\t').map(unescape).collect() };
    let rows: Vec<[String; 3]> = lines.map(|line| fields(line).try_into().unwrap()).collect();
    assert_eq!(rows.len(), 1962);
    let faults = rows.iter().filter(|[_, status, _]| status == "1");
    assert_eq!(faults.count(), 1443);
    rows
}

#[test]
fn each_text_has_the_recorded_answer() {
    for [text, status, output] in rows() {
        let expected = (status.parse().unwrap(), output);
        assert_eq!(parsed(&text), expected, "{text}");
    }
}

#[test]
fn each_text_has_the_recorded_answer_in_cfg() {
    let is_stripped = |text: &str| text.starts_with("cfg(") && text.ends_with(')');
    for [text, status, output] in rows().into_iter().filter(|[text, ..]| !is_stripped(text)) {
        let expected = (status.parse().unwrap(), output);
        assert_eq!(parsed(&format!("cfg({text})")), expected, "{text}");
    }
}
