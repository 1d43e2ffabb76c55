//! The rows of `crates/cfgx_vectors/data`, whose README has their format.

use std::fs;
use std::path::Path;

/// Returns a file of rows.
pub fn read_file(name: &str) -> String {
    let data = Path::new(env!("CARGO_MANIFEST_DIR")).join("../../crates/cfgx_vectors/data");
    fs::read_to_string(data.join(name)).unwrap()
}

/// Returns the fields of the rows of each table of this check in a file. Panics unless there are as
/// many rows as the heads of the tables say.
pub fn table(file: &str, check: &str) -> Vec<Vec<String>> {
    let text = read_file(file);
    let head = format!("[{check}: ");
    let (mut expected, mut rows) = (0, Vec::new());
    for part in text.split("\n[").map(|part| format!("[{part}")) {
        let Some(rest) = part.strip_prefix(&head) else {
            continue;
        };
        let count = rest.split(' ').next().unwrap();
        expected += count.parse::<usize>().unwrap();
        rows.extend(rest.lines().skip(2).filter(|line| is_row(line)).map(fields));
    }
    assert!(expected > 0, "{file} has no table {check}");
    assert_eq!(rows.len(), expected, "{file}: {check}");
    rows
}

/// Returns whether a line is a row.
fn is_row(line: &str) -> bool {
    !line.is_empty() && !line.starts_with("# ")
}

/// Returns the fields of a row.
fn fields(line: &str) -> Vec<String> {
    line.split(" | ")
        .map(|field| repeat(&unescape(field)))
        .collect()
}

/// Returns the text that stands in a field.
pub fn unescape(field: &str) -> String {
    let mut text = String::new();
    let mut rest = field;
    while let Some((before, after)) = rest.split_once('\\') {
        text.push_str(before);
        rest = match after.strip_prefix("u{") {
            Some(number) => {
                let (digits, behind) = number.split_once('}').unwrap();
                let number = u32::from_str_radix(digits, 16).unwrap();
                text.push(char::from_u32(number).unwrap());
                behind
            }
            None => {
                text.push_str(meaning(&after[..1]));
                &after[1..]
            }
        };
    }
    text + rest
}

/// Returns what a letter after a backslash stands for.
fn meaning(letter: &str) -> &str {
    match letter {
        "n" => "\n",
        "t" => "\t",
        "r" => "\r",
        "0" => "\0",
        "e" => "",
        "\\" => "\\",
        other => panic!("\\{other}"),
    }
}

/// Returns the text with each `~piece~3~` written out.
fn repeat(text: &str) -> String {
    let parts: Vec<&str> = text.split('~').collect();
    let Some((last, threes)) = parts.split_last() else {
        return String::new();
    };
    let mut repeated = String::new();
    for three in threes.chunks(3) {
        let [before, piece, count] = three else {
            panic!("{text}")
        };
        repeated.push_str(before);
        repeated.push_str(&piece.repeat(count.parse().unwrap()));
    }
    repeated + last
}
