//! The rows of the repository's own tables.

use super::rows::table;
use super::spelling::spelled;
use cfgx::error::{ParseError, Reason};
use cfgx::expr::lexer::{Lexer, LexerToken};
use cfgx::targets::{Families, Family, HasAtomic, HasAtomics, Os};
use cfgx::{Decision, Expression};
use std::error::Error;

/// Returns a reason as the tables write it.
fn named(reason: &Reason) -> String {
    match reason {
        Reason::Unexpected(terms) => {
            let terms: Vec<String> = terms.iter().map(|term| format!("`{term}`")).collect();
            format!("U[{}]", terms.join(" "))
        }
        other => format!("{other:?}"),
    }
}

/// Returns a fault as the tables write it.
fn located(error: &ParseError) -> String {
    format!("{} at {:?}", named(&error.reason), error.span)
}

/// Returns the reason that the tables write so.
fn reason_named(name: &str) -> Reason {
    if let Some(count) = name.strip_prefix("InvalidNot(") {
        return Reason::InvalidNot(count.strip_suffix(')').unwrap().parse().unwrap());
    }
    if let Some(list) = name.strip_prefix("U[") {
        let list = list.strip_suffix(']').unwrap();
        let terms = list.split('`').skip(1).step_by(2);
        let terms: Vec<&str> = terms.map(|term| &*String::from(term).leak()).collect();
        return Reason::Unexpected(terms.leak());
    }
    let simple = [
        Reason::InvalidCharacters,
        Reason::UnclosedParens,
        Reason::UnopenedParens,
        Reason::UnclosedQuotes,
        Reason::UnopenedQuotes,
        Reason::Empty,
        Reason::InvalidInteger,
        Reason::MultipleRootPredicates,
        Reason::InvalidHasAtomic,
        Reason::UnknownBuiltin,
    ];
    let is_named = |reason: &Reason| named(reason) == name;
    simple.into_iter().find(is_named).unwrap()
}

/// Returns the items of a text as the tables write them, each with the number of bytes behind it.
fn items_of(text: &str, length: usize) -> Vec<String> {
    let written = |item| match item {
        Ok(LexerToken { token, span }) => {
            format!("{token} at {span:?}, {} left", length - span.end)
        }
        Err(error) => format!("{} in {}, 0 left", located(&error), error.original),
    };
    Lexer::new(text).map(written).collect()
}

/// Returns the answer with this digit.
fn answer_of(digit: char) -> Option<bool> {
    match digit {
        '0' => Some(false),
        '1' => Some(true),
        '?' => None,
        other => panic!("{other}"),
    }
}

/// Returns whether a row says that two conditions are equal.
fn is_equal(word: &str) -> bool {
    match word {
        "equal" => true,
        "different" => false,
        other => panic!("{other}"),
    }
}

#[test]
fn faults() {
    for file in [
        "faults.txt",
        "neighbours.txt",
        "predicates.txt",
        "tokens.txt",
    ] {
        for row in table(file, "fault") {
            let error = Expression::parse(&row[0]).unwrap_err();
            assert_eq!(located(&error), row[1], "{}", row[0]);
            assert_eq!(error.original, row[0]);
        }
    }
    for row in table("stripping.txt", "fault in the stripped text") {
        let error = row[0].parse::<Expression>().unwrap_err();
        assert_eq!([located(&error), error.original], row[1..]);
    }
}

#[test]
fn tokens() {
    for row in table("tokens.txt", "items") {
        let length = row[1].strip_suffix(" left").unwrap().parse().unwrap();
        assert_eq!(items_of(&row[0], length), row[2..], "{}", row[0]);
    }
}

#[test]
fn predicates_in_the_order_in_which_they_are_asked() {
    for file in ["grammar.txt", "order.txt", "predicates.txt", "tokens.txt"] {
        for row in table(file, "predicates") {
            let expression = Expression::parse(&row[0]).unwrap();
            let listed: Vec<String> = expression.predicates().map(|one| spelled(&one)).collect();
            assert_eq!(listed.join("\n"), row[1], "{}", row[0]);
        }
    }
    for row in table("spelling.txt", "spelling") {
        let expression = Expression::parse(&row[0]).unwrap();
        let listed: Vec<String> = expression.predicates().map(|one| spelled(&one)).collect();
        assert_eq!(listed.concat(), row[1], "{}", row[0]);
    }
}

#[test]
fn stripped_texts_and_equality() {
    for row in table("stripping.txt", "stripped text") {
        let expression = Expression::parse(&row[0]).unwrap();
        assert_eq!(expression.original(), row[1]);
        assert_eq!(expression.to_string(), row[1]);
        assert_eq!(
            format!("{expression:?}"),
            format!("Expression({:?})", row[1])
        );
        assert_eq!(expression.clone(), expression);
    }
    for row in table("stripping.txt", "equality") {
        let [one, other] = [0, 1].map(|place| Expression::parse(&row[place]).unwrap());
        assert_eq!(one == other, is_equal(&row[2]), "{row:?}");
    }
    assert_ne!(Expression::parse("a"), Expression::parse("b"));
}

/// Texts that are not equal, in pairs: the texts of conditions are compared byte for byte.
const DIFFERENT: [[&str; 2]; 7] = [
    ["a", " a"],
    ["a", "a "],
    ["a", "a,"],
    ["a", "A"],
    ["all(a,b)", "all(a, b)"],
    ["cfg( a)", "cfg(a)"],
    ["unix", "target_family = \"unix\""],
];

#[test]
fn texts_are_compared_byte_for_byte() {
    for pair in DIFFERENT {
        let [one, other] = pair.map(|text| Expression::parse(text).unwrap());
        assert_ne!(one, other);
    }
}

#[test]
fn other_texts_are_not_stripped() {
    for text in ["cfg", "cfg,", " cfg ", "cfgs", "cfg = \"(a)\""] {
        assert_eq!(Expression::parse(text).unwrap().original(), text);
    }
    for text in ["cfg(a", "cfg(a) ", "cfg(a),", " cfg(a)", "Cfg(a)"] {
        assert_eq!(Expression::parse(text).unwrap_err().original, text);
    }
    assert_eq!(Expression::parse("cfg(cfg)").unwrap().original(), "cfg");
}

#[test]
fn from_str_reads_what_parse_reads() {
    for text in DIFFERENT.as_flattened().iter().chain(&["\tall( ", ""]) {
        let (parsed, read) = (Expression::parse(text), text.parse::<Expression>());
        let texts = [parsed, read].map(|result| match result {
            Ok(expression) => expression.original().to_string(),
            Err(error) => error.to_string(),
        });
        assert_eq!(texts[0], texts[1]);
    }
}

#[test]
fn fillings() {
    for row in table("values.txt", "fillings") {
        let expression = Expression::parse(&row[0]).unwrap();
        let mut answers = row[1].chars().map(answer_of);
        let found = match expression.decide(|_| answers.next().unwrap()) {
            Decision::Known(value) => value.to_string(),
            Decision::Unknown {
                if_true, if_false, ..
            } => {
                let digits = |values: Vec<bool>| -> String {
                    values
                        .into_iter()
                        .map(|value| if value { '1' } else { '0' })
                        .collect()
                };
                format!("{} {}", digits(if_true), digits(if_false))
            }
            other => panic!("{other:?}"),
        };
        assert_eq!(found, row[2], "{} over {}", row[0], row[1]);
        assert_eq!(answers.next(), None);
    }
}

#[test]
#[allow(deprecated)]
fn what_reasons_and_faults_print() {
    for row in table("printing.txt", "reason") {
        let reason = reason_named(&row[0]);
        assert_eq!(reason.to_string(), row[1]);
        let error = ParseError {
            original: String::new(),
            span: 0..0,
            reason,
        };
        assert_eq!(error.description(), row[2]);
    }
    for row in table("printing.txt", "printed fault") {
        let (reason, span) = row[1].rsplit_once(" at ").unwrap();
        let (start, end) = span.split_once("..").unwrap();
        let error = ParseError {
            original: row[0].clone(),
            span: start.parse().unwrap()..end.parse().unwrap(),
            reason: reason_named(reason),
        };
        assert_eq!(error.to_string(), row[2]);
    }
    let error = ParseError {
        original: String::from("ab"),
        span: 0..2,
        reason: Reason::UnopenedQuotes,
    };
    assert_eq!(error.to_string(), "ab\n^ unopened quotes");
}

/// `cfg-expr` ignores a width too. Fields are looked at beside the named values.
#[test]
fn a_width_in_a_format_does_not_count() {
    let expression = Expression::parse("cfg(a)").unwrap();
    assert_eq!(format!("{expression:9}{expression:.0}"), "aa");
    let width = HasAtomic::IntegerSize(8);
    assert_eq!(format!("{width:9}{:9}", HasAtomic::Pointer), "8ptr");
    assert_eq!(format!("{:99}", Families::unix), "{unix}");
    assert_eq!(format!("{:99}", HasAtomics::new([width])), "{8}");
    assert_eq!(format!("{:99}", Reason::Empty), "empty expression");
    let error = Expression::parse("all(").unwrap_err();
    assert_eq!(format!("{error:99}"), error.to_string());
}

#[test]
fn lists_widths_and_fields() {
    for row in table("lists.txt", "list of families") {
        let families = row[0]
            .split_whitespace()
            .map(str::to_string)
            .map(Family::new);
        assert_eq!(Families::new(families).to_string(), row[1]);
    }
    for row in table("lists.txt", "list of widths") {
        let widths = row[0]
            .split_whitespace()
            .map(|width| width.parse().unwrap());
        assert_eq!(HasAtomics::new(widths).to_string(), row[1]);
    }
    for row in table("lists.txt", "width") {
        let printed = match row[0].parse::<HasAtomic>() {
            Ok(width) => width.to_string(),
            Err(error) => error.to_string(),
        };
        assert_eq!(printed, row[1]);
    }
    for row in table("lists.txt", "field") {
        assert_eq!(Os::new(row[0].clone()).to_string(), row[0]);
    }
}
