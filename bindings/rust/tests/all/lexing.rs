//! Tokens, by rules that each list of tokens meets, and functions.

use super::recorded;
use cfgx::error::{ParseError, Reason};
use cfgx::expr::Func;
use cfgx::expr::lexer::{Lexer, LexerToken, Token};
use std::iter::FusedIterator;

/// Returns the bytes that spell a token.
fn spelled(token: &Token<'_>) -> String {
    match token {
        Token::Key(word) => word.to_string(),
        Token::Value(inside) => format!("\"{inside}\""),
        Token::Equals => String::from("="),
        Token::All => String::from("all"),
        Token::Any => String::from("any"),
        Token::Not => String::from("not"),
        Token::OpenParen => String::from("("),
        Token::CloseParen => String::from(")"),
        Token::Comma => String::from(","),
    }
}

fn starts_word(letter: char) -> bool {
    letter.is_ascii_alphabetic() || letter == '_'
}

fn continues_word(letter: char) -> bool {
    starts_word(letter) || letter.is_ascii_digit()
}

fn is_function(word: &str) -> bool {
    ["all", "any", "not"].contains(&word)
}

/// Panics unless this token can stand before `rest`: a word is as long as it can be, and no key is
/// a function. A value has no quote.
fn check_token(token: &Token<'_>, rest: &str) {
    match token {
        Token::Key(word) => {
            assert!(word.starts_with(starts_word) && word.chars().all(continues_word));
            assert!(!is_function(word) && !rest.starts_with(continues_word));
        }
        Token::Value(inside) => assert!(!inside.contains('"')),
        Token::All | Token::Any | Token::Not => assert!(!rest.starts_with(continues_word)),
        _ => {}
    }
}

/// Panics unless no token can start at the error, which is the first of `rest` but white space. The
/// text is `stripped`.
fn check_error(error: &ParseError, stripped: &str, rest: &str) {
    let rest = rest.trim_start();
    let start = stripped.len() - rest.len();
    assert_eq!(error.original, stripped);
    match rest.strip_prefix('"') {
        Some(inside) => {
            assert!(!inside.contains('"'));
            assert_eq!(error.reason, Reason::UnclosedQuotes);
            assert_eq!(error.span, start..stripped.len());
        }
        None => {
            let letter = rest.chars().next().unwrap();
            assert!(!starts_word(letter) && !"(),=".contains(letter));
            let expected = Reason::Unexpected(&["<key>", "all", "any", "not"]);
            assert_eq!(error.reason, expected);
            assert_eq!(error.span, start..start + 1);
        }
    }
}

/// Panics unless the items of `text` are its tokens, with white space alone between them, and its
/// error. `stripped` is the text without an outer `cfg( )`. Returns whether there is an error.
fn check(text: &str, stripped: &str) -> bool {
    let mut lexer = Lexer::new(text);
    let mut end = 0;
    while let Some(item) = lexer.next() {
        match item {
            Ok(LexerToken { token, span }) => {
                assert_eq!(stripped[end..span.start].trim(), "", "{text}");
                assert_eq!(stripped[span.clone()], spelled(&token), "{text}");
                check_token(&token, &stripped[span.end..]);
                end = span.end;
            }
            Err(error) => {
                check_error(&error, stripped, &stripped[end..]);
                assert!((0..3).all(|_| lexer.next().is_none()), "{text}");
                return true;
            }
        }
    }
    assert_eq!(stripped[end..].trim(), "", "{text}");
    assert!((0..3).all(|_| lexer.next().is_none()), "{text}");
    false
}

#[test]
fn each_recorded_text_has_its_tokens() {
    let mut errors = 0;
    for [text, _, _] in recorded::rows() {
        let has_error = check(&format!("cfg({text})"), &text);
        if !(text.starts_with("cfg(") && text.ends_with(')')) {
            assert_eq!(check(&text, &text), has_error, "{text}");
        }
        errors += usize::from(has_error);
    }
    assert!(errors > 0);
}

/// Texts with as many tokens as the crate has room for at first, and one more or less.
#[test]
fn many_tokens() {
    for count in [0, 1, 63, 64, 65, 66, 1000] {
        let text = ",".repeat(count);
        assert_eq!(Lexer::new(&text).count(), count);
        assert!(!check(&format!("cfg({text})"), &text));
        assert!(check(&format!("cfg({text}\")"), &format!("{text}\"")));
    }
}

#[test]
fn tokens_print_what_debug_prints() {
    assert_eq!(Token::Key("unix").to_string(), "Key(\"unix\")");
    assert_eq!(Token::Value("a\n").to_string(), "Value(\"a\\n\")");
    assert_eq!(Token::OpenParen.to_string(), "OpenParen");
    assert_eq!(format!("{:?}", Token::Comma), "Comma");
    let first = Lexer::new("all").next().unwrap().unwrap();
    assert_eq!(
        format!("{first:?}"),
        "LexerToken { token: All, span: 0..3 }"
    );
    assert_eq!(first.token.clone(), Token::All);
}

/// A token borrows the text, and neither the lexer nor an expression.
#[test]
fn tokens_outlive_the_lexer() {
    let text = String::from("cfg(key = \"value\")");
    let tokens: Vec<Token<'_>> = {
        let lexer = Lexer::new(&text);
        lexer.map(|item| item.unwrap().token).collect()
    };
    assert_eq!(
        tokens,
        [Token::Key("key"), Token::Equals, Token::Value("value")]
    );
}

#[test]
fn functions_are_ordered_by_name_and_number() {
    let ordered = [
        Func::Not,
        Func::All(0),
        Func::All(1),
        Func::All(300),
        Func::Any(0),
        Func::Any(2),
    ];
    assert!(ordered.is_sorted_by(|one, other| one < other));
    let copy = ordered[3];
    assert_eq!(copy, ordered[3]);
    assert_eq!(format!("{copy:?}"), "All(300)");
}

/// Returns the number of items, and how many there are once it has ended.
pub(crate) fn counts_of(mut items: impl FusedIterator) -> (usize, usize) {
    (items.by_ref().count(), items.count())
}

#[test]
fn a_lexer_stays_at_its_end() {
    assert_eq!(counts_of(Lexer::new("any(a, b)")), (6, 0));
    assert_eq!(counts_of(Lexer::new("a = 8")), (3, 0));
}
