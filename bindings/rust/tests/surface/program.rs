//! A program over `cfg-expr` 0.20.10 that uses each public item of it, but `target_lexicon`.
//! `printed.txt` is what it prints over that crate.

use cfg_expr::error::{HasAtomicParseError, Reason};
use cfg_expr::expr::lexer::{Lexer, LexerToken, Token};
use cfg_expr::expr::{self, Func, Logic, TargetMatcher};
use cfg_expr::targets::{
    self, ALL_BUILTINS, Abi, Arch, Endian, Env, Families, Family, HasAtomic, HasAtomics, Os, Panic,
    TargetInfo, Triple, Vendor,
};
use cfg_expr::{Expression, ParseError, Predicate, TargetPredicate};
use std::borrow::Cow;
use std::cmp::Ordering;
use std::collections::{BTreeSet, HashSet};
use std::error::Error;
use std::fmt::{Debug, Display};
use std::hash::Hash;
use std::panic::{RefUnwindSafe, UnwindSafe};
use std::str::FromStr;

/// Makes a function that returns the name of each named value, what it prints, and its text.
macro_rules! named_values {
    ($($field:ident::$name:ident $text:literal,)*) => {
        fn named_values() -> Vec<(&'static str, String, &'static str)> {
            vec![$((
                concat!(stringify!($field), "::", stringify!($name)),
                $field::$name.to_string(),
                $text,
            )),*]
        }
    };
}

include!("named_values.rs");

/// Panics unless each named value is the text with its name.
fn check_named_values() {
    for (name, printed, text) in named_values() {
        assert_eq!(printed, text, "{name}");
    }
    println!("{} named values", named_values().len());
}

/// Prints what a field of each type does: borrowed and owned, printed in a width, and compared.
macro_rules! print_fields {
    ($($field:ident)*) => {
        $({
            const BORROWED: $field = $field::new_const("linux");
            let owned = $field::new(String::from("linux"));
            let Cow::Borrowed(text) = BORROWED.0 else {
                panic!("{BORROWED} is borrowed")
            };
            assert_eq!([text, owned.as_str(), owned.as_ref()], ["linux"; 3]);
            assert_eq!((&owned, owned.cmp(&BORROWED)), (&BORROWED, Ordering::Equal));
            assert!(owned > $field::new("Linux"));
            println!("{owned} {owned:?} [{owned:>9}] [{owned:.2}] {owned:#?}");
        })*
    };
}

fn print_all_fields() {
    print_fields!(Triple Abi Arch Vendor Os Family Env Panic);
}

/// Prints what the lists of families and of widths do.
fn print_lists() {
    const ITEMS: &[Family] = &[Family::unix, Family::wasm];
    const BORROWED: Families = Families::new_const(ITEMS);
    let families = Families::new([Family::wasm, Family::unix]);
    assert_eq!(
        (&families, families.len(), &families[1]),
        (&BORROWED, 2, &Family::wasm)
    );
    assert!(families.contains(&Family::new("unix")) && !families.contains(&Family::windows));
    assert_eq!(families.as_ref() as &[Family], &BORROWED[..]);
    println!("{families} [{families:>20}] {families:?}");
    for named in [
        Families::unix,
        Families::unix_wasm,
        Families::wasm,
        Families::windows,
    ] {
        println!("{named} {:?}", named.cmp(&families));
    }

    const WIDTHS: HasAtomics = HasAtomics::new_const(&[HasAtomic::IntegerSize(8)]);
    let widths = HasAtomics::new([HasAtomic::Pointer, HasAtomic::IntegerSize(8)]);
    assert_eq!((widths.len(), widths[0]), (2, WIDTHS[0]));
    assert!(widths.contains(HasAtomic::Pointer) && !WIDTHS.contains(HasAtomic::Pointer));
    assert_eq!(
        widths.as_ref() as &[HasAtomic],
        [HasAtomic::IntegerSize(8), HasAtomic::Pointer]
    );
    println!(
        "{widths} [{widths:>20}] {widths:?} {:?}",
        WIDTHS.partial_cmp(&widths)
    );
    println!("{}", HasAtomics::atomic_8_16_32_64_128_ptr);
    println!("{}", HasAtomics::atomic_8_16_32_64_ptr);
    println!("{}", HasAtomics::atomic_8_16_32_ptr);
}

/// Prints how byte orders and widths of atomics are read.
fn print_readers() {
    for text in ["big", "little", "Big", ""] {
        let read: Result<Endian, Reason> = Endian::from_str(text);
        println!("{text:?} is {read:?}");
    }
    println!("{:?}", Endian::big.cmp(&Endian::little));
    for text in ["8", "+064", "65535", "65536", "ptr", "Ptr", ""] {
        let read: Result<HasAtomic, HasAtomicParseError> = text.parse();
        match read {
            Ok(width @ HasAtomic::IntegerSize(bits)) => println!("{width} [{width:>5}] {bits}"),
            Ok(width @ HasAtomic::Pointer) => println!("{width} [{width:>5}] {width:?}"),
            Ok(other) => println!("{other:?}"),
            Err(error) => println!("{error} {error:?} {:?}", error.clone() == error),
        }
    }
}

/// Returns the name of a reason, and what stands in it.
fn name_of(reason: &Reason) -> String {
    match reason {
        Reason::InvalidNot(count) => format!("InvalidNot {count}"),
        Reason::InvalidCharacters => String::from("InvalidCharacters"),
        Reason::UnclosedParens => String::from("UnclosedParens"),
        Reason::UnopenedParens => String::from("UnopenedParens"),
        Reason::UnclosedQuotes => String::from("UnclosedQuotes"),
        Reason::UnopenedQuotes => String::from("UnopenedQuotes"),
        Reason::Empty => String::from("Empty"),
        Reason::Unexpected(terms) => format!("Unexpected {}", terms.join(" ")),
        Reason::InvalidInteger => String::from("InvalidInteger"),
        Reason::MultipleRootPredicates => String::from("MultipleRootPredicates"),
        Reason::InvalidHasAtomic => String::from("InvalidHasAtomic"),
        Reason::UnknownBuiltin => String::from("UnknownBuiltin"),
    }
}

/// Prints an error in each way in which it can be printed.
#[allow(deprecated)]
fn print_error(error: &ParseError) {
    let ParseError {
        original,
        span,
        reason,
    } = error;
    println!("{original:?} {span:?} {} [{reason:>30}]", name_of(reason));
    println!("{error}");
    println!(
        "{error:?} {} {}",
        error.description(),
        error.source().is_none()
    );
}

/// Prints the errors of texts, and errors with the reasons that no text has.
fn print_errors() {
    for text in [
        "",
        "cfg(not(a, b))",
        "all(a",
        "a)",
        "a = \"",
        "a b",
        "any(,)",
        "unix = \"x\"",
        "a, b",
        "target_pointer_width = \"256\"",
        "target_has_atomic = \"bit\"",
        "target_endian = \"middle\"",
        "target_nothing = \"x\"",
        "feature",
        "é",
    ] {
        print_error(&Expression::parse(text).unwrap_err());
    }
    for reason in [
        Reason::InvalidCharacters,
        Reason::UnopenedQuotes,
        Reason::UnknownBuiltin,
    ] {
        let original = String::from("a b");
        print_error(&ParseError {
            original,
            span: 2..3,
            reason,
        });
    }
    let error = "a b".parse::<Expression>().unwrap_err();
    println!(
        "{error:#?} {}",
        error == Expression::parse("a b").unwrap_err()
    );
}

/// Returns the name of a token, and its text.
fn name_of_token<'a>(token: &Token<'a>) -> (&'static str, &'a str) {
    match token {
        Token::Key(text) => ("Key", text),
        Token::Value(text) => ("Value", text),
        Token::Equals => ("Equals", "="),
        Token::All => ("All", "all"),
        Token::Any => ("Any", "any"),
        Token::Not => ("Not", "not"),
        Token::OpenParen => ("OpenParen", "("),
        Token::CloseParen => ("CloseParen", ")"),
        Token::Comma => ("Comma", ","),
    }
}

/// Prints the tokens of texts, up to an error.
fn print_tokens() {
    for text in [
        "cfg(any(unix, not(a = \"b\")))",
        " all ,)",
        "a 8",
        "a = \"b",
    ] {
        for item in Lexer::new(text) {
            let item: Result<LexerToken<'_>, ParseError> = item;
            let Ok(LexerToken { token, span }) = item else {
                println!("{:?}", item.unwrap_err());
                break;
            };
            let copy = token.clone();
            println!("{:?} {token} [{copy:>9}] {span:?}", name_of_token(&token));
            assert_eq!(copy, token);
        }
    }
    println!("{:?}", Lexer::new("all").next());
    let mut functions = [Func::Any(1), Func::All(2), Func::Not, Func::All(1)];
    functions.sort();
    println!("{functions:?} {:?}", functions[0].partial_cmp(&Func::Not));
}

/// A condition with each predicate.
const EACH_PREDICATE: &str = r#"cfg(all(any(test, debug_assertions, proc_macro, feature = "f",
    target_feature = "sse2", loom, key = "value", unix, windows, panic = "abort"),
    target_abi = "eabi", target_arch = "arm", target_endian = "big", target_env = "musl",
    target_family = "wasm", target_has_atomic = "8", target_has_atomic = "ptr",
    target_os = "none", target_pointer_width = "16", target_vendor = "a vendor",))"#;

/// Returns what stands in a predicate on the target.
fn text_of_target(predicate: &TargetPredicate) -> String {
    match predicate {
        TargetPredicate::Abi(Abi(text)) => format!("abi {text}"),
        TargetPredicate::Arch(Arch(text)) => format!("arch {text}"),
        TargetPredicate::Endian(Endian::big) => String::from("endian big"),
        TargetPredicate::Endian(Endian::little) => String::from("endian little"),
        TargetPredicate::Env(Env(text)) => format!("env {text}"),
        TargetPredicate::Family(Family(text)) => format!("family {text}"),
        TargetPredicate::HasAtomic(width) => format!("has_atomic {width}"),
        TargetPredicate::Os(Os(text)) => format!("os {text}"),
        TargetPredicate::Panic(Panic(text)) => format!("panic {text}"),
        TargetPredicate::PointerWidth(bits) => format!("pointer_width {bits}"),
        TargetPredicate::Vendor(Vendor(text)) => format!("vendor {text}"),
    }
}

/// Returns what stands in a predicate.
fn text_of(predicate: &Predicate<'_>) -> String {
    match predicate {
        Predicate::Target(predicate) => text_of_target(predicate),
        Predicate::Test => String::from("test"),
        Predicate::DebugAssertions => String::from("debug_assertions"),
        Predicate::ProcMacro => String::from("proc_macro"),
        Predicate::Feature(name) => format!("feature {name}"),
        Predicate::TargetFeature(name) => format!("target_feature {name}"),
        Predicate::Flag(name) => format!("flag {name}"),
        Predicate::KeyValue { key, val } => format!("key {key} value {val}"),
    }
}

/// Prints the predicates of a condition.
fn print_predicates() {
    let expression = Expression::parse(EACH_PREDICATE).unwrap();
    for predicate in expression.predicates() {
        println!("{} {predicate:?}", text_of(&predicate));
    }
    let wide: Vec<expr::Predicate<'_>> = expression.predicates().skip(18).collect();
    println!("{wide:#?}");
    let copy = expression.clone();
    println!(
        "{} {}",
        copy == expression,
        copy.original() == expression.original()
    );
    let other: Expression = "any( )".parse().unwrap();
    println!(
        "{other} [{other:>9}] {}",
        other == Expression::from_str("any()").unwrap()
    );
}

/// A logic whose values are terms.
#[derive(Debug)]
struct Term(String);

impl Logic for Term {
    fn top() -> Self {
        Term(String::from("T"))
    }

    fn bottom() -> Self {
        Term(String::from("F"))
    }

    fn and(self, other: Self) -> Self {
        Term(format!("({}&{})", self.0, other.0))
    }

    fn or(self, other: Self) -> Self {
        Term(format!("({}|{})", self.0, other.0))
    }

    fn not(self) -> Self {
        Term(format!("!{}", self.0))
    }
}

/// Prints the values of conditions over three logics.
fn print_values() {
    for text in [
        "a",
        "all()",
        "any()",
        "not(b)",
        "all(a, any(b, not(c)), d)",
        "any(all(a, b), c)",
    ] {
        let expression = Expression::parse(text).unwrap();
        let is_a = |predicate: &Predicate<'_>| *predicate == Predicate::Flag("a");
        let known: bool = expression.eval(is_a);
        let unknown: Option<bool> = expression.eval(|predicate| is_a(predicate).then_some(true));
        let Term(term) = expression.eval(|predicate| Term(text_of(predicate)));
        println!("{text} {known} {unknown:?} {term}");
    }
    let values = [Some(true), Some(false), None];
    for one in values {
        let joined = values.map(|other| (Logic::and(one, other), Logic::or(one, other)));
        println!("{one:?} {:?} {joined:?}", Logic::not(one));
    }
    println!(
        "{:?}",
        (
            bool::top(),
            bool::bottom(),
            <Option<bool>>::top(),
            <Option<bool>>::bottom()
        )
    );
}

/// A target of a caller.
struct Mine;

impl TargetMatcher for Mine {
    fn matches(&self, tp: &TargetPredicate) -> bool {
        matches!(tp, TargetPredicate::Os(os) if os.as_str() == "mine")
    }
}

/// Returns a target that is made by hand.
fn made() -> TargetInfo {
    TargetInfo {
        triple: Triple::new_const("mine"),
        os: None,
        abi: None,
        arch: Arch::arm,
        env: None,
        vendor: None,
        families: Families::new([]),
        pointer_width: 16,
        endian: Endian::big,
        has_atomics: HasAtomics::new([HasAtomic::IntegerSize(8)]),
        panic: Panic::abort,
    }
}

/// Prints which predicates targets meet.
fn print_targets() {
    let linux = targets::get_builtin_target_by_triple("x86_64-unknown-linux-musl").unwrap();
    let expression = Expression::parse(EACH_PREDICATE).unwrap();
    for predicate in expression.predicates() {
        if let Predicate::Target(asked) = predicate {
            let met = (
                asked.matches(linux),
                asked.matches(&made()),
                asked.matches(&Mine),
            );
            println!(
                "{} {met:?} {}",
                text_of_target(&asked),
                asked.clone() == asked
            );
        }
    }
    let wide = made();
    println!("{linux:#?}");
    println!("{wide:?} {:?} {}", wide.cmp(linux), wide.clone() == wide);
    let triples: BTreeSet<&Triple> = ALL_BUILTINS.iter().map(|target| &target.triple).collect();
    let rows: HashSet<&TargetInfo> = ALL_BUILTINS.iter().collect();
    println!("{}", triples.len() == rows.len() && rows.contains(linux));
    println!(
        "{:?}",
        targets::get_builtin_target_by_triple("x86_64-linux-musl")
    );
    println!("{}", targets::rustc_version().starts_with("1."));
}

/// Panics if `T` lacks what the fields of targets, their lists and targets have.
fn check_data<T: Clone + Debug + Eq + Hash + Ord + Send + Sync + Unpin>() {}

/// Panics if `T` lacks what all types have.
fn check_type<T: Send + Sync + Unpin + UnwindSafe + RefUnwindSafe>() {}

/// Panics if `T` lacks what errors have.
fn check_error<T: Error + Debug + Display + Eq + Send + Sync + 'static>() {}

/// Asks the compiler for the traits of each type.
fn check_traits() {
    check_data::<(Triple, Abi, Arch, Vendor, Os, Family, Env, Panic)>();
    check_data::<(Families, HasAtomics, TargetInfo, Endian, HasAtomic)>();
    check_type::<(Triple, Families, HasAtomics, TargetInfo, Endian, HasAtomic)>();
    check_type::<(
        Expression,
        Predicate<'_>,
        TargetPredicate,
        Func,
        Reason,
        ParseError,
    )>();
    check_type::<(Lexer<'_>, LexerToken<'_>, Token<'_>, HasAtomicParseError)>();
    check_error::<ParseError>();
    check_error::<HasAtomicParseError>();
    fn check_copies<T: Copy>() {}
    check_copies::<(Endian, HasAtomic, Func)>();
}

/// The condition of an example with many keys, and others that resolvers meet.
const CONDITIONS: [&str; 8] = [
    "all(target_os = \"windows\", target_arch = \"x86\", windows, target_env = \"msvc\", \
     target_feature = \"fxsr\", target_feature = \"sse\", target_feature = \"sse2\", \
     target_pointer_width = \"32\", target_endian = \"little\", not(target_vendor = \"uwp\"), \
     feature = \"cool_thing\",)",
    "cfg(unix)",
    "cfg(windows)",
    "cfg(target_vendor = \"apple\")",
    "cfg(all(unix, not(target_os = \"macos\")))",
    "cfg(any(target_env = \"msvc\", target_env = \"musl\"))",
    "cfg(all(target_has_atomic = \"ptr\", panic = \"unwind\", target_abi = \"\"))",
    "cfg(target_feature = \"avx2\")",
];

/// Targets of Windows, Linux and macOS.
const TRIPLES: [&str; 7] = [
    "i686-pc-windows-msvc",
    "i686-uwp-windows-msvc",
    "x86_64-pc-windows-gnu",
    "x86_64-unknown-linux-gnu",
    "i686-unknown-linux-musl",
    "x86_64-apple-darwin",
    "aarch64-apple-darwin",
];

/// Prints the value of each condition on each target, with a feature of the package and without it.
fn print_systems() {
    let available = ["fxsr", "sse", "sse2"];
    for text in CONDITIONS {
        let condition = Expression::parse(text).unwrap();
        let value_on = |triple, has_feature: bool| {
            let target = targets::get_builtin_target_by_triple(triple).unwrap();
            condition.eval(|predicate| match predicate {
                Predicate::Target(asked) => asked.matches(target),
                Predicate::TargetFeature(name) => available.contains(name),
                Predicate::Feature(name) => has_feature && *name == "cool_thing",
                _ => false,
            })
        };
        let digits = |has_feature| -> String {
            let values = TRIPLES.map(|triple| u8::from(value_on(triple, has_feature)));
            values.map(|value| value.to_string()).concat()
        };
        println!("{} {} {condition}", digits(true), digits(false));
    }
}

fn main() {
    check_traits();
    check_named_values();
    print_all_fields();
    print_lists();
    print_readers();
    print_errors();
    print_tokens();
    print_predicates();
    print_values();
    print_targets();
    print_systems();
}
