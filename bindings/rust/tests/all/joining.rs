//! Values of long, deep and wide conditions, beside a plain evaluation of their texts.

use super::trees::Numbers;
use cfgx::Expression;
use cfgx::expr::{Logic, Predicate};
use std::thread;

/// A number that tells which operations led to it, and in which order. It is neither copied nor
/// cloned.
#[derive(Debug, PartialEq)]
struct Trace(u64);

/// Returns what tells of an operation, which has this number, on values in this order.
fn traced(operation: u64, first: u64, second: u64) -> Trace {
    let mixed = first.rotate_left(23).wrapping_mul(0x9e37_79b9_7f4a_7c15) ^ second;
    Trace(
        mixed
            .wrapping_mul(0xd6e8_feb8_6659_fd93)
            .wrapping_add(operation),
    )
}

impl Logic for Trace {
    fn top() -> Self {
        Trace(1)
    }

    fn bottom() -> Self {
        Trace(2)
    }

    fn and(self, other: Self) -> Self {
        traced(3, self.0, other.0)
    }

    fn or(self, other: Self) -> Self {
        traced(4, self.0, other.0)
    }

    fn not(self) -> Self {
        traced(5, self.0, 0)
    }
}

/// A part of a condition, as a text has it.
enum Part<'a> {
    /// A flag, `true` or `false`
    Word(&'a str),
    /// A function with its members
    Function(&'a str, Vec<Part<'a>>),
}

/// Reads the parts up to a closing parenthesis or the end. Returns them, and the text behind that.
fn read(mut text: &str) -> (Vec<Part<'_>>, &str) {
    let mut parts = Vec::new();
    loop {
        text = text.trim_start_matches([' ', ',']);
        let end = text.find([' ', ',', '(', ')']).unwrap_or(text.len());
        let (word, rest) = text.split_at(end);
        if let Some(inside) = rest.strip_prefix('(') {
            let (members, rest) = read(inside);
            parts.push(Part::Function(word, members));
            text = rest;
        } else if word.is_empty() {
            return (parts, rest.strip_prefix(')').unwrap_or(rest));
        } else {
            parts.push(Part::Word(word));
            text = rest;
        }
    }
}

/// Returns the value of a part over what a flag is answered. Pushes the flags in the order in which
/// they are asked.
fn value_of<'a>(part: &Part<'a>, asked: &mut Vec<&'a str>) -> Trace {
    let (name, members) = match part {
        Part::Word("true") => return Trace::top(),
        Part::Word("false") => return Trace::bottom(),
        Part::Word(flag) => {
            asked.push(flag);
            return answer_to(flag);
        }
        Part::Function(name, members) => (*name, members),
    };
    let is_word = |part: &&Part<'a>| matches!(part, Part::Word(_));
    let (words, functions): (Vec<&Part<'a>>, Vec<&Part<'a>>) = members.iter().partition(is_word);
    let functions: Vec<Trace> = functions
        .into_iter()
        .map(|one| value_of(one, asked))
        .collect();
    let words: Vec<Trace> = words.into_iter().map(|one| value_of(one, asked)).collect();
    let mut joined = words.into_iter().rev().chain(functions.into_iter().rev());
    match name {
        "not" => joined.next().unwrap().not(),
        "all" => joined.fold(Trace::top(), Trace::and),
        "any" => joined.fold(Trace::bottom(), Trace::or),
        other => panic!("{other}"),
    }
}

/// Returns the answer to a flag, which differs from that to each other one.
fn answer_to(flag: &str) -> Trace {
    let bytes = flag.bytes();
    Trace(bytes.fold(7, |hash, byte| hash * 131 + u64::from(byte)))
}

/// Panics unless a condition asks the flags that a plain evaluation asks, in its order, and has its
/// value.
fn check(text: &str) {
    let (parts, rest) = read(text);
    assert_eq!((parts.len(), rest), (1, ""), "{text}");
    let mut expected = Vec::new();
    let value = value_of(&parts[0], &mut expected);

    let expression = Expression::parse(text).unwrap();
    let mut asked = Vec::new();
    let found = expression.eval(|predicate| match predicate {
        Predicate::Flag(flag) => {
            asked.push(flag.to_string());
            answer_to(flag)
        }
        other => panic!("{other:?}"),
    });
    assert_eq!(asked, expected, "{text}");
    assert_eq!(found, value, "{text}");
    let flags = expected.into_iter().map(Predicate::Flag);
    assert!(expression.predicates().eq(flags), "{text}");
}

/// Returns a text of at most `count` flags, literals and functions. If it is narrow, each of its
/// functions has few members.
fn generated(numbers: &mut Numbers, count: usize, is_narrow: bool) -> String {
    let mut text = String::from("all(");
    let mut depth = 1;
    for number in 0..count {
        match numbers.below(if is_narrow { 5 } else { 12 }) {
            0 | 1 => {
                text.push_str(["all(", "any("][numbers.below(2)]);
                depth += 1;
            }
            2 if depth > 1 => {
                text.push_str("),");
                depth -= 1;
            }
            3 => text.push_str(["not(true),", "not(any(g)),", "true,", "false,"][numbers.below(4)]),
            _ => text.push_str(&format!("f{number},")),
        }
    }
    text + &")".repeat(depth)
}

#[test]
fn terms_of_each_length_and_depth() {
    let mut numbers = Numbers(0x0fed_cba9_8765_4321);
    for count in 0..300 {
        check(&generated(&mut numbers, count, false));
        check(&generated(&mut numbers, count, true));
    }
}

/// Runs a test on a stack on which a plain evaluation of a deep text has room.
fn with_a_large_stack(test: fn()) {
    let thread = thread::Builder::new().stack_size(1 << 30).spawn(test);
    thread.unwrap().join().unwrap();
}

/// The number of functions of a deep text, and of members of a wide one.
const MANY: usize = 20_000;

#[test]
fn deep_texts_are_joined_as_by_a_plain_evaluation() {
    with_a_large_stack(|| {
        check(&("not(".repeat(MANY) + "a" + &")".repeat(MANY)));
        for (before, behind) in [
            ("all(a,", ",b)"),
            ("any(", ",a,any(b))"),
            ("all(a,true,", ")"),
        ] {
            let text = before.repeat(MANY) + "c" + &behind.repeat(MANY);
            check(&text);
        }
    });
}

#[test]
fn wide_texts_are_joined_as_by_a_plain_evaluation() {
    for member in ["a", "any(b)", "a,any(b),false", "not(a),all(b,c)"] {
        let mut members = vec![member; MANY];
        check(&format!("any({})", members.join(",")));
        members[MANY / 2] = "any(all(d,not(e),f),g)";
        check(&format!("all(h,{},i)", members.join(",")));
    }
}
