//! What `bench/measure` counts and times, over the Rust crate.
//!
//! usage: `bench each`, `bench sweep`, `bench pick` or `bench time`, with lines on standard input;
//! or `bench memory value` or `bench memory members`
//!
//! `each` makes each call with the condition on each line. `sweep` evaluates each of them on each
//! built-in target, and prints how many values this gives. `pick` does what
//! `cfgx pick aarch64-apple-ios` does, with sections that the target decides. `time` prints how
//! many nanoseconds each call takes for a line, at best. `memory` parses a long text, and prints
//! how many megabytes of memory and of addresses the process took at most.

use cfgx::expr::lexer::Lexer;
use cfgx::targets::{ALL_BUILTINS, TargetInfo, get_builtin_target_by_triple};
use cfgx::{Expression, ParseError, Predicate};
use std::error::Error;
use std::hint::black_box;
use std::io::{self, Write, read_to_string};
use std::time::Instant;
use std::{env, fs};

/// How often `time` makes each call with each line.
const ROUNDS: usize = 1000;

/// Parses a condition.
#[inline(never)]
fn parse_one(text: &str) -> Result<Expression, ParseError> {
    Expression::parse(text)
}

/// Evaluates a condition on a target. What is not on the target is false.
#[inline(never)]
fn evaluate_one(expression: &Expression, target: &TargetInfo) -> bool {
    expression.eval(|predicate| match predicate {
        Predicate::Target(asked) => asked.matches(target),
        _ => false,
    })
}

/// Evaluates a condition on a target. What is not on the target is unknown.
#[inline(never)]
fn weigh_one(expression: &Expression, target: &TargetInfo) -> Option<bool> {
    expression.eval(|predicate| match predicate {
        Predicate::Target(asked) => Some(asked.matches(target)),
        _ => None,
    })
}

/// Lists the predicates of a condition. Each of them is used as a whole, so all of it is made.
/// Returns how many are on the target.
#[inline(never)]
fn list_one(expression: &Expression) -> usize {
    let is_on_target = |predicate: &Predicate<'_>| matches!(predicate, Predicate::Target(_));
    let predicates = expression.predicates().map(black_box);
    predicates.filter(is_on_target).count()
}

/// Evaluates each condition on each target, one after another. What is not on the target is
/// unknown.
#[inline(never)]
fn sweep_all(expressions: &[Expression], targets: &[TargetInfo]) -> Vec<Option<bool>> {
    let values_of = |expression| {
        targets
            .iter()
            .map(move |target| weigh_one(expression, target))
    };
    expressions.iter().flat_map(values_of).collect()
}

/// Lists the tokens of a condition. Each of them is used as a whole. Returns how many there are.
#[inline(never)]
fn lex_one(text: &str) -> usize {
    let tokens = Lexer::new(text).map(black_box);
    tokens.filter(|token| token.is_ok()).count()
}

/// Clones a condition.
#[inline(never)]
fn clone_one(expression: &Expression) -> Expression {
    expression.clone()
}

/// Drops a condition.
#[inline(never)]
fn drop_one(expression: Expression) {
    drop(expression);
}

/// Makes each call with the condition on each line. A faulty line is only parsed.
fn measure_each(lines: &str, target: &TargetInfo) {
    for line in lines.lines() {
        if let Ok(expression) = parse_one(line) {
            black_box(evaluate_one(&expression, target));
            black_box(weigh_one(&expression, target));
            black_box(list_one(&expression));
            black_box(lex_one(line));
            drop(black_box(clone_one(&expression)));
            drop_one(expression);
        }
    }
}

/// Evaluates the condition on each line on each built-in target, and prints how many values this
/// gives.
fn sweep(lines: &str) -> Result<(), Box<dyn Error>> {
    let expressions = lines.lines().map(Expression::parse);
    let expressions: Vec<Expression> = expressions.collect::<Result<_, _>>()?;
    println!("{}", black_box(sweep_all(&expressions, ALL_BUILTINS)).len());
    Ok(())
}

/// Returns how many nanoseconds a call takes.
fn time_of(call: impl FnOnce()) -> u128 {
    let start = Instant::now();
    call();
    start.elapsed().as_nanos()
}

/// Returns how many nanoseconds calls of each kind take for all lines together: to parse, to
/// evaluate over `bool` and over `Option<bool>`, to list predicates, to list tokens, to clone and
/// to drop.
fn times_of(lines: &[&str], target: &TargetInfo) -> [u128; 7] {
    let mut parsed = Vec::with_capacity(lines.len());
    let mut cloned = Vec::with_capacity(lines.len());
    let parse = time_of(|| parsed.extend(lines.iter().flat_map(|line| parse_one(line))));
    let time_each = |call: &dyn Fn(&Expression)| time_of(|| parsed.iter().for_each(call));
    let evaluate = time_each(&|one| {
        black_box(evaluate_one(one, target));
    });
    let weigh = time_each(&|one| {
        black_box(weigh_one(one, target));
    });
    let list = time_each(&|one| {
        black_box(list_one(one));
    });
    let lex = time_of(|| {
        black_box(lines.iter().map(|line| lex_one(line)).sum::<usize>());
    });
    let clone = time_of(|| cloned.extend(parsed.iter().map(clone_one)));
    let drop = time_of(|| drop(cloned));
    [parse, evaluate, weigh, list, lex, clone, drop]
}

/// Prints how many nanoseconds each call takes for a line, at best. No line may be faulty.
fn print_times(lines: &str, target: &TargetInfo) {
    let lines: Vec<&str> = lines.lines().collect();
    let mut best = [u128::MAX; 7];
    for _ in 0..ROUNDS {
        let times = times_of(&lines, target);
        best = std::array::from_fn(|place| best[place].min(times[place]));
    }
    for nanoseconds in best {
        println!("{:.1}", nanoseconds as f64 / lines.len() as f64);
    }
}

/// Parses a text that has `part` this many times, and prints how many megabytes of memory and of
/// addresses the process took at most.
fn print_memory(before: &str, part: &str, count: usize, after: &str) -> Result<(), Box<dyn Error>> {
    let length = before.len() + part.len() * count + after.len();
    let mut text = String::with_capacity(length);
    text.push_str(before);
    (0..count).for_each(|_| text.push_str(part));
    text.push_str(after);
    let expression = Expression::parse(&text)?;
    let status = fs::read_to_string("/proc/self/status")?;
    for name in ["VmHWM:", "VmPeak:"] {
        let line = status.lines().find_map(|line| line.strip_prefix(name));
        let kib: usize = line
            .and_then(|line| line.split_whitespace().next())
            .ok_or(name)?
            .parse()?;
        println!("{}", kib * 1024 / 1_000_000);
    }
    drop(expression);
    Ok(())
}

/// Prints the name of each section, and whether its condition is true on the target.
fn pick(sections: &str, target: &TargetInfo) -> Result<(), Box<dyn Error>> {
    let mut output = String::new();
    for section in sections.lines() {
        let (name, condition) = section.split_once('\t').ok_or("a line has no tab")?;
        let value = Expression::parse(condition)?.eval(|predicate| match predicate {
            Predicate::Target(asked) => Some(asked.matches(target)),
            _ => None,
        });
        let verdict = match value {
            Some(true) => "yes",
            Some(false) => "no",
            None => return Err("the target does not decide a condition".into()),
        };
        output.extend([name, "\t", verdict, "\n"]);
    }
    Ok(io::stdout().write_all(output.as_bytes())?)
}

fn main() -> Result<(), Box<dyn Error>> {
    let target = get_builtin_target_by_triple("aarch64-apple-ios").ok_or("no such target")?;
    let input = || read_to_string(io::stdin());
    let words: Vec<String> = env::args().skip(1).collect();
    match words.iter().map(String::as_str).collect::<Vec<_>>()[..] {
        ["each"] => measure_each(&input()?, target),
        ["sweep"] => sweep(&input()?)?,
        ["pick"] => pick(&input()?, target)?,
        ["time"] => print_times(&input()?, target),
        ["memory", "value"] => print_memory("feature = \"", "a", 16 << 20, "\"")?,
        ["memory", "members"] => print_memory("any(", "a,", 8_000_000, ")")?,
        _ => return Err("usage: bench each|sweep|pick|time, or bench memory value|members".into()),
    }
    Ok(())
}
