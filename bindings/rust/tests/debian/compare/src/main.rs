//! usage: `compare PARTS TARGETS`
//!
//! Compares the built-in targets and the named values of `cfg-expr` and of `cfgx`. Then it asks
//! each triple that the parts of triples make for each value of each key, over both. It ends with
//! status 1 if one of all these differs. PARTS has the parts, and TARGETS the values, as
//! `bindings/targets/cfg-expr/targets.tsv` has them. Beside these, each part is asked for, and
//! texts that are no value. For each built-in target whose triple is known, it prints the
//! predicates in which the row of the target differs from its triple, both over `cfg-expr`.

use cfg_expr::target_lexicon::{
    Architecture, CustomVendor, Environment, OperatingSystem, Triple, Vendor,
};
use std::collections::BTreeMap;
use std::error::Error;
use std::fmt::Debug;
use std::str::FromStr;
use std::{env, fs};

/// Texts that no part of a triple has.
const OTHERS: [&str; 6] = ["", "none", "unknown", "x", "p1", "p3"];

/// A predicate in both crates.
struct Question {
    text: String,
    /// Whether a built-in target has the value
    is_of_target: bool,
    there: cfg_expr::Expression,
    here: cfgx::Expression,
}

impl Question {
    /// Returns the predicate that asks for a value, if it is one.
    fn new(key: &str, value: &str, is_of_target: bool) -> Option<Self> {
        let text = format!("{key} = \"{value}\"");
        Some(Question {
            there: cfg_expr::Expression::parse(&text).ok()?,
            here: cfgx::Expression::parse(&text).ok()?,
            text,
            is_of_target,
        })
    }

    /// Returns whether it asks for a value of a built-in target, of which a triple may say
    /// something.
    fn is_said(&self) -> bool {
        let is_unsaid = |key: &&str| self.text.starts_with(*key);
        self.is_of_target && !UNSAID.iter().any(is_unsaid)
    }

    /// Returns the answer of a target over `cfg-expr`.
    fn answer_there(&self, target: &impl cfg_expr::expr::TargetMatcher) -> bool {
        self.there.eval(|predicate| match predicate {
            cfg_expr::Predicate::Target(asked) => asked.matches(target),
            _ => false,
        })
    }

    /// Returns the answer of a target over `cfgx`.
    fn answer_here(&self, target: &impl cfgx::expr::TargetMatcher) -> bool {
        self.here.eval(|predicate| match predicate {
            cfgx::Predicate::Target(asked) => asked.matches(target),
            _ => false,
        })
    }
}

/// The parts of triples.
#[derive(Default)]
struct Parts {
    architectures: Vec<Architecture>,
    vendors: Vec<Vendor>,
    systems: Vec<OperatingSystem>,
    environments: Vec<Environment>,
}

impl Parts {
    /// Reads the parts.
    fn read(text: &str) -> Result<Self, Box<dyn Error>> {
        let mut parts = Parts::default();
        for line in text.lines().filter(|line| !line.starts_with('#')) {
            let (part, name) = line.split_once('\t').ok_or("a line has no tab")?;
            let unread = || format!("{name} is no {part}");
            match part {
                "architecture" => parts
                    .architectures
                    .push(name.parse().map_err(|_| unread())?),
                "vendor" => parts.vendors.push(name.parse().map_err(|_| unread())?),
                "system" => parts.systems.push(name.parse().map_err(|_| unread())?),
                "environment" => parts.environments.push(name.parse().map_err(|_| unread())?),
                _ => return Err(unread().into()),
            }
        }
        let word = CustomVendor::Static("linux");
        parts.vendors.push(Vendor::Custom(word));
        Ok(parts)
    }

    /// Returns the triples that are asked: each architecture with each system, each system with
    /// each environment, and each vendor with each system, beside a few of the other parts.
    fn triples(&self) -> Result<Vec<Triple>, Box<dyn Error>> {
        let architectures = parsed(&["armv7", "avr", "wasm32", "wasm64", "x86_64"])?;
        let environments = parsed(&["gnu", "hermitkernel", "kernel", "unknown"])?;
        let unknown = [Vendor::Unknown];
        let mut triples = cross(&self.architectures, &unknown, &self.systems, &environments);
        triples.extend(cross(
            &architectures,
            &unknown,
            &self.systems,
            &self.environments,
        ));
        triples.extend(cross(
            &architectures[1..3],
            &self.vendors,
            &self.systems,
            &environments,
        ));
        Ok(triples)
    }
}

/// Returns the parts with these names.
fn parsed<T: FromStr>(names: &[&str]) -> Result<Vec<T>, Box<dyn Error>> {
    let parts = names.iter().map(|name| name.parse());
    let parts = parts.collect::<Result<_, _>>();
    Ok(parts.map_err(|_| "a part is not known")?)
}

/// Returns each triple of these parts.
fn cross(
    architectures: &[Architecture],
    vendors: &[Vendor],
    systems: &[OperatingSystem],
    environments: &[Environment],
) -> Vec<Triple> {
    let pairs = architectures.iter().flat_map(|architecture| {
        let vendors = vendors.iter();
        vendors.map(move |vendor| (architecture, vendor))
    });
    let triples = pairs.flat_map(|(architecture, vendor)| {
        let ends = systems.iter().flat_map(|system| {
            let environments = environments.iter();
            environments.map(move |environment| (system, environment))
        });
        ends.map(move |(system, environment)| Triple {
            architecture: *architecture,
            vendor: vendor.clone(),
            operating_system: *system,
            environment: *environment,
            ..Triple::unknown()
        })
    });
    triples.collect()
}

/// Returns the predicates: each value that a target has, and each name of a part, for each key.
fn questions_of(targets: &str, parts: &str) -> Vec<Question> {
    let mut rows = targets.lines().skip(1).map(|row| row.split('\t').collect());
    let heads: Vec<&str> = rows.next().unwrap_or_default();
    let rows: Vec<Vec<&str>> = rows.collect();
    let names = parts.lines().filter_map(|line| line.split_once('\t'));
    let names: Vec<&str> = names.map(|(_, name)| name).chain(OTHERS).collect();
    let mut asked = BTreeMap::new();
    for (column, key) in heads.iter().enumerate().skip(1) {
        asked.extend(names.iter().map(|name| ((*key, *name), false)));
        let values = rows.iter().flat_map(|row| row[column].split(' '));
        asked.extend(values.map(|value| ((*key, value), value != "-")));
    }
    let questions = asked
        .iter()
        .map(|((key, value), is)| Question::new(key, value, *is));
    let is_asked = |question: &Question| {
        let mut predicates = question.here.predicates();
        predicates.any(|one| matches!(one, cfgx::Predicate::Target(_)))
    };
    questions.flatten().filter(is_asked).collect()
}

/// Prints each difference between both crates. Returns how many answers were compared, and how many
/// differ.
fn compare(questions: &[Question], triples: &[Triple]) -> (usize, usize) {
    let (mut count, mut different) = (0, 0);
    for triple in triples {
        for question in questions {
            let (there, here) = (question.answer_there(triple), question.answer_here(triple));
            count += 1;
            if there != here {
                different += 1;
                if different < 20 {
                    println!("{}: {there} there, {here} here: {triple:?}", question.text);
                }
            }
        }
    }
    (count, different)
}

/// The keys of which a triple says nothing: each predicate on one of them is false of it.
const UNSAID: [&str; 3] = ["target_abi", "target_has_atomic", "panic"];

/// Prints in which predicates the row of each built-in target differs from its triple over
/// `cfg-expr`, but for those keys.
fn print_rows(questions: &[Question]) {
    for target in cfg_expr::targets::ALL_BUILTINS {
        let Ok(triple) = target.triple.as_str().parse::<Triple>() else {
            println!("row\t{}\tis not known", target.triple);
            continue;
        };
        for question in questions.iter().filter(|one| one.is_said()) {
            let answers = (
                question.answer_there(target),
                question.answer_there(&triple),
            );
            if answers.0 != answers.1 {
                let (by_row, by_triple) = answers;
                println!(
                    "row\t{}\t{}\t{by_row}\t{by_triple}",
                    target.triple, question.text
                );
            }
        }
    }
}

/// Makes a function that returns the name of each named value, and its text in both crates.
macro_rules! named_values {
    ($($field:ident::$name:ident $text:literal,)*) => {
        fn named_values() -> Vec<[String; 3]> {
            vec![$([
                String::from(concat!(stringify!($field), "::", stringify!($name))),
                cfg_expr::targets::$field::$name.0.to_string(),
                cfgx::targets::$field::$name.0.to_string(),
            ]),*]
        }
    };
}

include!("../../../surface/named_values.rs");

/// Makes a function that returns the name of each named list, and what it prints in both crates.
macro_rules! named_lists {
    ($($list:ident::$name:ident,)*) => {
        fn named_lists() -> Vec<[String; 3]> {
            vec![$([
                String::from(concat!(stringify!($list), "::", stringify!($name))),
                format!("{:?}", cfg_expr::targets::$list::$name),
                format!("{:?}", cfgx::targets::$list::$name),
            ]),*]
        }
    };
}

named_lists! {
    Families::unix,
    Families::unix_wasm,
    Families::wasm,
    Families::windows,
    HasAtomics::atomic_8_16_32_64_128_ptr,
    HasAtomics::atomic_8_16_32_64_ptr,
    HasAtomics::atomic_8_16_32_ptr,
}

/// Returns what `Debug` shows of each item, which is each field of a target.
fn shown<T: Debug>(items: impl IntoIterator<Item = T>) -> Vec<String> {
    items.into_iter().map(|item| format!("{item:?}")).collect()
}

/// Returns an error unless the built-in targets, how they are found, the version and the named
/// values are the same in both crates.
fn compare_builtins() -> Result<(), Box<dyn Error>> {
    use {cfg_expr::targets as there, cfgx::targets as here};
    let rows = [shown(there::ALL_BUILTINS), shown(here::ALL_BUILTINS)];
    if let Some((one, other)) = rows[0]
        .iter()
        .zip(&rows[1])
        .find(|(one, other)| one != other)
    {
        return Err(format!("a row differs: {one} there, {other} here").into());
    }
    let triples = there::ALL_BUILTINS
        .iter()
        .map(|target| target.triple.as_str());
    let triples: Vec<&str> = triples.chain(OTHERS).collect();
    let found = [
        shown(
            triples
                .iter()
                .map(|one| there::get_builtin_target_by_triple(one)),
        ),
        shown(
            triples
                .iter()
                .map(|one| here::get_builtin_target_by_triple(one)),
        ),
    ];
    let versions = [there::rustc_version(), here::rustc_version()];
    if rows[0].len() != rows[1].len() || found[0] != found[1] || versions[0] != versions[1] {
        return Err("the number of rows, a lookup or the version differs".into());
    }
    let named = [named_values(), named_lists()].concat();
    if let Some([name, one, other]) = named.iter().find(|[_, one, other]| one != other) {
        return Err(format!("{name} is {one} there, {other} here").into());
    }
    let (rows, named) = (rows[1].len(), named.len());
    println!(
        "{rows} built-in targets of rustc {} and {named} named values",
        versions[1]
    );
    Ok(())
}

fn main() -> Result<(), Box<dyn Error>> {
    let files: Vec<String> = env::args()
        .skip(1)
        .map(fs::read_to_string)
        .collect::<Result<_, _>>()?;
    let [parts_text, targets] = &files[..] else {
        return Err("usage: compare PARTS TARGETS".into());
    };
    compare_builtins()?;
    let parts = Parts::read(parts_text)?;
    let questions = questions_of(targets, parts_text);
    let (count, different) = compare(&questions, &parts.triples()?);
    print_rows(&questions);
    println!("{count} answers of {} predicates", questions.len());
    match different {
        0 => Ok(()),
        different => Err(format!("{different} answers differ").into()),
    }
}
