//! usage: `cfg-expr-rows targets` or `cfg-expr-rows named`
//!
//! Prints the built-in targets of `cfg-expr`, in its order, or its named values. `update` beside
//! this package writes `names.rs`, which has the name of each of these, and keeps what is printed.

use cfg_expr::targets::{
    ALL_BUILTINS, Abi, Arch, Endian, Env, Families, Family, HasAtomics, Os, Panic, TargetInfo,
    Vendor, rustc_version,
};
use std::env;
use std::error::Error;

/// The keys of the fields of a target.
const HEADS: [&str; 11] = [
    "triple",
    "target_os",
    "target_abi",
    "target_arch",
    "target_env",
    "target_vendor",
    "target_family",
    "target_pointer_width",
    "target_endian",
    "target_has_atomic",
    "panic",
];

/// What stands for a field or a list without a value.
const ABSENT: &str = "-";

/// A value that has a name.
trait Named {
    /// Returns its text, or its items with a space between two.
    fn text(&self) -> String;
}

/// Implements the trait for field types.
macro_rules! fields {
    ($($field:ident),*) => {
        $(
            impl Named for $field {
                fn text(&self) -> String {
                    self.to_string()
                }
            }
        )*
    };
}

fields!(Abi, Arch, Env, Family, Os, Panic, Vendor);

/// Implements the trait for list types.
macro_rules! lists {
    ($($list:ident),*) => {
        $(
            impl Named for $list {
                fn text(&self) -> String {
                    let items: Vec<String> = self.iter().map(|item| item.to_string()).collect();
                    items.join(" ")
                }
            }
        )*
    };
}

lists!(Families, HasAtomics);

/// Makes a function that returns the type, the name and the text of each named value.
macro_rules! named_values {
    ($($field:ident::$name:ident,)*) => {
        fn named_values() -> Vec<[String; 3]> {
            let names = [$((stringify!($field), stringify!($name), $field::$name.text())),*];
            let names = names.into_iter();
            names.map(|(field, name, text)| [field.into(), name.into(), text]).collect()
        }
    };
}

include!("names.rs");

/// Returns the cell of a text, or an error if another one could be read from it.
fn cell(text: String) -> Result<String, Box<dyn Error>> {
    let is_word = |word: &str| !matches!(word, "" | ABSENT) && !word.contains(char::is_whitespace);
    if text.split(' ').all(is_word) {
        return Ok(text);
    }
    Err(format!("a table cannot have this text: {text:?}").into())
}

/// Returns the cell of a field that a target may lack.
fn optional(field: Option<&impl Named>) -> Result<String, Box<dyn Error>> {
    field.map_or_else(|| Ok(ABSENT.to_string()), |field| cell(field.text()))
}

/// Returns the cell of a list.
fn list(list: &impl Named) -> Result<String, Box<dyn Error>> {
    optional(Some(list).filter(|list| !list.text().is_empty()))
}

/// Returns the cells of a target. It names each field, so it is not compiled if there are more.
fn cells_of(target: &TargetInfo) -> Result<[String; 11], Box<dyn Error>> {
    let TargetInfo {
        triple,
        os,
        abi,
        arch,
        env,
        vendor,
        families,
        pointer_width,
        endian,
        has_atomics,
        panic,
    } = target;
    let endian = match endian {
        Endian::big => "big",
        Endian::little => "little",
    };
    Ok([
        cell(triple.to_string())?,
        optional(os.as_ref())?,
        optional(abi.as_ref())?,
        cell(arch.text())?,
        optional(env.as_ref())?,
        optional(vendor.as_ref())?,
        list(families)?,
        pointer_width.to_string(),
        endian.to_string(),
        list(has_atomics)?,
        cell(panic.text())?,
    ])
}

fn main() -> Result<(), Box<dyn Error>> {
    let words: Vec<String> = env::args().skip(1).collect();
    match words.iter().map(String::as_str).collect::<Vec<_>>()[..] {
        ["targets"] => {
            println!(
                "# Targets of cfg-expr 0.20.10, which are those of rustc {}. \
                 Made by bindings/targets/cfg-expr/update.",
                rustc_version()
            );
            println!("{}", HEADS.join("\t"));
            for target in ALL_BUILTINS {
                println!("{}", cells_of(target)?.join("\t"));
            }
        }
        ["named"] => {
            println!(
                "# Named values of cfg-expr 0.20.10. Made by bindings/targets/cfg-expr/update."
            );
            println!("type\tname\tvalue");
            for [field, name, text] in named_values() {
                println!("{field}\t{name}\t{}", cell(text)?);
            }
        }
        _ => return Err("usage: cfg-expr-rows targets|named".into()),
    }
    Ok(())
}
