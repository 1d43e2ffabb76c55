//! Texts, and what is borrowed or owned: what the library of Rattle promises of each function.

use crate::engine::rattle::alloc::{AllocError, Allocator, Global};
use crate::engine::rattle::borrow::{CowSlice, CowStr};
use crate::engine::rattle::prelude::{FormatterExt, String, Vec};
use crate::memory::{growths_of, refusing};
use std::fmt;

/// Returns a copy of a text.
fn copy(text: &str) -> String {
    String::from_str(Global, text).unwrap()
}

#[test]
fn from_str_copies() {
    for text in ["", "a", "é\u{10348}\0", "a text of more than a few bytes"] {
        let (growths, copy) = growths_of(|| String::from_str(Global, text));
        assert_eq!(growths, usize::from(!text.is_empty()));
        assert_eq!(copy.unwrap().as_str(), text);
    }
    assert_eq!(
        refusing(0, || String::from_str(Global, "a")).unwrap_err(),
        AllocError
    );
}

#[test]
fn texts_are_equal_by_their_bytes() {
    assert_eq!(copy("a"), copy("a"));
    assert_ne!(copy("a"), copy("b"));
    assert_ne!(copy("a"), copy("a "));
}

#[test]
fn a_text_prints_as_that_of_rust() {
    assert_eq!(format!("{:?}", copy("a \"b\"\n")), r#""a \"b\"\n""#);
    assert_eq!(format!("{:5?}|", copy("a")), format!("{:5?}|", "a"));
}

#[test]
fn into_std_copies_nothing() {
    let text = copy("text");
    let place = text.as_str().as_ptr();
    let (growths, std) = growths_of(|| text.into_std());
    assert_eq!((growths, std.as_ptr(), std.as_str()), (0, place, "text"));
}

#[test]
fn a_text_is_as_large_as_that_of_rust() {
    assert_eq!(size_of::<String>(), size_of::<std::string::String>());
    assert_eq!(
        size_of::<CowStr<'_>>(),
        size_of::<std::borrow::Cow<'_, str>>()
    );
}

#[test]
fn what_is_borrowed_or_owned_has_its_items() {
    const BORROWED: CowStr<'_> = CowStr::Borrowed("text");
    assert_eq!(BORROWED.as_str(), "text");
    assert_eq!(CowStr::Owned(copy("text")).as_str(), "text");
    let borrowed = CowSlice::<_>::Borrowed(&[1, 2]);
    let owned = CowSlice::Owned(Vec::from_slice(Global, &[1, 2]).unwrap());
    assert_eq!(
        (borrowed.as_slice(), owned.as_slice()),
        ([1, 2].as_slice(), [1, 2].as_slice())
    );
    assert_eq!(
        (format!("{borrowed:?}"), format!("{owned:?}")),
        ("[1, 2]".into(), "[1, 2]".into())
    );
}

/// Writes a value by `FormatterExt::write`.
struct Written<D>(D);

impl<D: fmt::Display> fmt::Display for Written<D> {
    fn fmt(&self, f: &mut fmt::Formatter<'_>) -> fmt::Result {
        f.write(&self.0)?;
        f.write('|')
    }
}

#[test]
fn a_formatter_writes_a_value_in_no_form() {
    assert_eq!(format!("{}", Written(7)), "7|");
    assert_eq!(format!("{:>5}", Written("a")), "a|");
    assert_eq!(format!("{:+05.1}", Written(7.25)), "7.25|");
}

/// Takes each handle that the engine is passed.
fn takes<A: Allocator + Copy>(_alloc: A) -> usize {
    size_of::<A>()
}

#[test]
fn the_allocator_takes_no_bytes() {
    assert_eq!(takes(Global), 0);
    let handle = &Global;
    assert_eq!(takes(handle), size_of::<usize>());
    assert_eq!(format!("{Global:?}"), "Global");
}
