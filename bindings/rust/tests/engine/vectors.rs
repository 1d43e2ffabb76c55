//! Vectors of the engine: what the library of Rattle promises of each function.

use crate::engine::rattle::alloc::{AllocError, AllocFailed, Global};
use crate::engine::rattle::prelude::{ListExt, Vec, vec};
use crate::memory::{growths_of, refusing};
use std::fmt;
use std::panic::catch_unwind;
use std::rc::Rc;

/// Returns a vector of these numbers, without room for more.
fn full(items: &[u64]) -> Vec<u64> {
    Vec::from_slice(Global, items).unwrap()
}

/// Whether a vector has these numbers and room for so many.
fn is(vec: Vec<u64>, items: &[u64], capacity: usize) -> bool {
    let vec = vec.into_std();
    vec == items && vec.capacity() == capacity
}

#[test]
fn new_takes_no_memory() {
    let (growths, vec) = growths_of(|| Vec::new(Global));
    assert_eq!(growths, 0);
    assert!(is(vec, &[], 0));
}

#[test]
fn with_capacity_makes_room_at_once() {
    let (growths, vec) = growths_of(|| Vec::with_capacity(Global, 3));
    assert_eq!(growths, 1);
    assert!(is(vec.unwrap(), &[], 3));
    let (growths, vec) = growths_of(|| Vec::with_capacity(Global, 0));
    assert_eq!(growths, 0);
    assert!(is(vec.unwrap(), &[], 0));
}

#[test]
fn with_capacity_is_refused() {
    let refused = refusing(0, || Vec::<u64>::with_capacity(Global, 3));
    assert_eq!(refused.unwrap_err(), AllocError);
    for capacity in [usize::MAX, isize::MAX as usize / 8 + 1] {
        let refused = Vec::<u64>::with_capacity(Global, capacity);
        assert_eq!(refused.unwrap_err(), AllocError);
    }
}

#[test]
fn reserve_makes_room() {
    let mut vec = full(&[1, 2]);
    assert_eq!(growths_of(|| vec.reserve(0)), (0, Ok(())));
    assert_eq!(growths_of(|| vec.reserve(5)), (1, Ok(())));
    // There is room, so no more of it is taken.
    assert_eq!(growths_of(|| vec.reserve(5)), (0, Ok(())));
    assert_eq!(vec.as_slice(), [1, 2]);
    assert!(vec.into_std().capacity() >= 7);
}

#[test]
fn reserve_is_refused() {
    let mut vec = full(&[1, 2]);
    assert_eq!(refusing(0, || vec.reserve(1)), Err(AllocError));
    assert_eq!(vec.reserve(usize::MAX), Err(AllocError));
    assert_eq!(vec.reserve(isize::MAX as usize / 8), Err(AllocError));
    assert!(is(vec, &[1, 2], 2));
}

#[test]
fn push_appends() {
    let mut vec = Vec::new(Global);
    let (growths, ()) = growths_of(|| (0..1000).for_each(|item| vec.push(item).unwrap()));
    assert!(growths < 12, "the room is doubled each time");
    assert_eq!(
        vec.as_slice(),
        Vec::as_slice(&full(&(0..1000).collect::<std::vec::Vec<_>>()))
    );
}

#[test]
fn push_is_refused() {
    let mut vec = full(&[1, 2]);
    let refused = refusing(0, || vec.push(3)).unwrap_err();
    assert_eq!(refused.value, 3);
    assert!(is(vec, &[1, 2], 2));
}

#[test]
fn push_takes_no_memory_if_there_is_room() {
    let mut vec = Vec::with_capacity(Global, 2).unwrap();
    assert_eq!(
        growths_of(|| vec.push(1).is_ok() && vec.push(2).is_ok()),
        (0, true)
    );
    assert!(is(vec, &[1, 2], 2));
}

#[test]
fn push_reserved_appends() {
    let mut vec = Vec::with_capacity(Global, 2).unwrap();
    let (growths, ()) = growths_of(|| (1..3).for_each(|item| vec.push_reserved(item)));
    assert_eq!(growths, 0);
    assert!(is(vec, &[1, 2], 2));
}

#[test]
fn push_reserved_needs_room() {
    let beyond = catch_unwind(|| full(&[1, 2]).push_reserved(3));
    assert!(beyond.is_err());
}

#[test]
fn clear_drops_the_items_and_keeps_the_room() {
    let shared = Rc::new(());
    let mut vec = Vec::with_capacity(Global, 3).unwrap();
    (0..3).for_each(|_| vec.push_reserved(shared.clone()));
    vec.clear();
    assert!(vec.is_empty());
    assert_eq!(Rc::strong_count(&shared), 1);
    assert_eq!(vec.into_std().capacity(), 3);
}

#[test]
fn slices_have_the_items() {
    let mut vec = full(&[3, 1, 2]);
    assert_eq!(
        (vec.as_slice(), vec.len(), vec[1]),
        ([3, 1, 2].as_slice(), 3, 1)
    );
    vec.as_mut_slice()[0] = 4;
    vec[1] = 5;
    assert_eq!(vec.as_slice(), [4, 5, 2]);
    vec.sort_unstable();
    assert_eq!(vec.as_slice(), [2, 4, 5]);
    vec.sort_unstable_by(|one, other| other.cmp(one));
    assert_eq!(vec.as_slice(), [5, 4, 2]);
    assert_eq!(vec.binary_search_by(|item| 4.cmp(item)), Ok(1));
}

#[test]
fn from_slice_copies() {
    let (growths, vec) = growths_of(|| Vec::from_slice(Global, &[1, 2, 3]));
    assert_eq!(growths, 1);
    assert!(is(vec.unwrap(), &[1, 2, 3], 3));
    assert_eq!(
        growths_of(|| Vec::<u64>::from_slice(Global, &[]).unwrap().len()),
        (0, 0)
    );
    let refused = refusing(0, || Vec::<u64>::from_slice(Global, &[1]));
    assert_eq!(refused.unwrap_err(), AllocError);
}

#[test]
fn extend_from_slice_appends() {
    let mut vec = full(&[1, 2]);
    assert_eq!(growths_of(|| vec.extend_from_slice(&[])), (0, Ok(())));
    assert_eq!(
        growths_of(|| vec.extend_from_slice(&[3, 4, 5])),
        (1, Ok(()))
    );
    assert_eq!(vec.as_slice(), [1, 2, 3, 4, 5]);
}

#[test]
fn extend_from_slice_is_refused() {
    let mut vec = full(&[1, 2]);
    assert_eq!(refusing(0, || vec.extend_from_slice(&[3])), Err(AllocError));
    assert!(is(vec, &[1, 2], 2));
}

#[test]
fn vec_repeats_an_item() {
    let (growths, vec) = growths_of(|| vec![in Global; 7; 3]);
    assert_eq!(growths, 1);
    assert!(is(vec.unwrap(), &[7, 7, 7], 3));
    assert_eq!(
        growths_of(|| vec![in Global; 7_u64; 0].unwrap().len()),
        (0, 0)
    );
    assert_eq!(
        refusing(0, || vec![in Global; 7_u64; 3]).unwrap_err(),
        AllocError
    );
}

#[test]
fn into_std_copies_nothing() {
    let vec = full(&[1, 2]);
    let place = vec.as_slice().as_ptr();
    let (growths, std) = growths_of(|| vec.into_std());
    assert_eq!((growths, std.as_ptr()), (0, place));
}

#[test]
fn a_vector_is_as_large_as_that_of_rust() {
    let size = size_of::<std::vec::Vec<u64>>();
    assert_eq!(size_of::<Vec<u64>>(), size);
    assert_eq!(size_of::<Vec<u64, &Global>>(), size);
}

#[test]
fn a_vector_prints_its_items() {
    assert_eq!(format!("{:?}", full(&[1, 2])), "[1, 2]");
    assert_eq!(format!("{:#?}", full(&[])), "[]");
    assert_eq!(format!("{:02x?}", full(&[1, 26])), "[01, 1a]");
}

#[test]
fn an_error_has_the_value_that_came_back() {
    let refused = AllocFailed { value: full(&[1]) };
    assert_eq!(format!("{refused:?}"), "AllocFailed { .. }");
    assert_eq!(AllocError::from(refused), AllocError);
    assert_eq!(format!("{AllocError:?}"), "AllocError");
}

/// Prints its items by `ListExt::slice`.
struct Listed(&'static [u8]);

impl fmt::Debug for Listed {
    fn fmt(&self, f: &mut fmt::Formatter<'_>) -> fmt::Result {
        f.debug_list().slice(self.0).slice(self.0).finish()
    }
}

#[test]
fn lists_print_slices() {
    assert_eq!(format!("{:?}", Listed(&[1, 2])), "[1, 2, 1, 2]");
    assert_eq!(format!("{:#?}", Listed(&[1])), "[\n    1,\n    1,\n]");
}
