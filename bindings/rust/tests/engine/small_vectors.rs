//! Vectors with room inside: what the library of Rattle promises of each function.

use crate::engine::rattle::alloc::{AllocError, Global};
use crate::engine::rattle::smallvec::SmallVec;
use crate::memory::{growths_of, refusing};
use std::panic::catch_unwind;
use std::rc::Rc;

/// A vector with room for two numbers inside.
type Two = SmallVec<u64, 2>;

/// Returns a vector of these numbers.
fn of(items: &[u64]) -> Two {
    SmallVec::from_slice(Global, items).unwrap()
}

/// Whether a vector has these numbers and room for so many.
fn is(vec: &Two, items: &[u64], capacity: usize) -> bool {
    vec.as_slice() == items && vec.capacity() == capacity && vec.spilled() == (capacity > 2)
}

#[test]
fn new_takes_no_memory() {
    let (growths, vec) = growths_of(|| Two::new(Global));
    assert_eq!(growths, 0);
    assert!(is(&vec, &[], 2));
}

#[test]
fn reserve_grows_to_a_power_of_two() {
    let mut vec = of(&[1]);
    assert_eq!(growths_of(|| vec.reserve(1)), (0, Ok(())));
    assert!(is(&vec, &[1], 2));
    assert_eq!(growths_of(|| vec.reserve(4)), (1, Ok(())));
    assert!(is(&vec, &[1], 8));
    assert_eq!(growths_of(|| vec.reserve(7)), (0, Ok(())));
    assert_eq!(growths_of(|| vec.reserve(8)), (1, Ok(())));
    assert!(is(&vec, &[1], 16));
}

#[test]
fn reserve_exact_grows_as_far_as_asked() {
    let mut vec = of(&[1]);
    assert_eq!(growths_of(|| vec.reserve_exact(1)), (0, Ok(())));
    assert!(is(&vec, &[1], 2));
    assert_eq!(growths_of(|| vec.reserve_exact(4)), (1, Ok(())));
    assert!(is(&vec, &[1], 5));
    assert_eq!(growths_of(|| vec.reserve_exact(3)), (0, Ok(())));
    assert_eq!(growths_of(|| vec.reserve_exact(6)), (1, Ok(())));
    assert!(is(&vec, &[1], 7));
}

#[test]
fn a_refused_growth_changes_nothing() {
    for items in [[1].as_slice(), &[1, 2], &[1, 2, 3]] {
        let mut vec = of(items);
        let capacity = vec.capacity();
        assert_eq!(refusing(0, || vec.reserve(3)), Err(AllocError));
        assert_eq!(refusing(0, || vec.reserve_exact(3)), Err(AllocError));
        assert_eq!(
            refusing(0, || vec.extend_from_slice(&[7, 8, 9])),
            Err(AllocError)
        );
        for additional in [usize::MAX, isize::MAX as usize, isize::MAX as usize / 8] {
            assert_eq!(vec.reserve(additional), Err(AllocError));
            assert_eq!(vec.reserve_exact(additional), Err(AllocError));
        }
        assert!(is(&vec, items, capacity));
    }
}

#[test]
fn push_appends() {
    let mut vec = Two::new(Global);
    let (growths, ()) = growths_of(|| (0..2).for_each(|item| vec.push(item).unwrap()));
    assert_eq!(growths, 0);
    assert!(is(&vec, &[0, 1], 2));
    let (growths, ()) = growths_of(|| (2..64).for_each(|item| vec.push(item).unwrap()));
    assert_eq!(growths, 5);
    assert!(is(&vec, &(0..64).collect::<Vec<_>>(), 64));
}

#[test]
fn push_is_refused() {
    for items in [[1, 2].as_slice(), &[1, 2, 3]] {
        let mut vec = of(items);
        let refused = refusing(0, || vec.push(9)).unwrap_err();
        assert_eq!(refused.value, 9);
        assert!(is(&vec, items, items.len()));
    }
}

#[test]
fn push_reserved_appends() {
    let mut vec = Two::new(Global);
    vec.push_reserved(1);
    vec.push_reserved(2);
    assert!(is(&vec, &[1, 2], 2));
    vec.reserve_exact(1).unwrap();
    assert_eq!(growths_of(|| vec.push_reserved(3)), (0, ()));
    assert!(is(&vec, &[1, 2, 3], 3));
}

#[test]
fn push_reserved_needs_room() {
    assert!(catch_unwind(|| of(&[1, 2]).push_reserved(3)).is_err());
    assert!(catch_unwind(|| of(&[1, 2, 3]).push_reserved(4)).is_err());
}

#[test]
fn pop_takes_the_last_item() {
    let mut vec = of(&[1, 2, 3]);
    assert_eq!(
        (vec.pop(), vec.pop(), vec.pop()),
        (Some(3), Some(2), Some(1))
    );
    assert_eq!(vec.pop(), None);
    assert!(is(&vec, &[], 3));
}

#[test]
fn truncate_drops_the_items_behind() {
    let shared = Rc::new(());
    let mut vec = SmallVec::<_, 2>::new(Global);
    (0..3).for_each(|_| vec.push(shared.clone()).unwrap());
    vec.truncate(4);
    assert_eq!(Rc::strong_count(&shared), 4);
    vec.truncate(1);
    assert_eq!((vec.len(), vec.capacity()), (1, 4));
    assert_eq!(Rc::strong_count(&shared), 2);
    vec.clear();
    assert_eq!((vec.len(), vec.capacity()), (0, 4));
    assert_eq!(Rc::strong_count(&shared), 1);
    vec.push(shared.clone()).unwrap();
    drop(vec);
    assert_eq!(Rc::strong_count(&shared), 1);
}

#[test]
fn slices_have_the_items() {
    for items in [[4, 5].as_slice(), &[4, 5, 6]] {
        let mut vec = of(items);
        assert_eq!(
            (vec.as_slice(), vec.len(), vec.last()),
            (items, items.len(), items.last())
        );
        vec.as_mut_slice()[0] = 7;
        vec[1] = 8;
        assert_eq!(vec[..2], [7, 8]);
    }
}

#[test]
fn from_slice_copies() {
    for items in [[].as_slice(), &[1], &[1, 2]] {
        let (growths, vec) = growths_of(|| Two::from_slice(Global, items));
        assert_eq!(growths, 0);
        assert!(is(&vec.unwrap(), items, 2));
    }
    let (growths, vec) = growths_of(|| Two::from_slice(Global, &[1, 2, 3]));
    assert_eq!(growths, 1);
    assert!(is(&vec.unwrap(), &[1, 2, 3], 3));
    let refused = refusing(0, || Two::from_slice(Global, &[1, 2, 3]).map(|_| ()));
    assert_eq!(refused, Err(AllocError));
}

#[test]
fn from_elem_repeats_an_item() {
    for count in 0..3 {
        let (growths, vec) = growths_of(|| Two::from_elem(Global, 7, count));
        assert_eq!(growths, 0);
        assert!(is(&vec.unwrap(), &[7, 7][..count], 2));
    }
    let (growths, vec) = growths_of(|| Two::from_elem(Global, 7, 3));
    assert_eq!(growths, 1);
    assert!(is(&vec.unwrap(), &[7, 7, 7], 3));
    let refused = refusing(0, || Two::from_elem(Global, 7, 3).map(|_| ()));
    assert_eq!(refused, Err(AllocError));
    assert!(Two::from_elem(Global, 7, usize::MAX).is_err());
}

#[test]
fn extend_from_slice_appends() {
    let mut vec = of(&[1]);
    assert_eq!(growths_of(|| vec.extend_from_slice(&[2])), (0, Ok(())));
    assert!(is(&vec, &[1, 2], 2));
    assert_eq!(
        growths_of(|| vec.extend_from_slice(&[3, 4, 5])),
        (1, Ok(()))
    );
    assert!(is(&vec, &[1, 2, 3, 4, 5], 8));
    assert_eq!(growths_of(|| vec.extend_from_slice(&[])), (0, Ok(())));
}

#[test]
fn a_vector_is_as_large_as_that_of_smallvec() {
    assert_eq!(size_of::<Two>(), size_of::<smallvec::SmallVec<[u64; 2]>>());
    assert_eq!(size_of::<SmallVec<u64, 2, &Global>>(), size_of::<Two>());
}
