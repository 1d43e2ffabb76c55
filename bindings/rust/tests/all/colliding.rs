//! What facts cost that somebody chose.

use cfgx::{Expression, Facts, audit};
use std::time::Instant;

/// A form of texts that all have one hash in a table whose hash is known, and another one of texts
/// of the same length. The number of a fact stands for `#`.
const COLLIDING: &str = "feature = \"kxdxw2p8tf2wmki2VgO?ZL4Q#tailtailtailtail\"";
const OTHERS: &str = "feature = \"#kxdxw2p8tf2wmki2VgO?ZL4Qtailtailtailtail\"";

/// Returns the time of an audit, in seconds, of which the last of these facts is asked.
fn seconds_of(form: &str, count: usize) -> f64 {
    let fact = |number: usize| form.replace('#', &format!("{number:08}"));
    let condition = Expression::parse(&fact(count - 1)).unwrap();
    let facts = Facts::new((0..count).map(fact));
    let start = Instant::now();
    let values = audit([&condition], [facts]).unwrap();
    let seconds = start.elapsed().as_secs_f64();
    assert_eq!(values.row(0), [Some(true)]);
    seconds
}

#[test]
fn chosen_facts_take_at_most_twice_the_time_of_others() {
    for count in [16_000, 80_000] {
        let (mut colliding, mut others) = (f64::INFINITY, f64::INFINITY);
        // The machine may have other work, so the least time of a few is taken.
        let is_fast = (0..20).any(|_| {
            colliding = seconds_of(COLLIDING, count).min(colliding);
            others = seconds_of(OTHERS, count).min(others);
            colliding <= 2.0 * others
        });
        println!("{count} facts: {colliding:.3} s, and {others:.3} s for others");
        assert!(
            is_fast,
            "{count} facts: {colliding} s, and {others} s for others"
        );
    }
}
