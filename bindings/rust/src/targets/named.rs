//! The macros in which `builtins.rs` is written, and how a named value is found.

use crate::expr::Named;

/// The number of slots of a table, and what stands in one that has no text.
const SLOTS: usize = 256;
const NONE: u8 = u8::MAX;

/// The places of some texts, in a table in which each has a slot of its own. A search that compares
/// bytes one by one would take a branch at each, which a processor cannot foresee.
pub(super) struct Places {
    factor: u64,
    ends: [u64; SLOTS],
    places: [u8; SLOTS],
}

impl Places {
    /// Returns the places of these texts, of which there are fewer than 255. The build fails if two
    /// of them have the same [ends](ends_of).
    pub(super) const fn of(texts: &[&str]) -> Self {
        let mut tried = 0;
        while tried < 10_000 {
            if let Some(found) = Places::by(0x9e37_79b9_7f4a_7c15 + 2 * tried, texts) {
                return found;
            }
            tried += 1;
        }
        panic!("no factor gives each text a slot of its own")
    }

    /// Returns the table of this factor, if no two texts have the same slot there.
    const fn by(factor: u64, texts: &[&str]) -> Option<Self> {
        let (mut ends, mut places) = ([0; SLOTS], [NONE; SLOTS]);
        let mut place = 0;
        while place < texts.len() {
            let own = ends_of(texts[place].as_bytes());
            let slot = slot_of(factor, own);
            if places[slot] != NONE {
                return None;
            }
            (ends[slot], places[slot]) = (own, place as u8);
            place += 1;
        }
        Some(Places {
            factor,
            ends,
            places,
        })
    }

    /// Returns which of these named values, whose texts the table has, has this text.
    #[inline]
    pub(super) fn find(&self, named: &'static [Named], text: &[u8]) -> Option<&'static Named> {
        let ends = ends_of(text);
        let slot = slot_of(self.factor, ends);
        if self.ends[slot] != ends {
            return None;
        }
        let found = named.get(usize::from(self.places[slot]))?;
        // The ends are all of a text of at most eight bytes.
        let is_same =
            found.text.len() == text.len() && (text.len() <= 8 || found.text.as_bytes() == text);
        is_same.then_some(found)
    }
}

/// Returns the first four bytes of a text, and the last four, or all bytes of a shorter one.
#[inline]
const fn ends_of(text: &[u8]) -> u64 {
    match (text.first_chunk(), text.last_chunk()) {
        (Some(first), Some(last)) => {
            u32::from_le_bytes(*first) as u64 | (u32::from_le_bytes(*last) as u64) << 32
        }
        _ => match *text {
            [one, two, three] => one as u64 | (two as u64) << 8 | (three as u64) << 16,
            [one, two] => one as u64 | (two as u64) << 8,
            [one] => one as u64,
            _ => 0,
        },
    }
}

/// Returns the slot of a text with these ends.
#[inline]
const fn slot_of(factor: u64, ends: u64) -> usize {
    (ends.wrapping_mul(factor) >> 56) as usize
}

/// Declares the named values of a field type.
macro_rules! named_values {
    ($field:ident: $($name:ident $text:literal),* $(,)?) => {
        #[allow(non_upper_case_globals)]
        impl $field {
            $(
                #[doc = concat!("`", $text, "`")]
                pub const $name: $field = $field::new_const($text);
            )*

            /// Returns what is known of the named value with these bytes.
            pub(crate) fn named(text: &[u8]) -> Option<&'static $crate::expr::Named> {
                use $crate::expr::{Named, Predicate, TargetPredicate};
                use $crate::targets::named::Places;
                static PLACES: Places = Places::of(&[$($text),*]);
                static NAMED: &[Named] = &[$(Named {
                    predicate: Predicate::Target(TargetPredicate::$field($field::$name)),
                    text: $text,
                }),*];
                PLACES.find(NAMED, text)
            }
        }
    };
}

/// Declares the named lists of a list type: each name with the items, which are in order.
macro_rules! named_lists {
    ($list:ident: $($name:ident: $first:tt $(, $other:tt)*;)*) => {
        /// The lists that targets have.
        #[allow(non_upper_case_globals)]
        impl $list {
            $(
                #[doc = concat!("`", stringify!($first), "`" $(, ", `", stringify!($other), "`")*)]
                pub const $name: $list = $list::new_const(
                    const { &[item!($list $first) $(, item!($list $other))*] }
                );
            )*
        }
    };
}

/// Makes an item of a list.
macro_rules! item {
    (Families $name:ident) => {
        Family::$name
    };
    (HasAtomics ptr) => {
        HasAtomic::Pointer
    };
    (HasAtomics $bits:literal) => {
        HasAtomic::IntegerSize($bits)
    };
}

/// Declares a list of targets, in the order of their triples, and one of what the compiler prints
/// beside their fields. `-` stands for a field or a list without a value. Behind the fields stand
/// whether `debug_assertions` is printed, and the target features.
macro_rules! built_in {
    ($targets:ident, $facts:ident: $(
        $triple:literal $os:tt $abi:tt $arch:ident $env:tt $vendor:tt $families:tt
        $pointer_width:literal $endian:ident $has_atomics:tt $panic:ident
        $has_assertions:literal $features:literal;
    )*) => {
        /// The targets.
        pub(super) const $targets: &[TargetInfo] = &[$(TargetInfo {
            triple: Triple::new_const($triple),
            os: optional!(Os $os),
            abi: optional!(Abi $abi),
            arch: Arch::$arch,
            env: optional!(Env $env),
            vendor: optional!(Vendor $vendor),
            families: list!(Families $families),
            pointer_width: $pointer_width,
            endian: Endian::$endian,
            has_atomics: list!(HasAtomics $has_atomics),
            panic: Panic::$panic,
        }),*];

        /// Whether the compiler prints `debug_assertions` for each target, and the target features.
        pub(super) const $facts: &[(bool, &str)] = &[$(($has_assertions, $features)),*];
    };
}

/// Makes a field that a target may lack.
macro_rules! optional {
    ($field:ident -) => {
        None
    };
    ($field:ident $name:ident) => {
        Some($field::$name)
    };
}

/// Makes a list.
macro_rules! list {
    ($list:ident -) => {
        $list::new_const(&[])
    };
    ($list:ident $name:ident) => {
        $list::$name
    };
}

#[cfg(test)]
mod tests {
    use super::{NONE, Places};
    use crate::targets::Os;

    #[test]
    fn each_text_has_a_place_of_its_own() {
        let texts = [
            "", "a", "ab", "abc", "abcd", "abcde", "abcabcd", "linux", "windows",
        ];
        let places = Places::of(&texts).places.into_iter();
        let mut found: Vec<u8> = places.filter(|one| *one != NONE).collect();
        found.sort_unstable();
        assert_eq!(found, (0..9).collect::<Vec<u8>>());
    }

    #[test]
    #[should_panic(expected = "a slot of its own")]
    fn texts_with_the_same_ends_have_none() {
        Places::of(&["abcdabcd", "abcd-abcd"]);
    }

    #[test]
    fn no_text_with_the_ends_of_another_is_named() {
        assert_eq!(Os::named(b"linux").unwrap().text, "linux");
        for text in [
            "",
            "\0",
            "linu",
            "linuxx",
            "linuinux",
            "windows7dows",
            "solid_aspX_asp3",
        ] {
            assert!(Os::named(text.as_bytes()).is_none(), "{text}");
        }
    }
}
