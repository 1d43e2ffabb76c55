//! Sorted lists of families and of widths.

use super::{Family, HasAtomic};
use std::borrow::Cow;
use std::fmt;
use std::ops::Deref;

/// Declares a list type. `$some` and `$other` are two of its items, and `$printed` is what their
/// list prints.
macro_rules! list {
    (
        $(#[$doc:meta])*
        $name:ident of $item:ident, $some:literal, $other:literal, $printed:literal
    ) => {
        $(#[$doc])*
        ///
        /// It prints its items between braces.
        ///
        /// ```
        #[doc = concat!("use cfgx::targets::{", stringify!($name), ", ", stringify!($item), "};")]
        ///
        #[doc = concat!("let list = ", stringify!($name), "::new([", $some, ", ", $other, "]);")]
        #[doc = concat!("assert_eq!(list.to_string(), \"", $printed, "\");")]
        /// assert_eq!(list.len(), 2);
        /// ```
        #[derive(Clone, Debug, PartialEq, Eq, PartialOrd, Ord, Hash)]
        pub struct $name(Cow<'static, [$item]>);

        impl $name {
            /// Returns the list of `items`, which it sorts.
            ///
            /// ```
            #[doc = concat!(
                "use cfgx::targets::{", stringify!($name), ", ", stringify!($item), "};"
            )]
            ///
            #[doc = concat!(
                "let list = ", stringify!($name), "::new([", $other, ", ", $some, "]);"
            )]
            #[doc = concat!("assert_eq!(list[0], ", $some, ");")]
            /// ```
            #[must_use]
            pub fn new(items: impl IntoIterator<Item = $item>) -> Self {
                let mut items: Vec<$item> = items.into_iter().collect();
                items.sort_unstable();
                $name(Cow::Owned(items))
            }

            /// Returns the list that borrows `items`, which have to be in order.
            ///
            /// ```
            #[doc = concat!(
                "use cfgx::targets::{", stringify!($name), ", ", stringify!($item), "};"
            )]
            ///
            #[doc = concat!("static ITEMS: [", stringify!($item), "; 1] = [", $some, "];")]
            #[doc = concat!("let list = ", stringify!($name), "::new_const(&ITEMS);")]
            #[doc = concat!("assert_eq!(list[0], ", $some, ");")]
            /// ```
            #[must_use]
            pub const fn new_const(items: &'static [$item]) -> Self {
                $name(Cow::Borrowed(items))
            }
        }

        impl Deref for $name {
            type Target = [$item];

            fn deref(&self) -> &[$item] {
                &self.0
            }
        }

        impl AsRef<[$item]> for $name {
            fn as_ref(&self) -> &[$item] {
                &self.0
            }
        }

        impl fmt::Display for $name {
            fn fmt(&self, f: &mut fmt::Formatter<'_>) -> fmt::Result {
                write_list(f, &self.0)
            }
        }
    };
}

list! {
    /// A sorted list of families.
    Families of Family, "Family::unix", "Family::wasm", "{unix, wasm}"
}

list! {
    /// A sorted list of widths of atomics.
    HasAtomics of HasAtomic, "HasAtomic::IntegerSize(8)", "HasAtomic::Pointer", "{8, ptr}"
}

impl Families {
    /// Returns whether `family` is in the list.
    ///
    /// ```
    /// use cfgx::targets::{Families, Family};
    ///
    /// assert!(Families::unix.contains(&Family::unix));
    /// assert!(!Families::unix.contains(&Family::wasm));
    /// ```
    #[must_use]
    pub fn contains(&self, family: &Family) -> bool {
        self.0.contains(family)
    }
}

impl HasAtomics {
    /// Returns whether `width` is in the list.
    ///
    /// ```
    /// use cfgx::targets::{HasAtomic, HasAtomics};
    ///
    /// assert!(HasAtomics::atomic_8_16_32_ptr.contains(HasAtomic::Pointer));
    /// assert!(!HasAtomics::atomic_8_16_32_ptr.contains(HasAtomic::IntegerSize(64)));
    /// ```
    #[must_use]
    pub fn contains(&self, width: HasAtomic) -> bool {
        self.0.contains(&width)
    }
}

/// Writes the items between braces, with a comma and a space between two.
fn write_list(f: &mut fmt::Formatter<'_>, items: &[impl fmt::Display]) -> fmt::Result {
    f.write_str("{")?;
    for (place, item) in items.iter().enumerate() {
        let before = if place == 0 { "" } else { ", " };
        write!(f, "{before}{item}")?;
    }
    f.write_str("}")
}
