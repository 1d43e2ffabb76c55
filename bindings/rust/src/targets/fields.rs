//! The fields of a target: texts, each with a type of its own.

use std::borrow::Cow;
use std::fmt;

/// Declares a field type. `$example` is one of its texts.
macro_rules! field {
    ($(#[$doc:meta])* $name:ident, $example:literal) => {
        $(#[$doc])*
        ///
        /// ```
        #[doc = concat!("use cfgx::targets::", stringify!($name), ";")]
        ///
        #[doc = concat!("let field = ", stringify!($name), "::new(\"", $example, "\");")]
        #[doc = concat!("assert_eq!(field.to_string(), \"", $example, "\");")]
        /// ```
        #[derive(Clone, Debug, PartialEq, Eq, PartialOrd, Ord, Hash)]
        pub struct $name(pub Cow<'static, str>);

        impl $name {
            /// Returns the field with this text, which is borrowed or owned.
            ///
            /// ```
            #[doc = concat!("use cfgx::targets::", stringify!($name), ";")]
            ///
            #[doc = concat!("let owned = ", stringify!($name), "::new(String::from(\"a\"));")]
            #[doc = concat!("assert_eq!(owned, ", stringify!($name), "::new(\"a\"));")]
            /// ```
            #[must_use]
            pub fn new(text: impl Into<Cow<'static, str>>) -> Self {
                $name(text.into())
            }

            /// Returns the field that borrows `text`.
            ///
            /// ```
            #[doc = concat!("use cfgx::targets::", stringify!($name), ";")]
            ///
            #[doc = concat!("const FIELD: ", stringify!($name), " =")]
            #[doc = concat!("    ", stringify!($name), "::new_const(\"", $example, "\");")]
            #[doc = concat!("assert_eq!(FIELD.0, \"", $example, "\");")]
            /// ```
            #[must_use]
            pub const fn new_const(text: &'static str) -> Self {
                $name(Cow::Borrowed(text))
            }

            /// Returns the text.
            ///
            /// ```
            #[doc = concat!("use cfgx::targets::", stringify!($name), ";")]
            ///
            #[doc = concat!("let field = ", stringify!($name), "::new_const(\"a\");")]
            /// assert_eq!(field.as_str(), "a");
            /// ```
            #[must_use]
            pub fn as_str(&self) -> &str {
                &self.0
            }
        }

        impl AsRef<str> for $name {
            fn as_ref(&self) -> &str {
                &self.0
            }
        }

        impl fmt::Display for $name {
            fn fmt(&self, f: &mut fmt::Formatter<'_>) -> fmt::Result {
                f.write_str(&self.0)
            }
        }
    };
}

field! {
    /// The name of a whole target.
    Triple, "x86_64-unknown-linux-gnu"
}

field! {
    /// The value of `target_abi`.
    Abi, "eabihf"
}

field! {
    /// The value of `target_arch`.
    Arch, "x86_64"
}

field! {
    /// The value of `target_vendor`.
    Vendor, "apple"
}

field! {
    /// The value of `target_os`.
    Os, "linux"
}

field! {
    /// The value of `target_family`.
    Family, "unix"
}

field! {
    /// The value of `target_env`.
    Env, "musl"
}

field! {
    /// The value of `panic`.
    Panic, "unwind"
}
