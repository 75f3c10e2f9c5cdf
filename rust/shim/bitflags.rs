//! Sets of flags, by the names of the crate `bitflags`, whose macro writes the type too.

use core::ops::{BitAnd, BitOr, Not};

pub use crate::bitflag_items;

/// A flag and its name.
pub struct Flag<F> {
    pub name: &'static str,
    pub value: F,
}

/// A set of flags: a number whose bits are the flags that are set.
pub trait Flags: Sized + 'static {
    type Bits: Copy
        + Default
        + PartialEq
        + BitAnd<Output = Self::Bits>
        + BitOr<Output = Self::Bits>
        + Not<Output = Self::Bits>;

    fn flags<'a>() -> &'a [Flag<Self>];

    fn bits(&self) -> Self::Bits;

    fn from_bits_retain(bits: Self::Bits) -> Self;

    #[inline(always)]
    fn empty() -> Self {
        Self::from_bits_retain(Self::Bits::default())
    }

    #[inline(always)]
    fn is_empty(&self) -> bool {
        self.bits() == Self::Bits::default()
    }

    #[inline(always)]
    fn contains(&self, other: Self) -> bool {
        self.bits() & other.bits() == other.bits()
    }

    #[inline(always)]
    fn union(self, other: Self) -> Self {
        Self::from_bits_retain(self.bits() | other.bits())
    }

    #[inline(always)]
    fn intersection(self, other: Self) -> Self {
        Self::from_bits_retain(self.bits() & other.bits())
    }
}

/// Writes the constants of a type of flags, and what Rust's programs do with sets.
#[macro_export]
#[doc(hidden)]
macro_rules! bitflag_items {
    (impl $name:ident: $bits:ty { $($(#[$attr:meta])* const $flag:ident = $value:expr;)* }) => {
        impl $name {
            $($(#[$attr])* #[doc = concat!("The flag `", stringify!($flag), "`.")] pub const $flag: $name = $name($value);)*

            /// All flags, with their names.
            #[allow(private_interfaces)]
            pub(crate) const FLAGS: &'static [$crate::std_shim::bitflags::Flag<$name>] = &[
                $($crate::std_shim::bitflags::Flag { name: stringify!($flag), value: $name::$flag },)*
            ];

            /// No flag.
            #[inline(always)]
            pub const fn empty() -> $name {
                $name(0)
            }

            /// Whether no flag is set.
            #[inline(always)]
            pub const fn is_empty(self) -> bool {
                self.0 == 0
            }

            /// Whether all flags of another set are set in this one too.
            #[inline(always)]
            pub const fn contains(self, other: $name) -> bool {
                self.0 & other.0 == other.0
            }

            /// The flags of both sets.
            #[inline(always)]
            pub const fn union(self, other: $name) -> $name {
                $name(self.0 | other.0)
            }

            /// The flags that both sets have.
            #[inline(always)]
            pub const fn intersection(self, other: $name) -> $name {
                $name(self.0 & other.0)
            }
        }

        impl core::ops::BitOr for $name {
            type Output = $name;

            fn bitor(self, other: $name) -> $name {
                self.union(other)
            }
        }

        impl core::ops::BitAnd for $name {
            type Output = $name;

            fn bitand(self, other: $name) -> $name {
                self.intersection(other)
            }
        }
    };
}
