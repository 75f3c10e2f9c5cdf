//! What the sources use of numbers, and Rust has only since 1.87.

/// A number with a sign, as the number without one that has the same bits.
pub trait Unsigned {
    type Number;

    fn unsigned(self) -> Self::Number;
}

impl Unsigned for i32 {
    type Number = u32;

    #[inline(always)]
    fn unsigned(self) -> u32 {
        self as u32
    }
}
