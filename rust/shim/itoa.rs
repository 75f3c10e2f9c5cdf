//! The decimal digits of a number, in no memory but the caller's.

use super::string::text_of;

/// The most bytes of a number's text: a sign, and the 19 digits of an `i64`, or the 20 digits of a `u64`.
const MOST: usize = 20;

/// Room for the text of one number.
pub struct Buffer {
    bytes: [u8; MOST],
}

/// A number, as its size and its sign.
pub trait Integer: Copy {
    /// Its distance from 0, and whether it is below.
    fn parts(self) -> (u64, bool);
}

macro_rules! integers {
    ($($unsigned:ty, $signed:ty;)*) => {$(
        impl Integer for $unsigned {
            #[inline(always)]
            fn parts(self) -> (u64, bool) {
                (self as u64, false)
            }
        }

        impl Integer for $signed {
            #[inline(always)]
            fn parts(self) -> (u64, bool) {
                (self.unsigned_abs() as u64, self < 0)
            }
        }
    )*};
}

integers! {
    u8, i8;
    u16, i16;
    u32, i32;
    u64, i64;
    usize, isize;
}

impl Buffer {
    /// Room for a text.
    #[inline(always)]
    #[allow(clippy::new_without_default)]
    pub fn new() -> Buffer {
        Buffer { bytes: [0; MOST] }
    }

    /// The text of a number.
    #[inline]
    pub fn format<I: Integer>(&mut self, number: I) -> &str {
        let (mut size, below) = number.parts();
        let mut start = MOST;
        loop {
            start -= 1;
            self.bytes[start] = b'0' + (size % 10) as u8;
            size /= 10;
            if size == 0 {
                break;
            }
        }
        if below {
            start -= 1;
            self.bytes[start] = b'-';
        }
        text_of(&self.bytes[start..])
    }
}
