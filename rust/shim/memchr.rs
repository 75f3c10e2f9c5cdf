//! Where bytes stand first in a text, found by words of eight bytes.

/// The bytes of a word that are looked at together.
const WIDTH: usize = size_of::<u64>();
const LOW_BITS: u64 = 0x0101_0101_0101_0101;
const HIGH_BITS: u64 = 0x8080_8080_8080_8080;

/// Where a byte stands first; `None` where it stands nowhere.
pub fn memchr(byte: u8, text: &[u8]) -> Option<usize> {
    first_of(text, |word| zeros(word ^ spread(byte)), |c| c == byte)
}

/// Where one of two bytes stands first; `None` where neither does.
pub fn memchr2(first: u8, second: u8, text: &[u8]) -> Option<usize> {
    first_of(
        text,
        |word| zeros(word ^ spread(first)) | zeros(word ^ spread(second)),
        |c| c == first || c == second,
    )
}

fn spread(byte: u8) -> u64 {
    u64::from(byte) * LOW_BITS
}

/// Eight bytes as a word, in which the first one is the least.
fn word_of(bytes: &[u8]) -> u64 {
    u64::from_le_bytes(bytes.try_into().expect("eight bytes"))
}

/// Not 0 exactly where a byte of the word is 0 (the least such byte is marked by its high bit).
fn zeros(word: u64) -> u64 {
    word.wrapping_sub(LOW_BITS) & !word & HIGH_BITS
}

/// Passes over the words that have none of what is searched, and looks at the others byte by byte.
fn first_of(text: &[u8], marks: impl Fn(u64) -> u64, is_it: impl Fn(u8) -> bool) -> Option<usize> {
    let mut words = text.chunks_exact(WIDTH).map(word_of);
    let passed = words.position(|word| marks(word) != 0);
    let from = passed.unwrap_or(text.len() / WIDTH) * WIDTH;
    let place = text[from..].iter().position(|c| is_it(*c))?;
    Some(from + place)
}
