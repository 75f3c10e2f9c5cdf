//! Bytes as hexadecimal digits, two each.

use super::alloc::{AllocError, Allocator};
use super::string::String;
use super::vec::Vec;

/// Why digits say no bytes.
#[derive(Clone, Copy, Debug, PartialEq, Eq)]
pub enum FromHexError {
    /// They aren't the digits of bytes, or not of so many.
    NotDigits,
    /// There was no memory for the bytes.
    OutOfMemory,
}

/// The value of a digit that isn't one.
const NO_DIGIT: u8 = 0xff;

const VALUES: [u8; 256] = values();

const fn values() -> [u8; 256] {
    let mut values = [NO_DIGIT; 256];
    let mut value = 0;
    while value < 16 {
        values[b"0123456789abcdef"[value] as usize] = value as u8;
        values[b"0123456789ABCDEF"[value] as usize] = value as u8;
        value += 1;
    }
    values
}

/// The byte of two digits.
#[inline(always)]
fn byte_of(digits: &[u8]) -> Option<u8> {
    let (high, low) = (
        VALUES[usize::from(digits[0])],
        VALUES[usize::from(digits[1])],
    );
    // a digit's value has four bits
    if (high | low) & 0xf0 == 0 {
        Some(high << 4 | low)
    } else {
        None
    }
}

/// Whether there are two digits for each byte.
fn are_twice_as_many(digits: &[u8], bytes: &[u8]) -> bool {
    digits.len() % 2 == 0 && digits.len() / 2 == bytes.len()
}

/// Writes the bytes that digits say, of which there have to be twice as many.
pub fn decode_to_slice(digits: &[u8], bytes: &mut [u8]) -> Result<(), FromHexError> {
    if !are_twice_as_many(digits, bytes) {
        return Err(FromHexError::NotDigits);
    }
    for (byte, pair) in bytes.iter_mut().zip(digits.chunks_exact(2)) {
        *byte = byte_of(pair).ok_or(FromHexError::NotDigits)?;
    }
    Ok(())
}

/// The bytes that digits say.
pub fn decode<A: Allocator>(alloc: A, digits: &[u8]) -> Result<Vec<u8, A>, FromHexError> {
    if digits.len() % 2 != 0 {
        return Err(FromHexError::NotDigits);
    }
    let Ok(mut bytes) = Vec::from_elem(alloc, 0, digits.len() / 2) else {
        return Err(FromHexError::OutOfMemory);
    };
    decode_to_slice(digits, bytes.as_mut_slice())?;
    Ok(bytes)
}

/// Writes the digits of bytes, in lower case, to a list that has to be twice as long.
pub fn encode_to_slice(bytes: &[u8], digits: &mut [u8]) -> Result<(), FromHexError> {
    if !are_twice_as_many(digits, bytes) {
        return Err(FromHexError::NotDigits);
    }
    for (pair, byte) in digits.chunks_exact_mut(2).zip(bytes) {
        pair.copy_from_slice(&[digit(byte >> 4), digit(byte & 15)]);
    }
    Ok(())
}

/// The digits of bytes, in lower case.
pub fn encode<A: Allocator + Copy>(alloc: A, bytes: &[u8]) -> Result<String<A>, AllocError> {
    let Some(count) = bytes.len().checked_mul(2) else {
        return Err(AllocError);
    };
    let mut digits = Vec::from_elem(alloc, 0, count)?;
    encode_to_slice(bytes, digits.as_mut_slice()).map_err(|_| AllocError)?;
    Ok(String::from_ascii(digits, alloc))
}

// Without a table, as rustc makes many digits at once of this.
#[inline(always)]
fn digit(value: u8) -> u8 {
    let first = if value < 10 { b'0' } else { b'a' - 10 };
    first + value
}
