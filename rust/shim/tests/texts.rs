//! Texts, digits, and where a byte stands.

use super::{Draws, Meter};
use crate::std_shim::alloc::Global;
use crate::std_shim::hex::{FromHexError, decode, decode_to_slice, encode};
use crate::std_shim::itoa::Buffer;
use crate::std_shim::memchr::{memchr, memchr2};
use crate::std_shim::string::{RepeatIn, String, text_of};

#[test]
fn bytes_are_taken_for_text_if_they_are() {
    for text in [
        "",
        "a",
        "0123456789abcdef0123456789abcdef",
        "many words of a text, and an ö",
    ] {
        assert_eq!(text_of(text.as_bytes()), text);
    }
}

#[test]
#[should_panic(expected = "text")]
fn other_bytes_are_not_taken_for_text() {
    text_of(b"0123456789abcdef0123456789abcde\xff");
}

#[test]
fn a_text_is_that_of_std() {
    let (mut draws, meter) = (Draws::of(1), Meter::new());
    let (mut ours, mut theirs) = (String::new(&meter), std::string::String::new());
    let mut refused = 0;
    for _ in 0..20_000 {
        if draws.below(200) == 0 {
            (ours, theirs) = (String::new(&meter), std::string::String::new());
        }
        meter.permit(draws.below(2));
        let more = ["", "a", "two", "many words of a text", "ö"][draws.below(5) as usize];
        match draws.below(8) {
            0 => {
                let len = draws.below(60) as usize;
                if theirs.is_char_boundary(len) {
                    ours.truncate(len);
                    theirs.truncate(len);
                }
            }
            1 if draws.below(20) == 0 => {
                ours.clear();
                theirs.clear();
            }
            2 => match ours.push('ß') {
                Ok(()) => theirs.push('ß'),
                Err(_) => refused += 1,
            },
            _ => match ours.push_str(more) {
                Ok(()) => theirs.push_str(more),
                Err(_) => refused += 1,
            },
        }
        assert_eq!(
            (ours.as_str(), ours.len(), ours.is_empty()),
            (theirs.as_str(), theirs.len(), theirs.is_empty())
        );
        assert_eq!(ours.as_bytes(), theirs.as_bytes());
    }
    assert!(refused > 20, "{refused}");
    drop(ours);
    assert_eq!(meter.held(), 0);
}

#[test]
fn a_text_of_digits_has_the_memory_that_these_had() {
    let meter = Meter::new();
    let digits = encode(&meter, b"abc").unwrap();
    assert_eq!((meter.asked(), meter.held()), (1, 6));
    drop(digits);
    assert_eq!(meter.held(), 0);
}

#[test]
fn a_made_text_is_that_of_std_or_refused() {
    let meter = Meter::new();
    let made = String::made(&meter, format_args!("{} and {:?}", 7, "seven")).unwrap();
    assert_eq!(made.as_str(), format!("{} and {:?}", 7, "seven"));
    meter.permit(0);
    assert!(String::made(&meter, format_args!("{}", 7)).is_err());
    assert!(String::from_str(&meter, "a").is_err());
    assert_eq!(String::from_str(&meter, "").unwrap().as_str(), "");
}

#[test]
fn a_text_is_repeated_as_by_std() {
    for times in [0, 1, 2, 1_000] {
        let ours = "ab".repeat_in(Global, times).unwrap();
        assert_eq!(ours.as_str(), "ab".repeat(times));
    }
    let meter = Meter::new();
    meter.permit(0);
    assert!("ab".repeat_in(&meter, 1).is_err());
}

#[test]
fn digits_say_the_bytes_that_they_were_made_of() {
    let mut draws = Draws::of(2);
    for count in 0..300 {
        let bytes: Vec<u8> = (0..count).map(|_| draws.below(256) as u8).collect();
        let digits = encode(Global, &bytes).unwrap();
        let wanted: std::string::String = bytes.iter().map(|byte| format!("{byte:02x}")).collect();
        assert_eq!(digits.as_str(), wanted);
        assert_eq!(decode(Global, digits.as_bytes()).unwrap().as_slice(), bytes);
        assert_eq!(
            decode(Global, wanted.to_uppercase().as_bytes())
                .unwrap()
                .as_slice(),
            bytes
        );
    }
}

#[test]
fn each_other_byte_is_no_digit() {
    for byte in 0..=255u8 {
        let value = char::from(byte).to_digit(16).map(|value| value as u8);
        let mut into = [0];
        for (digits, wanted) in [
            ([byte, b'0'], value.map(|value| value * 16)),
            ([b'0', byte], value),
        ] {
            let ours = decode_to_slice(&digits, &mut into).map(|()| into[0]);
            assert_eq!(ours, wanted.ok_or(FromHexError::NotDigits));
        }
    }
    assert_eq!(decode(Global, b"abc").err(), Some(FromHexError::NotDigits));
    assert_eq!(
        decode_to_slice(b"abc", &mut [0]),
        Err(FromHexError::NotDigits)
    );
    assert_eq!(
        decode_to_slice(b"abcd", &mut [0]),
        Err(FromHexError::NotDigits)
    );
    let meter = Meter::new();
    meter.permit(0);
    assert_eq!(decode(&meter, b"ab").err(), Some(FromHexError::OutOfMemory));
    assert_eq!(decode(&meter, b"abc").err(), Some(FromHexError::NotDigits));
    assert!(encode(&meter, b"a").is_err());
}

#[test]
fn a_number_has_the_digits_of_std() {
    let mut draws = Draws::of(3);
    let mut numbers = vec![
        0,
        1,
        9,
        10,
        99,
        100,
        u64::MAX,
        u64::MAX - 1,
        i64::MAX as u64,
        1 << 63,
        u64::from(u32::MAX),
    ];
    numbers.extend((0..10_000).map(|place| draws.below(u64::MAX >> 11) << 11 >> (place % 64)));
    for number in numbers {
        assert_eq!(Buffer::new().format(number), number.to_string());
        assert_eq!(
            Buffer::new().format(number as i64),
            (number as i64).to_string()
        );
        assert_eq!(
            Buffer::new().format(number as u32),
            (number as u32).to_string()
        );
        assert_eq!(
            Buffer::new().format(number as i32),
            (number as i32).to_string()
        );
        assert_eq!(
            Buffer::new().format(number as u8),
            (number as u8).to_string()
        );
        assert_eq!(
            Buffer::new().format(number as i8),
            (number as i8).to_string()
        );
        assert_eq!(
            Buffer::new().format(number as usize),
            (number as usize).to_string()
        );
    }
}

#[test]
fn a_byte_stands_where_std_finds_it() {
    let mut draws = Draws::of(4);
    for len in 0..200 {
        for _ in 0..100 {
            // few values, those whose bits differ by borrows among them
            let text: Vec<u8> = (0..len)
                .map(|_| [0, 1, 0x7f, 0x80, 0x81, 0xff, 9, 32][draws.below(8) as usize])
                .collect();
            let start = draws.below(len + 1) as usize;
            for (byte, other) in [(0, 1), (0x80, 0x81), (b' ', b'\t'), (b'\n', 0xff), (7, 8)] {
                let text = &text[start..];
                assert_eq!(memchr(byte, text), text.iter().position(|c| *c == byte));
                assert_eq!(
                    memchr2(byte, other, text),
                    text.iter().position(|c| *c == byte || *c == other)
                );
            }
        }
    }
    let mut text = vec![0; 1_000];
    for place in 0..1_000 {
        text[place] = 1;
        assert_eq!(
            (memchr(1, &text), memchr2(2, 1, &text)),
            (Some(place), Some(place))
        );
        text[place] = 0;
    }
}
