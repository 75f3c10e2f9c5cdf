//! The words of a command line.

use crate::std_shim::alloc::Global;
use crate::std_shim::clap::error::ErrorKind::{
    self, ArgumentConflict, DisplayHelp, DisplayVersion, InvalidValue, UnknownArgument,
};
use crate::std_shim::clap::{Arg, Command};
use crate::std_shim::string::String;

type Read = Result<(Option<u64>, Option<std::string::String>), ErrorKind>;

fn read(words: &[&str]) -> Read {
    read_by(Command::new(Global, "a").no_binary_name(true), words)
}

fn read_by(command: Command<'_>, words: &[&str]) -> Read {
    let number = Arg::new(Global, "number").long("number");
    let command = command
        .arg(number)
        .unwrap()
        .arg(Arg::new(Global, "file"))
        .unwrap();
    let given: Vec<String> = words
        .iter()
        .map(|word| String::from_str(Global, word).unwrap())
        .collect();
    let matches = command
        .try_get_matches_from(&given)
        .map_err(|error| error.kind())?;
    let number = matches
        .try_get_one("number")
        .map_err(|error| error.kind())?;
    Ok((number, matches.get_str("file").map(str::to_string)))
}

fn file(number: Option<u64>, name: &str) -> Read {
    Ok((number, Some(name.to_string())))
}

#[test]
fn words_are_read_in_their_order() {
    assert_eq!(read(&[]), Ok((None, None)));
    assert_eq!(read(&["--number", "7"]), Ok((Some(7), None)));
    assert_eq!(read(&["--number=7", "a"]), file(Some(7), "a"));
    assert_eq!(read(&["a", "--number", "+7"]), file(Some(7), "a"));
    assert_eq!(
        read(&["--number", "7", "--", "--number"]),
        file(Some(7), "--number")
    );
    assert_eq!(read(&["-"]), file(None, "-"));
    assert_eq!(read(&[""]), file(None, ""));
    assert_eq!(read(&["--", "--"]), file(None, "--"));
    assert_eq!(
        read(&["--number", "18446744073709551615"]),
        Ok((Some(u64::MAX), None))
    );
}

#[test]
fn the_first_word_that_is_not_taken_ends_it() {
    assert_eq!(read(&["a", "b"]), Err(UnknownArgument));
    assert_eq!(read(&["a", "b", "-h"]), Err(UnknownArgument));
    assert_eq!(read(&["-h", "a", "b"]), Err(DisplayHelp));
    assert_eq!(read(&["-hx"]), Err(DisplayHelp));
    assert_eq!(read(&["-xh"]), Err(UnknownArgument));
    assert_eq!(read(&["--help", "--other"]), Err(DisplayHelp));
    assert_eq!(read(&["--other", "--help"]), Err(UnknownArgument));
    assert_eq!(read(&["--num", "7"]), Err(UnknownArgument));
    assert_eq!(
        read(&["--number", "7", "--number", "7"]),
        Err(ArgumentConflict)
    );
    assert_eq!(read(&["--", "a", "-h"]), Err(UnknownArgument));
    assert_eq!(read(&["--help=1"]).err(), Some(UnknownArgument));
}

#[test]
fn a_command_with_a_version_tells_it() {
    let by = |words| {
        read_by(
            Command::new(Global, "a").no_binary_name(true).version("1"),
            words,
        )
    };
    assert_eq!(by(&["-V"]), Err(DisplayVersion));
    assert_eq!(by(&["--version", "--other"]), Err(DisplayVersion));
    assert_eq!(by(&["-Vh"]), Err(DisplayVersion));
    assert_eq!(by(&["-hV"]), Err(DisplayHelp));
    assert_eq!(by(&["--version=1"]), Err(UnknownArgument));
    assert_eq!(by(&["-v"]), Err(UnknownArgument));
    assert_eq!(read(&["-V"]), Err(UnknownArgument));
    assert_eq!(read(&["--version"]), Err(UnknownArgument));
}

#[test]
fn a_value_that_is_no_number_is_found_last() {
    for value in ["", "x", "7x", "-7", "18446744073709551616", " 7"] {
        assert_eq!(read(&[&format!("--number={value}")]), Err(InvalidValue));
    }
    assert_eq!(read(&["--number", "x", "--help"]), Err(DisplayHelp));
    assert_eq!(read(&["--number"]), Err(InvalidValue));
    assert_eq!(read(&["--number", "--help"]), Err(InvalidValue));
    assert_eq!(read(&["--number", "-h"]), Err(InvalidValue));
    assert_eq!(read(&["--number", "-h", "-h"]), Err(InvalidValue));
    assert_eq!(read(&["--number", "-"]), Err(InvalidValue));
}
