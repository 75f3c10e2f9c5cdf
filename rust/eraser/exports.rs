//! Writes the functions for C: a slice that they take becomes a pointer and a length, as the header has them.

use super::tokens::{Result, Tokens, is_word_letter};

/// Rewrites each `extern "C"` function. A parameter of a type that isn't known ends it.
pub fn write_exports(source: &mut Tokens) -> Result<()> {
    for at in source.code() {
        if source.is_word(at, "extern") && source.text(source.next(at)) == "\"C\"" {
            let head = source.next(source.next(at));
            if !source.is_word(head, "fn") {
                return source.fail(at, "an `extern \"C\"` that is not of a function");
            }
            write_export(source, at, source.next(head))?;
        }
    }
    Ok(())
}

fn write_export(source: &mut Tokens, at: usize, name: usize) -> Result<()> {
    let opening = source.next(name);
    let end = source.close(opening)?;
    let body = source.find(end, &["{"])?;
    let (mut made, mut first) = (String::new(), source.next(opening));
    while first < end {
        let last = parameter_end(source, first, end)?;
        made.push_str(&write_parameter(source, first, source.previous(last))?);
        first = source.next(last);
    }
    source.set(at, "unsafe extern");
    source.added.insert(body, made);
    source.count("function for C");
    Ok(())
}

/// The comma after a parameter, or the bracket after the last one.
fn parameter_end(source: &Tokens, mut at: usize, end: usize) -> Result<usize> {
    while at < end && source.text(at) != "," {
        if ["(", "["].contains(&source.text(at)) {
            at = source.close(at)?;
        }
        at = source.next(at);
    }
    Ok(at)
}

/// The pointer, the function that makes a slice of it, and the type of its items, where a type is a slice.
fn slice_of(kind: &str) -> Option<(&'static str, &'static str, &str)> {
    let inner = kind.strip_prefix('&')?;
    let (pointer, function, inner) = match inner.strip_prefix("mut") {
        Some(inner) => ("*mut", "slice_mut", inner),
        None => ("*const", "slice", inner),
    };
    let item = inner.strip_prefix('[')?.strip_suffix(']')?;
    ["u8", "u64", "PollEntry"]
        .contains(&item)
        .then_some((pointer, function, item))
}

/// Whether C has a type as it is. rustc looks whether a named type has a form that C has too.
fn is_plain(kind: &str) -> bool {
    let named = |inner: &str| {
        inner == "*mutu8"
            || inner.starts_with(|letter: char| letter.is_ascii_uppercase())
                && inner.chars().all(is_word_letter)
    };
    ["bool", "i32", "u32", "i64", "u64", "Handle"].contains(&kind)
        || kind.strip_prefix("&mut").is_some_and(named)
}

/// Rewrites one parameter, and answers the statement that makes of it what the body takes.
fn write_parameter(source: &mut Tokens, first: usize, last: usize) -> Result<String> {
    let (name, colon) = (source.text(first).to_string(), source.next(first));
    let kind = source.joined(source.next(colon), last);
    if kind == "Global" {
        let after = source.next(last);
        source.drop(
            first,
            if source.text(after) == "," {
                after
            } else {
                last
            },
        );
        return Ok(format!("\n    let {name} = Global;"));
    }
    let Some((pointer, function, item)) = slice_of(&kind) else {
        if !is_plain(&kind) {
            return source.fail(
                first,
                format_args!("a parameter of a function for C whose type is not known: {kind}"),
            );
        }
        return Ok(String::new());
    };
    for at in source.next(colon)..=last {
        source.clear(at);
    }
    source
        .added
        .insert(colon, format!(" {pointer} {item}, {name}_len: usize"));
    Ok(format!(
        "\n    let {name} = unsafe {{ crate::c_memory::{function}({name}, {name}_len) }};"
    ))
}
