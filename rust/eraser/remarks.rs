//! Takes out of the comments what speaks of proofs, sentence by sentence.

use super::plan::is_remark;
use super::tokens::{Kind, Tokens, is_word_letter};

/// How wide a comment is that was filled again.
const WIDTH: usize = 100;

/// Takes sentences that speak of proofs out of each comment, and the whole comment where none is left. Crates are modules there.
pub fn erase_remarks(source: &mut Tokens) {
    let mut at = 0;
    while at < source.len() {
        if source.kinds[at] == Some(Kind::Comment) {
            if source.texts[at].contains("`pl_") {
                source.set(at, source.texts[at].replace("`pl_", "`"));
            }
            let block = block(source, at);
            erase_block(source, &block);
            at = block.last().copied().unwrap_or(at);
        }
        at += 1;
    }
}

/// The comments from a place on that stand on lines of their own, one below the other, with one marker.
fn block(source: &Tokens, mut at: usize) -> Vec<usize> {
    let (mut block, marker) = (vec![at], marker(&source.texts[at]));
    while source.kind(at + 1) == Some(Kind::Space)
        && source.kind(at + 2) == Some(Kind::Comment)
        && source.text(at + 1).matches('\n').count() == 1
        && self::marker(source.text(at + 2)) == marker
    {
        at += 2;
        block.push(at);
    }
    block
}

fn marker(comment: &str) -> &'static str {
    match comment.as_bytes().get(2) {
        Some(b'/') => "///",
        Some(b'!') => "//!",
        _ => "//",
    }
}

fn erase_block(source: &mut Tokens, block: &[usize]) {
    let (first, last) = (block[0], block[block.len() - 1]);
    let marker = marker(&source.texts[first]);
    let lines: Vec<&str> = block
        .iter()
        .map(|&at| source.texts[at].strip_prefix(marker).unwrap_or("").trim())
        .collect();
    if !is_remark(&lines.join(" ")) {
        return;
    }
    let kept: Vec<String> = paragraphs(&lines)
        .iter()
        .map(|text| without_remarks(text))
        .filter(|text| !text.is_empty())
        .collect();
    source.count("comment that speaks of proofs");
    if kept.is_empty() {
        drop_lines(source, first, last);
        return;
    }
    let before = source.text(first.wrapping_sub(1));
    let indent = before
        .rsplit_once('\n')
        .map_or("", |(_, indent)| indent)
        .to_string();
    let width = WIDTH - indent.chars().count() - marker.len() - 1;
    let filled: Vec<String> = kept
        .iter()
        .map(|text| {
            if text.starts_with('#') {
                text.clone()
            } else {
                fill(text, width)
            }
        })
        .collect();
    let written: Vec<String> = filled
        .join("\n\n")
        .split('\n')
        .map(|line| format!("{indent}{marker} {line}").trim_end().to_string())
        .collect();
    let written = written.join("\n");
    for at in first + 1..=last {
        source.clear(at);
    }
    source.set(
        first,
        written.strip_prefix(indent.as_str()).unwrap_or(&written),
    );
}

fn drop_lines(source: &mut Tokens, first: usize, last: usize) {
    for at in first..=last {
        source.clear(at);
    }
    // the line feed and the indentation that stood before it
    if first > 0 && source.kinds[first - 1] == Some(Kind::Space) {
        let kept = source.texts[first - 1]
            .rsplit_once('\n')
            .map_or("", |(kept, _)| kept)
            .to_string();
        source.set(first - 1, kept);
    }
}

fn paragraphs(lines: &[&str]) -> Vec<String> {
    lines
        .join("\n")
        .split("\n\n")
        .map(|paragraph| paragraph.split_whitespace().collect::<Vec<_>>().join(" "))
        .collect()
}

fn without_remarks(paragraph: &str) -> String {
    sentences(paragraph)
        .into_iter()
        .filter(|sentence| !is_remark(sentence))
        .collect::<Vec<_>>()
        .join(" ")
}

/// The sentences of a paragraph, in which one blank stands between words. One ends at a blank after `.`, `!` or `?`, before a capital, a
/// digit or code.
fn sentences(paragraph: &str) -> Vec<&str> {
    let (mut found, mut start) = (Vec::new(), 0);
    for (at, _) in paragraph.match_indices(' ') {
        let begins =
            |letter: char| letter.is_ascii_uppercase() || letter.is_ascii_digit() || letter == '`';
        if paragraph[..at].ends_with(['.', '!', '?']) && paragraph[at + 1..].starts_with(begins) {
            found.push(&paragraph[start..at]);
            start = at + 1;
        }
    }
    found.push(&paragraph[start..]);
    found
}

/// A text in lines of at most a width, broken at blanks and after the hyphen of a word.
fn fill(text: &str, width: usize) -> String {
    let (mut lines, mut line) = (Vec::new(), String::new());
    for piece in pieces(text) {
        let length = line.chars().count() + piece.chars().count();
        if length > width && !line.is_empty() {
            lines.push(line.trim_end().to_string());
            line.clear();
        }
        if !(line.is_empty() && piece == " ") {
            line.push_str(piece);
        }
    }
    lines.push(line.trim_end().to_string());
    lines.retain(|line| !line.is_empty());
    lines.join("\n")
}

/// The blanks of a text, and its words, of which one with a hyphen is two.
fn pieces(text: &str) -> Vec<&str> {
    let letters: Vec<(usize, char)> = text.char_indices().collect();
    let is_letter = |at: usize| {
        letters
            .get(at)
            .is_some_and(|&(_, it)| is_word_letter(it) && !it.is_ascii_digit())
    };
    let is_hyphen = |at: usize| letters.get(at).is_some_and(|&(_, it)| it == '-');
    // whether a word is broken after the hyphen at a place
    let breaks = |at: usize| {
        let before = at >= 2
            && is_letter(at - 1)
            && (is_letter(at - 2) || at >= 3 && is_hyphen(at - 2) && is_letter(at - 3));
        let after =
            is_letter(at + 1) && (is_letter(at + 2) || is_hyphen(at + 2) && is_letter(at + 3));
        is_hyphen(at) && before && after
    };
    let (mut found, mut start) = (Vec::new(), 0);
    for (at, &(place, letter)) in letters.iter().enumerate() {
        let end = place + letter.len_utf8();
        if letter == ' ' {
            found.push(&text[start..place]);
            found.push(&text[place..end]);
            start = end;
        } else if start < place && breaks(at) {
            found.push(&text[start..end]);
            start = end;
        }
    }
    found.push(&text[start..]);
    found.retain(|piece| !piece.is_empty());
    found
}
