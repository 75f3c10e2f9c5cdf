//! The tokens of one source: found, looked at and taken out.

use std::borrow::Cow;
use std::collections::{BTreeMap, HashSet};
use std::fmt;

/// What a token is.
#[derive(Clone, Copy, Debug, PartialEq, Eq)]
pub enum Kind {
    Space,
    Comment,
    Text,
    Char,
    Life,
    Word,
    Number,
    Mark,
}

/// The place before the first token: `next` of it is the first code.
pub const NOWHERE: usize = usize::MAX;

/// A construct that the eraser doesn't know, with its file and line.
#[derive(Debug)]
pub struct Unknown(pub String);

impl fmt::Display for Unknown {
    fn fmt(&self, f: &mut fmt::Formatter<'_>) -> fmt::Result {
        f.write_str(&self.0)
    }
}

impl std::error::Error for Unknown {}

pub type Result<T> = std::result::Result<T, Unknown>;

/// How often each construct was erased.
pub type Counts = BTreeMap<String, usize>;

/// The tokens of one file. Each is a kind and its text, and no kind and no text once it was taken out.
pub struct Tokens<'s> {
    pub path: String,
    pub kinds: Vec<Option<Kind>>,
    pub texts: Vec<Cow<'s, str>>,
    lines: Vec<u32>,
    /// The words that stood in what was taken out.
    pub erased: HashSet<String>,
    /// What is written after a token.
    pub added: BTreeMap<usize, String>,
    pub counts: Counts,
}

/// Whether a letter may stand in a word.
pub fn is_word_letter(letter: char) -> bool {
    letter == '_' || letter.is_alphanumeric()
}

/// How many bytes the letters at the front of a text have for which something holds.
fn run(text: &str, holds: impl Fn(char) -> bool) -> usize {
    text.find(|letter| !holds(letter)).unwrap_or(text.len())
}

/// The length of what stands between two marks at the front of a text, with them; a backslash takes the letter after it along.
fn quoted(text: &str, mark: char) -> Option<usize> {
    let mut letters = text.char_indices();
    if letters.next()?.1 != mark {
        return None;
    }
    while let Some((at, letter)) = letters.next() {
        if letter == mark {
            return Some(at + mark.len_utf8());
        }
        if letter == '\\' {
            letters.next()?;
        }
    }
    None
}

/// The length of one letter between `'`, with them.
fn quoted_letter(text: &str) -> Option<usize> {
    let mut letters = text.char_indices();
    if letters.next()?.1 != '\'' {
        return None;
    }
    match letters.next()?.1 {
        '\'' => return None,
        '\\' => _ = letters.next()?,
        _ => {}
    }
    let (at, letter) = letters.next()?;
    (letter == '\'').then_some(at + 1)
}

/// The kind and the length of the first token of a text that isn't empty.
fn first_token(text: &str) -> (Kind, usize) {
    let first = text.chars().next().unwrap_or(' ');
    let prefix = usize::from(first == 'b');
    if first.is_whitespace() {
        (Kind::Space, run(text, char::is_whitespace))
    } else if text.starts_with("//") {
        (Kind::Comment, text.find('\n').unwrap_or(text.len()))
    } else if let Some(length) = quoted(&text[prefix..], '"') {
        (Kind::Text, prefix + length)
    } else if let Some(length) = quoted_letter(&text[prefix..]) {
        (Kind::Char, prefix + length)
    } else if first == '\''
        && text[1..].starts_with(|next: char| next == '_' || next.is_ascii_alphabetic())
    {
        (Kind::Life, 1 + run(&text[1..], is_word_letter))
    } else if is_word_letter(first) && !first.is_ascii_digit() {
        (Kind::Word, run(text, is_word_letter))
    } else if first.is_ascii_digit() {
        (Kind::Number, number(text))
    } else if text.starts_with("::") {
        (Kind::Mark, 2)
    } else {
        (Kind::Mark, first.len_utf8())
    }
}

/// The length of a number: what stands after a point is of it where that has two letters.
fn number(text: &str) -> usize {
    let whole = run(text, is_word_letter);
    let part = text[whole..]
        .strip_prefix('.')
        .filter(|part| part.starts_with(|letter: char| letter.is_ascii_digit()));
    match part.map(|part| run(part, is_word_letter)) {
        Some(length) if length > 1 => whole + 1 + length,
        _ => whole,
    }
}

impl<'s> Tokens<'s> {
    /// Reads a text.
    pub fn new(path: &str, text: &'s str) -> Result<Self> {
        let (mut kinds, mut texts, mut lines) = (Vec::new(), Vec::new(), Vec::new());
        let (mut rest, mut line) = (text, 1);
        while !rest.is_empty() {
            let (kind, length) = first_token(rest);
            let (token, after) = rest.split_at(length);
            kinds.push(Some(kind));
            texts.push(Cow::Borrowed(token));
            lines.push(line);
            line += token.bytes().filter(|&byte| byte == b'\n').count() as u32;
            rest = after;
        }
        let (erased, added, counts) = (HashSet::new(), BTreeMap::new(), Counts::new());
        let source = Tokens {
            path: path.to_string(),
            kinds,
            texts,
            lines,
            erased,
            added,
            counts,
        };
        source.refuse_other_forms()?;
        Ok(source)
    }

    /// Comments between `/*` and `*/`, and raw texts, aren't read here.
    fn refuse_other_forms(&self) -> Result<()> {
        for at in 1..self.len() {
            let before = self.text(at - 1);
            let raw = self.kinds[at] == Some(Kind::Text) && ["r", "br", "c"].contains(&before);
            if raw || before == "/" && self.text(at) == "*" {
                return self.fail(
                    at - 1,
                    "a comment or a text in a form that is not read here",
                );
            }
        }
        Ok(())
    }

    pub fn len(&self) -> usize {
        self.texts.len()
    }

    /// Ends the reading of this file.
    pub fn fail<T>(&self, at: usize, what: impl fmt::Display) -> Result<T> {
        let line = self
            .lines
            .get(at)
            .or(self.lines.last())
            .copied()
            .unwrap_or(1);
        Err(Unknown(format!("{}:{line}: {what}", self.path)))
    }

    /// Notes that something was erased.
    pub fn count(&mut self, what: impl Into<String>) {
        *self.counts.entry(what.into()).or_default() += 1;
    }

    /// Whether a token is no code: white space, a comment, or taken out.
    pub fn is_skipped(&self, at: usize) -> bool {
        matches!(self.kinds[at], None | Some(Kind::Space | Kind::Comment))
    }

    /// Whether a token is white space or taken out.
    pub fn is_blank(&self, at: usize) -> bool {
        matches!(self.kinds[at], None | Some(Kind::Space))
    }

    /// The places of all tokens that are code.
    pub fn code(&self) -> Vec<usize> {
        (0..self.len()).filter(|&at| !self.is_skipped(at)).collect()
    }

    /// The place of the next code after a place; that after the last token where there is none.
    pub fn next(&self, at: usize) -> usize {
        let mut at = at.wrapping_add(1);
        while at < self.len() && self.is_skipped(at) {
            at += 1;
        }
        at
    }

    /// The place of the last code before a place.
    pub fn previous(&self, at: usize) -> usize {
        if at == NOWHERE {
            return NOWHERE;
        }
        (0..at.min(self.len()))
            .rev()
            .find(|&at| !self.is_skipped(at))
            .unwrap_or(NOWHERE)
    }

    /// The text at a place, and none outside the file.
    pub fn text(&self, at: usize) -> &str {
        self.texts.get(at).map_or("", |text| text)
    }

    /// The kind of the token at a place, and none where it was taken out or outside the file.
    pub fn kind(&self, at: usize) -> Option<Kind> {
        self.kinds.get(at).copied().flatten()
    }

    /// Whether this word of the language, and no text or comment, stands at a place.
    pub fn is_word(&self, at: usize, word: &str) -> bool {
        self.kind(at) == Some(Kind::Word) && self.text(at) == word
    }

    /// Whether this mark stands at a place.
    pub fn is_mark(&self, at: usize, mark: &str) -> bool {
        self.kind(at) == Some(Kind::Mark) && self.text(at) == mark
    }

    /// The code from one place to another, without white space and comments.
    pub fn joined(&self, first: usize, last: usize) -> String {
        let end = self.len().min(last.wrapping_add(1));
        (first..end)
            .filter(|&at| !self.is_skipped(at))
            .map(|at| self.text(at))
            .collect()
    }

    /// The place of the bracket that closes the one at a place.
    pub fn close(&self, at: usize) -> Result<usize> {
        let opening = self.text(at);
        let closing = match opening {
            "{" => "}",
            "(" => ")",
            "[" => "]",
            _ => return self.fail(at, format_args!("a bracket was expected, not {opening:?}")),
        };
        let mut depth = 0;
        for place in at..self.len() {
            if self.kinds[place] == Some(Kind::Mark) {
                depth += i32::from(self.texts[place] == opening)
                    - i32::from(self.texts[place] == closing);
                if depth == 0 {
                    return Ok(place);
                }
            }
        }
        self.fail(at, "a bracket that is not closed")
    }

    /// The place of the first of these texts from a place on.
    pub fn find(&self, at: usize, wanted: &[&str]) -> Result<usize> {
        let found =
            (at..self.len()).find(|&at| !self.is_skipped(at) && wanted.contains(&self.text(at)));
        found.map_or_else(
            || self.fail(at, format_args!("none of {} follows", wanted.join(" "))),
            Ok,
        )
    }

    /// Takes out one token.
    pub fn clear(&mut self, at: usize) {
        self.kinds[at] = None;
        self.texts[at] = Cow::Borrowed("");
    }

    /// Takes out the tokens from one place to another, with the white space before them.
    pub fn drop(&mut self, mut first: usize, last: usize) {
        while first > 0 && self.is_blank(first - 1) {
            first -= 1;
        }
        for at in first..=last {
            if self.kinds[at] == Some(Kind::Word) {
                self.erased.insert(self.texts[at].to_string());
            }
            self.clear(at);
        }
    }

    /// Writes something else at a place.
    pub fn set(&mut self, at: usize, text: impl Into<String>) {
        self.texts[at] = Cow::Owned(text.into());
    }

    /// Writes something after a place.
    pub fn add(&mut self, at: usize, text: impl AsRef<str>) {
        self.added.entry(at).or_default().push_str(text.as_ref());
    }

    /// Where an item with this keyword begins: at its `pub`, with or without a bracket, or at the keyword.
    pub fn item_start(&self, mut at: usize) -> usize {
        while ["unsafe", "const", "extern", "\"C\"", "async"]
            .contains(&self.text(self.previous(at)))
        {
            at = self.previous(at);
        }
        let mut before = self.previous(at);
        if self.text(before) == ")" {
            while before != NOWHERE && self.text(before) != "(" {
                before = self.previous(before);
            }
            before = self.previous(before);
        }
        if self.is_word(before, "pub") {
            before
        } else {
            at
        }
    }

    /// The text that is left.
    pub fn written(&self) -> String {
        let mut text = String::new();
        for (at, part) in self.texts.iter().enumerate() {
            text.push_str(part);
            if let Some(added) = self.added.get(&at) {
                text.push_str(added);
            }
        }
        text
    }
}
