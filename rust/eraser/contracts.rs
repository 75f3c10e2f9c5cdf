//! Erases what is there for proofs: clauses, ghost items, models, laws, and statements that only a proof looks at.

use super::plan;
use super::tokens::{Kind, NOWHERE, Result, Tokens};
use std::collections::BTreeSet;

/// Erases `requires`, `ensures` and ghost items, with the comments on them.
pub fn erase_clauses(source: &mut Tokens, name: &str) -> Result<()> {
    for at in source.code() {
        if source.is_word(at, "ghost") {
            erase_ghost(source, at)?;
        } else if source.is_word(at, "requires") || source.is_word(at, "ensures") {
            erase_clause(source, at, name)?;
        }
    }
    Ok(())
}

fn erase_clause(source: &mut Tokens, at: usize, name: &str) -> Result<()> {
    let mut opening = source.next(at);
    if source.text(opening) == "*" {
        opening = source.next(opening);
    }
    if source.kind(opening) == Some(Kind::Word) {
        opening = source.next(opening);
    }
    let end = source.close(opening)?;
    if source.texts[at] == "requires" && plan::is_exposed(name) {
        check_guard(source, at, &source.joined(opening, end), name)?;
    }
    source.count(format!("clause `{}`", source.texts[at]));
    source.drop(source.previous(at).wrapping_add(1), end);
    Ok(())
}

/// A precondition of a public function is nobody's duty any more: something of the edition has to keep it.
fn check_guard(source: &Tokens, at: usize, clause: &str, name: &str) -> Result<()> {
    let mut head = source.previous(at);
    while head != NOWHERE && !source.is_word(head, "fn") {
        head = source.previous(head);
    }
    let start = source.item_start(head);
    let public = source.is_word(start, "pub") && source.text(source.next(start)) != "(";
    let function = source.text(source.next(head));
    if public && !plan::is_guarded(name, function, clause) {
        return source.fail(
            at,
            format_args!(
                "a precondition of the public function {function} that nothing guards: {clause}"
            ),
        );
    }
    Ok(())
}

fn erase_ghost(source: &mut Tokens, at: usize) -> Result<()> {
    let before = source.previous(at);
    let start = if source.is_word(before, "pub") {
        before
    } else {
        at
    };
    let name = source.next(at);
    if source.text(name) == "use" {
        source.count("`ghost use`");
        let end = source.find(name, &[";"])?;
        source.drop(start, end);
        return Ok(());
    }
    // NAME, then `: {..}`, `= {..}` or both, or `: {..} by {..}`
    let (mut end, mut form) = (source.next(name), String::new());
    while [":", "=", "by"].contains(&source.text(end)) {
        form.push_str(source.text(end));
        end = source.next(source.close(source.next(end))?);
    }
    if ![":", "=", ":=", ":by"].contains(&form.as_str()) || ![";", ","].contains(&source.text(end))
    {
        return source.fail(at, "a ghost item that is not known");
    }
    source.count("ghost member or field");
    source.drop(source.previous(start).wrapping_add(1), end);
    Ok(())
}

/// Erases tactics and what is derived for proofs; any other attribute has to be a known one.
pub fn erase_attributes(source: &mut Tokens) -> Result<()> {
    for at in source.code() {
        if !source.is_mark(at, "#") {
            continue;
        }
        let mut opening = source.next(at);
        if source.text(opening) == "!" {
            opening = source.next(opening);
        }
        let end = source.close(opening)?;
        let text = source.joined(at, end);
        if plan::is_tactic(&text) {
            source.count("`#[tactic(..)]`");
            source.drop(at, end);
        } else if let Some(listed) = text.strip_prefix("#[derive(") {
            erase_derive(source, at, end, listed.strip_suffix(")]").unwrap_or(listed))?;
        } else if text == "#[inline(never)]" {
            // hardly any call goes out of line: told so, rustc keeps the way of the others short
            source.set(at, "#[cold]\n#");
        } else if !plan::ATTRIBUTES.contains(&text.as_str()) && plan::message_of(&text).is_none() {
            return source.fail(at, format_args!("an attribute that is not known: {text}"));
        }
    }
    Ok(())
}

/// Has bytes that a proof knows for text looked through: the edition has no proof.
pub fn check_unchecked(source: &mut Tokens) -> Result<()> {
    for at in source.code() {
        if !source.is_word(at, "from_utf8_unchecked") {
            continue;
        }
        let mut opening = source.previous(at);
        while opening != NOWHERE && !["{", ";"].contains(&source.text(opening)) {
            opening = source.previous(opening);
        }
        let (keyword, after) = (source.previous(opening), source.close(source.next(at))?);
        let closing = source.next(after);
        if !source.is_word(keyword, "unsafe") || source.text(closing) != "}" {
            return source.fail(
                at,
                "a from_utf8_unchecked that is not alone in an unsafe block",
            );
        }
        source.count("`unsafe`");
        source.set(at, "text_of");
        source.drop(closing, closing);
        source.clear(keyword);
        source.drop(opening, opening);
    }
    Ok(())
}

fn erase_derive(source: &mut Tokens, at: usize, end: usize, listed: &str) -> Result<()> {
    let names: Vec<&str> = listed.split(',').collect();
    let kept: Vec<&str> = names
        .iter()
        .copied()
        .filter(|name| !["Drop", "Error"].contains(name))
        .collect();
    for name in &kept {
        if !plan::DERIVES.contains(name) {
            return source.fail(at, format_args!("a derive that is not known: {name}"));
        }
    }
    if names.contains(&"Error") {
        write_messages(source, at, end)?;
    }
    if kept.len() == names.len() {
        return Ok(());
    }
    source.count("`derive(Drop)` or `derive(Error)`");
    source.drop(at, end);
    if !kept.is_empty() {
        source.kinds[at] = Some(Kind::Mark);
        source.set(at, format!("\n#[derive({})]", kept.join(", ")));
    }
    Ok(())
}

/// Writes out what `derive(Error)` makes of an enum: the text of each variant, of which any has one.
fn write_messages(source: &mut Tokens, at: usize, end: usize) -> Result<()> {
    let keyword = source.find(end, &["enum", "struct"])?;
    let named = source.next(keyword);
    let name = source.text(named).to_string();
    let opening = source.find(keyword, &["{"])?;
    if source.text(keyword) != "enum" || source.next(named) != opening {
        return source.fail(at, "an error that is not an enum without parameters");
    }
    let (mut arms, mut place, closing) =
        (String::new(), source.next(opening), source.close(opening)?);
    while place < closing {
        let last = if source.text(place) == "#" {
            source.close(source.next(place))?
        } else {
            place
        };
        let attribute = source.joined(place, last);
        let variant = source.next(last);
        let Some(message) =
            plan::message_of(&attribute).filter(|_| source.kind(variant) == Some(Kind::Word))
        else {
            return source.fail(place, "a variant of an error without its text");
        };
        source.drop(place, last);
        let after = source.next(variant);
        let tuple_of_one = source.text(after) == "(";
        arms.push_str(&message_arm(
            &name,
            source.text(variant),
            message,
            tuple_of_one,
        ));
        place = if tuple_of_one {
            source.next(source.close(after)?)
        } else {
            after
        };
        if source.text(place) != "," {
            return source.fail(variant, "a variant of an error in a form that is not known");
        }
        place = source.next(place);
    }
    source.count("`derive(Error)`, written out");
    source.added.insert(
        closing,
        format!(
            "\n\nimpl core::fmt::Display for {name} {{\n    fn fmt(&self, f: &mut core::fmt::Formatter<'_>) -> core::fmt::Result {{\n        \
             match self {{\n{arms}        }}\n    }}\n}}\n\nimpl core::error::Error for {name} {{}}"
        ),
    );
    Ok(())
}

fn message_arm(name: &str, variant: &str, text: &str, tuple_of_one: bool) -> String {
    if tuple_of_one {
        format!(
            "            {name}::{variant}(it) => write!(f, {}),\n",
            text.replace("{0}", "{it}")
        )
    } else {
        format!("            {name}::{variant} => f.write_str({text}),\n")
    }
}

/// Erases imports of what is derived and written out here.
pub fn erase_derived_imports(source: &mut Tokens) -> Result<()> {
    for at in source.code() {
        if source.is_word(at, "use") && source.is_word(source.next(at), "thiserror") {
            let end = source.find(at, &[";"])?;
            if source.joined(at, end) != "usethiserror::Error;" {
                return source.fail(at, "a use of thiserror that is not of Error");
            }
            source.drop(at, end);
        }
    }
    Ok(())
}

/// Erases `Drop` as a bound: in Rust any value may be dropped.
pub fn erase_bounds(source: &mut Tokens) -> Result<()> {
    for at in source.code() {
        if !source.is_word(at, "Drop") {
            continue;
        }
        let before = source.previous(at);
        if !["+", ":"].contains(&source.text(before))
            || ![",", ">", ")"].contains(&source.text(source.next(at)))
        {
            return source.fail(
                at,
                "`Drop` where it is neither the last bound nor the only one",
            );
        }
        source.count("bound `Drop`");
        source.drop(before, at);
    }
    Ok(())
}

/// Erases each `impl Model for ..`, in which nothing but ghost items stood.
pub fn erase_models(source: &mut Tokens) -> Result<()> {
    for at in source.code() {
        if !source.is_word(at, "impl") {
            continue;
        }
        let opening = source.find(at, &["{", ";"])?;
        if (at..opening)
            .any(|at| source.is_word(at, "Model") && source.is_word(source.next(at), "for"))
        {
            let closing = source.close(opening)?;
            if source.next(opening) != closing {
                return source.fail(at, "an `impl Model` that is not of ghost items alone");
            }
            source.count("`impl Model`");
            source.drop(at, closing);
        }
    }
    Ok(())
}

/// Erases functions that do nothing, whose contract is what they are for, and answers their names.
pub fn erase_laws(source: &mut Tokens) -> Result<BTreeSet<String>> {
    let mut laws = BTreeSet::new();
    for at in source.code() {
        if !source.is_word(at, "fn") {
            continue;
        }
        let name = source.next(at);
        let opening = source.find(name, &["("])?;
        let end = source.close(opening)?;
        let body = source.next(end);
        if source.text(body) != "{" {
            continue;
        }
        let closing = source.close(body)?;
        if source.next(opening) == end && source.next(body) == closing {
            laws.insert(source.text(name).to_string());
            source.count("law (a function of no code)");
            source.drop(doc_start(source, source.item_start(at)), closing);
        }
    }
    Ok(laws)
}

/// Where the doc comment of an item begins.
fn doc_start(source: &Tokens, mut at: usize) -> usize {
    while at > 0 && (source.is_blank(at - 1) || source.texts[at - 1].starts_with("///")) {
        at -= 1;
    }
    at
}

/// Erases statements by which a proof learns something: `let _ = &PLACE;`, and `let _name = PLACE.len();` and the like.
pub fn erase_looks(source: &mut Tokens) -> Result<()> {
    for at in source.code() {
        if !source.is_word(at, "let") {
            continue;
        }
        let name = source.next(at);
        let equals = source.next(name);
        if !source.text(name).starts_with('_') || source.text(equals) != "=" {
            continue;
        }
        let end = source.find(at, &[";"])?;
        let text = source.joined(source.next(equals), source.previous(end));
        if plan::is_look(&text) {
            source.count("statement that a proof looks at");
            source.drop(comment_start(source, at), end);
            let place = text.strip_prefix('&').unwrap_or(&text);
            erase_borrow(source, at, place.split('.').next().unwrap_or(place));
        }
    }
    Ok(())
}

/// Where the comment on a statement begins, or the statement where it has none.
fn comment_start(source: &Tokens, mut at: usize) -> usize {
    let mut start = at;
    while at > 0 && (source.is_blank(at - 1) || source.texts[at - 1].starts_with("// ")) {
        at -= 1;
        // a comment that stands after code on its line is on that code
        if source.kinds[at] == Some(Kind::Comment) && source.text(at.wrapping_sub(1)).contains('\n')
        {
            start = at;
        }
    }
    start
}

/// Erases the statement `let NAME = &PLACE;` before a place, where nothing in the rest of its block names it.
fn erase_borrow(source: &mut Tokens, at: usize, name: &str) {
    let semicolon = source.previous(at);
    let mut start = semicolon;
    while start != NOWHERE && !["let", "{", "}"].contains(&source.text(start)) {
        start = source.previous(start);
    }
    if start == NOWHERE
        || !source
            .joined(start, semicolon)
            .starts_with(&format!("let{name}=&self."))
    {
        return;
    }
    let (mut depth, mut place) = (0, source.next(semicolon));
    while place < source.len() && depth >= 0 {
        depth += i32::from(source.text(place) == "{") - i32::from(source.text(place) == "}");
        if source.is_word(place, name) && source.text(source.previous(place)) != "." {
            return;
        }
        place = source.next(place);
    }
    source.drop(start, semicolon);
}
