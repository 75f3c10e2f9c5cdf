//! Writes the names of a source as Rust has them: crates as modules, the toolchain's libraries as the shim's, macros, and `main`.

use super::plan::{self, Place};
use super::tokens::{Kind, NOWHERE, Result, Tokens};
use std::collections::{BTreeMap, BTreeSet, HashMap, HashSet};

const SHIM: &str = "crate::std_shim";
/// What declares a name, of a macro, a lifetime or a value no more than others.
const DECLARE: &[&str] = &[
    "fn", "struct", "enum", "trait", "type", "static", "mod", "const",
];
const ITEMS: &[&str] = &[
    "fn", "struct", "enum", "const", "trait", "impl", "type", "static", "mod",
];

/// Takes names out of `use` that only contracts cited: they stand once in what is left, and stood in what was erased.
///
/// `kept` are names of traits: their methods are called by other names.
pub fn erase_unused_imports(source: &mut Tokens, kept: &BTreeSet<String>) -> Result<()> {
    let mut named: HashMap<String, usize> = HashMap::new();
    for at in source.code() {
        *named.entry(source.texts[at].to_string()).or_default() += 1;
    }
    let is_for_contracts = |source: &Tokens, at: usize| {
        let name = source.text(at);
        named.get(name) == Some(&1) && source.erased.contains(name) && !kept.contains(name)
    };
    for start in source.code() {
        if !source.is_word(start, "use") || source.is_word(source.previous(start), "pub") {
            continue;
        }
        let of = source.text(source.next(start));
        if !["crate", "super", "self"].contains(&of) && plan::place_of(of).is_none() {
            continue;
        }
        let end = source.find(start, &[";"])?;
        if is_for_contracts(source, source.previous(end)) {
            source.count("name imported for contracts");
            source.drop(start, end);
            continue;
        }
        for at in start..end {
            let (before, after) = (source.previous(at), source.next(at));
            let listed = ["{", ","].contains(&source.text(before))
                && [",", "}"].contains(&source.text(after));
            if listed && is_for_contracts(source, at) {
                source.count("name imported for contracts");
                drop_from_list(source, at, before, after);
            }
        }
    }
    Ok(())
}

fn drop_from_list(source: &mut Tokens, at: usize, before: usize, after: usize) {
    if source.text(after) == "," {
        source.drop(at, after);
    } else if source.text(before) == "," {
        source.drop(before, at);
    } else {
        source.drop(at, at);
    }
}

/// Whether no item is left but imports.
pub fn is_empty(source: &Tokens) -> bool {
    !source.code().into_iter().any(|at| {
        let exported = source.is_word(at, "pub") && source.is_word(source.next(at), "use");
        exported || source.kinds[at] == Some(Kind::Word) && ITEMS.contains(&source.text(at))
    })
}

/// Takes out the `mod` lines of files that came to be empty, and imports of laws from them.
pub fn erase_modules(
    source: &mut Tokens,
    empty: &BTreeSet<String>,
    laws: &BTreeSet<String>,
) -> Result<()> {
    for at in source.code() {
        let name = source.next(at);
        if !empty.contains(source.text(name)) {
            continue;
        }
        if source.is_word(at, "mod") {
            source.drop(source.item_start(at), source.next(name));
        } else if source.is_word(at, "use") {
            let end = source.find(at, &[";"])?;
            if !laws.contains(source.text(source.previous(end))) {
                return source.fail(at, "a use of a file of laws that is not of one law");
            }
            source.drop(source.item_start(at), end);
        }
    }
    Ok(())
}

/// The traits that each type of a crate has, by `derive` or by an `impl`, but for the arguments of both.
pub type Traits = HashMap<String, HashSet<String>>;

/// Adds those of a source.
pub fn add_traits(source: &Tokens, traits: &mut Traits) -> Result<()> {
    for at in source.code() {
        if source.is_word(at, "derive") {
            let keyword = source.find(at, &["struct", "enum"])?;
            let opening = source.next(at);
            let listed = source.joined(
                source.next(opening),
                source.previous(source.close(opening)?),
            );
            let found = traits
                .entry(source.text(source.next(keyword)).to_string())
                .or_default();
            found.extend(listed.split(',').map(str::to_string));
        } else if source.is_word(at, "impl") {
            let (of, name) = head_of(source, at)?;
            traits.entry(name).or_default().insert(of);
        }
    }
    Ok(())
}

/// The trait, or none, and the type of an `impl`.
fn head_of(source: &Tokens, at: usize) -> Result<(String, String)> {
    let mut at = source.next(at);
    if source.text(at) == "<" {
        at = source.next(close_angle(source, at)?);
    }
    let (first, at) = last_name(source, at)?;
    if !source.is_word(at, "for") {
        return Ok((String::new(), first));
    }
    Ok((first, last_name(source, source.next(at))?.0))
}

/// The last name of a path, and what stands after it and its arguments.
fn last_name(source: &Tokens, mut at: usize) -> Result<(String, usize)> {
    let mut name = "";
    while !["for", "{", "where", ""].contains(&source.text(at)) {
        if source.kinds[at] == Some(Kind::Word) {
            name = source.text(at);
        }
        at = source.next(if source.text(at) == "<" {
            close_angle(source, at)?
        } else {
            at
        });
    }
    Ok((name.to_string(), at))
}

/// The bracket `>` that closes the `<` at a place; that of `->` is none.
fn close_angle(source: &Tokens, start: usize) -> Result<usize> {
    let (mut at, mut depth) = (start, 0);
    while at < source.len() {
        match source.text(at) {
            "<" => depth += 1,
            ">" if source.text(at.wrapping_sub(1)) != "-" => depth -= 1,
            _ => {}
        }
        if depth == 0 {
            return Ok(at);
        }
        at = source.next(at);
    }
    source.fail(at, "a bracket that is not closed")
}

/// Refuses an item or an import of a name of Rust's prelude, and a method that one of its traits may have by value.
pub fn refuse_shadows(source: &Tokens, traits: &Traits) -> Result<()> {
    for at in source.code() {
        if source.kinds[at] != Some(Kind::Word) {
            continue;
        }
        let name = source.text(source.next(at));
        match source.text(at) {
            "use" => refuse_import(source, at)?,
            "impl" => refuse_methods(source, at, traits)?,
            word if DECLARE.contains(&word) && plan::is_of_prelude(name) => {
                return other_of_prelude(source, at, name);
            }
            _ => {}
        }
    }
    Ok(())
}

fn other_of_prelude(source: &Tokens, at: usize, name: &str) -> Result<()> {
    source.fail(
        at,
        format_args!("`{name}`, a name of Rust's prelude, for something else"),
    )
}

fn refuse_import(source: &Tokens, at: usize) -> Result<()> {
    let (end, of_std) = (
        source.find(at, &[";"])?,
        source.text(source.next(at)) == "std",
    );
    for place in at..end {
        if source.is_mark(place, "*") {
            return source.fail(at, "a use of all names of a module");
        }
        // the name under which something is imported: after `as`, or the last one of a path
        let renamed = source.is_word(source.previous(place), "as");
        let ends = [",", ";", "}"].contains(&source.text(source.next(place)));
        let last = source.kinds[place] == Some(Kind::Word) && ends && !of_std;
        if (renamed || last) && plan::is_of_prelude(source.text(place)) {
            return other_of_prelude(source, at, source.text(place));
        }
    }
    Ok(())
}

fn refuse_methods(source: &Tokens, at: usize, traits: &Traits) -> Result<()> {
    let (of, name) = head_of(source, at)?;
    let is_of_prelude = plan::PRELUDE_METHODS.iter().any(|(other, _)| *other == of);
    if is_of_prelude || source.text(source.find(at, &["{", ";"])?) == ";" {
        return Ok(());
    }
    let opening = source.find(at, &["{"])?;
    for place in opening..source.close(opening)? {
        if !source.is_word(place, "fn") {
            continue;
        }
        let method = source.text(source.next(place));
        let taken = source.find(place, &["("])?;
        let taken = source.joined(taken, source.close(taken)?);
        if !["(self", "(&", "(mutself"]
            .iter()
            .any(|front| taken.starts_with(front))
        {
            continue;
        }
        for (other, methods) in plan::PRELUDE_METHODS {
            let has = plan::FOR_ALL.contains(other)
                || traits
                    .get(&name)
                    .is_some_and(|traits| traits.contains(*other));
            if has && methods.contains(&method) {
                return source.fail(
                    place,
                    format_args!("a method `{method}`, which in Rust may be that of {other}"),
                );
            }
        }
    }
    Ok(())
}

/// The names of one source of a crate, rewritten.
pub struct Names<'t, 's> {
    source: &'t mut Tokens<'s>,
    place: Place,
    own: String,
    /// Those that the crate's line in crates.txt names.
    libraries: &'t HashSet<String>,
    known: HashSet<String>,
    uses: BTreeMap<&'static str, BTreeSet<String>>,
}

impl<'t, 's> Names<'t, 's> {
    pub fn new(
        source: &'t mut Tokens<'s>,
        place: Place,
        libraries: &'t HashSet<String>,
    ) -> Result<Self> {
        let mut known: HashSet<String> = HashSet::new();
        for at in source.code() {
            if ["mod", "enum"].contains(&source.text(at)) {
                known.insert(source.text(source.next(at)).to_string());
            } else if source.is_word(at, "use") {
                // an enum that is imported, whose variants are imported too
                for place in at..source.find(at, &[";"])? {
                    let ends = [",", ";", "}"].contains(&source.text(source.next(place)));
                    if ends && ["::", "{", ","].contains(&source.text(source.previous(place))) {
                        known.insert(source.text(place).to_string());
                    }
                }
            }
        }
        Ok(Names {
            source,
            place,
            own: place.own(),
            libraries,
            known,
            uses: BTreeMap::new(),
        })
    }

    fn is_known(&self, name: &str) -> bool {
        ["std", "crate", "super", "self"].contains(&name)
            || plan::SHIMMED.contains(&name)
            || plan::place_of(name).is_some()
            || self.known.contains(name)
    }

    /// Rewrites all names, and answers the `use` lines for what Rattle's prelude has.
    pub fn rewrite(mut self) -> Result<Vec<String>> {
        for at in self.source.code() {
            if self.source.kinds[at] == Some(Kind::Word) {
                self.rewrite_word(at)?;
            }
        }
        let line = |(module, names): (&&str, &BTreeSet<String>)| {
            let listed = names
                .iter()
                .map(String::as_str)
                .collect::<Vec<_>>()
                .join(", ");
            if names.len() > 1 {
                format!("use {SHIM}::{module}::{{{listed}}};")
            } else {
                format!("use {SHIM}::{module}::{listed};")
            }
        };
        Ok(self.uses.iter().map(line).collect())
    }

    fn rewrite_word(&mut self, at: usize) -> Result<()> {
        let source = &*self.source;
        let (word, before, after) = (
            source.text(at).to_string(),
            source.previous(at),
            source.next(at),
        );
        let head = source.text(after) == "::" && source.text(before) != "::";
        let whole = source.text(before) == "use" && source.text(after) == ";";
        let is_macro = source.text(at + 1) == "!"
            && ["(", "[", "{"].contains(&source.text(source.next(at + 1)));
        let place = plan::place_of(&word);
        if word == "crate"
            && source.text(before) == "("
            && source.is_word(source.previous(before), "pub")
        {
            self.source.set(at, format!("in {}", self.own));
        } else if word == "crate" && head {
            self.source.set(at, self.own.as_str());
        } else if let Some(place) = place.filter(|_| head || whole) {
            self.check_library(at)?;
            self.source.set(at, place.own());
        } else if head && plan::SHIMMED.contains(&word.as_str()) {
            self.check_library(at)?;
            self.source.set(at, format!("{SHIM}::{word}"));
        } else if word == "std" && head {
            self.rewrite_std(at)?;
        } else if word == "use"
            && source.text(before) != "pub"
            && !self.is_known(source.text(after))
        {
            return source.fail(at, format_args!("a use of {:?}", source.text(after)));
        } else if is_macro {
            self.rewrite_macro(at)?;
        } else if word == "str" && head && source.is_word(source.next(after), "from_utf8") {
            // by the module of that name: the method of the type came with Rust 1.87
            self.source.set(at, "core::str");
        } else if word == "str" && head && source.is_word(source.next(after), "text_of") {
            self.source.set(at, format!("{SHIM}::string"));
        } else if let Some(method) = plan::method_of(&word)
            .filter(|_| source.text(before) == "." && source.text(after) == "(")
        {
            self.rewrite_method(at, after, method)?;
        } else if source.is_word(before, "fn") && (word == "main" || is_test(source, before)) {
            self.rewrite_main(at)?;
        }
        self.note_prelude(at, is_macro);
        Ok(())
    }

    fn note_prelude(&mut self, at: usize, is_macro: bool) {
        let (word, before) = (
            self.source.text(at),
            self.source.text(self.source.previous(at)),
        );
        let Some(module) = plan::prelude(word) else {
            return;
        };
        if ![".", "::"].contains(&before) && (!["vec", "format"].contains(&word) || is_macro) {
            self.uses
                .entry(module)
                .or_default()
                .insert(word.to_string());
        }
    }

    fn check_library(&self, at: usize) -> Result<()> {
        let name = self.source.text(at);
        if self.libraries.contains(name) {
            return Ok(());
        }
        self.source.fail(
            at,
            format_args!(
                "{name} is not in the line of {} in crates.txt",
                self.place.name
            ),
        )
    }

    fn rewrite_std(&mut self, at: usize) -> Result<()> {
        let source = &mut *self.source;
        let part = source.next(source.next(at));
        let mut name = source.text(part).to_string();
        if name == "sync" {
            name = source.joined(part, source.next(source.next(part)));
        }
        if name == "marker" && source.text(source.next(part)) == ";" {
            source.set(at, "core");
        } else if name == "marker" {
            let (start, end) = (source.previous(at), source.find(part, &[";"])?);
            if source.joined(start, end) != "usestd::marker::Model;" {
                return source.fail(at, "a use of std::marker that is not of Model");
            }
            source.count("`use` of `Model`");
            source.drop(start, end);
        } else if plan::STD_SHIMMED.contains(&name.as_str()) {
            source.set(at, SHIM);
            source.count("module of `std`, of the shim");
        } else if plan::STD_SAME.contains(&name.as_str()) {
            source.set(at, "core");
        } else {
            return source.fail(at, format_args!("std::{name} is not known"));
        }
        Ok(())
    }

    fn rewrite_macro(&mut self, at: usize) -> Result<()> {
        let source = &mut *self.source;
        let word = source.text(at).to_string();
        match plan::macro_of(&word) {
            None => return source.fail(at, format_args!("a macro that is not known: {word}!")),
            Some(Some(other)) => {
                source.count(format!("macro `{word}!`"));
                source.set(at, other);
            }
            Some(None) if word.starts_with("assert") => drop_handle(source, at)?,
            Some(None) => {}
        }
        Ok(())
    }

    /// A method for which one of the shim stands, under a name that Rust hasn't.
    fn rewrite_method(&mut self, at: usize, opening: usize, method: plan::Method) -> Result<()> {
        let source = &mut *self.source;
        let (mut depth, mut commas) = (0, 0);
        for place in opening + 1..source.close(opening)? {
            match source.text(place) {
                "(" | "[" | "{" => depth += 1,
                ")" | "]" | "}" => depth -= 1,
                "," if depth == 0 => commas += 1,
                _ => {}
            }
        }
        if commas > 0 || !method.takes_allocator {
            source.count("method, of the shim");
            source.set(at, method.name);
            self.uses
                .entry(method.module)
                .or_default()
                .insert(method.of.to_string());
        }
        Ok(())
    }

    /// A `main` or a test, which is given the runtime: in Rust it makes it.
    fn rewrite_main(&mut self, at: usize) -> Result<()> {
        let source = &mut *self.source;
        let opening = source.next(at);
        let end = source.close(opening)?;
        if source.joined(source.next(opening), source.previous(end)) != "rt:HostRuntime" {
            return source.fail(at, "a main or a test that does not take the runtime alone");
        }
        for place in opening + 1..end {
            source.clear(place);
        }
        let body = source.find(end, &["{"])?;
        source
            .added
            .insert(body, "\n    let rt = HostRuntime;".to_string());
        self.uses
            .entry("rt")
            .or_default()
            .insert("HostRuntime".to_string());
        source.count("function that is given the runtime");
        let after = source.next(end);
        let told = if after == body {
            String::new()
        } else {
            source.joined(after, source.previous(body))
        };
        if source.is_word(at, "main") {
            let keyword = source.previous(at);
            source.set(keyword, "pub fn");
        } else if told == "->Result<(),Fail>" {
            source.drop(after, source.previous(body));
            source.add(
                body,
                format!("\n    {SHIM}::test::passed((|| -> Result<(), Fail> {{"),
            );
            let last = source.previous(source.close(body)?);
            source.added.insert(last, "\n    })());".to_string());
        } else if !told.is_empty() {
            return source.fail(at, "a test with a result that is not known");
        }
        Ok(())
    }
}

/// Drops the runtime that an assertion is given first, as in `assert!(rt; ..)`.
fn drop_handle(source: &mut Tokens, at: usize) -> Result<()> {
    let first = source.next(source.next(source.next(at)));
    let end = source.find(first, &[";", "(", ","])?;
    if !["rt;", "&rt;"].contains(&source.joined(first, end).as_str()) {
        return source.fail(at, "an assertion that is not given `rt` first");
    }
    source.count("assertion with a handle");
    source.drop(first, end);
    Ok(())
}

fn is_test(source: &Tokens, at: usize) -> bool {
    let closing = source.previous(at);
    closing != NOWHERE
        && source.text(closing) == "]"
        && source.is_word(source.previous(closing), "test")
}
