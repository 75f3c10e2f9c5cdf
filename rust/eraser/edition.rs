//! Makes the modules of the edition: the sources of each crate, erased and rewritten.

use super::contracts;
use super::examples::Examples;
use super::exports;
use super::names::{self, Names, Traits};
use super::plan::{self, PLACES, Part, Place};
use super::remarks;
use super::tokens::{Counts, Kind, Result, Tokens, Unknown};
use std::collections::{BTreeMap, BTreeSet, HashMap, HashSet};
use std::fs;
use std::path::Path;

/// What is made, by the path.
pub type Files = BTreeMap<String, String>;
/// What each crate's line in crates.txt names.
pub type Libraries = HashMap<String, HashSet<String>>;

pub fn read(path: &Path) -> Result<String> {
    fs::read_to_string(path).map_err(|fault| Unknown(format!("{}:1: {fault}", path.display())))
}

/// What each crate's line in crates.txt names. A crate of the edition that stands on one without a place ends it.
pub fn libraries_of(text: &str) -> Result<Libraries> {
    let mut found = Libraries::new();
    for (at, line) in text.lines().enumerate() {
        if line.is_empty() || line.starts_with('#') {
            continue;
        }
        let (name, rest) = line.split_once(':').unwrap_or((line, ""));
        let name = name.split_whitespace().next().unwrap_or("");
        let mut lost: Vec<&str> = rest
            .split_whitespace()
            .filter(|library| library.starts_with("pl_") && plan::place_of(library).is_none())
            .collect();
        lost.sort();
        if let (Some(_), Some(lost)) = (plan::place_of(name), lost.first()) {
            return Err(Unknown(format!(
                "crates.txt:{}: {name} stands on {lost}, which has no place in the edition",
                at + 1
            )));
        }
        found.insert(
            name.to_string(),
            rest.split_whitespace().map(str::to_string).collect(),
        );
    }
    Ok(found)
}

/// The crates that no table names, and of which the edition has nothing.
pub fn without_place(libraries: &Libraries) -> Vec<&str> {
    let mut found: Vec<&str> = libraries
        .keys()
        .map(String::as_str)
        .filter(|name| plan::place_of(name).is_none() && !plan::LEFT_OUT.contains(name))
        .collect();
    found.sort();
    found
}

/// Takes the contracts out of a source, and answers the names of its laws, which went too.
pub fn erase(source: &mut Tokens, name: &str) -> Result<BTreeSet<String>> {
    contracts::erase_clauses(source, name)?;
    contracts::erase_attributes(source)?;
    contracts::check_unchecked(source)?;
    contracts::erase_derived_imports(source)?;
    contracts::erase_bounds(source)?;
    contracts::erase_models(source)?;
    let laws = contracts::erase_laws(source)?;
    remarks::erase_remarks(source);
    contracts::erase_looks(source)?;
    Ok(laws)
}

/// The text of a source in the edition. `kept` are names of traits.
pub fn write_source(
    source: &mut Tokens,
    place: Place,
    libraries: &HashSet<String>,
    kept: &BTreeSet<String>,
) -> Result<String> {
    names::erase_unused_imports(source, kept)?;
    let uses = Names::new(source, place, libraries)?.rewrite()?;
    if place.part == Part::Exports {
        exports::write_exports(source)?;
    }
    for at in source.code() {
        let text = source.text(at);
        let foreign = !text.is_ascii() && source.kinds[at] != Some(Kind::Text);
        if foreign || ["ghost", "requires", "ensures"].contains(&text) {
            return source.fail(at, format_args!("{text:?} is left"));
        }
    }
    Ok(tidied(&with_uses(
        &format!("{}\n", source.written().trim_matches('\n')),
        uses,
    )))
}

/// The text with `use` lines before its first one, or after the comment on the whole file.
fn with_uses(text: &str, uses: Vec<String>) -> String {
    if uses.is_empty() {
        return text.to_string();
    }
    let mut lines: Vec<&str> = text.split('\n').collect();
    let mut added: Vec<&str> = uses.iter().map(String::as_str).collect();
    let at = lines
        .iter()
        .position(|line| line.starts_with("use "))
        .unwrap_or_else(|| {
            added.insert(0, "");
            lines
                .iter()
                .position(|line| !line.starts_with("//"))
                .unwrap_or(lines.len())
        });
    lines.splice(at..at, added);
    lines.join("\n")
}

/// The text without the blank lines and breaks that clauses left.
fn tidied(text: &str) -> String {
    let mut joined = String::with_capacity(text.len());
    let mut rest = text;
    // a bracket that stands alone after a head, on the head's line
    while let Some(at) = rest.find('\n') {
        let (head, after) = rest.split_at(at);
        joined.push_str(head);
        let bracket = after
            .trim_start()
            .strip_prefix('{')
            .filter(|next| next.starts_with(['\n', '}']));
        let of_head = joined
            .ends_with(|last: char| !last.is_whitespace() && ![';', '{', '}', ','].contains(&last));
        rest = match bracket {
            Some(next) if of_head => {
                joined.push_str(" {");
                next
            }
            _ => {
                joined.push('\n');
                &after[1..]
            }
        };
    }
    joined.push_str(rest);
    let mut made = String::with_capacity(joined.len());
    let mut rest = joined.as_str();
    while let Some(at) = rest.find('\n') {
        let (head, after) = rest.split_at(at);
        made.push_str(head);
        rest = after.trim_start_matches('\n');
        let feeds = after.len() - rest.len();
        // none after a bracket before an item, and else one blank line at most
        let item = rest.trim_start_matches(' ');
        let first = made.ends_with('{')
            && ["///", "fn", "pub"]
                .iter()
                .any(|front| item.starts_with(front));
        made.push_str(&"\n\n"[..if first { 1 } else { feeds.min(2) }]);
    }
    made.push_str(rest);
    made
}

/// The names of the traits that a source declares.
fn traits_in(text: &str) -> impl Iterator<Item = String> + '_ {
    text.lines().filter_map(|line| {
        let line = line.trim_start();
        let name = line
            .strip_prefix("pub ")
            .unwrap_or(line)
            .strip_prefix("trait ")?;
        let end = name
            .find(|letter| !super::tokens::is_word_letter(letter))
            .unwrap_or(name.len());
        (end > 0).then(|| name[..end].to_string())
    })
}

/// The sources in a folder and below it, by their paths in it.
pub fn sources_in(folder: &Path) -> Result<BTreeMap<String, String>> {
    let mut found = BTreeMap::new();
    add_sources(folder, "", &mut found)?;
    Ok(found)
}

fn add_sources(folder: &Path, prefix: &str, found: &mut BTreeMap<String, String>) -> Result<()> {
    let fault = |fault| Unknown(format!("{}:1: {fault}", folder.display()));
    for entry in fs::read_dir(folder).map_err(fault)? {
        let path = entry.map_err(fault)?.path();
        let name = path.file_name().unwrap_or_default().to_string_lossy();
        let inner = format!("{prefix}{name}");
        if path.is_dir() {
            add_sources(&path, &format!("{inner}/"), found)?;
        } else if name.ends_with(".rt") {
            found.insert(inner, read(&path)?);
        }
    }
    Ok(())
}

/// The edition as it is made, crate by crate.
pub struct Edition<'r> {
    repository: &'r Path,
    libraries: Libraries,
    examples: Examples,
    pub files: Files,
    pub counts: Counts,
}

/// The crates of the edition that are there. A package may lack those of the tests.
pub fn crates_in(repository: &Path) -> impl Iterator<Item = Place> {
    PLACES.iter().copied().filter(|place| {
        repository
            .join("crates")
            .join(place.name)
            .join("src")
            .is_dir()
    })
}

/// Makes the modules of all crates that are there: `parts/..` and `checks/..`.
pub fn make(repository: &Path) -> Result<(Files, Counts)> {
    let libraries = libraries_of(&read(&repository.join("crates.txt"))?)?;
    let examples = Examples::new(&read(&repository.join("rust/examples.md"))?)?;
    let mut edition = Edition {
        repository,
        libraries,
        examples,
        files: Files::new(),
        counts: Counts::new(),
    };
    let there: Vec<Place> = crates_in(repository)
        .filter(|place| edition.libraries.contains_key(place.name))
        .collect();
    let mut sources = Vec::new();
    for &place in &there {
        sources.push((
            place,
            sources_in(&repository.join("crates").join(place.name).join("src"))?,
        ));
    }
    let kept: BTreeSet<String> = sources
        .iter()
        .flat_map(|(_, files)| files.values())
        .flat_map(|text| traits_in(text))
        .collect();
    for (place, files) in &sources {
        edition.make_crate(*place, files, &kept)?;
    }
    edition.examples.check()?;
    edition.add_roots(&there);
    Ok((edition.files, edition.counts))
}

impl Edition<'_> {
    /// Makes the files of a crate.
    fn make_crate(
        &mut self,
        place: Place,
        files: &BTreeMap<String, String>,
        kept: &BTreeSet<String>,
    ) -> Result<()> {
        let name = place.name;
        let (mut sources, mut laws, mut empty, mut traits) =
            (Vec::new(), BTreeSet::new(), BTreeSet::new(), Traits::new());
        for (inner, text) in files {
            let path = format!("crates/{name}/src/{inner}");
            if let Some((_, replaced)) = plan::REPLACED
                .iter()
                .find(|(replaced, _)| *replaced == path)
            {
                let text = read(&self.repository.join("rust/replaced").join(replaced))?;
                self.files.insert(format!("{}/mod.rs", place.folder), text);
                continue;
            }
            let mut source = Tokens::new(&path, text)?;
            names::add_traits(&source, &mut traits)?;
            let found = erase(&mut source, name)?;
            if !found.is_empty() && names::is_empty(&source) {
                let stem = inner
                    .rsplit('/')
                    .next()
                    .unwrap_or(inner)
                    .trim_end_matches(".rt");
                empty.insert(stem.to_string());
                self.add_counts(&source);
            } else {
                sources.push((inner, source));
            }
            laws.extend(found);
        }
        for (inner, mut source) in sources {
            names::refuse_shadows(&source, &traits)?;
            self.examples.add(&mut source, name)?;
            names::erase_modules(&mut source, &empty, &laws)?;
            let text = write_source(&mut source, place, &self.libraries[name], kept)?;
            self.add_counts(&source);
            let stem = inner.trim_end_matches(".rt");
            let stem = match stem.rsplit('/').next() {
                Some("lib" | "main") => format!(
                    "{}mod",
                    &stem[..stem.len() - stem.rsplit('/').next().map_or(0, str::len)]
                ),
                _ => stem.to_string(),
            };
            self.files
                .insert(format!("{}/{stem}.rs", place.folder), text);
        }
        Ok(())
    }

    fn add_counts(&mut self, source: &Tokens) {
        for (what, number) in &source.counts {
            *self.counts.entry(what.clone()).or_default() += number;
        }
    }

    /// Adds the modules of modules, each with its gate.
    fn add_roots(&mut self, there: &[Place]) {
        let mut parts =
            "//! The parts of the library, made from the project's sources.\n\n".to_string();
        let mut checks = "//! The project's tests, made from their sources.\n\n".to_string();
        for place in there {
            let (root, gate) = match place.part {
                Part::Library => (&mut parts, ""),
                Part::Script => (&mut parts, "#[cfg(feature = \"script\")]\n"),
                Part::Exports => (
                    &mut parts,
                    "#[allow(unsafe_code)]\n#[cfg(feature = \"c\")]\n",
                ),
                Part::Checks => (&mut checks, ""),
            };
            root.push_str(&format!("{gate}pub mod {};\n", place.module()));
        }
        self.files.insert("parts/mod.rs".to_string(), parts);
        self.files.insert("checks/mod.rs".to_string(), checks);
    }
}

/// Writes the files that differ from those of a folder, and takes away others of its `folders`, so that Cargo builds no more than it has to.
pub fn write(files: &Files, folder: &Path, folders: &[&str]) -> std::io::Result<()> {
    for (inner, text) in files {
        let path = folder.join(inner);
        if fs::read(&path).ok().as_deref() != Some(text.as_bytes()) {
            fs::create_dir_all(path.parent().unwrap_or(folder))?;
            fs::write(&path, text)?;
        }
    }
    folders
        .iter()
        .try_for_each(|own| remove_others(files, folder, own))
}

fn remove_others(files: &Files, folder: &Path, own: &str) -> std::io::Result<()> {
    for entry in fs::read_dir(folder.join(own))? {
        let entry = entry?;
        let inner = format!("{own}/{}", entry.file_name().to_string_lossy());
        if entry.file_type()?.is_dir() {
            remove_others(files, folder, &inner)?;
        } else if !files.contains_key(&inner) {
            fs::remove_file(entry.path())?;
        }
    }
    Ok(())
}
