//! What the edition is made of, and every name that the eraser knows. What stands in none of these tables is refused.

use super::tokens::is_word_letter;

/// Of what a crate is.
#[derive(Clone, Copy, Debug, PartialEq, Eq)]
pub enum Part {
    /// The library.
    Library,
    /// Scripts, and the program that runs them.
    Script,
    /// The library for C.
    Exports,
    /// What tests share, and the tests.
    Checks,
}

/// Where a crate goes.
#[derive(Clone, Copy, Debug)]
pub struct Place {
    pub name: &'static str,
    /// The folder of its files.
    pub folder: &'static str,
    pub part: Part,
}

impl Place {
    const fn new(part: Part, name: &'static str, folder: &'static str) -> Place {
        Place { name, folder, part }
    }

    /// Its path, as the module that it becomes.
    pub fn own(&self) -> String {
        format!("crate::{}", self.folder.replace('/', "::"))
    }

    /// The name of that module.
    pub fn module(&self) -> &'static str {
        self.folder.rsplit('/').next().unwrap_or(self.folder)
    }
}

/// The crates, in the order of their modules. A place may be that of a crate that isn't there, as a crate may come or go with another change.
pub const PLACES: &[Place] = &[
    Place::new(Part::Library, "pl_budget", "parts/budget"),
    Place::new(Part::Library, "pl_model", "parts/model"),
    Place::new(Part::Library, "pl_segments", "parts/segments"),
    Place::new(Part::Library, "pl_ring", "parts/ring"),
    Place::new(Part::Library, "pl_packets", "parts/packets"),
    Place::new(Part::Library, "pl_file", "parts/file"),
    Place::new(Part::Library, "pl_numbered", "parts/numbered"),
    Place::new(Part::Library, "pl_parked", "parts/parked"),
    Place::new(Part::Library, "pl_least", "parts/least"),
    Place::new(Part::Library, "pl_waiters", "parts/waiters"),
    Place::new(Part::Library, "pl_masks", "parts/masks"),
    Place::new(Part::Library, "pl_desc", "parts/desc"),
    Place::new(Part::Library, "pl_nodes", "parts/nodes"),
    Place::new(Part::Library, "pl_decisions", "parts/decisions"),
    Place::new(Part::Library, "pl_state", "parts/state"),
    Place::new(Part::Library, "pl_descriptors", "parts/descriptors"),
    Place::new(Part::Library, "pl_naming", "parts/naming"),
    Place::new(Part::Library, "pl_transfers", "parts/transfers"),
    Place::new(Part::Library, "pl_splices", "parts/splices"),
    Place::new(Part::Library, "pl_polls", "parts/polls"),
    Place::new(Part::Library, "pl_kernel", "parts/kernel"),
    Place::new(Part::Library, "pl_numbers", "parts/numbers"),
    Place::new(Part::Library, "pl_words", "parts/words"),
    Place::new(Part::Library, "pl_lines", "parts/lines"),
    Place::new(Part::Library, "pl_recording", "parts/recording"),
    Place::new(Part::Library, "pl_recorder", "parts/recorder"),
    Place::new(Part::Script, "pl_script", "parts/script"),
    Place::new(Part::Script, "pl_run", "parts/run"),
    Place::new(Part::Script, "piperun", "parts/piperun"),
    Place::new(Part::Exports, "bindingclay", "parts/c"),
    Place::new(Part::Checks, "pl_refusing", "checks/refusing"),
    Place::new(Part::Checks, "pl_testing", "checks/testing"),
    Place::new(Part::Checks, "pl_layer_checks", "checks/layer"),
    Place::new(Part::Checks, "pl_segment_checks", "checks/segment"),
    Place::new(Part::Checks, "pl_packet_checks", "checks/packet"),
    Place::new(Part::Checks, "pl_kernel_checks", "checks/kernel"),
    Place::new(Part::Checks, "pl_memory_checks", "checks/memory"),
    Place::new(Part::Checks, "pl_script_checks", "checks/script"),
];

/// The place of a crate.
pub fn place_of(name: &str) -> Option<Place> {
    if !name.starts_with("pl_") && name != "piperun" && name != "bindingclay" {
        return None;
    }
    PLACES.iter().find(|place| place.name == name).copied()
}

/// Crates that the edition leaves out: the threads, whose promise is a history that a proof speaks of, and the examples, which a test of the
/// package's own reads.
pub const LEFT_OUT: &[&str] = &[
    "pl_history",
    "pl_locked",
    "pl_locked_checks",
    "pl_talk",
    "pl_bench",
    "pl_examples",
];

/// Files of which the edition has a form of its own, in `rust/replaced`: allocators, which in Rust only permit.
pub const REPLACED: &[(&str, &str)] = &[
    ("crates/pl_refusing/src/lib.rt", "pl_refusing.rs"),
    ("crates/pl_budget/src/lib.rt", "pl_budget.rs"),
];

/// A method of a trait of the shim, which stands for one of another name.
#[derive(Clone, Copy, Debug)]
pub struct Method {
    pub name: &'static str,
    /// The trait, and the module of the shim that has it.
    pub of: &'static str,
    pub module: &'static str,
    /// Whether it stands only for a call of several arguments: Rust has the method too, without the allocator that comes first there.
    pub takes_allocator: bool,
}

/// What stands for a method that Rust has without an allocator, or that Rust 1.85 lacks.
pub fn method_of(name: &str) -> Option<Method> {
    Some(match name {
        "repeat" => Method {
            name: "repeat_in",
            of: "RepeatIn",
            module: "string",
            takes_allocator: true,
        },
        "cast_unsigned" => Method {
            name: "unsigned",
            of: "Unsigned",
            module: "numbers",
            takes_allocator: false,
        },
        _ => return None,
    })
}

/// The libraries of the toolchain, which the shim gives by their names.
pub const SHIMMED: &[&str] = &[
    "bitflags",
    "circular_buffer",
    "clap",
    "hex",
    "itoa",
    "memchr",
    "slab",
];
/// Modules of std that the shim gives.
pub const STD_SHIMMED: &[&str] = &["alloc", "collections", "env", "fs", "io", "process", "test"];
/// Modules of std that are the same in Rust.
pub const STD_SAME: &[&str] = &["cell", "fmt", "mem", "ptr", "slice", "sync::atomic"];

/// The module of the shim that has a name which Rattle's prelude has and Rust's lacks, or has otherwise.
pub fn prelude(name: &str) -> Option<&'static str> {
    Some(match name {
        "Vec" | "vec" => "vec",
        "String" | "format" => "string",
        "Box" => "boxed",
        "HostRuntime" | "AllocGlobal" => "rt",
        _ => return None,
    })
}

/// Macros, and what they become where that has another name.
pub fn macro_of(name: &str) -> Option<Option<&'static str>> {
    Some(match name {
        "assert" | "assert_eq" | "assert_ne" | "bitflag_items" | "format" | "format_args"
        | "matches" | "unreachable" | "vec" => None,
        "prove" => Some("debug_assert"),
        _ => return None,
    })
}

pub const DERIVES: &[&str] = &[
    "Clone",
    "Copy",
    "Debug",
    "PartialEq",
    "Eq",
    "PartialOrd",
    "Ord",
];
pub const ATTRIBUTES: &[&str] = &[
    "#[test]",
    "#[cfg(test)]",
    "#[repr(C)]",
    "#[unsafe(no_mangle)]",
    "#[inline(always)]",
    "#[inline(never)]",
];

pub fn is_tactic(attribute: &str) -> bool {
    let inner = attribute.strip_prefix("#!").or(attribute.strip_prefix('#'));
    inner.is_some_and(|inner| inner.starts_with("[tactic(") && inner.ends_with(")]"))
}

fn is_word(text: &str) -> bool {
    !text.is_empty() && text.chars().all(is_word_letter)
}

/// Whether a proof looks at this: a place, or a count of what stands there.
pub fn is_look(text: &str) -> bool {
    if let Some(place) = text.strip_prefix('&') {
        return place.split('.').all(is_word);
    }
    let Some((place, count)) = text
        .strip_suffix("()")
        .and_then(|call| call.rsplit_once('.'))
    else {
        return false;
    };
    ["capacity", "in_use", "len", "room", "slots", "as_str"].contains(&count)
        && place.split('.').all(is_word)
}

/// The text of `#[error(TEXT)]`, in which `{0}` is the only place.
pub fn message_of(attribute: &str) -> Option<&str> {
    let text = attribute.strip_prefix("#[error(")?.strip_suffix(")]")?;
    let inner = text.strip_prefix('"')?.strip_suffix('"')?;
    (!inner.replace("{0}", "").contains(['"', '{', '}'])).then_some(text)
}

/// Values and types of Rust's prelude, and its own. An item of such a name would stand before it, and what the source says would be something
/// else in Rust. A trait of the prelude isn't among them: rustc itself refuses what bounds by another.
pub fn is_of_prelude(name: &str) -> bool {
    #[rustfmt::skip]
    const NAMES: &[&str] = &[
        "Option", "Some", "None", "Result", "Ok", "Err", "Vec", "String", "Box", "drop", "bool", "char", "str", "u8", "u16", "u32", "u64",
        "u128", "usize", "i8", "i16", "i32", "i64", "i128", "isize", "f32", "f64", "core", "std", "alloc",
    ];
    NAMES.contains(&name) || prelude(name).is_some()
}

/// Methods of the traits of Rust's prelude. By value, such a method comes before one of ours that borrows: none may stand for a type that
/// has the trait, but in the `impl` of it.
#[rustfmt::skip]
pub const PRELUDE_METHODS: &[(&str, &[&str])] = &[
    ("PartialEq", &["eq", "ne"]),
    ("PartialOrd", &["partial_cmp", "lt", "le", "gt", "ge"]),
    ("Ord", &["cmp", "max", "min", "clamp"]),
    ("Clone", &["clone", "clone_from"]),
    ("Into", &["into"]),
    ("TryInto", &["try_into"]),
    ("ToString", &["to_string"]),
    ("ToOwned", &["to_owned", "clone_into"]),
    ("AsRef", &["as_ref"]),
    ("AsMut", &["as_mut"]),
    ("IntoIterator", &["into_iter"]),
    ("Iterator", &[
        "next", "size_hint", "count", "last", "nth", "step_by", "chain", "zip", "map", "for_each", "filter", "filter_map", "enumerate",
        "peekable", "skip_while", "take_while", "skip", "take", "scan", "flat_map", "flatten", "fuse", "inspect", "by_ref", "collect",
        "partition", "fold", "reduce", "all", "any", "find", "find_map", "position", "rposition", "max_by_key", "max_by", "min_by_key",
        "min_by", "rev", "unzip", "copied", "cloned", "cycle", "sum", "product",
    ]),
];
/// The traits of these that nearly every type has.
pub const FOR_ALL: &[&str] = &["Clone", "Into", "TryInto", "ToString", "ToOwned"];

/// Whether anybody can call the public functions of a crate in the edition.
pub fn is_exposed(name: &str) -> bool {
    [
        "pl_model",
        "pl_kernel",
        "pl_numbers",
        "pl_script",
        "pl_run",
        "bindingclay",
    ]
    .contains(&name)
}

const AT_THE_DOOR: &str = "kernel/calls.rs or script.rs of the package answers an error";
const SMALL: &str = "{limits.file_max≤most_file_bytes}";

/// The preconditions of those functions that something else keeps: the crate and the function, the clause without white space, and what
/// keeps it.
#[rustfmt::skip]
const GUARDED: &[(&str, &str, &str, &str)] = &[
    ("pl_kernel", "new", SMALL, AT_THE_DOOR),
    ("pl_kernel", "write_from", "{lengthbytes.now≤most_bytes}", AT_THE_DOOR),
    ("pl_kernel", "refusal_of_write", "{count≢0}", "kernel/calls.rs of the package takes a number that isn't 0"),
    ("pl_kernel", "read_into", "{lengthinto.old<2^32}", AT_THE_DOOR),
    ("pl_script", "run_script", SMALL, AT_THE_DOOR),
    ("pl_script", "run_script", "{most_reads≤S.reads_leftreader.old}", "script.rs of the package alone makes the reader"),
    ("pl_script", "run_script_explained", SMALL, "run_from of pl_run and run_script alone call it, which have the same precondition"),
    ("pl_script", "run_script_explained", "{most_reads≤S.reads_leftreader.old}",
        "run_from of pl_run and run_script alone call it, which have the same precondition"),
    ("pl_script", "check_script", SMALL, "nothing but tests calls it, within LIMITS"),
    ("pl_script", "check_script", "{most_reads≤S.reads_leftreader.old}", "nothing but tests calls it"),
    ("pl_script", "check_script_explained", SMALL,
        "check_from of pl_run calls it, within the limits of `words`, and check_script, which has the same precondition"),
    ("pl_script", "check_script_explained", "{most_reads≤S.reads_leftreader.old}",
        "check_from of pl_run has the same precondition, and run_words alone makes the reader"),
    ("pl_script", "header_limits", SMALL, "check_script_explained alone calls it, which has the same precondition"),
    ("pl_script", "run_live", SMALL, "nothing but tests calls it"),
    ("pl_script", "run_live_explained", SMALL, "live_from of pl_run and run_live alone call it, which have the same precondition"),
    ("pl_run", "live_from", SMALL, "run_left alone calls it, with the limits of `words`"),
    ("pl_run", "run", "{most_reads≤S.reads_leftinput.old}", "run_words alone calls it"),
    ("bindingclay", "new", SMALL, "asked_by refuses more"),
];

/// Whether something keeps this precondition.
pub fn is_guarded(name: &str, function: &str, clause: &str) -> bool {
    GUARDED
        .iter()
        .any(|guard| (guard.0, guard.1, guard.2) == (name, function, clause))
}

/// Whether a sentence of a comment speaks of proofs: then it is left out.
pub fn is_remark(sentence: &str) -> bool {
    #[rustfmt::skip]
    const WORDS: &[&str] = &[
        "proof", "proofs", "prove", "proven", "proves", "proved", "prover", "contract", "contracts", "ghost", "ghosts", "lemma", "lemmas",
        "theorem", "theorems", "invariant", "invariants",
    ];
    const PAIRS: &[(&str, &str)] = &[("flat", "machine"), ("the", "definitions")];
    let text = sentence.to_lowercase();
    let of_file =
        |(at, suffix): (usize, &str)| !text[at + suffix.len()..].starts_with(is_word_letter);
    if text.contains("specs/") || text.contains("src/") || text.match_indices(".antt").any(of_file)
    {
        return true;
    }
    let words: Vec<(usize, &str)> = words_of(&text);
    let beside = |(left, right): (&(usize, &str), &(usize, &str))| {
        text[left.0 + left.1.len()..right.0] == *" " && PAIRS.contains(&(left.1, right.1))
    };
    words.iter().any(|word| WORDS.contains(&word.1))
        || words.iter().zip(words.iter().skip(1)).any(beside)
}

/// The words of a text, and where they stand.
fn words_of(text: &str) -> Vec<(usize, &str)> {
    let mut words = Vec::new();
    let mut at = 0;
    while at < text.len() {
        let rest = &text[at..];
        let length = rest
            .find(|letter| !is_word_letter(letter))
            .unwrap_or(rest.len());
        if length > 0 {
            words.push((at, &rest[..length]));
            at += length;
        } else {
            at += rest.chars().next().map_or(1, char::len_utf8);
        }
    }
    words
}
