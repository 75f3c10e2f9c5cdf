//! What the eraser refuses, and what it erases.

#[allow(dead_code)]
#[path = "../eraser/mod.rs"]
mod eraser;

use eraser::edition::{self, Libraries};
use eraser::examples::Examples;
use eraser::names::{self, Traits};
use eraser::plan;
use eraser::tokens::{Result, Tokens};
use std::collections::{BTreeSet, HashSet};
use std::fs;
use std::path::Path;

/// A source, and a word of what it is refused by.
#[rustfmt::skip]
const REFUSED: &[(&str, &str, &str)] = &[
    ("another attribute", "#[cfg(unix)]\nfn f() {}", "attribute"),
    ("an attribute of the language", "#[cycle(one)]\nfn f() {}", "attribute"),
    ("an attribute that lets numbers wrap", "#[allow(arithmetic_overflow)]\nfn f() {}", "attribute"),
    ("another derive", "#[derive(Hash)]\nstruct S;", "derive"),
    ("an end of its own", "impl Drop for S { fn drop(self) { let S = self; } }", "Drop"),
    ("a bound of Drop before another", "fn f<T: Drop + Read>(t: T) {}", "Drop"),
    ("another macro", "fn f() { println!(rt; \"a\"); }", "println!"),
    ("a panic", "fn f() { panic!(rt; \"a\"); }", "panic!"),
    ("an assertion without the runtime", "fn f() { assert!(1 < 2); }", "rt"),
    ("another module of std", "use std::thread::spawn;", "std::thread"),
    ("a module beside atomics", "use std::sync::Mutex;", "std::sync"),
    ("another path of std", "fn f() { std::sync::fence(); }", "std::sync"),
    ("a brand", "use std::marker::Brand;", "std::marker"),
    ("another library", "use rand::Rng;", "rand"),
    ("another library, whole", "use rand;", "rand"),
    ("a library that crates.txt doesn't name", "use memchr::memchr;", "crates.txt"),
    ("a crate that crates.txt doesn't name", "use pl_kernel::Kernel;", "crates.txt"),
    ("a ghost function", "ghost fn f();", "ghost"),
    ("a model with code", "impl Model for S { ghost Value = { ℕ }; fn f() {} }", "impl Model"),
    ("a letter that is no code", "fn f() -> u8 { λ }", "left"),
    ("a comment of another form", "/* a */ fn f() {}", "comment"),
    ("a raw text", "const T: &str = r\"a\";", "text"),
    ("a raw text between hashes", "const T: &str = r#\"a\"#;", "bracket"),
    ("more than text in an unsafe block", "fn f(a: &[u8]) -> usize { unsafe { str::from_utf8_unchecked(a).len() } }", "from_utf8_unchecked"),
    ("a main of more", "fn main(rt: HostRuntime, n: u8) {}", "main"),
    ("a test of another result", "#[test]\nfn t(rt: HostRuntime) -> io::Result<()> { Ok(()) }", "result"),
    ("a clause that isn't closed", "fn f() requires { a { b } {}", "bracket"),
    ("a message with places", "#[derive(Error)]\nenum E { #[error(\"{a}\")] A }", "text"),
    ("an error without its message", "#[derive(Error)]\nenum E { #[error(\"a\")] A, B }", "text"),
    ("an error that is a struct", "#[derive(Error)]\n#[error(\"a\")]\nstruct E { a: u8 }", "error"),
    // what says one thing to Rattle and another to Rust
    ("a type of a name of the prelude", "struct Vec { a: u8 }", "prelude"),
    ("a function of a name of the prelude", "fn drop(a: u8) {}", "prelude"),
    ("an import under a name of the prelude", "use crate::block::Block as Vec;", "prelude"),
    ("an import of a name of the prelude", "use crate::block::Some;", "prelude"),
    ("an import of a name of its prelude", "use crate::block::{Block, Vec};", "prelude"),
    ("an import of all names", "use crate::block::*;", "all names"),
    ("a method that Ord has by value", "#[derive(PartialEq, Eq, PartialOrd, Ord)]\nstruct S;\nimpl S { fn max(&self, o: S) {} }", "Ord"),
    ("a method that any type has", "struct S;\nimpl S { fn into(&self) -> u8 { 1 } }", "Into"),
    ("a method that an iterator has", "impl Iterator for S {}\nimpl<A> S<A> { fn take(&mut self, n: usize) {} }", "Iterator"),
];

/// A source, and what it becomes.
#[rustfmt::skip]
const ERASED: &[(&str, &str, &str)] = &[
    ("clauses",
        "ghost use Rattle.std.specs.Prelude.{◌≡◌};\n\nfn f(x: u8) -> u8\n    requires { x < 2 }\n    // two\n    ensures* two { result ≡ x }\n{\n    x\n}",
        "fn f(x: u8) -> u8 {\n    x\n}"),
    ("a ghost field", "#[derive(Drop, Debug)]\npub struct S {\n    a: u8,\n    ghost in_range: { a ≤ 9 },\n}",
        "#[derive(Debug)]\npub struct S {\n    a: u8,\n}"),
    ("a model", "impl<A: Allocator> Model for S<A> {\n    ghost Value = { List ℕ };\n}\n\nconst C: u8 = 1;", "const C: u8 = 1;"),
    ("a law", "/// A law.\npub fn law<A: Allocator>()\n    ensures { L A }\n{}\n\nconst C: u8 = 1;", "const C: u8 = 1;"),
    ("paths, and what proofs check",
        "use crate::block::Block;\n\npub(crate) fn f() -> Block { prove!(1 < 2); Block }",
        "use crate::parts::ring::block::Block;\n\npub(in crate::parts::ring) fn f() -> Block { debug_assert!(1 < 2); Block }"),
    ("a library of the toolchain", "fn f() -> u8 { slab::one() }", "fn f() -> u8 { crate::std_shim::slab::one() }"),
    ("a bound, and the prelude", "fn f<R: Read + Drop>(r: R) -> Vec<u8> { g(r) }",
        "use crate::std_shim::vec::Vec;\nfn f<R: Read>(r: R) -> Vec<u8> { g(r) }"),
    ("a bound alone", "impl<T: Drop, A: Allocator> S<T, A> {}", "impl<T, A: Allocator> S<T, A> {}"),
    ("a name for contracts alone", "use crate::laws::{one, two};\n\nfn f()\n    ensures { one }\n{ two() }",
        "use crate::parts::ring::laws::{two};\n\nfn f() { two() }"),
    ("a statement that a proof looks at",
        "fn f(s: &S) -> u8 {\n    // A proof learns here that it is small.\n    let _len = s.list.len();\n    s.small\n}",
        "fn f(s: &S) -> u8 {\n    s.small\n}"),
    ("atomics", "use std::sync::atomic::AtomicU64;", "use core::sync::atomic::AtomicU64;"),
    ("assertions", "fn f() { assert_eq!(&rt; 1, 2); }", "fn f() { assert_eq!( 1, 2); }"),
    ("bytes that a proof knows for text",
        "fn f(t: &mut T, b: &[u8]) { t.push_str(unsafe { str::from_utf8_unchecked(&b[g(1)..]) }) }",
        "fn f(t: &mut T, b: &[u8]) { t.push_str(crate::std_shim::string::text_of(&b[g(1)..])) }"),
    ("a number without its sign", "fn f(n: i32) -> usize { n.cast_unsigned() as usize }",
        "use crate::std_shim::numbers::Unsigned;\nfn f(n: i32) -> usize { n.unsigned() as usize }"),
    ("a function out of line", "#[inline(never)]\nfn f() -> u8 { g() }", "#[cold]\n#[inline(never)]\nfn f() -> u8 { g() }"),
    ("a method that is given an allocator", "fn f() { g(\"a\".repeat(alloc, h(2, 3))?, \"b\".repeat(h(2, 3))) }",
        "use crate::std_shim::string::RepeatIn;\nfn f() { g(\"a\".repeat_in(alloc, h(2, 3))?, \"b\".repeat(h(2, 3))) }"),
    ("a value that isn't used", "fn f() { let _kept = g(); }", "fn f() { let _kept = g(); }"),
    ("sentences on proofs", "/// Bytes in order. Contracts see\n/// their list.\nstruct S;", "/// Bytes in order.\nstruct S;"),
    ("a method of a type that Ord isn't for", "struct S;\nimpl S { fn max(&self) {} }", "struct S;\nimpl S { fn max(&self) {} }"),
    ("a variant of a trait's name", "use crate::op::Op::{Copy, Read};", "use crate::parts::ring::op::Op::{Copy, Read};"),
];

/// What a source of a crate becomes, with these examples.
fn erased_with(text: &str, name: &str, examples: &mut Examples) -> Result<String> {
    let mut source = Tokens::new("a.rt", text)?;
    let mut traits = Traits::new();
    names::add_traits(&source, &mut traits)?;
    edition::erase(&mut source, name)?;
    names::refuse_shadows(&source, &traits)?;
    examples.add(&mut source, name)?;
    let place = plan::place_of(name).expect("a crate of the edition");
    edition::write_source(
        &mut source,
        place,
        &HashSet::from(["slab".to_string()]),
        &BTreeSet::new(),
    )
}

fn erased(text: &str, name: &str) -> Result<String> {
    erased_with(text, name, &mut Examples::new("")?)
}

/// A text with each white space as one blank, and none beside a bracket.
fn unspaced(text: &str) -> String {
    let mut text = text.split_whitespace().collect::<Vec<_>>().join(" ");
    for mark in "[](){}<>,;".chars() {
        text = text
            .replace(&format!(" {mark}"), &mark.to_string())
            .replace(&format!("{mark} "), &mark.to_string());
    }
    text
}

fn repository() -> &'static Path {
    Path::new(env!("CARGO_MANIFEST_DIR"))
}

#[test]
fn each_is_refused() {
    for (what, text, word) in REFUSED {
        let fault = erased(text, "pl_ring").expect_err(what).to_string();
        assert!(fault.contains(word), "{what}: {fault}");
        let line = fault
            .strip_prefix("a.rt:")
            .and_then(|rest| rest.split_once(": "));
        assert!(
            line.is_some_and(|(line, _)| line.parse::<u32>().is_ok()),
            "{what}: {fault}"
        );
    }
}

#[test]
fn each_is_erased() {
    for (what, text, wanted) in ERASED {
        assert_eq!(
            unspaced(&erased(text, "pl_ring").expect(what)),
            unspaced(wanted),
            "{what}"
        );
    }
}

#[test]
fn a_precondition_of_a_public_function() {
    for name in ["f", "new"] {
        let text = format!("pub fn {name}(n: u8)\n    requires {{ n < 2 }}\n{{ g(n) }}");
        assert!(
            erased(&text, "pl_kernel")
                .expect_err("nothing guards it")
                .0
                .starts_with("a.rt:2: a precondition")
        );
        assert!(
            erased(&text, "pl_ring")
                .expect("nobody calls it")
                .contains("g(n)")
        );
        assert!(
            erased(&text.replace("pub fn", "pub(crate) fn"), "pl_kernel")
                .expect("nobody calls it")
                .contains("g(n)")
        );
    }
}

#[test]
fn functions_for_c() {
    let fault =
        erased("pub extern \"C\" fn f(s: &[u16]) {}", "bindingclay").expect_err("another type");
    assert!(fault.0.contains("type is not known"));
    let text =
        "pub extern \"C\" fn f(alloc: Global, a: &[u8], n: u32, b: &mut [u8]) -> u32 {\n    n\n}";
    let made = unspaced(&erased(text, "bindingclay").expect("a function for C"));
    let head = "pub unsafe extern \"C\" fn f(a: *const u8, a_len: usize, n: u32, b: *mut u8, b_len: usize) -> u32 {";
    assert!(made.contains(&unspaced(head)), "{made}");
    assert!(made.contains("let alloc = Global;"));
    assert!(made.contains(&unspaced(
        "let b = unsafe { crate::c_memory::slice_mut(b, b_len) };"
    )));
}

#[test]
fn a_message_of_an_error() {
    let text = "#[derive(Debug, Error)]\nenum E {\n    #[error(\"line {0}\")]\n    Line(u32),\n    #[error(\"end\")]\n    End,\n}";
    let made = erased(text, "pl_ring").expect("an error");
    assert!(made.contains("E::Line(it) => write!(f, \"line {it}\")"));
    assert!(made.contains("E::End => f.write_str(\"end\")"));
    assert!(made.contains("impl core::error::Error for E {}"));
    assert!(!made.contains("#[error"));
}

#[test]
fn an_example_stands_behind_the_comment() {
    let text = "# Examples\n\n## pl_ring Ring\n\n```rust\nf();\n\ng();\n```\n\n## pl_ring lost\n\n```rust\nh();\n```\n";
    let mut examples = Examples::new(text).expect("examples");
    let made = erased_with(
        "/// A ring.\n#[derive(Drop, Debug)]\npub struct Ring;\n",
        "pl_ring",
        &mut examples,
    )
    .expect("a struct");
    assert_eq!(
        made,
        "/// A ring.\n///\n/// ```\n/// f();\n///\n/// g();\n/// ```\n#[derive(Debug)]\npub struct Ring;\n"
    );
    assert!(
        examples
            .check()
            .expect_err("one is lost")
            .0
            .contains("examples.md: pl_ring has no public lost")
    );
}

#[test]
fn a_crate_that_no_table_has() {
    let lines: String = plan::PLACES
        .iter()
        .map(|place| format!("{}:\n", place.name))
        .collect();
    let libraries: Libraries =
        edition::libraries_of(&format!("{lines}pl_other: pl_model")).expect("crates");
    assert_eq!(edition::without_place(&libraries), ["pl_other"]);
    let fault = edition::libraries_of("pl_model: pl_other").expect_err("it has no place");
    assert!(
        fault
            .0
            .starts_with("crates.txt:1: pl_model stands on pl_other")
    );
}

#[test]
fn each_crate_of_the_repository_has_a_place_or_a_reason() {
    let text = fs::read_to_string(repository().join("crates.txt")).expect("crates.txt");
    assert_eq!(
        edition::without_place(&edition::libraries_of(&text).expect("crates")),
        Vec::<&str>::new()
    );
}

#[test]
fn the_version_is_that_of_the_library_for_c() {
    let header =
        fs::read_to_string(repository().join("library/include/bindingclay.h")).expect("the header");
    let number = |name: &str| {
        let line = header
            .lines()
            .find_map(|line| line.strip_prefix(&format!("#define BINDINGCLAY_VERSION_{name} ")));
        line.expect("a number").to_string()
    };
    assert_eq!(
        env!("CARGO_PKG_VERSION"),
        ["MAJOR", "MINOR", "PATCH"].map(number).join(".")
    );
}
