//! Puts the examples of `rust/examples.md` after the comments on the items that they are of.

use super::tokens::{Result, Tokens, Unknown};
use std::collections::BTreeMap;

/// The examples by crate and item, of which each has to find its item.
pub struct Examples {
    left: BTreeMap<(String, String), String>,
}

impl Examples {
    /// Reads them from a text: `## CRATE ITEM`, and a block of code.
    pub fn new(text: &str) -> Result<Examples> {
        let mut left = BTreeMap::new();
        let mut lines = text.lines().enumerate();
        while let Some((number, line)) = lines.next() {
            let Some(head) = line.strip_prefix("## ") else {
                continue;
            };
            let fault = || {
                Unknown(format!(
                    "examples.md:{}: not a crate, an item and a block of code",
                    number + 1
                ))
            };
            let (name, item) = head.split_once(' ').ok_or_else(fault)?;
            if lines
                .by_ref()
                .map(|(_, line)| line)
                .find(|line| !line.is_empty())
                != Some("```rust")
            {
                return Err(fault());
            }
            let code: Vec<&str> = lines
                .by_ref()
                .map(|(_, line)| line)
                .take_while(|&line| line != "```")
                .collect();
            left.insert((name.to_string(), item.to_string()), code.join("\n"));
        }
        Ok(Examples { left })
    }

    /// Adds those of the items that a source of a crate declares.
    pub fn add(&mut self, source: &mut Tokens, name: &str) -> Result<()> {
        for at in source.code() {
            if !["struct", "enum", "fn"]
                .iter()
                .any(|word| source.is_word(at, word))
            {
                continue;
            }
            let start = source.item_start(at);
            let key = (name.to_string(), source.text(source.next(at)).to_string());
            if !source.is_word(start, "pub") {
                continue;
            }
            let Some(code) = self.left.remove(&key) else {
                continue;
            };
            let comment = last_doc(source, start)?;
            let lines: Vec<String> = code
                .trim_end_matches('\n')
                .split('\n')
                .map(|line| format!("/// {line}").trim_end().to_string())
                .collect();
            source.add(
                comment,
                format!("\n///\n/// ```\n{}\n/// ```", lines.join("\n")),
            );
        }
        Ok(())
    }

    /// Ends it where an example found no item.
    pub fn check(&self) -> Result<()> {
        match self.left.keys().next() {
            Some((name, item)) => Err(Unknown(format!(
                "examples.md: {name} has no public {item}, of which an example is"
            ))),
            None => Ok(()),
        }
    }
}

/// The last line of the comment on an item, which stands before its attributes.
fn last_doc(source: &Tokens, start: usize) -> Result<usize> {
    let mut at = start;
    while at > 0 {
        at -= 1;
        if source.texts[at].starts_with("///") {
            return Ok(at);
        }
        if source.texts[at] == "]" {
            while at > 0 && source.texts[at] != "#" {
                at -= 1;
            }
        } else if !source.is_blank(at) && !source.texts[at].starts_with("\n#[") {
            break;
        }
    }
    source.fail(start, "an item without a comment, of which an example is")
}
