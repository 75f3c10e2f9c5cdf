//! Drawn scripts: that they say every line of the language, and are answered by every kind of reply, and always the same.

mod drawing;

use bindingclay::Limits;
use bindingclay::script::{Fault, ScriptFault, run};
use std::collections::BTreeMap;

const SCRIPTS: u64 = 500;

/// The words that a line begins with, without the pid.
const ASKED: &[&str] = &[
    "piperun",
    "start",
    "fork",
    "exit",
    "pipe",
    "mkfifo",
    "open",
    "unlink",
    "read",
    "write",
    "splice",
    "tee",
    "poll",
    "dup",
    "dup2",
    "dupfd",
    "close",
    "lseek",
    "getfl",
    "setfl",
    "getsz",
    "setsz",
    "resume",
    "interrupt",
    "file",
    "#",
];

/// How each reply begins, but for those that only a call number or a memory that is spent comes to.
const ANSWERED: &[&str] = &[
    "pid",
    "fd",
    "fds",
    "count",
    "data",
    "offset",
    "flags",
    "size",
    "masks",
    "ok",
    "parked",
    "no",
    "file",
    "EAGAIN",
    "EBADF",
    "EBUSY",
    "EEXIST",
    "EFBIG",
    "EINTR",
    "EINVAL",
    "EMFILE",
    "ENAMETOOLONG",
    "ENFILE",
    "ENOENT",
    "ENXIO",
    "EOVERFLOW",
    "EPERM",
    "EPIPE",
    "ESPIPE",
];

fn answer(script: &str) -> (Vec<u8>, bool) {
    let mut output = Vec::new();
    match run(script.as_bytes(), &mut output, Limits::default()) {
        Ok(_) => (output, true),
        Err(Fault::Script(ScriptFault::BadLine(_))) => (output, false),
        Err(fault) => panic!("{fault}"),
    }
}

fn count(counts: &mut BTreeMap<String, u64>, word: Option<&str>) {
    *counts
        .entry(word.unwrap_or_default().to_string())
        .or_default() += 1;
}

#[test]
fn every_line_is_asked_and_every_reply_given() {
    let (mut asked, mut answered, mut whole) = (BTreeMap::new(), BTreeMap::new(), 0);
    let (mut runs, mut packets) = (0, 0);
    for seed in 0..SCRIPTS {
        let script = drawing::script(seed);
        for line in script.lines() {
            let mut words = line.split_whitespace();
            let first = words.next();
            let is_pid = first.is_some_and(|word| word.bytes().all(|c| c.is_ascii_digit()));
            count(&mut asked, if is_pid { words.next() } else { first });
        }
        let (output, is_whole) = answer(&script);
        whole += u64::from(is_whole);
        for line in String::from_utf8(output).expect("text").lines() {
            count(&mut answered, line.split(' ').next());
            runs += u64::from(line.contains('*') && line.contains('+'));
            packets += u64::from(line.ends_with("direct"));
        }
    }
    for word in ASKED {
        assert!(
            asked.get(*word).is_some_and(|count| *count >= 20),
            "{word}: {:?}",
            asked.get(*word)
        );
    }
    for word in ANSWERED {
        assert!(
            answered.get(*word).is_some_and(|count| *count >= 5),
            "{word}: {answered:?}"
        );
    }
    assert!(runs >= 20 && packets >= 5, "{runs} {packets}");
    assert_eq!(whole, SCRIPTS - SCRIPTS / 4);
}

#[test]
fn a_script_is_answered_the_same_again() {
    for seed in 0..40 {
        let script = drawing::script(seed);
        assert_eq!(script, drawing::script(seed));
        assert_eq!(answer(&script), answer(&script));
    }
}
