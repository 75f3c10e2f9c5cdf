//! The two versions of scripts: which line tells that a script is of version 2, what differs there, and that version 1 prints what it
//! printed before there was another.

mod drawing;
mod program;

use bindingclay::Limits;
use bindingclay::script::{Fault, ScriptFault, run};
use program::piperun;
use std::fs;
use std::io::{self, Read, Write};
use std::path::Path;

/// How a run ends: with so many lines and steps, or at a bad line.
type End = Result<(u32, u32), u32>;

fn end_of(ran: Result<bindingclay::script::Totals, Fault>) -> End {
    match ran {
        Ok(totals) => {
            assert_eq!(totals.nomem, 0);
            Ok((totals.lines, totals.steps))
        }
        Err(Fault::Script(ScriptFault::BadLine(line))) => Err(line),
        Err(fault) => panic!("{fault}"),
    }
}

fn answers(script: &str) -> (String, End) {
    let mut output = Vec::new();
    let end = end_of(run(script.as_bytes(), &mut output, Limits::default()));
    (String::from_utf8(output).expect("text"), end)
}

/// Scripts, what they print, and how they end.
const FIRST_LINES: &[(&str, &str, End)] = &[
    ("piperun 2", "", Ok((1, 0))),
    ("piperun 2\n", "", Ok((1, 0))),
    ("piperun 2\r", "", Ok((1, 0))),
    ("piperun 2\r\n", "", Ok((1, 0))),
    ("piperun 2\n\n# start\nstart", "pid 1\n", Ok((4, 1))),
    (
        "piperun 2\nstart\n1 pipe direct",
        "pid 1\nfds 0 1\n",
        Ok((3, 2)),
    ),
    (
        "piperun 2\r\nstart\r\n1 pipe direct\r",
        "pid 1\nfds 0 1\n",
        Ok((3, 2)),
    ),
    // it is just this line
    (" piperun 2\nstart\n", "", Err(1)),
    ("\tpiperun 2\nstart\n", "", Err(1)),
    ("piperun 2 \nstart\n", "", Err(1)),
    ("piperun 2 \r\nstart\n", "", Err(1)),
    ("piperun 2\t\nstart\n", "", Err(1)),
    ("piperun  2\nstart\n", "", Err(1)),
    ("piperun\t2\nstart\n", "", Err(1)),
    ("piperun 2\r\r\nstart\n", "", Err(1)),
    ("\rpiperun 2\nstart\n", "", Err(1)),
    ("piperun 2\rstart\n", "", Err(1)),
    ("piperun 2\0\nstart\n", "", Err(1)),
    ("piperun 22\nstart\n", "", Err(1)),
    ("piperun 02\nstart\n", "", Err(1)),
    ("piperun 2 # words\nstart\n", "", Err(1)),
    ("piperun 3\nstart\n", "", Err(1)),
    ("piperun 1\nstart\n", "", Err(1)),
    ("piperun\nstart\n", "", Err(1)),
    ("piperun ", "", Err(1)),
    ("piperun2\nstart\n", "", Err(1)),
    ("Piperun 2\nstart\n", "", Err(1)),
    ("1 piperun 2\nstart\n", "", Err(1)),
    ("\u{feff}piperun 2\nstart\n", "", Err(1)),
    // a comment is none, and no other line is it
    ("#piperun 2\nstart\n", "pid 1\n", Ok((2, 1))),
    ("\npiperun 2\nstart\n", "", Err(2)),
    ("\r\npiperun 2\nstart\n", "", Err(2)),
    ("# words\npiperun 2\nstart\n", "", Err(2)),
    ("start\npiperun 2\nstart\n", "pid 1\n", Err(2)),
    ("start\npiperun 2", "pid 1\n", Err(2)),
    ("piperun 2\npiperun 2\nstart\n", "", Err(2)),
    ("piperun 2\r\npiperun 2\r\nstart\n", "", Err(2)),
    ("piperun 2\nstart\npiperun 2\nstart\n", "pid 1\n", Err(3)),
    ("piperun 2\nstart\nstart now\n", "pid 1\n", Err(3)),
];

#[test]
fn the_first_line_alone_tells_the_version() {
    for (script, output, end) in FIRST_LINES {
        assert_eq!(answers(script), (output.to_string(), *end), "{script:?}");
    }
}

const WORKED: &str = "piperun 2\nstart\n1 pipe\n1 write 1 3*61+62+5*00\n1 read 0 3\n1 read 0 9\n1 pipe direct,nonblock\n\
    1 getfl 2\n1 getfl 3\n1 read 2 1\n";
const WORKED_OUTPUT: &str = "pid 1\nfds 0 1\ncount 9\ndata 616161\ndata 62+5*00\nfds 2 3\nflags r nonblock\n\
    flags w nonblock,direct\nEAGAIN\n";

#[test]
fn the_worked_row_prints_what_stands_beside_it() {
    assert_eq!(answers(WORKED), (WORKED_OUTPUT.to_string(), Ok((10, 9))));
}

const BAD: &str = "a bad line";

/// Lines, and what each prints behind `start` and `1 pipe` in version 1 and in version 2.
const LINES: &[(&str, &str, &str)] = &[
    ("start", "pid 2", "pid 2"),
    ("1 pipe", "fds 2 3", "fds 2 3"),
    ("1 pipe nonblock", "fds 2 3", "fds 2 3"),
    ("1 pipe direct", BAD, "fds 2 3"),
    ("1 pipe nonblock,direct", BAD, "fds 2 3"),
    ("1 pipe direct,nonblock", BAD, "fds 2 3"),
    ("1 pipe nonblock,nonblock", BAD, "fds 2 3"),
    ("1 pipe direct,nonblock,direct", BAD, "fds 2 3"),
    ("1 pipe -", BAD, BAD),
    ("1 pipe -,direct", BAD, BAD),
    ("1 pipe ,", BAD, BAD),
    ("1 pipe direct,", BAD, BAD),
    ("1 pipe ,direct", BAD, BAD),
    ("1 pipe direct,,nonblock", BAD, BAD),
    ("1 pipe direct nonblock", BAD, BAD),
    ("1 pipe nonblock 1", BAD, BAD),
    ("1 pipe append", BAD, BAD),
    ("1 pipe creat", BAD, BAD),
    ("1 pipe DIRECT", BAD, BAD),
    ("1 pipe direc", BAD, BAD),
    ("7 pipe direct", BAD, "no process"),
    // no other line has the flag
    ("1 setfl 0 direct", BAD, BAD),
    ("1 setfl 0 nonblock,direct", BAD, BAD),
    ("1 setfl 0 nonblock", "ok", "ok"),
    ("1 open f rw creat,direct", BAD, BAD),
    ("1 tee 0 1 0 direct", BAD, BAD),
    // one piece
    ("1 write 1 -", "count 0", "count 0"),
    ("1 write 1 616A", "count 2", "count 2"),
    ("1 write 1 0*61", "count 0", "count 0"),
    ("1 write 1 3*6a", "count 3", "count 3"),
    ("1 write 1 616", BAD, BAD),
    ("1 write 1 6g", BAD, BAD),
    ("1 write 1 *61", BAD, BAD),
    ("1 write 1 5*6", BAD, BAD),
    ("1 write 1 5*611", BAD, BAD),
    ("1 write 1 -5*61", BAD, BAD),
    // several
    ("1 write 1 61+62", BAD, "count 2"),
    ("1 write 1 3*61+62+5*00", BAD, "count 9"),
    ("1 write 1 0*61+62", BAD, "count 1"),
    ("1 write 1 0*61+0*62", BAD, "count 0"),
    ("1 write 1 61+0*62+63", BAD, "count 2"),
    ("1 write 1 6162+AAbb+0002*cC", BAD, "count 6"),
    ("1 write 1 00000000000000000003*61+62", BAD, "count 4"),
    ("1 write 1 000000000000000000003*61+62", BAD, BAD),
    ("1 write 1 61+18446744073709551616*62", BAD, BAD),
    ("1 write 1 61+99999999999999999999*62", BAD, BAD),
    ("1 write 1 61+", BAD, BAD),
    ("1 write 1 +61", BAD, BAD),
    ("1 write 1 +", BAD, BAD),
    ("1 write 1 61++62", BAD, BAD),
    ("1 write 1 -+61", BAD, BAD),
    ("1 write 1 61+-", BAD, BAD),
    ("1 write 1 -+-", BAD, BAD),
    ("1 write 1 --", BAD, BAD),
    ("1 write 1 61+6", BAD, BAD),
    ("1 write 1 6+162", BAD, BAD),
    ("1 write 1 3*61*62", BAD, BAD),
    ("1 write 1 3*61+62*6", BAD, BAD),
    ("1 write 1 3*6162+63", BAD, BAD),
    ("1 write 1 +3*61", BAD, BAD),
    ("1 write 1 61,62", BAD, BAD),
    ("1 write 1 61 + 62", BAD, BAD),
    ("1 write 1 61+ 62", BAD, BAD),
    ("1 write 1 61+62 63", BAD, BAD),
    // numbers and names have no pieces
    ("1+1 getfl 0", BAD, BAD),
    ("1 read 0 1+1", BAD, BAD),
    ("1 unlink a+b", "ENOENT", "ENOENT"),
    // 16,777,216 bytes and more
    ("1 write 7 16777216*61", "EBADF", "EBADF"),
    ("1 write 7 16777217*61", BAD, BAD),
    ("1 write 7 8388608*61+8388608*62", BAD, "EBADF"),
    ("1 write 1 8388608*61+8388608*62", BAD, "parked 1"),
    ("1 write 7 8388609*61+8388608*62", BAD, BAD),
    ("1 write 1 8388609*61+8388608*62", BAD, BAD),
    ("1 write 7 16777215*61+62", BAD, "EBADF"),
    ("1 write 7 16777216*61+62", BAD, BAD),
    ("1 write 7 61+16777216*62", BAD, BAD),
    ("1 write 1 61+16777217*62", BAD, BAD),
    ("1 write 7 16777216*61+0*62", BAD, "EBADF"),
    ("1 write 7 0*61+16777216*62+0*63", BAD, "EBADF"),
    ("1 write 7 16777216*61+16777216*61+16777216*61", BAD, BAD),
];

#[test]
fn each_line_is_one_of_its_version() {
    for (line, first, second) in LINES {
        for (header, wanted) in [("", first), ("piperun 2\n", second)] {
            let lines = u32::from(!header.is_empty());
            let (output, end) = answers(&format!("{header}start\n1 pipe\n{line}\n"));
            let is_bad = *wanted == BAD;
            let answer = if is_bad {
                String::new()
            } else {
                format!("{wanted}\n")
            };
            assert_eq!(
                output,
                format!("pid 1\nfds 0 1\n{answer}"),
                "{header:?} {line}"
            );
            let wanted_end = if is_bad {
                Err(lines + 3)
            } else {
                Ok((lines + 3, 3))
            };
            assert_eq!(end, wanted_end, "{header:?} {line}");
        }
    }
}

#[test]
fn very_many_pieces_are_one_write() {
    let pieces = "1*61+".repeat(1_000_000) + "62";
    let script = format!("piperun 2\nstart\n1 open f w creat\n1 write 0 {pieces}\nfile f\n");
    let output = "pid 1\nfd 0\ncount 1000001\nfile 1000000*61+62\n";
    assert_eq!(answers(&script), (output.to_string(), Ok((5, 3))));
}

/// What is shown, in this version, of a file in which these bytes were written.
fn shown(header: &str, written: &str) -> String {
    let (output, end) = answers(&format!(
        "{header}start\n1 open f w creat\n1 write 0 {written}\nfile f\n"
    ));
    assert!(end.is_ok(), "{written:.80}: {end:?}");
    let last = output.lines().last().expect("a line");
    last.strip_prefix("file ").expect("bytes").to_string()
}

/// Bytes as they are written, and as they are shown in version 2.
const SHOWN: &[(&str, &str)] = &[
    ("-", "-"),
    ("00", "00"),
    ("0*61", "-"),
    ("616161", "616161"),
    ("61616161", "4*61"),
    ("3*61", "616161"),
    ("4*61", "4*61"),
    ("5*61", "5*61"),
    ("10*61", "10*61"),
    ("6161626363636363", "616162+5*63"),
    ("616162+4*63", "616162+4*63"),
    ("4*61+62", "4*61+62"),
    ("62+4*61", "62+4*61"),
    ("62+4*61+62", "62+4*61+62"),
    ("4*61+4*62", "4*61+4*62"),
    ("4*61+4*62+4*61", "4*61+4*62+4*61"),
    ("3*61+3*62+3*63", "616161626262636363"),
    ("3*61+4*62+3*63", "616161+4*62+636363"),
    ("3*61+61", "4*61"),
    ("2*61+2*61", "4*61"),
    ("61+61+61+61", "4*61"),
    ("4*61+61", "5*61"),
    ("61+0*62+3*61", "4*61"),
    ("616261626162", "616261626162"),
    ("61616262616162626161", "61616262616162626161"),
    ("4*FF+4*00+4*0A", "4*ff+4*00+4*0a"),
    ("4*ff+aAbB", "4*ff+aabb"),
    ("16777216*61", "16777216*61"),
    ("8388608*61+8388608*61", "16777216*61"),
    ("8388608*61+8388608*62", "8388608*61+8388608*62"),
    ("16777215*61+62", "16777215*61+62"),
    ("3*61+16777213*62", "616161+16777213*62"),
];

#[test]
fn bytes_are_shown_by_their_longest_runs() {
    for (written, wanted) in SHOWN {
        assert_eq!(shown("piperun 2\n", written), *wanted, "{written}");
    }
    let alternating = "6162".repeat(1_000_000);
    assert!(shown("piperun 2\n", &alternating) == alternating);
    let short_runs = "616161626262".repeat(500_000);
    assert!(shown("piperun 2\n", &short_runs) == short_runs);
    let runs = "4*61+4*62+".repeat(500_000);
    assert!(shown("piperun 2\n", &runs[..runs.len() - 1]) == runs[..runs.len() - 1]);
}

/// Bytes by their runs, made in another way than the program does: by the rule alone.
fn by_runs(bytes: &[u8]) -> String {
    let mut pieces: Vec<String> = Vec::new();
    let mut is_digits = false;
    for run in bytes.chunk_by(|left, right| left == right) {
        if run.len() >= 4 {
            pieces.push(format!("{}*{:02x}", run.len(), run[0]));
            is_digits = false;
            continue;
        }
        if !is_digits {
            pieces.push(String::new());
        }
        is_digits = true;
        let digits = format!("{:02x}", run[0]).repeat(run.len());
        pieces.last_mut().expect("a piece").push_str(&digits);
    }
    if pieces.is_empty() {
        "-".to_string()
    } else {
        pieces.join("+")
    }
}

/// The digits that pieces stand for, as version 1 shows them.
fn digits_of(pieces: &str) -> String {
    let digits = |piece: &str| match piece.split_once('*') {
        Some((times, byte)) => byte.repeat(times.parse().expect("a number")),
        None => piece.to_string(),
    };
    pieces.split('+').map(digits).collect()
}

#[test]
fn drawn_bytes_are_shown_by_the_rule() {
    let mut draws = drawing::Draws::of(7);
    for round in 0..3_000 {
        let length = draws.below(40);
        let letters = 1 + draws.below(3);
        let bytes: Vec<u8> = (0..length)
            .map(|_| 0x61 + draws.below(letters) as u8)
            .collect();
        let text = by_runs(&bytes);
        // what is shown may be written, and is shown so again
        assert_eq!(shown("piperun 2\n", &text), text, "{round}");
        let digits = digits_of(&text);
        assert_eq!(shown("piperun 2\n", &digits), text, "{round}");
        assert_eq!(shown("", &digits), digits, "{round}");
        let script = format!("piperun 2\nstart\n1 pipe\n1 write 1 {text}\n1 read 0 100\n1 exit\n");
        if length > 0 {
            let output = format!("pid 1\nfds 0 1\ncount {length}\ndata {text}\nok\n");
            assert_eq!(answers(&script), (output, Ok((6, 5))), "{round}");
        }
    }
}

/// The output of version 2 as version 1 would show it.
fn as_version_1(output: &str) -> String {
    let line = |line: &str| match line.split_once(' ') {
        Some((word @ ("data" | "file"), pieces)) => format!("{word} {}\n", digits_of(pieces)),
        _ => format!("{line}\n"),
    };
    output.lines().map(line).collect()
}

/// A script of version 1 is answered in version 2 as it is in version 1, but for how bytes are shown, and for the number of its lines.
fn is_answered_alike(script: &str, name: &str) {
    let (first, first_end) = answers(script);
    let (second, second_end) = answers(&format!("piperun 2\n{script}"));
    assert!(as_version_1(&second) == first, "{name}");
    let wanted = match first_end {
        Ok((lines, steps)) => Ok((lines + 1, steps)),
        Err(line) => Err(line + 1),
    };
    assert_eq!(second_end, wanted, "{name}");
}

#[test]
fn scripts_of_version_1_are_answered_alike_in_both() {
    let folder = Path::new(env!("CARGO_MANIFEST_DIR")).join("crates/pl_examples/data");
    let names = fs::read_to_string(folder.join("scripts")).expect("the list of scripts");
    let mut tried = 0;
    for name in names.lines() {
        let script = fs::read_to_string(folder.join(format!("{name}.script"))).expect("the script");
        if !script.contains("piperun 2") {
            is_answered_alike(&script, name);
            tried += 1;
        }
    }
    assert!(tried > 200, "{tried}");
    for seed in 0..100 {
        let script = drawing::script(seed);
        if !script.starts_with("piperun 2\n") {
            is_answered_alike(&script, &format!("seed {seed}"));
        }
    }
}

/// A reader or a writer that moves few bytes a call, and fails at a chosen call.
struct Trickle<'a> {
    rest: &'a [u8],
    taken: Vec<u8>,
    most: usize,
    calls: usize,
    failing: usize,
}

impl<'a> Trickle<'a> {
    fn of(rest: &'a [u8], most: usize, failing: usize) -> Trickle<'a> {
        Trickle {
            rest,
            taken: Vec::new(),
            most,
            calls: 0,
            failing,
        }
    }

    fn count(&mut self) -> io::Result<()> {
        self.calls += 1;
        if self.calls == self.failing {
            return Err(io::Error::other("it fails"));
        }
        Ok(())
    }
}

impl Read for Trickle<'_> {
    fn read(&mut self, into: &mut [u8]) -> io::Result<usize> {
        self.count()?;
        let count = self.rest.len().min(into.len()).min(self.most);
        let (front, rest) = self.rest.split_at(count);
        into[..count].copy_from_slice(front);
        self.rest = rest;
        Ok(count)
    }
}

impl Write for Trickle<'_> {
    fn write(&mut self, from: &[u8]) -> io::Result<usize> {
        self.count()?;
        let count = from.len().min(self.most);
        self.taken.extend_from_slice(&from[..count]);
        Ok(count)
    }

    fn flush(&mut self) -> io::Result<()> {
        Ok(())
    }
}

#[test]
fn a_script_may_come_and_go_in_pieces() {
    for most in [1, 2, 3, 7, 100] {
        let mut source = Trickle::of(WORKED.as_bytes(), most, 0);
        let mut sink = Trickle::of(&[], most, 0);
        let end = end_of(run(&mut source, &mut sink, Limits::default()));
        assert_eq!(
            (sink.taken.as_slice(), end),
            (WORKED_OUTPUT.as_bytes(), Ok((10, 9)))
        );
    }
    for cut in 0..=WORKED.len() {
        let (front, back) = WORKED.as_bytes().split_at(cut);
        let mut output = Vec::new();
        let end = end_of(run(front.chain(back), &mut output, Limits::default()));
        assert_eq!(
            (output.as_slice(), end),
            (WORKED_OUTPUT.as_bytes(), Ok((10, 9))),
            "{cut}"
        );
    }
}

#[test]
fn a_failed_read_prints_nothing_and_a_failed_write_a_front() {
    let fault_of = |fault| Err(Fault::Script(fault));
    for failing in 1..=WORKED.len() {
        let mut source = Trickle::of(WORKED.as_bytes(), 1, failing);
        let mut output = Vec::new();
        let ran = run(&mut source, &mut output, Limits::default());
        assert_eq!(
            (ran, output.len()),
            (fault_of(ScriptFault::Read), 0),
            "{failing}"
        );
    }
    for failing in 1..=WORKED_OUTPUT.len() {
        let mut sink = Trickle::of(&[], 1, failing);
        let ran = run(WORKED.as_bytes(), &mut sink, Limits::default());
        assert_eq!(ran, fault_of(ScriptFault::Write), "{failing}");
        assert_eq!(sink.taken, &WORKED_OUTPUT.as_bytes()[..failing - 1]);
    }
}

/// A script that is cut behind each of its bytes runs its whole lines, and is of version 2 once its first line is whole.
#[test]
fn a_script_may_be_cut_anywhere() {
    for cut in 0..=WORKED.len() {
        let (output, end) = answers(&WORKED[..cut]);
        assert!(
            WORKED_OUTPUT.starts_with(&output) || end.is_ok(),
            "{cut}: {output}"
        );
        let header = "piperun 2".len();
        match cut {
            0 => assert_eq!(end, Ok((0, 0))),
            _ if cut < header => assert_eq!((output.as_str(), end), ("", Err(1))),
            _ if cut <= header + 1 => assert_eq!((output.as_str(), end), ("", Ok((1, 0)))),
            _ => {
                let whole = WORKED[..cut].matches('\n').count();
                let printed = output.lines().count();
                assert!(printed == whole - 1 || printed == whole, "{cut}");
            }
        }
    }
}

/// What `piperun` prints of a script within so many bytes, its complaint and its status.
fn within(memory: u64, script: &Path) -> (String, String, Option<i32>) {
    let mut program = piperun();
    program.arg("--memory").arg(memory.to_string()).arg(script);
    let done = program.output().expect("the program runs");
    let text = |bytes| String::from_utf8(bytes).expect("text");
    (text(done.stdout), text(done.stderr), done.status.code())
}

/// A file with a script, which goes with this.
struct Kept(std::path::PathBuf);

impl Kept {
    fn of(name: &str, script: &str) -> Kept {
        let path =
            std::env::temp_dir().join(format!("bindingclay-{}-{name}.script", std::process::id()));
        fs::write(&path, script).expect("a file");
        Kept(path)
    }
}

impl Drop for Kept {
    fn drop(&mut self) {
        let _ = fs::remove_file(&self.0);
    }
}

/// Reading a script takes so many bytes at least.
const FOR_READING: u64 = 65_536;

/// Writes that are bad or refused, and so take no memory, whatever their bytes are: with the answer of a refused one.
const WITHOUT_MEMORY: &[(&str, &str)] = &[
    ("1 write 1 16777216*61+62", BAD),
    ("1 write 1 8388609*61+8388608*62", BAD),
    ("1 write 1 16777215*61+6g", BAD),
    ("1 write 1 16777216*61+", BAD),
    ("1 write 1 16777216*61+-", BAD),
    ("1 write 7 16777216*61", "EBADF"),
    ("1 write 7 8388608*61+8388608*62", "EBADF"),
    ("1 write 7 62+16777215*61", "EBADF"),
    ("9 write 1 62+16777215*61", "no process"),
    ("1 write 1 0*61+0*62", "count 0"),
];

#[test]
fn bad_and_refused_writes_take_no_memory() {
    for (line, answer) in WITHOUT_MEMORY {
        let script = Kept::of("refused", &format!("piperun 2\nstart\n1 pipe\n{line}\n"));
        let wanted = if *answer == BAD {
            let complaint = "piperun: line 4: not a command\n".to_string();
            ("pid 1\nfds 0 1\n".to_string(), complaint, Some(3))
        } else {
            (
                format!("pid 1\nfds 0 1\n{answer}\n"),
                String::new(),
                Some(0),
            )
        };
        assert_eq!(within(2 * FOR_READING, &script.0), wanted, "{line}");
    }
    // a good one takes memory for its bytes, and ends the run where there is none
    let script = Kept::of(
        "good",
        "piperun 2\nstart\n1 pipe\n1 write 1 8388608*61+8388608*62\n",
    );
    let wanted = (
        "pid 1\nfds 0 1\n".to_string(),
        "piperun: no memory\n".to_string(),
        Some(4),
    );
    assert_eq!(within(2 * FOR_READING, &script.0), wanted);
}

/// Whether an output is that of a run that may have found no memory: its lines are those that are wanted, up to the first `nomem`.
fn is_front(output: &str, wanted: &str) -> bool {
    let until_nomem = output.lines().take_while(|line| *line != "nomem");
    let is_so = until_nomem
        .zip(wanted.lines())
        .all(|(line, wanted)| line == wanted);
    is_so && output.lines().count() <= wanted.lines().count()
}

#[test]
fn a_run_within_little_memory_prints_a_front() {
    let script = "piperun 2\nstart\n1 pipe\n1 write 1 900*61+62+5*00+900*63\n1 read 0 2000\n1 pipe direct\n1 write 3 700*61+700*62\n\
        1 read 2 701\n1 open f rw creat\n1 write 4 1500*61+3*62+0a\nfile f\n";
    let output = "pid 1\nfds 0 1\ncount 1806\ndata 900*61+62+5*00+900*63\nfds 2 3\ncount 1400\ndata 700*61+62\nfd 4\ncount 1504\n\
        file 1500*61+6262620a\n";
    let kept = Kept::of("little", script);
    let (mut whole, mut with_nomem, mut ended) = (0, 0, 0);
    for memory in (FOR_READING..2 * FOR_READING).step_by(131) {
        let (printed, complaint, status) = within(memory, &kept.0);
        assert!(is_front(&printed, output), "{memory}: {printed}");
        match status {
            Some(0) => assert_eq!(complaint, "", "{memory}"),
            Some(4) => assert_eq!(complaint, "piperun: no memory\n", "{memory}"),
            _ => panic!("{memory}: {status:?}, {complaint}"),
        }
        whole += u32::from(printed == output);
        with_nomem += u32::from(printed.contains("nomem"));
        ended += u32::from(status == Some(4));
    }
    assert!(
        whole > 0 && with_nomem + ended > 0,
        "{whole} {with_nomem} {ended}"
    );
}
