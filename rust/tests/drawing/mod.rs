//! Scripts that are drawn from a seed: every line of the language, with arguments that mostly say something of what is there by then.

use std::fmt::Write;

/// Numbers that look drawn, and are the same for the same seed (xorshift).
pub struct Draws(u64);

impl Draws {
    /// The draws of a seed.
    pub fn of(seed: u64) -> Draws {
        Draws(seed.wrapping_add(1).wrapping_mul(0x9e37_79b9_7f4a_7c15) | 1)
    }

    /// A number below another.
    pub fn below(&mut self, most: u64) -> u64 {
        self.0 ^= self.0 << 13;
        self.0 ^= self.0 >> 7;
        self.0 ^= self.0 << 17;
        (self.0 >> 11) % most
    }

    /// One of these.
    pub fn one_of<T: Copy>(&mut self, items: &[T]) -> T {
        items[self.below(items.len() as u64) as usize]
    }

    fn one_in(&mut self, many: u64) -> bool {
        self.below(many) == 0
    }
}

const NAMES: &[&str] = &[
    "a",
    "log",
    "inbox",
    "outbox",
    "with%20blank",
    "%ff%00",
    "a%2fb",
    "-",
];
const PIPE_FLAGS: &[&str] = &["nonblock", "direct"];
const OPEN_FLAGS: &[&str] = &["creat", "excl", "trunc", "append", "nonblock"];
const SPLICE_FLAGS: &[&str] = &["move", "nonblock", "more", "gift"];
const MASKS: &[&str] = &["in", "out", "err", "hup", "nval"];
const SIZES: &[u64] = &[
    0, 1, 2, 3, 100, 4_095, 4_096, 4_097, 8_192, 65_535, 65_536, 65_537, 70_000,
];
const CAPACITIES: &[u64] = &[
    0,
    1,
    4_096,
    4_097,
    65_536,
    70_000,
    1_048_576,
    1_048_577,
    4_294_967_295,
];
const OFFSETS: &[i64] = &[
    0,
    1,
    5,
    4_095,
    4_096,
    16_777_215,
    16_777_216,
    4_294_967_301,
    i64::MAX,
    -1,
    -5,
    i64::MIN,
];
/// Lines that the language doesn't have: a script ends at the first.
const DAMAGED: &[&str] = &[
    "sleep",
    "1",
    "1 ",
    "1 reed 0 1",
    "1 read 0",
    "1 read 0 1 2",
    "1 read x 1",
    "1 read 0 4294967296",
    "1 write 1 6",
    "1 write 1 0g",
    "1 write 1 16777217*00",
    "1 open a rx",
    "1 open a r creat,",
    "1 setfl 0 creat,other",
    "1 lseek 0 9223372036854775808 set",
    "1 poll",
    "1 poll later 0:in",
    "1 poll now 0:up",
    "1 poll now 0",
    "resume",
    "resume -1",
    "resume 18446744073709551616",
    "start 1",
    "4294967296 fork",
    "-1 fork",
    "1 mkfifo %g0",
    "file",
    "1 tee 0 1",
    "1 splice 0 - 1 4",
    "1 dup 2147483648",
];

/// Lines that version 2 doesn't have either.
const DAMAGED_IN_VERSION_2: &[&str] = &[
    "piperun 2",
    "1 pipe -",
    "1 pipe direct,",
    "1 pipe append",
    "1 setfl 0 direct",
    "1 write 1 61+",
    "1 write 1 +61",
    "1 write 1 61++62",
    "1 write 1 -+61",
    "1 write 1 61+-",
    "1 write 1 3*61+6",
    "1 write 1 8388609*61+8388608*62",
];

/// A script as it is drawn, and what is there by then if each line did what it asks.
struct Drawn {
    draws: Draws,
    is_of_version_2: bool,
    script: String,
    /// How many descriptors each process has, of pid 1, 2 and so on.
    fds: Vec<u64>,
    /// The place there of the process that makes the next call.
    process: usize,
    parked: u64,
}

/// The script of a seed. One in four ends at a bad line, one in sixteen fills a table first, and one in five is of version 2.
pub fn script(seed: u64) -> String {
    let mut drawn = Drawn {
        draws: Draws::of(seed),
        is_of_version_2: seed % 5 == 2,
        script: String::new(),
        fds: vec![0],
        process: 0,
        parked: 0,
    };
    if drawn.is_of_version_2 {
        drawn.script.push_str("piperun 2\n");
    }
    drawn.script.push_str("start\n");
    match seed % 64 {
        15 => drawn.fill("start\n", 1_024),
        31 => drawn.fill("1 pipe\n", 129),
        47 => drawn.fill_descriptions(),
        63 => drawn.fill("1 poll wait 0:in -1:out\n", 300),
        _ => {}
    }
    for _ in 0..10 + drawn.draws.below(400) {
        drawn.line();
    }
    if seed % 4 == 3 {
        let damaged = if drawn.is_of_version_2 && drawn.draws.one_in(2) {
            DAMAGED_IN_VERSION_2
        } else {
            DAMAGED
        };
        drawn.script.push_str(drawn.draws.one_of(damaged));
        drawn.script.push_str("\nstart\n");
    }
    drawn.script
}

impl Drawn {
    fn fill(&mut self, line: &str, times: usize) {
        self.script.push_str(&line.repeat(times));
        self.fds[0] = 12;
    }

    /// More open file descriptions than there may be: 17 processes with 128 pipes each.
    fn fill_descriptions(&mut self) {
        for pid in 1..=17 {
            if pid > 1 {
                self.script.push_str("start\n");
            }
            self.script
                .push_str(&format!("{pid} pipe nonblock\n").repeat(128));
        }
        self.fds = vec![12; 17];
    }

    fn line(&mut self) {
        self.process = self.draws.below(self.fds.len() as u64) as usize;
        match self.draws.below(64) {
            0 if self.fds.len() < 6 => self.add("start", |d| d.fds.push(0)),
            0..=1 => self.ask("fork", |d| d.fds.push(d.fds[d.process])),
            2 => self.add_if_many(),
            3..=6 => self.pipe(),
            7..=9 => self.with_name("mkfifo"),
            10..=17 => self.open(),
            18 => self.with_name("unlink"),
            19..=25 => self.read(),
            26..=35 => self.write(),
            36..=39 => self.splice(),
            40..=41 => self.tee(),
            42..=44 => self.poll(),
            45..=47 => self.descriptors(),
            48..=49 => self.lseek(),
            50..=51 => self.flags(),
            52..=54 => self.sizes(),
            55..=59 => self.resume(),
            60 => self.interrupt(),
            61..=62 => self.file(),
            _ => self.comment(),
        }
    }

    fn add(&mut self, line: &str, then: impl Fn(&mut Drawn)) {
        writeln!(self.script, "{line}").expect("a string");
        then(self);
    }

    /// Adds a call of a process, mostly one that is there.
    fn ask(&mut self, call: &str, then: impl Fn(&mut Drawn)) {
        let pid = if self.draws.one_in(60) {
            0
        } else {
            self.process + 1
        };
        self.add(&format!("{pid} {call}"), then);
    }

    fn add_if_many(&mut self) {
        if self.fds.len() > 3 && self.process > 0 {
            self.ask("exit", |_| {});
        }
    }

    fn more_fds(&mut self, count: u64) {
        self.fds[self.process] += count;
    }

    fn fd(&mut self) -> i64 {
        if self.draws.one_in(50) {
            return self
                .draws
                .one_of(&[-1, 255, 256, i64::from(i32::MAX), i64::from(i32::MIN)]);
        }
        self.draws.below(self.fds[self.process].clamp(1, 14)) as i64
    }

    fn name(&mut self) -> String {
        match self.draws.below(60) {
            0 => "n".repeat(255),
            1 => "n".repeat(256),
            2..=5 => self.draws.one_of(NAMES).to_string(),
            _ => self.draws.one_of(&NAMES[..4]).to_string(),
        }
    }

    fn size(&mut self) -> u64 {
        if self.draws.one_in(4) {
            self.draws.one_of(SIZES)
        } else {
            self.draws.below(12)
        }
    }

    /// Some of these, joined by commas.
    fn some_of(&mut self, items: &[&str]) -> String {
        let some: Vec<&str> = items
            .iter()
            .copied()
            .filter(|_| self.draws.one_in(3))
            .collect();
        if some.is_empty() {
            "-".to_string()
        } else {
            some.join(",")
        }
    }

    /// Flags at the end of a line, or nothing.
    fn flags_if_any(&mut self, items: &[&str]) -> String {
        match self.some_of(items).as_str() {
            "-" => String::new(),
            flags => format!(" {flags}"),
        }
    }

    fn pipe(&mut self) {
        if self.is_of_version_2 {
            let flags = self.flags_if_any(PIPE_FLAGS);
            return self.ask(&format!("pipe{flags}"), |d| d.more_fds(2));
        }
        let call = self.draws.one_of(&["pipe", "pipe", "pipe nonblock"]);
        self.ask(call, |d| d.more_fds(2));
    }

    fn with_name(&mut self, call: &str) {
        let name = self.name();
        self.ask(&format!("{call} {name}"), |_| {});
    }

    fn open(&mut self) {
        let (name, mode) = (self.name(), self.draws.one_of(&["r", "w", "rw"]));
        let flags = if self.draws.one_in(2) {
            " creat".to_string()
        } else {
            self.flags_if_any(OPEN_FLAGS)
        };
        self.ask(&format!("open {name} {mode}{flags}"), |d| {
            d.more_fds(1);
            d.parked += 1;
        });
    }

    fn read(&mut self) {
        let (fd, size) = (self.fd(), self.size());
        self.ask(&format!("read {fd} {size}"), |d| d.parked += 1);
    }

    fn write(&mut self) {
        let (fd, size, byte) = (self.fd(), self.size(), self.draws.below(256));
        let bytes = match size {
            0 => "-".to_string(),
            1..=11 => (0..size)
                .map(|place| format!("{:02x}", (byte + place) % 256))
                .collect(),
            _ => format!("{size}*{byte:02X}"),
        };
        let bytes = if self.is_of_version_2 {
            self.pieces(bytes)
        } else {
            bytes
        };
        self.ask(&format!("write {fd} {bytes}"), |d| d.parked += 1);
    }

    /// Bytes with pieces behind them, which often go on with the byte before them.
    fn pieces(&mut self, bytes: String) -> String {
        let mut pieces = if bytes == "-" {
            "61".to_string()
        } else {
            bytes
        };
        for _ in 0..self.draws.below(4) {
            let last = pieces[pieces.len() - 2..].to_string();
            let byte = self
                .draws
                .one_of(&[last.as_str(), "61", "62", "00"])
                .to_string();
            let times = self.draws.below(7);
            let piece = match self.draws.below(3) {
                0 if times > 0 => byte.repeat(times as usize),
                _ => format!("{times}*{byte}"),
            };
            pieces = format!("{pieces}+{piece}");
        }
        pieces
    }

    fn offset(&mut self) -> String {
        match self.draws.below(5) {
            0 => self
                .draws
                .one_of(&[
                    "0",
                    "1",
                    "4096",
                    "16777215",
                    "16777216",
                    "18446744073709551615",
                ])
                .to_string(),
            _ => "-".to_string(),
        }
    }

    fn splice(&mut self) {
        let (from, to, size) = (self.fd(), self.fd(), self.size());
        let (from_offset, to_offset) = (self.offset(), self.offset());
        let flags = self.flags_if_any(SPLICE_FLAGS);
        self.ask(
            &format!("splice {from} {from_offset} {to} {to_offset} {size}{flags}"),
            |d| d.parked += 1,
        );
    }

    fn tee(&mut self) {
        let (from, to, size, flags) = (
            self.fd(),
            self.fd(),
            self.size(),
            self.flags_if_any(SPLICE_FLAGS),
        );
        self.ask(&format!("tee {from} {to} {size}{flags}"), |d| d.parked += 1);
    }

    fn poll(&mut self) {
        let mut call = self.draws.one_of(&["poll now", "poll wait"]).to_string();
        let count = if self.draws.one_in(40) {
            257
        } else {
            1 + self.draws.below(4)
        };
        for _ in 0..count {
            let (fd, mask) = (self.fd(), self.some_of(MASKS));
            write!(call, " {fd}:{mask}").expect("a string");
        }
        self.ask(&call, |d| d.parked += 1);
    }

    fn descriptors(&mut self) {
        let (fd, other) = (self.fd(), self.fd());
        match self.draws.below(5) {
            0 => self.ask(&format!("dup {fd}"), |d| d.more_fds(1)),
            1 => self.ask(&format!("dup2 {fd} {other}"), |_| {}),
            2 => self.ask(&format!("dupfd {fd} {other}"), |_| {}),
            _ => self.ask(&format!("close {fd}"), |_| {}),
        }
    }

    fn lseek(&mut self) {
        let (fd, offset, whence) = (
            self.fd(),
            self.draws.one_of(OFFSETS),
            self.draws.one_of(&["set", "cur", "end"]),
        );
        self.ask(&format!("lseek {fd} {offset} {whence}"), |_| {});
    }

    fn flags(&mut self) {
        let fd = self.fd();
        if self.draws.one_in(2) {
            return self.ask(&format!("getfl {fd}"), |_| {});
        }
        let flags = self.some_of(OPEN_FLAGS);
        self.ask(&format!("setfl {fd} {flags}"), |_| {});
    }

    fn sizes(&mut self) {
        let fd = self.fd();
        if self.draws.one_in(3) {
            return self.ask(&format!("getsz {fd}"), |_| {});
        }
        let size = self.draws.one_of(CAPACITIES);
        self.ask(&format!("setsz {fd} {size}"), |_| {});
    }

    /// The number of a call that may wait: few of those that may do.
    fn call(&mut self) -> u64 {
        self.draws.below(self.parked / 4 + 2)
    }

    fn resume(&mut self) {
        let call = self.call();
        self.add(&format!("resume {call}"), |_| {});
    }

    fn interrupt(&mut self) {
        let call = self.call();
        self.add(&format!("interrupt {call}"), |_| {});
    }

    fn file(&mut self) {
        // the whole of a great file is no line to look at
        let name = self.draws.one_of(&NAMES[..4]);
        if self.script.contains("16777") {
            return self.comment();
        }
        self.add(&format!("file {name}"), |_| {});
    }

    fn comment(&mut self) {
        let line = self.draws.one_of(&[
            "",
            "# a comment",
            "#",
            "\t start",
            "start\t",
            "  # 1 pipe",
            "start\r",
        ]);
        self.add(line, |_| {});
    }
}
