//! How fast the exported functions are beside the reference: the same calls on the same buffers, in one run.
//!
//! Each row makes its calls by turns with one and with the other, many times over, and gives the median of each. Instructions are
//! counted by callgrind, in the called functions alone, and do not depend on what else the machine does.

use mbrb::random::Random;
use mbrb::reference::{least_quorum, RECORD_LENGTH, SEQS};
use mbrb::{host, reference, Config};
use std::hint::black_box;
use std::process::Command;
use std::time::Instant;

const DAY: u32 = 7;
/// How many calls a row has at least, but for those that are about a whole buffer. The buffers together fit a second-level cache.
const CALLS: usize = 1024;
/// How many bytes the buffers of such a row have together, whichever n.
const BUFFERS: usize = 512 << 10;
/// The number of the second node, where a call is about the records of two.
const OTHER: u8 = 2;
const ROUNDS: usize = 401;

#[inline(always)]
fn config_from(n: u8, t: u8, d: u8, own: u8, day: u32, q: u32) -> Config {
    Config {
        n,
        t,
        d,
        own,
        day,
        q,
    }
}

/// The reference behind the interface of the exported functions: six numbers and slices, in a call that is not inlined.
#[no_mangle]
#[inline(never)]
fn reference_open(n: u8, t: u8, d: u8, own: u8, day: u32, q: u32, records: &mut [u8]) -> u32 {
    let config = config_from(n, t, d, own, day, q);
    reference::open_code(&config, records)
}

#[no_mangle]
#[inline(never)]
#[allow(clippy::too_many_arguments)]
fn reference_broadcast(
    n: u8,
    t: u8,
    d: u8,
    own: u8,
    day: u32,
    q: u32,
    payload: &[u8],
    records: &mut [u8],
    out: &mut [u8],
) -> u32 {
    let config = config_from(n, t, d, own, day, q);
    reference::broadcast_code(&config, payload, records, out)
}

#[no_mangle]
#[inline(never)]
#[allow(clippy::too_many_arguments)]
fn reference_receive(
    n: u8,
    t: u8,
    d: u8,
    own: u8,
    day: u32,
    q: u32,
    bundle: &[u8],
    records: &mut [u8],
    out: &mut [u8],
) -> u32 {
    let config = config_from(n, t, d, own, day, q);
    reference::receive_code(&config, bundle, records, out)
}

#[no_mangle]
#[inline(never)]
#[allow(clippy::too_many_arguments)]
fn reference_preview(
    n: u8,
    t: u8,
    d: u8,
    own: u8,
    day: u32,
    q: u32,
    bundle: &[u8],
    records: &[u8],
    out: &mut [u8],
) -> u32 {
    let config = config_from(n, t, d, own, day, q);
    reference::preview_code(&config, bundle, records, out)
}

#[no_mangle]
#[inline(never)]
fn reference_setpoint(n: u8, t: u8, d: u8, own: u8, day: u32, q: u32, records: &[u8]) -> u32 {
    let config = config_from(n, t, d, own, day, q);
    reference::setpoint_code(&config, records)
}

#[no_mangle]
#[inline(never)]
#[allow(clippy::too_many_arguments)]
fn reference_equivocators(
    n: u8,
    t: u8,
    d: u8,
    own: u8,
    day: u32,
    q: u32,
    other: u8,
    first: &[u8],
    second: &[u8],
) -> u64 {
    let config = config_from(n, t, d, own, day, q);
    reference::equivocators_word(&config, other, first, second)
}

#[no_mangle]
#[inline(never)]
#[allow(clippy::too_many_arguments)]
fn reference_check_equivocators(
    n: u8,
    t: u8,
    d: u8,
    own: u8,
    day: u32,
    q: u32,
    other: u8,
    first: &[u8],
    second: &[u8],
) -> u32 {
    let config = config_from(n, t, d, own, day, q);
    reference::equivocators_refusal(&config, other, first, second)
}

#[derive(Clone, Copy)]
enum Side {
    Proved,
    Reference,
}

/// A call that is ready to be made, on the buffer of this number.
struct Ready {
    config: Config,
    /// a payload, a bundle, or the second node's records
    input: Vec<u8>,
    buffer: usize,
}

#[derive(Clone, Copy, PartialEq, Eq)]
enum Kind {
    Open,
    Broadcast,
    Receive,
    Preview,
    Setpoint,
    Equivocators,
    CheckEquivocators,
}

/// Calls of one kind that all have the same answer, but for setpoints, and the buffers as they find them.
struct Row {
    name: String,
    kind: Kind,
    n: u8,
    /// The code, or the word of the nodes named. Of setpoints, which are above every refusal, it is the least.
    answer: u64,
    calls: Vec<Ready>,
    buffers: Vec<Vec<u8>>,
}

/// A record's state, and how many signers its payload has.
#[derive(Clone, Copy)]
enum Found {
    Empty,
    Held(u32),
    Delivered(u32),
    /// Another payload is held than the one that comes.
    HeldOther(u32),
    /// The same, and the one that comes is noted, with its sender's signature alone.
    Noted(u32),
    /// Another payload is delivered, and that one noted likewise.
    DeliveredNoted(u32),
}

/// With the least quorum.
fn config_of(n: u8, own: u8) -> Config {
    let (t, d) = ((n - 1) / 3, 0);
    config_from(n, t, d, own, DAY, least_quorum(n, t))
}

fn payload(random: &mut Random) -> [u8; 16] {
    (u128::from(random.word()) << 64 | u128::from(random.word())).to_be_bytes()
}

/// The sender, and others up to `count`; our own number only where it is asked for.
fn signers(config: &Config, sender: u8, ours: bool, count: u32) -> u64 {
    let mut set = 1 << sender | u64::from(ours) << config.own;
    for node in (0..config.n).filter(|&node| node != config.own) {
        if set.count_ones() < count {
            set |= 1 << node;
        }
    }
    set
}

fn bundle(sender: u8, seq: u8, signers: u64, payload: &[u8; 16]) -> Vec<u8> {
    let head = [&DAY.to_be_bytes()[..], &[sender, seq, 0, 0]].concat();
    [&head[..], &signers.to_be_bytes(), payload].concat()
}

/// The payload is the one that comes, where the record is for one.
fn record(config: &Config, sender: u8, found: Found, payload: &[u8; 16]) -> Vec<u8> {
    let other = payload.map(|byte| !byte);
    let (state, count, held) = match found {
        Found::Empty => return vec![0; RECORD_LENGTH],
        Found::Held(count) => (1, count, payload),
        Found::Delivered(count) => (2, count, payload),
        Found::HeldOther(count) | Found::Noted(count) => (1, count, &other),
        Found::DeliveredNoted(count) => (2, count, &other),
    };
    let set = signers(config, sender, true, count);
    let mut record = vec![0; RECORD_LENGTH];
    record[0] = state;
    record[8..16].copy_from_slice(&set.to_be_bytes());
    record[16..32].copy_from_slice(held);
    if let Found::Noted(_) | Found::DeliveredNoted(_) = found {
        record[32..40].copy_from_slice(&(1_u64 << sender).to_be_bytes());
        record[48..].copy_from_slice(payload);
    }
    record
}

/// Bundles received or previewed, one for each slot of the other senders: what they find, how many signers they bring, and what is
/// answered.
fn bundles(kind: Kind, name: String, n: u8, found: Found, brought: u32, code: u32) -> Row {
    let mut random = Random::new(1);
    let config = config_of(n, 1);
    let (mut calls, mut buffers) = (Vec::new(), Vec::new());
    while calls.len() < CALLS {
        let mut records = Vec::new();
        for (sender, seq) in (0..n).flat_map(|sender| (0..SEQS).map(move |seq| (sender, seq))) {
            let payload = payload(&mut random);
            if sender == config.own {
                records.extend([0; RECORD_LENGTH]);
                continue;
            }
            records.extend(record(&config, sender, found, &payload));
            let set = signers(&config, sender, false, brought);
            calls.push(Ready {
                config,
                input: bundle(sender, seq, set, &payload),
                buffer: buffers.len(),
            });
        }
        buffers.push(records);
    }
    Row {
        name,
        kind,
        n,
        answer: code.into(),
        calls,
        buffers,
    }
}

/// Payloads broadcast, one by each node, with so many numbers used already, whose records are all as `found`; refused where that is all of
/// them.
fn broadcasts(name: &str, n: u8, used: u8, found: Found) -> Row {
    let mut random = Random::new(2);
    let (mut calls, mut buffers) = (Vec::new(), Vec::new());
    while calls.len() < CALLS {
        let mut records = Vec::new();
        for own in 0..n {
            let config = config_of(n, own);
            for seq in 0..SEQS {
                let found = if seq < used { found } else { Found::Empty };
                records.extend(record(&config, own, found, &payload(&mut random)));
            }
            calls.push(Ready {
                config,
                input: payload(&mut random).to_vec(),
                buffer: buffers.len(),
            });
        }
        buffers.push(records);
    }
    let code = if used < SEQS {
        200 + u32::from(used)
    } else {
        25
    };
    Row {
        name: name.to_string(),
        kind: Kind::Broadcast,
        n,
        answer: code.into(),
        calls,
        buffers,
    }
}

/// Days opened, each on a buffer of any bytes.
fn openings(name: &str, n: u8) -> Row {
    let mut random = Random::new(3);
    let config = config_of(n, 1);
    let length = config.records_length();
    let buffer = |_| {
        (0..length / 8)
            .flat_map(|_| random.word().to_ne_bytes())
            .collect()
    };
    let buffers = (0..BUFFERS / length).map(buffer).collect();
    once_each(name, Kind::Open, config, 0, buffers)
}

/// One setpoint from many, on buffers in which each record is a setpoint delivered with any value.
fn setpoints(name: &str, n: u8) -> Row {
    let mut random = Random::new(4);
    let config = config_of(n, 1);
    let mut setpoint = |sender| {
        let [high, low, ..] = random.word().to_be_bytes();
        let mut payload = [0; 16];
        payload[..3].copy_from_slice(&[1, high, low]);
        record(&config, sender, Found::Delivered(config.quorum()), &payload)
    };
    let buffer = |_| {
        let slots = (0..n).flat_map(|sender| [sender; SEQS as usize]);
        slots.flat_map(&mut setpoint).collect()
    };
    let buffers = BUFFERS / config.records_length();
    let buffers = (0..buffers).map(buffer).collect();
    once_each(name, Kind::Setpoint, config, 1 << 16, buffers)
}

/// Who signed two payloads, or the refusal alone, on the records of two nodes. Each record is delivered, with the same payload by both;
/// where `noted`, both have noted another by its sender alone, so that each sender is named.
fn recordings(kind: Kind, name: &str, n: u8, noted: bool) -> Row {
    let mut random = Random::new(5);
    let config = config_of(n, 1);
    let found = match noted {
        true => Found::DeliveredNoted(config.quorum()),
        false => Found::Delivered(config.quorum()),
    };
    let mut pair = |_| {
        let (mut first, mut second) = (Vec::new(), Vec::new());
        for sender in (0..n).flat_map(|sender| [sender; SEQS as usize]) {
            let payload = payload(&mut random);
            first.extend(record(&config, sender, found, &payload));
            second.extend(record(&config_of(n, OTHER), sender, found, &payload));
        }
        (first, second)
    };
    let pairs = BUFFERS / config.records_length() / 2;
    let (buffers, seconds): (Vec<_>, Vec<_>) = (0..pairs).map(&mut pair).unzip();
    let named = match kind {
        Kind::Equivocators if noted => config.mask(),
        _ => 0,
    };
    let mut row = once_each(name, kind, config, named, buffers);
    for (call, second) in row.calls.iter_mut().zip(seconds) {
        call.input = second;
    }
    row
}

/// A call on each of the buffers, with nothing else for input.
fn once_each(name: &str, kind: Kind, config: Config, answer: u64, buffers: Vec<Vec<u8>>) -> Row {
    let calls = (0..buffers.len())
        .map(|buffer| Ready {
            config,
            input: Vec::new(),
            buffer,
        })
        .collect();
    Row {
        name: name.to_string(),
        kind,
        n: config.n,
        answer,
        calls,
        buffers,
    }
}

/// Each answer that a bundle gets often.
fn answers(kind: Kind, call: &str, n: u8) -> impl Iterator<Item = Row> + '_ {
    let quorum = config_of(n, 1).quorum();
    [
        ("kept", Found::Held(2), 1, 100),
        ("signed", Found::Empty, 1, 101),
        ("delivered", Found::Held(quorum - 1), quorum - 1, 102),
        ("22", Found::Delivered(quorum), quorum, 22),
        ("noted", Found::HeldOther(2), 1, 103),
        ("noted again", Found::Noted(2), 2, 103),
        ("replaced", Found::HeldOther(2), quorum, 102),
    ]
    .into_iter()
    .map(move |(answer, found, brought, code)| {
        bundles(kind, format!("{call}: {answer}"), n, found, brought, code)
    })
}

fn rows() -> Vec<Row> {
    let rows_of = |n| {
        let delivered = Found::Delivered(config_of(n, 1).quorum());
        let announcing = [
            broadcasts("announcing: fresh day", n, 0, Found::Empty),
            broadcasts("announcing: number 15", n, 15, Found::Held(1)),
            broadcasts("announcing: 25", n, SEQS, delivered),
        ];
        let (named, check) = (Kind::Equivocators, Kind::CheckEquivocators);
        let side_by_side = [
            recordings(named, "equivocators: none", n, false),
            recordings(named, "equivocators: noted", n, true),
            recordings(check, "their check: none", n, false),
            recordings(check, "their check: noted", n, true),
        ];
        std::iter::once(openings("opening", n))
            .chain(answers(Kind::Receive, "taking", n))
            .chain(answers(Kind::Preview, "preview", n))
            .chain(announcing)
            .chain([setpoints("setpoint", n)])
            .chain(side_by_side)
    };
    [4, 64].into_iter().flat_map(rows_of).collect()
}

impl Row {
    /// Every call of the row once.
    fn run(
        &self,
        side: Side,
        buffers: &mut [Vec<u8>],
        out: &mut [u8],
        mut answered: impl FnMut(u64),
    ) {
        // One loop for each function, so that each is called directly.
        macro_rules! each {
            ($call:expr) => {
                for Ready {
                    config,
                    input,
                    buffer,
                } in &self.calls
                {
                    answered($call(config, input, &mut buffers[*buffer], out).into());
                }
            };
        }
        macro_rules! by_numbers {
            ($call:expr) => {
                |c: &Config, input: &[u8], records: &mut [u8], out: &mut [u8]| {
                    $call(c.n, c.t, c.d, c.own, c.day, c.q, input, records, out)
                }
            };
        }
        macro_rules! without_input {
            ($call:expr) => {
                |c: &Config, _: &[u8], records: &mut [u8], _: &mut [u8]| $call(c, records)
            };
        }
        macro_rules! with_second {
            ($call:expr) => {
                |c: &Config, second: &[u8], first: &mut [u8], _: &mut [u8]| {
                    $call(c, OTHER, first, second)
                }
            };
        }
        let open_by_numbers = |c: &Config, records: &mut [u8]| {
            reference_open(c.n, c.t, c.d, c.own, c.day, c.q, records)
        };
        let setpoint_by_numbers = |c: &Config, records: &mut [u8]| {
            reference_setpoint(c.n, c.t, c.d, c.own, c.day, c.q, records)
        };
        let equivocators_by_numbers = |c: &Config, other, first: &[u8], second: &[u8]| {
            reference_equivocators(c.n, c.t, c.d, c.own, c.day, c.q, other, first, second)
        };
        let check_by_numbers = |c: &Config, other, first: &[u8], second: &[u8]| {
            reference_check_equivocators(c.n, c.t, c.d, c.own, c.day, c.q, other, first, second)
        };
        match (side, self.kind) {
            (Side::Proved, Kind::Open) => each!(without_input!(host::open)),
            (Side::Proved, Kind::Broadcast) => each!(host::broadcast),
            (Side::Proved, Kind::Receive) => each!(host::receive),
            (Side::Proved, Kind::Preview) => each!(host::preview),
            (Side::Proved, Kind::Setpoint) => each!(without_input!(host::setpoint)),
            (Side::Proved, Kind::Equivocators) => each!(with_second!(host::equivocators)),
            (Side::Proved, Kind::CheckEquivocators) => {
                each!(with_second!(host::check_equivocators));
            }
            (Side::Reference, Kind::Open) => each!(without_input!(open_by_numbers)),
            (Side::Reference, Kind::Broadcast) => each!(by_numbers!(reference_broadcast)),
            (Side::Reference, Kind::Receive) => each!(by_numbers!(reference_receive)),
            (Side::Reference, Kind::Preview) => each!(by_numbers!(reference_preview)),
            (Side::Reference, Kind::Setpoint) => each!(without_input!(setpoint_by_numbers)),
            (Side::Reference, Kind::Equivocators) => each!(with_second!(equivocators_by_numbers)),
            (Side::Reference, Kind::CheckEquivocators) => each!(with_second!(check_by_numbers)),
        }
    }

    /// The answers are what the row says, and calls that only look leave the buffers as they were.
    fn check(&self, side: Side) {
        let mut buffers = self.buffers.clone();
        self.run(side, &mut buffers, &mut [0; 32], |answer| {
            let low = if self.kind == Kind::Setpoint {
                0xffff
            } else {
                0
            };
            assert_eq!(answer & !low, self.answer, "{}, n = {}", self.name, self.n);
        });
        let writes = matches!(self.kind, Kind::Open | Kind::Broadcast | Kind::Receive);
        let written = !writes && buffers != self.buffers;
        assert!(!written, "{}, n = {}: a record changed", self.name, self.n);
    }

    /// Nanoseconds of a call. The buffers are made anew first, outside the measured time.
    fn round(&self, side: Side, buffers: &mut [Vec<u8>]) -> f64 {
        for (buffer, made) in buffers.iter_mut().zip(&self.buffers) {
            buffer.copy_from_slice(made);
        }
        let mut out = [0; 32];
        let start = Instant::now();
        self.run(side, buffers, &mut out, |answer| {
            black_box(answer);
        });
        start.elapsed().as_nanos() as f64 / self.calls.len() as f64
    }

    /// The median of each side, by turns.
    fn measure(&self) -> (f64, f64) {
        let mut buffers = self.buffers.clone();
        let (mut proved, mut other) = (Vec::new(), Vec::new());
        for _ in 0..ROUNDS {
            proved.push(self.round(Side::Proved, &mut buffers));
            other.push(self.round(Side::Reference, &mut buffers));
        }
        (median(proved), median(other))
    }

    /// Instructions of a call, counted in a run of this program that makes the row's calls once.
    fn instructions(&self, number: usize, side: Side) -> Option<f64> {
        let (who, function) = match (side, self.kind) {
            (Side::Proved, Kind::Open) => ("proved", "mbrb_open"),
            (Side::Proved, Kind::Broadcast) => ("proved", "mbrb_broadcast"),
            (Side::Proved, Kind::Receive) => ("proved", "mbrb_receive"),
            (Side::Proved, Kind::Preview) => ("proved", "mbrb_preview"),
            (Side::Proved, Kind::Setpoint) => ("proved", "mbrb_setpoint"),
            (Side::Proved, Kind::Equivocators) => ("proved", "mbrb_equivocators"),
            (Side::Proved, Kind::CheckEquivocators) => ("proved", "mbrb_check_equivocators"),
            (Side::Reference, Kind::Open) => ("reference", "reference_open"),
            (Side::Reference, Kind::Broadcast) => ("reference", "reference_broadcast"),
            (Side::Reference, Kind::Receive) => ("reference", "reference_receive"),
            (Side::Reference, Kind::Preview) => ("reference", "reference_preview"),
            (Side::Reference, Kind::Setpoint) => ("reference", "reference_setpoint"),
            (Side::Reference, Kind::Equivocators) => ("reference", "reference_equivocators"),
            (Side::Reference, Kind::CheckEquivocators) => {
                ("reference", "reference_check_equivocators")
            }
        };
        let output = Command::new("valgrind")
            .args(["--tool=callgrind", "--callgrind-out-file=/dev/null"])
            .arg(format!("--toggle-collect={function}"))
            .arg(std::env::current_exe().ok()?)
            .args(["count", &number.to_string(), who])
            .output()
            .ok()?;
        let text = String::from_utf8_lossy(&output.stderr);
        let line = text.lines().find(|line| line.contains("Collected :"))?;
        let total: f64 = line.split_whitespace().last()?.parse().ok()?;
        Some(total / self.calls.len() as f64)
    }
}

fn median(mut times: Vec<f64>) -> f64 {
    times.sort_by(f64::total_cmp);
    times[times.len() / 2]
}

fn report(rows: &[Row]) {
    println!("                            nanoseconds              instructions");
    println!("n   call                    proved reference ratio   proved reference ratio");
    for (number, row) in rows.iter().enumerate() {
        row.check(Side::Proved);
        row.check(Side::Reference);
        let (proved, other) = row.measure();
        let ratio = proved / other;
        print!(
            "{:<3} {:<22} {proved:>7.1} {other:>9.1} {ratio:>5.2}",
            row.n, row.name
        );
        let counts = (
            row.instructions(number, Side::Proved),
            row.instructions(number, Side::Reference),
        );
        match counts {
            (Some(a), Some(b)) => println!(" {a:>8.0} {b:>9.0} {:>5.2}", a / b),
            _ => println!("   not counted: no valgrind"),
        }
    }
}

fn main() {
    let arguments: Vec<String> = std::env::args().skip(1).collect();
    let rows = rows();
    match arguments.as_slice() {
        [] => report(&rows),
        [count, row, who] if count == "count" => {
            let side = match who.as_str() {
                "proved" => Side::Proved,
                _ => Side::Reference,
            };
            rows[row.parse::<usize>().expect("a row's number")].check(side);
        }
        _ => eprintln!("bench takes no argument"),
    }
}
