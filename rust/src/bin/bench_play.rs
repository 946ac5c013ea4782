//! How fast the proved run program is beside the Rust player, on a run of a million rows, and how much memory it needs on inputs of 200 MB.
//!
//! Both are processes that read a file and write to /dev/null, by turns. Their outputs are compared once, byte by byte. This program itself
//! stays small: what a process counts as its peak includes that of its parent at the start.

use mbrb::random::Random;
use mbrb::runs::{Bundle, System};
use mbrb::{program_under_test, Config};
use std::collections::BTreeMap;
use std::fs::{self, File};
use std::io::{self, BufRead, BufReader, BufWriter, Read, Write};
use std::path::{Path, PathBuf};
use std::process::{Child, Command, ExitCode, Stdio};
use std::time::Instant;

const ROWS: usize = 1_000_000;
const ROUNDS: usize = 21;
const LARGE: usize = 200_000_000;
const MOST_MEMORY: u64 = 8 << 20;

/// Eight nodes, two of which may be faulty: no other quorum is possible.
const CONFIG: Config = Config {
    n: 8,
    t: 2,
    d: 0,
    own: 0,
    day: 20_000,
    q: 6,
};

fn payload(random: &mut Random) -> u128 {
    u128::from(random.word()) << 64 | u128::from(random.word())
}

/// The next row of a long day. A day has 128 slots, so that soon most rows bring what is known already. The odd numbers are of senders
/// that hardly anybody hears: their bundles never grow to a quorum, and are kept again and again.
fn row(system: &mut System, random: &mut Random) -> String {
    let node = random.below(CONFIG.n.into()) as u8;
    if system.sent.is_empty() || random.once_in(100) {
        return system.broadcast(node, payload(random));
    }
    if random.once_in(500) {
        return "B 1 0 0 - -".to_owned();
    }
    let sent = system.sent[random.below(system.sent.len())];
    let alone = 1 << sent.sender;
    let bundle = match random.below(16) {
        // A second word of the sender, every other time the same one: it is noted, and others are refused then.
        0 => Bundle {
            signers: alone,
            payload: [!sent.payload, payload(random)][random.below(2)],
            ..sent
        },
        _ if sent.seq % 2 == 1 => Bundle {
            signers: alone,
            ..sent
        },
        1 => Bundle {
            signers: system.config.mask() & !(1 << node) | alone,
            ..sent
        },
        _ => sent,
    };
    system.receive(node, bundle)
}

fn write_run(path: &Path) -> io::Result<()> {
    let (mut system, mut random) = (System::new(CONFIG), Random::new(1));
    let mut file = BufWriter::new(File::create(path)?);
    file.write_all(system.head().as_bytes())?;
    for _ in 0..ROWS {
        writeln!(file, "{}", row(&mut system, &mut random))?;
    }
    file.flush()
}

fn start(program: &Path, input: &Path, output: impl Into<Stdio>) -> io::Result<Child> {
    Command::new(program)
        .stdin(File::open(input)?)
        .stdout(output)
        .spawn()
}

/// The C library's `struct rusage` on 64-bit Linux: user and system time, each in seconds and microseconds; the peak of resident memory;
/// and thirteen numbers more.
#[repr(C)]
#[derive(Default)]
struct Usage {
    times: [i64; 4],
    peak_kib: i64,
    rest: [i64; 13],
}

extern "C" {
    fn wait4(process: i32, status: *mut i32, options: i32, usage: *mut Usage) -> i32;
}

/// What one run of a program took.
struct Cost {
    seconds: f64,
    /// of a processor, whatever else ran beside it
    processor_seconds: f64,
    peak_bytes: u64,
}

fn run(program: &Path, input: &Path) -> io::Result<Cost> {
    let started = Instant::now();
    let child = start(program, input, Stdio::null())?;
    let process = i32::try_from(child.id()).expect("a process number");
    let (mut status, mut usage) = (0, Usage::default());
    // SAFETY: both pointers are to live values of the types that the C library writes there.
    let ended = unsafe { wait4(process, &mut status, 0, &mut usage) };
    let seconds = started.elapsed().as_secs_f64();
    if ended != process {
        return Err(io::Error::last_os_error());
    }
    // The rules name no exit status for an input without table; a signal is a failure all the same.
    let signal = status & 0x7f;
    assert!(signal == 0, "{}: signal {signal}", program.display());
    let [user, user_micros, system, system_micros] = usage.times.map(|part| part as f64);
    Ok(Cost {
        seconds,
        processor_seconds: user + system + (user_micros + system_micros) / 1e6,
        peak_bytes: usage.peak_kib as u64 * 1024,
    })
}

/// True if both files have the same bytes.
fn same(one: &Path, other: &Path) -> io::Result<bool> {
    let mut files = [
        BufReader::new(File::open(one)?),
        BufReader::new(File::open(other)?),
    ];
    let mut lines = [Vec::new(), Vec::new()];
    loop {
        for (file, line) in files.iter_mut().zip(&mut lines) {
            line.clear();
            file.read_until(b'\n', line)?;
        }
        if lines[0] != lines[1] || lines[0].is_empty() {
            return Ok(lines[0] == lines[1]);
        }
    }
}

/// How many rows have each answer.
fn print_mix(output: &Path) -> io::Result<()> {
    let mut counts = BTreeMap::new();
    for line in BufReader::new(File::open(output)?).lines().skip(1) {
        let line = line?;
        let fields: Vec<_> = line.split(' ').collect();
        if let [_, _, _, word, reason, _] = fields[..] {
            *counts.entry(format!("{word} {reason}")).or_insert(0) += 1;
        }
    }
    for (answer, count) in counts {
        println!("  {answer:14}{count:>9}");
    }
    Ok(())
}

/// Both programs on the same input, and their outputs compared.
fn compare(programs: &[PathBuf; 2], input: &Path, folder: &Path) -> io::Result<()> {
    let outputs = [folder.join("proved"), folder.join("rust")];
    for (program, output) in programs.iter().zip(&outputs) {
        let status = start(program, input, File::create(output)?)?.wait()?;
        assert!(status.success(), "{}: {status}", program.display());
    }
    assert!(same(&outputs[0], &outputs[1])?, "the outputs differ");
    println!("{ROWS} rows, the same output; the answers are");
    print_mix(&outputs[1])?;
    outputs.iter().try_for_each(fs::remove_file)
}

/// The rounds of each program, by turns, and each first in every other round; the first round is not counted.
fn measure(programs: &[PathBuf; 2], input: &Path) -> io::Result<()> {
    let mut costs = [Vec::new(), Vec::new()];
    for round in 0..=ROUNDS {
        for side in [round % 2, 1 - round % 2] {
            let cost = run(&programs[side], input)?;
            if round > 0 {
                costs[side].push(cost);
            }
        }
    }
    for (name, seconds_of) in TIMES {
        println!("{name:20}best ms  median ms   rows/s (median)");
        let [proved, other] = costs.each_ref().map(|costs| sorted(costs, seconds_of));
        print_times("proved", &proved);
        print_times("Rust player", &other);
        println!(
            "ratio of the medians: {:.2}",
            median(&proved) / median(&other)
        );
    }
    Ok(())
}

type Seconds = fn(&Cost) -> f64;

/// On a machine that does other things too, the processor's time says more.
const TIMES: [(&str, Seconds); 2] = [
    ("time", |cost| cost.seconds),
    ("processor time", |cost| cost.processor_seconds),
];

fn sorted(costs: &[Cost], seconds_of: Seconds) -> Vec<f64> {
    let mut times: Vec<_> = costs.iter().map(seconds_of).collect();
    times.sort_by(f64::total_cmp);
    times
}

fn median(times: &[f64]) -> f64 {
    times[times.len() / 2]
}

fn print_times(name: &str, times: &[f64]) {
    let (best, median) = (times[0], median(times));
    let rows = ROWS as f64 / median;
    println!(
        "  {name:16}{:>9.1}{:>11.1}{rows:>18.0}",
        best * 1e3,
        median * 1e3
    );
}

/// The head and the rows of a run, and its rows again up to the size.
fn write_repeated(run: &Path, path: &Path) -> io::Result<()> {
    let mut file = File::create(path)?;
    let mut written = io::copy(&mut File::open(run)?, &mut file)?;
    while written < LARGE as u64 {
        // Its first lines are three rows that are unread.
        written += io::copy(&mut File::open(run)?, &mut file)?;
    }
    Ok(())
}

fn write_line(before: &str, path: &Path) -> io::Result<()> {
    let mut file = File::create(path)?;
    file.write_all(before.as_bytes())?;
    io::copy(&mut io::repeat(b'0').take(LARGE as u64), &mut file)?;
    Ok(())
}

type WriteInput = fn(&Path, &Path) -> io::Result<()>;

/// Made from the run at the first path, into the file at the second.
const LARGE_INPUTS: [(&str, WriteInput); 3] = [
    ("a long run", write_repeated),
    ("a line, no table", |_, path| write_line("", path)),
    ("a row", |_, path| {
        write_line(&System::new(CONFIG).head(), path)
    }),
];

/// Prints the peaks on large inputs; true if all of the proved program's are small enough.
fn measure_memory(programs: &[PathBuf; 2], made: &Path, folder: &Path) -> io::Result<bool> {
    let path = folder.join("large");
    let mut small = true;
    println!("peak resident memory, KiB    proved  Rust player");
    for (name, write) in LARGE_INPUTS {
        write(made, &path)?;
        let [proved, other] = [run(&programs[0], &path)?, run(&programs[1], &path)?];
        let kib = [&proved, &other].map(|cost| cost.peak_bytes / 1024);
        println!("200 MB: {name:18}{:>9}{:>13}", kib[0], kib[1]);
        small &= proved.peak_bytes < MOST_MEMORY;
    }
    Ok(small)
}

fn bench(folder: &Path) -> io::Result<bool> {
    let player = std::env::current_exe()?.with_file_name("play");
    let programs = [program_under_test(), player];
    let run = folder.join("run");
    write_run(&run)?;
    compare(&programs, &run, folder)?;
    measure(&programs, &run)?;
    measure_memory(&programs, &run, folder)
}

/// A folder that goes away with its files, also where the benchmark fails.
struct Folder(PathBuf);

impl Drop for Folder {
    fn drop(&mut self) {
        if let Err(error) = fs::remove_dir_all(&self.0) {
            eprintln!("{}: {error}", self.0.display());
        }
    }
}

fn main() -> io::Result<ExitCode> {
    let path = std::env::temp_dir().join(format!("mbrb-bench-{}", std::process::id()));
    fs::create_dir(&path)?;
    let folder = Folder(path);
    if bench(&folder.0)? {
        return Ok(ExitCode::SUCCESS);
    }
    println!("the proved program has used 8 MiB or more");
    Ok(ExitCode::FAILURE)
}
