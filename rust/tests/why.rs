//! The diagnosis that `./play` prints, `tools/why`, beside the proved run program: on run files made from a seed, whole and damaged, it gives
//! a reason for no table where the program prints "no table", and explains the rows that the program calls unread, all of them and no others.
//!
//! `MBRB_DIAGNOSES` sets how many files, `MBRB_SEED` another seed, both decimal; `MBRB_WHY` names another diagnosis. With fewer than a
//! thousand files some reason may be too rare, and the test fails for that.

#[path = "runs/damage.rs"]
mod damage;
#[allow(dead_code)]
#[path = "runs/files.rs"]
mod files;
#[allow(dead_code)]
#[path = "runs/heads.rs"]
mod heads;

use mbrb::random::Random;
use mbrb::reference::least_quorum;
use mbrb::{program_under_test, setting, Config};
use std::collections::{BTreeMap, BTreeSet};
use std::fs::{self, File};
use std::ops::RangeInclusive;
use std::path::{Path, PathBuf};
use std::process::{Command, Output};
use std::thread;

const FILES: u64 = 2_000;
const SEED: u64 = 1;
/// Files before this number are about the ends of buffers, which the diagnosis has not got.
const FIRST: u64 = 1_300;

/// Reasons that have to be given somewhere, each by a part of its message. tests/play has a file for each of the rarer ones.
const REASONS: [&str; 42] = [
    "the input is empty",
    "the text is UTF-16",
    "a byte order mark stands before",
    "lines end in carriage returns alone",
    "it is empty, where \"units",
    "it is empty. Each line",
    "where the table is due",
    "\" is due, in small letters",
    "is missing: \"",
    "word 5 is missing: \"units",
    "4 numbers where 5 are due",
    "6 numbers where 5 are due",
    "it starts with",
    "it ends in a carriage return",
    "it ends in a space",
    "a tab stands after",
    "2 spaces stand after",
    "a number has no sign",
    "a number has no leading zeros",
    "a number has the digits 0 to 9 alone",
    "it is at most 255",
    "it is at most 4294967295",
    "units, and a run has 8 at most",
    "losses it is ",
    "quorum is \"0\": with",
    "quorum is \"4294967295\": with",
    "more than 120 bytes",
    "fields where 6 are due",
    "the act is A or B",
    "of this table",
    "an A row has - there",
    "digits where 16 are due",
    "digits where 32 are due",
    "hexadecimal digits are in small letters",
    "it starts with #, where",
    "it starts with #, and a run has no comments",
    "are due: act, unit, sender, number, signers and body; a run has no comments",
    "; a text is turned into digits first",
    "has a comma, where one space is due",
    "and this has a quotation mark",
    "a no-break space",
    "a long dash",
];

/// What is said where no reason was found: never.
const NO_REASON: &str = "it is not as a row should be";

/// What a diagnosis or the program says of a file.
#[derive(Debug, PartialEq, Eq)]
enum Verdict {
    NoTable,
    /// the lines of the output that say so of a row
    Unread(BTreeSet<usize>),
}

struct Judge {
    program: PathBuf,
    diagnosis: PathBuf,
    folder: PathBuf,
}

impl Judge {
    fn new(test: &str) -> Judge {
        let own = concat!(env!("CARGO_MANIFEST_DIR"), "/../tools/why");
        let diagnosis = std::env::var_os("MBRB_WHY").unwrap_or_else(|| own.into());
        let folder = std::env::temp_dir().join(format!("mbrb-why-{}-{test}", std::process::id()));
        fs::create_dir_all(&folder).expect("a folder for the runs");
        Judge {
            program: program_under_test(),
            diagnosis: diagnosis.into(),
            folder,
        }
    }

    /// What the diagnosis says of the file, if the two agree. A file on which they differ stays.
    fn agree(&self, name: &str, bytes: &[u8]) -> Vec<String> {
        let path = self.folder.join(name);
        fs::write(&path, bytes).expect("the folder is ours");
        let printed = run(&self.program, &[], &path);
        let said = run(&self.diagnosis, &["-a"], &path);
        let messages = messages(&said);
        let [by_program, by_diagnosis] = [printed_verdict(&printed.stdout), verdict(&messages)];
        let place = path.display();
        assert_eq!(by_program, by_diagnosis, "{place}: {messages:?}");
        let all_read = by_program == Verdict::Unread(BTreeSet::new());
        assert_eq!(said.status.code(), Some(i32::from(!all_read)), "{place}");
        assert!(said.stderr.is_empty(), "{place}: {said:?}");
        fs::remove_file(&path).expect("the folder is ours");
        messages
    }

    fn remove_folder(&self) {
        fs::remove_dir_all(&self.folder).expect("the folder is ours");
    }
}

fn run(program: &Path, arguments: &[&str], input: &Path) -> Output {
    let output = Command::new(program)
        .args(arguments)
        .stdin(File::open(input).expect("just written"))
        .output();
    output.expect("the program starts")
}

/// The lines of the diagnosis, which can be printed anywhere.
fn messages(said: &Output) -> Vec<String> {
    let text = String::from_utf8(said.stdout.clone()).expect("plain text");
    let plain = |c: char| c == '\n' || c == ' ' || c.is_ascii_graphic();
    assert!(text.chars().all(plain), "{text:?}");
    assert!(!text.contains(NO_REASON), "{text}");
    text.lines().map(str::to_owned).collect()
}

fn verdict(messages: &[String]) -> Verdict {
    if let [only] = messages {
        assert!(only.starts_with("no table"), "{only}");
        return Verdict::NoTable;
    }
    let rows = messages.len().saturating_sub(1);
    let lines = messages[..rows].iter().map(|message| {
        let [line, printed] =
            lines_of(message).unwrap_or_else(|| panic!("neither a row nor no table: {message}"));
        assert_eq!(line, printed + 3);
        printed
    });
    let set: BTreeSet<_> = lines.collect();
    assert_eq!(set.len(), rows, "a row twice: {messages:?}");
    Verdict::Unread(set)
}

/// The line of the file and that of the output, of a message on a row.
fn lines_of(message: &str) -> Option<[usize; 2]> {
    let (line, rest) = message.strip_prefix("line ")?.split_once(" (line ")?;
    let (printed, reason) = rest.split_once(" of the output) is unread: ")?;
    let number = |word: &str| word.parse().ok();
    (!reason.is_empty()).then_some([number(line)?, number(printed)?])
}

fn printed_verdict(output: &[u8]) -> Verdict {
    let text = std::str::from_utf8(output).expect("only letters and digits are printed");
    if text == "no table\n" {
        return Verdict::NoTable;
    }
    let unread = text.lines().filter_map(|line| {
        let printed = line.strip_suffix(" - - unread 0 0")?;
        Some(printed.parse().expect("a number"))
    });
    Verdict::Unread(unread.collect())
}

/// A file of the seed; of every six, one as another editor would have saved it or another page would have it copied.
fn file(seed: u64, number: u64) -> Vec<u8> {
    let bytes = files::file(seed, FIRST + number).bytes;
    let mut random = Random::new(seed.wrapping_add(number));
    match number % 6 {
        0 => saved(&mut random, bytes),
        _ => bytes,
    }
}

fn saved(random: &mut Random, bytes: Vec<u8>) -> Vec<u8> {
    let wide = |pair: fn(u8) -> [u8; 2]| bytes.iter().flat_map(move |&byte| pair(byte));
    let low_first = || wide(|byte| [byte, 0]);
    let high_first = || wide(|byte| [0, byte]);
    match random.below(15) {
        0 => [b"\xef\xbb\xbf", &bytes[..]].concat(),
        1 => low_first().collect(),
        2 => high_first().collect(),
        3 => b"\xff\xfe".iter().copied().chain(low_first()).collect(),
        4 => b"\xfe\xff".iter().copied().chain(high_first()).collect(),
        5 => with_one_replaced(random, bytes, b' ', b"\xc2\xa0"),
        6 => with_one_replaced(random, bytes, b'-', b"\xe2\x80\x93"),
        7 => with_one_replaced(random, bytes, b'\n', b"\r\n"),
        8 => with_one_replaced(random, bytes, b' ', b","),
        9 => with_one_replaced(random, bytes, b' ', b" \""),
        10 => with_one_replaced(random, bytes, b'\n', b"\n# "),
        11 => with_one_replaced(random, bytes, b'\n', b" # what it shows\n"),
        12 => [b"# what it shows\n", &bytes[..]].concat(),
        13 => with_a_text(random, bytes),
        _ => {
            let returns = |byte| if byte == b'\n' { b'\r' } else { byte };
            bytes.into_iter().map(returns).collect()
        }
    }
}

/// The last field of some line is a text.
fn with_a_text(random: &mut Random, bytes: Vec<u8>) -> Vec<u8> {
    let mut lines: Vec<_> = bytes.split(|&byte| byte == b'\n').collect();
    let at = random.below(lines.len());
    let fields = lines[at].iter().rposition(|&byte| byte == b' ');
    let kept = &lines[at][..fields.map_or(0, |space| space + 1)];
    let text = [kept, [&b"lead"[..], b"lead is unit 2"][random.below(2)]].concat();
    lines[at] = &text;
    lines.join(&b'\n')
}

fn with_one_replaced(random: &mut Random, mut bytes: Vec<u8>, old: u8, new: &[u8]) -> Vec<u8> {
    let places: Vec<_> = (0..bytes.len()).filter(|&at| bytes[at] == old).collect();
    if !places.is_empty() {
        let at = places[random.below(places.len())];
        bytes.splice(at..=at, new.iter().copied());
    }
    bytes
}

#[test]
fn the_diagnosis_explains_what_the_program_does_not_read_and_nothing_else() {
    let (seed, count) = (setting("MBRB_SEED", SEED), setting("MBRB_DIAGNOSES", FILES));
    println!("seed: {seed}");
    let judge = &Judge::new("files");
    let workers = thread::available_parallelism().map_or(1, |many| many.get() as u64);
    let share = |worker: u64| {
        let mut seen = BTreeMap::<&str, u64>::new();
        for number in (worker..count).step_by(workers as usize) {
            let messages = judge.agree(&format!("seed-{seed}-{number}"), &file(seed, number));
            for message in messages {
                let reasons = REASONS.iter().filter(|reason| message.contains(*reason));
                reasons.for_each(|reason| *seen.entry(reason).or_default() += 1);
            }
        }
        seen
    };
    let mut seen = BTreeMap::<&str, u64>::new();
    thread::scope(|scope| {
        let running: Vec<_> = (0..workers)
            .map(|worker| scope.spawn(move || share(worker)))
            .collect();
        for part in running {
            for (reason, count) in part.join().expect("the two agree") {
                *seen.entry(reason).or_default() += count;
            }
        }
    });
    judge.remove_folder();
    for reason in REASONS {
        let count = seen.get(reason).copied().unwrap_or(0);
        println!("  {reason:60}{count:>7}");
    }
    let unseen = REASONS.iter().filter(|reason| !seen.contains_key(*reason));
    assert_eq!(unseen.collect::<Vec<_>>(), [&""; 0], "never seen");
}

/// Every quorum that a table may have and those beside them; of a table that may have none, what would be the least.
fn quorums(n: u8, t: u8, d: u8) -> RangeInclusive<u32> {
    let config = Config {
        n,
        t,
        d,
        own: 0,
        day: 7,
        q: 0,
    };
    let least = least_quorum(n, t);
    match config.quorums() {
        Some(quorums) => least - 1..=quorums.end() + 1,
        None => least..=least,
    }
}

#[test]
fn the_diagnosis_judges_each_small_table_as_the_program_does() {
    let judge = Judge::new("tables");
    let [mut tables, mut good] = [0; 2];
    for (n, t, d) in
        (0..=9).flat_map(|n| (0..=3).flat_map(move |t| (0..=4).map(move |d| (n, t, d))))
    {
        for q in quorums(n, t, d) {
            let table = format!(
                "units faults losses day quorum\n{n} {t} {d} 7 {q}\nact unit sender number signers body\n"
            );
            let messages = judge.agree(&format!("table-{n}-{t}-{d}-{q}"), table.as_bytes());
            tables += 1;
            good += usize::from(messages.is_empty());
        }
    }
    println!("{good} of {tables} tables are good");
    assert_eq!([good, tables], [56, 321]);
    judge.remove_folder();
}
