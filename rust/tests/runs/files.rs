//! Run files from a seed: runs that could have happened, with rows between that nobody would write; damaged ones; and rows at the ends of
//! the buffers that a reader might have.

use crate::damage::DAMAGES;
use mbrb::random::Random;
use mbrb::runs::{Bundle, System};
use mbrb::Config;

/// How the bytes come to the program's standard input.
#[derive(Clone, Copy)]
pub enum Feed {
    File,
    /// in pieces of so many bytes
    Pipe(usize),
}

pub struct Made {
    pub bytes: Vec<u8>,
    pub feed: Feed,
    /// what was done to the run
    pub kind: &'static str,
}

const PIECES: [usize; 16] = [
    1, 2, 7, 61, 62, 63, 120, 121, 4095, 4096, 4097, 16383, 16385, 65535, 65536, 65537,
];
/// A piece is a system call or two: this many take some milliseconds.
const MOST_PIECES: usize = 2_000;

/// The file of this number. The first ones do not depend on the seed.
pub fn file(seed: u64, number: u64) -> Made {
    let mut random = Random::new(Random::new(seed).word().wrapping_add(number));
    let (kind, bytes) = match straddling(number as usize / 2) {
        Some(bytes) => ("a row at the end of a buffer", bytes),
        None => seeded(number as usize, &mut random),
    };
    let feed = match number % 2 {
        0 => Feed::File,
        _ => Feed::Pipe(piece(bytes.len(), &mut random)),
    };
    Made { bytes, feed, kind }
}

fn piece(length: usize, random: &mut Random) -> usize {
    let few = |&size: &usize| length / size <= MOST_PIECES;
    let sizes: Vec<_> = PIECES.into_iter().filter(few).collect();
    sizes[random.below(sizes.len())]
}

/// One run in five is left whole; the kinds of damage take turns.
fn seeded(number: usize, random: &mut Random) -> (&'static str, Vec<u8>) {
    let mut lines = run(random);
    if number.is_multiple_of(5) {
        return ("whole", lines.join(&b'\n'));
    }
    let (kind, damage) = DAMAGES[number % DAMAGES.len()];
    damage(random, &mut lines);
    (kind, lines.join(&b'\n'))
}

/// A run's lines; the last one is empty, so that the file ends in a line feed.
fn run(random: &mut Random) -> Vec<Vec<u8>> {
    let mut system = System::new(config(random));
    let speaker = random
        .once_in(5)
        .then(|| random.below(system.config.n.into()) as u8);
    let mut text = system.head();
    for _ in 0..random.below(120) {
        text += &row(&mut system, speaker, random);
        text += "\n";
    }
    for _ in 0..random.below(12) {
        text += &to_some(&mut system, random);
    }
    let lines = text.as_bytes().split(|&byte| byte == b'\n');
    lines.map(<[u8]>::to_vec).collect()
}

fn config(random: &mut Random) -> Config {
    // Eight more often: only of so many can a percent be a half.
    let n = 8.min(1 + random.below(10)) as u8;
    // With units that faults and losses do not need there is more than one quorum.
    let needed = n - [0, 3][random.below(2)].min(n - 1);
    let t = random.below(usize::from(needed - 1) / 3 + 1) as u8;
    let d = random.below(usize::from(needed - 1 - 3 * t) / 2 + 1) as u8;
    let day = [0, 7, 20_000, u32::MAX][random.below(4)];
    let mut config = Config {
        n,
        t,
        d,
        own: 0,
        day,
        q: 0,
    };
    let quorums: Vec<_> = config.quorums().expect("n > 3t + 2d").collect();
    config.q = quorums[random.below(quorums.len())];
    config
}

/// Few payloads, so that they meet again; all zero is one.
fn payload(random: &mut Random) -> u128 {
    [0, 1, 0x0001_0203, u128::MAX, random.word().into()][random.below(5)]
}

fn row(system: &mut System, speaker: Option<u8>, random: &mut Random) -> String {
    let n = system.config.n;
    let node = random.below(n.into()) as u8;
    let broadcasts = if speaker.is_some() { 10 } else { 3 };
    if system.sent.is_empty() || random.below(16) < broadcasts {
        return system.broadcast(speaker.unwrap_or(node), payload(random));
    }
    let sent = system.sent[random.below(system.sent.len())];
    match random.below(18) {
        0..=6 => system.receive(node, sent),
        7..=9 => system.receive(node, with_all_signers(system, sent)),
        10 => {
            let payload = payload(random);
            system.receive(node, Bundle { payload, ..sent })
        }
        11 | 12 => {
            let signers = random.word() & system.config.mask() | 1 << sent.sender;
            let payload = payload(random);
            let signers = signers & !(u64::from(random.once_in(2)) << node);
            let bundle = Bundle {
                signers,
                payload,
                ..sent
            };
            system.receive(node, bundle)
        }
        13 | 14 => system.receive(node, out_of_range(n, sent, random)),
        15 | 16 => system.receive(node, beside(system, sent, node, random)),
        _ => nonsense(random),
    }
}

/// Another payload in the slot of one that was sent, signed by some without this node. It is one of two, mostly the same: so that one is
/// noted, comes again with further signers, and leaves no room for the other.
fn beside(system: &System, sent: Bundle, node: u8, random: &mut Random) -> Bundle {
    let payload = sent.payload ^ [1, 1, 1, 2][random.below(4)];
    let some = random.word() & random.word() & system.config.mask();
    let signers = some & !(1 << node) | 1 << sent.sender;
    Bundle {
        signers,
        payload,
        ..sent
    }
}

/// Rows that bring a new announcement, or now and then an older bundle, to every node, and then what all have signed of it to some of them. The
/// other rows alone would seldom have a slot delivered by most nodes but not by all.
fn to_some(system: &mut System, random: &mut Random) -> String {
    let n = system.config.n;
    let first = random.below(n.into()) as u8;
    let some = 1 + random.below(n.into()) as u8;
    let mut text = system.broadcast(first, payload(random)) + "\n";
    let older = match random.once_in(4) {
        true => random.below(system.sent.len()),
        false => 0,
    };
    let sent = system.sent[system.sent.len() - 1 - older];
    for place in 0..n + some {
        let bundle = match place < n {
            true => sent,
            false => with_all_signers(system, sent),
        };
        text += &system.receive((first + place) % n, bundle);
        text += "\n";
    }
    text
}

/// Everybody's signatures that were sent beside this payload.
fn with_all_signers(system: &System, bundle: Bundle) -> Bundle {
    let same = |other: &&Bundle| {
        [other.sender, other.seq] == [bundle.sender, bundle.seq] && other.payload == bundle.payload
    };
    let sets = system.sent.iter().filter(same).map(|other| other.signers);
    let signers = sets.fold(0, |all, signers| all | signers);
    Bundle { signers, ..bundle }
}

/// Refused 5, 6, 7 or 8.
fn out_of_range(n: u8, mut bundle: Bundle, random: &mut Random) -> Bundle {
    match random.below(4) {
        0 => bundle.sender = [n, 9, 63, 64, 255][random.below(5)].max(n),
        1 => bundle.seq = [16, 17, 128, 255][random.below(4)],
        2 => bundle.signers |= 1 << (usize::from(n) + random.below(64 - usize::from(n))),
        _ => bundle.signers &= !(1 << bundle.sender),
    }
    bundle
}

/// A row of fields from anywhere.
fn nonsense(random: &mut Random) -> String {
    const FIELDS: [&str; 10] = [
        "A",
        "B",
        "-",
        "0",
        "1",
        "15",
        "",
        "0000000000000001",
        "000102030405060708090a0b0c0d0e0f",
        "unread",
    ];
    let fields: Vec<_> = (0..random.below(8))
        .map(|_| FIELDS[random.below(FIELDS.len())])
        .collect();
    fields.join(" ")
}

pub const HEAD: &str =
    "units faults losses day quorum\n4 1 0 7 3\nact unit sender number signers body\n";
const BODY: &str = "000102030405060708090a0b0c0d0e0f";
const BUFFER_ENDS: [usize; 5] = [4096, 8192, 16384, 32768, 65536];
/// From one byte behind the end of a buffer to where the row with its line feed ends one byte before it; twice.
const SHIFTS: usize = 2 * 65;

/// A row that delivers, starting so near the end of a buffer that each of its bytes comes to be the first behind it. What is before it is
/// rows, or one over-long row.
fn straddling(number: usize) -> Option<Vec<u8>> {
    let end = *BUFFER_ENDS.get(number / SHIFTS)?;
    let start = end + 1 - number % SHIFTS / 2;
    let kept = format!("B 1 0 0 0000000000000001 {BODY}\n");
    let mut text = HEAD.to_owned();
    if number.is_multiple_of(2) {
        while text.len() + kept.len() < start {
            text += &kept;
        }
    }
    // Fits: the head and the last row before leave room for the line feed.
    text += &"x".repeat(start - text.len() - 1);
    text += "\n";
    text += &format!("B 2 0 0 0000000000000003 {BODY}\n");
    text += &format!("A 0 - - - {BODY}\nB 0 0 0 0000000000000007 {BODY}");
    Some(text.into_bytes())
}
