//! What can be wrong with a run file. The lines are those between line feeds, so that an empty last one stands for the last line feed.

use crate::heads::{numbers, quorums, NAMES_WITHOUT_QUORUM};
use mbrb::random::Random;

type Lines = Vec<Vec<u8>>;
type Damage = fn(&mut Random, &mut Lines);

/// Their number has no divisor in common with those by which files take turns otherwise, 2 and 5.
pub const DAMAGES: [(&str, Damage); 31] = [
    ("bytes flipped", |random, lines| {
        in_bytes(random, lines, |random, bytes, at| {
            bytes[at] ^= 1 << random.below(8)
        })
    }),
    ("bytes inserted", |random, lines| {
        in_bytes(random, lines, |random, bytes, at| {
            bytes.insert(at, any_byte(random))
        })
    }),
    ("bytes replaced", |random, lines| {
        in_bytes(random, lines, |random, bytes, at| {
            bytes[at] = any_byte(random)
        })
    }),
    ("bytes deleted", |random, lines| {
        in_bytes(random, lines, |_, bytes, at| {
            bytes.remove(at);
        })
    }),
    ("cut short", |random, lines| {
        let mut bytes = lines.join(&b'\n');
        bytes.truncate(random.below(bytes.len()));
        *lines = split(&bytes);
    }),
    ("cut short in the head", |random, lines| {
        let mut bytes = lines.join(&b'\n');
        bytes.truncate(random.below(78.min(bytes.len())));
        *lines = split(&bytes);
    }),
    ("lines swapped", |random, lines| {
        let (one, other) = (random.below(lines.len()), random.below(lines.len()));
        lines.swap(one, other);
    }),
    ("a line twice", |random, lines| {
        let at = random.below(lines.len());
        lines.insert(at, lines[at].clone());
    }),
    ("a line removed", |random, lines| {
        lines.remove(random.below(lines.len()));
    }),
    ("no last line feed", |_, lines| {
        lines.pop();
    }),
    ("a byte before or behind a row", |random, lines| {
        let line = some_line(random, lines);
        let byte = STRAY_BYTES[random.below(STRAY_BYTES.len())];
        let at = random.below(2) * line.len();
        line.insert(at, byte);
    }),
    ("carriage returns throughout", |_, lines| {
        let last = lines.len() - 1;
        lines[..last].iter_mut().for_each(|line| line.push(b'\r'));
    }),
    ("another separator", |random, lines| {
        let separators: [&[u8]; 5] = [b"  ", b"\t", b"", b"\0", b"\r"];
        let separator = separators[random.below(separators.len())];
        let line = some_line(random, lines);
        let spaces: Vec<_> = (0..line.len()).filter(|&at| line[at] == b' ').collect();
        if !spaces.is_empty() {
            let at = spaces[random.below(spaces.len())];
            line.splice(at..=at, separator.iter().copied());
        }
    }),
    ("another field", other_fields),
    ("another number in a row", other_numbers),
    ("an upper-case digit", |random, lines| {
        let line = some_row(random, lines);
        let digits = |at: &usize| line[*at].is_ascii_lowercase();
        let letters: Vec<_> = (0..line.len()).filter(digits).collect();
        if !letters.is_empty() {
            line[letters[random.below(letters.len())]].make_ascii_uppercase();
        }
    }),
    ("another table", |random, lines| {
        lines[1] = TABLES[random.below(TABLES.len())].into();
    }),
    ("another names line", |random, lines| {
        lines[2 * random.below(2)] = NAMES[random.below(NAMES.len())].into();
    }),
    ("names and table without quorum", |_, lines| {
        lines[0] = NAMES_WITHOUT_QUORUM.into();
        drop_quorum(lines);
    }),
    ("names without quorum", |_, lines| {
        lines[0] = NAMES_WITHOUT_QUORUM.into();
    }),
    ("a table without quorum", |_, lines| drop_quorum(lines)),
    ("a table of six numbers", |random, lines| {
        let sixth: [&[u8]; 3] = [b" 0", b" 3", b" 4294967295"];
        lines[1].extend(sixth[random.below(3)]);
    }),
    ("a quorum one below the least", |_, lines| {
        choose_quorum(lines, |least, _| least - 1)
    }),
    ("a quorum above the most", |random, lines| {
        choose_quorum(lines, |_, most| {
            most + [1, 1, 1 << 8, 1 << 31][random.below(4)]
        })
    }),
    ("the smallest or the greatest quorum", |random, lines| {
        choose_quorum(lines, |_, _| [0, u32::MAX.into()][random.below(2)])
    }),
    ("a quorum too large for 32 bits", |random, lines| {
        choose_quorum(lines, |least, most| {
            let shift = [32, 64, 96][random.below(3)];
            (1 << shift) + [0, least, most][random.below(3)]
        })
    }),
    ("a row of about 120 bytes", |random, lines| {
        let length = [60, 61, 62, 119, 120, 121, 122, 128, 240, 241, 242][random.below(11)];
        let filler = some_filler(random);
        let row = some_row(random, lines);
        match random.once_in(2) {
            true => row.resize(length.max(row.len()), filler),
            // The end is a row by itself, for those who cut an over-long one.
            false => *row = [vec![filler; length], row.clone()].concat(),
        }
    }),
    ("a line of a megabyte", |random, lines| {
        let filler = some_filler(random);
        let line = some_line(random, lines);
        let length = (1 << 20) + random.below(130);
        *line = [line.clone(), vec![filler; length], line.clone()].concat();
    }),
    ("only line feeds or nothing", |random, lines| {
        *lines = vec![Vec::new(); 1 + random.below(4)];
    }),
    ("noise", |random, lines| {
        let length = random.below(3000);
        let bytes: Vec<_> = (0..length).map(|_| random.word() as u8).collect();
        *lines = split(&bytes);
    }),
    ("noise in place of rows", |random, lines| {
        let length = random.below(9000);
        let bytes: Vec<_> = (0..length).map(|_| random.word() as u8).collect();
        lines.truncate(3);
        lines.extend(split(&bytes));
    }),
];

const STRAY_BYTES: [u8; 8] = *b"\r\t\0 -+0\xff";

/// What a field may not be, or may be somewhere else.
const FIELDS: &str = "|-|+1|-1|+0|-0|00|01|007|08|0x1|1.|1e0|a|A|B|C|0|1|2|3|4|5|6|7|8|9|10|15|16|17|63|64|255|256|257|260|511|512|\
    65535|65536|4294967295|4294967296|4294967297|18446744073709551615|18446744073709551616|18446744073709551617|\
    999999999999999999999999999999|000000000000000000000000000001|340282366920938463463374607431768211457|\
    000000000000001|0000000000000001|00000000000000001|000000000000000A|0000000000000001-|ffffffffffffffff|000000000000000g|\
    00102030405060708090a0b0c0d0e0f|000102030405060708090a0b0c0d0e0f|0000102030405060708090a0b0c0d0e0f|\
    000102030405060708090A0B0C0D0E0F|000102030405060708090a0b0c0d0e0/|000102030405060708090a0b0c0d0e0:|\
    000102030405060708090a0b0c0d0e0`|000102030405060708090a0b0c0d0e0g|000102030405060708090a0b0c0d0e0@";

/// Good, bad and unreadable ones.
const TABLES: [&str; 55] = [
    "1 0 0 0 1",
    "2 0 0 1 2",
    "4 1 0 4294967295 3",
    "8 2 0 7 6",
    "8 0 3 10 5",
    "8 1 2 1 5",
    "8 0 0 7 5",
    "8 0 0 7 6",
    "8 0 0 7 8",
    "8 1 0 7 7",
    "0 0 0 0 0",
    "0 0 0 0 1",
    "5 1 1 7 4",
    "8 3 0 7 6",
    "8 0 4 7 5",
    "9 0 0 7 5",
    "10 1 1 7 6",
    "16 0 0 7 9",
    "63 0 0 0 32",
    "64 21 0 7 43",
    "64 0 31 7 33",
    "64 0 32 7 33",
    "65 0 0 7 33",
    "255 0 0 7 128",
    "255 255 255 7 256",
    "256 0 0 7 129",
    "257 0 0 7 1",
    "260 1 0 7 3",
    "4 256 0 7 3",
    "4 257 0 7 3",
    "4 1 256 7 3",
    "4 0 65536 7 3",
    "4 1 0 4294967296 3",
    "4 1 0 4294967303 3",
    "4 1 0 18446744073709551623 3",
    "4 1 0 999999999999999999999999999999 3",
    "4294967300 1 0 7 3",
    "4 1 0 7 2",
    "4 1 0 7 4",
    "4 1 0 7 259",
    "4 1 0 7 2147483651",
    "4 1 0 7 4294967295",
    "4 1 0 7 4294967299",
    "4 1 0 7 03",
    "4 1 0 7 +3",
    "4 1 0 7 -",
    "4 1 0 7",
    "4 1 0 7 ",
    "4 1 0 7 3 ",
    "4 1 0 7 3 3",
    " 4 1 0 7 3",
    "4 1 0 3",
    "",
    "- - - - -",
    "units faults losses day quorum",
];

const NAMES: [&str; 16] = [
    "units faults losses day quorum",
    "units faults losses day",
    "act unit sender number signers body",
    "Units faults losses day quorum",
    "units faults losses day Quorum",
    "units faults losses day quorum ",
    "units faults losses day quorum own",
    "units faults losses quorum day",
    "units faults losses quorum",
    "units  faults losses day quorum",
    "unitsfaultslossesdayquorum",
    "act unit sender number signers body ",
    "act unit sender number signers bodY",
    "act unit sender number signers bod",
    "act unit sender number signers bodyy",
    "",
];

/// The quorum is what a table row ends in.
fn drop_quorum(lines: &mut Lines) {
    let space = lines[1].iter().rposition(|&byte| byte == b' ');
    lines[1].truncate(space.expect("a table has five numbers"));
}

/// Puts another quorum into a good table, which is chosen by the least and the most that it may have.
fn choose_quorum(lines: &mut Lines, choose: impl FnOnce(u128, u128) -> u128) {
    let row = std::str::from_utf8(&lines[1]).expect("a table of digits");
    let numbers = numbers(row).expect("plain numbers");
    let (least, most) = quorums(&numbers).expect("a good table");
    let quorum = choose(least, most);
    drop_quorum(lines);
    lines[1].extend(format!(" {quorum}").bytes());
}

fn split(bytes: &[u8]) -> Lines {
    let lines = bytes.split(|&byte| byte == b'\n');
    lines.map(<[u8]>::to_vec).collect()
}

/// Does it at one to three places of the file.
fn in_bytes(
    random: &mut Random,
    lines: &mut Lines,
    mut change: impl FnMut(&mut Random, &mut Vec<u8>, usize),
) {
    let mut bytes = lines.join(&b'\n');
    for _ in 0..1 + random.below(3) {
        // Half of the places are in the head or soon behind it.
        let end = if random.once_in(2) { 150 } else { bytes.len() };
        let at = random.below(end.min(bytes.len()));
        change(random, &mut bytes, at);
    }
    *lines = split(&bytes);
}

fn any_byte(random: &mut Random) -> u8 {
    const LIKELY: [u8; 16] = *b"\n\r\t\0 -+0159afABg";
    match random.once_in(4) {
        true => random.word() as u8,
        false => LIKELY[random.below(LIKELY.len())],
    }
}

fn some_filler(random: &mut Random) -> u8 {
    b" 0a-x\0\r"[random.below(7)]
}

/// Any line but the last, which stands for the line feed; a row more often than not.
fn some_line<'a>(random: &mut Random, lines: &'a mut Lines) -> &'a mut Vec<u8> {
    match random.once_in(4) {
        true => &mut lines[random.below(3)],
        false => some_row(random, lines),
    }
}

/// A line behind the head; a new one if there is none.
fn some_row<'a>(random: &mut Random, lines: &'a mut Lines) -> &'a mut Vec<u8> {
    if lines.len() < 5 {
        lines.insert(3, b"A 0 - - - 000102030405060708090a0b0c0d0e0f".to_vec());
    }
    let rows = lines.len() - 4;
    &mut lines[3 + random.below(rows)]
}

/// Puts some field of the table below in place of one of a line, at up to four lines.
fn other_fields(random: &mut Random, lines: &mut Lines) {
    let likely: Vec<_> = FIELDS.split('|').collect();
    for _ in 0..1 + random.below(4) {
        let field = likely[random.below(likely.len())];
        let line = some_line(random, lines);
        let at = random.below(6);
        replace_field(line, at, field);
    }
}

/// As `other_fields`, in the unit, sender or number of rows, with numbers near the edges.
fn other_numbers(random: &mut Random, lines: &mut Lines) {
    const NUMBERS: [&str; 16] = [
        "0", "1", "7", "8", "9", "15", "16", "255", "256", "257", "00", "01", "015", "0255", "+1",
        "65536",
    ];
    for _ in 0..1 + random.below(4) {
        let field = NUMBERS[random.below(NUMBERS.len())];
        let row = some_row(random, lines);
        replace_field(row, 1 + random.below(3), field);
    }
}

fn replace_field(line: &mut Vec<u8>, at: usize, field: &str) {
    let mut fields: Vec<_> = line.split(|&byte| byte == b' ').collect();
    let at = at.min(fields.len() - 1);
    fields[at] = field.as_bytes();
    *line = fields.join(&b' ');
}
