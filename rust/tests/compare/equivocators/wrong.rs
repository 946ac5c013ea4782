//! Rules of comparing two recordings that are right but for one thing: the comparison has to find each.

use super::defects::{Reason, REASONS};
use super::pairs::Pair;
use super::rules::{Numbers, Rules, Slot, RIGHT};
use super::slots::Compared::{
    self, InFirst, InSecond, NoteAndPayload, Notes, PayloadAndNote, Payloads,
};
use super::slots::{Side, Signed};
use super::Answer;
use crate::misjudged::MISJUDGED;
use crate::records::{bit, DELIVERED, EMPTY, HELD};

/// What is wrong, and the part of the rules with it.
type Wrong<Part> = [(&'static str, Part)];

/// What is wrong, and the rules with it.
pub fn wrong() -> Vec<(String, Rules)> {
    let unseen = |at| {
        let rules = Rules {
            unseen: (at, at + 1),
            ..RIGHT
        };
        (format!("byte {at} of the payload not looked at"), rules)
    };
    [
        by(HALVES, |unseen| Rules { unseen, ..RIGHT }),
        by(COMPARISONS, |compared| Rules { compared, ..RIGHT }),
        by(DIFFERENCES, |differ| Rules { differ, ..RIGHT }),
        by(NAMES, |named| Rules { named, ..RIGHT }),
        by(SLOTS, |looked_at| Rules { looked_at, ..RIGHT }),
        by(MIXTURES, |mixed_with| Rules {
            mixed_with,
            ..RIGHT
        }),
        by(UNIONS, |joined| Rules { joined, ..RIGHT }),
        by(WORDS, |told| Rules { told, ..RIGHT }),
        by(ORDERS, |order| Rules { order, ..RIGHT }),
        by(TABLES, |good_for| Rules { good_for, ..RIGHT }),
        by(JUDGES, |judged_by| Rules { judged_by, ..RIGHT }),
        by(TESTS, |tested| Rules { tested, ..RIGHT }),
        by(&MISJUDGED, |well_formed| Rules {
            well_formed,
            ..RIGHT
        }),
        by(REFUSALS, |refused| Rules { refused, ..RIGHT }),
        (0..16).map(unseen).collect(),
    ]
    .concat()
}

fn by<Part: Copy>(wrong: &Wrong<Part>, rules: fn(Part) -> Rules) -> Vec<(String, Rules)> {
    let named = |(name, part): &(&str, Part)| (name.to_string(), rules(*part));
    wrong.iter().map(named).collect()
}

const HALVES: &Wrong<(usize, usize)> = &[
    ("payloads compared by their first half", (8, 16)),
    ("payloads compared by their second half", (0, 8)),
    ("payloads compared by their first byte", (1, 16)),
];

const COMPARISONS: &Wrong<&[Compared]> = &[
    ("notes passed over", &[Payloads]),
    (
        "what the first has noted passed over",
        &[InSecond, Payloads, PayloadAndNote],
    ),
    (
        "what the second has noted passed over",
        &[InFirst, Payloads, NoteAndPayload],
    ),
    ("the first compared with itself alone", &[InFirst]),
    ("the second compared with itself alone", &[InSecond]),
    ("each compared with itself alone", &[InFirst, InSecond]),
    (
        "neither compared with itself",
        &[Payloads, PayloadAndNote, NoteAndPayload, Notes],
    ),
    (
        "the first not compared with itself",
        &[InSecond, Payloads, PayloadAndNote, NoteAndPayload, Notes],
    ),
    (
        "the second not compared with itself",
        &[InFirst, Payloads, PayloadAndNote, NoteAndPayload, Notes],
    ),
    (
        "payloads not compared with payloads",
        &[InFirst, InSecond, PayloadAndNote, NoteAndPayload, Notes],
    ),
    (
        "the first's payload not compared with the second's note",
        &[InFirst, InSecond, Payloads, NoteAndPayload, Notes],
    ),
    (
        "the first's note not compared with the second's payload",
        &[InFirst, InSecond, Payloads, PayloadAndNote, Notes],
    ),
    (
        "payloads not compared with notes across",
        &[InFirst, InSecond, Payloads, Notes],
    ),
    (
        "notes not compared with notes",
        &[InFirst, InSecond, Payloads, PayloadAndNote, NoteAndPayload],
    ),
];

const DIFFERENCES: &Wrong<fn(Signed, Signed) -> bool> = &[
    ("equal payloads name too", |_, _| true),
    ("equal payloads alone name", |(_, one), (_, other)| {
        one == other
    }),
    (
        "signers compared in place of payloads",
        |(one, _), (other, _)| one != other,
    ),
    (
        "a difference of one bit passed over",
        |(_, one), (_, other)| {
            let [one, other] = [one, other].map(u128::from_be_bytes);
            (one ^ other).count_ones() > 1
        },
    ),
    (
        "an all-zero payload taken for none",
        |(_, one), (_, other)| one != other && one != [0; 16] && other != [0; 16],
    ),
    (
        "only a greater payload at the second",
        |(_, one), (_, other)| one < other,
    ),
];

const NAMES: &Wrong<fn(u8, u64, u64) -> u64> = &[
    ("the sender alone named", |sender, _, _| bit(sender)),
    ("the sender not named", |sender, one, other| {
        one & other & !bit(sender)
    }),
    (
        "whoever signed one of the payloads named",
        |_, one, other| one | other,
    ),
    ("whoever signed only one of them named", |_, one, other| {
        one ^ other
    }),
    ("whoever signed the first of them named", |_, one, _| one),
    ("the lowest bit alone named", |_, one, other| {
        let both = one & other;
        both & both.wrapping_neg()
    }),
];

const SLOTS: &Wrong<fn(&Slot) -> bool> = &[
    ("number 15 passed over", |slot| slot.seq < 15),
    ("number 0 passed over", |slot| slot.seq > 0),
    ("the last sender passed over", |slot| !slot.of_last_sender()),
    ("the first sender passed over", |slot| slot.sender > 0),
    ("the last slot passed over", |slot| {
        slot.seq < 15 || !slot.of_last_sender()
    }),
    ("the first's own slots passed over", |slot| {
        slot.sender != slot.pair.config.own
    }),
    ("the second's own slots passed over", |slot| {
        slot.sender != slot.pair.other
    }),
    ("slots passed over that one of them has empty", |slot| {
        !slot.has(EMPTY)
    }),
    ("slots passed over that one of them holds", |slot| {
        !slot.has(HELD)
    }),
    ("slots passed over that one of them has delivered", |slot| {
        !slot.has(DELIVERED)
    }),
    (
        "slots passed over that only one of them has delivered",
        |slot| !slot.has(HELD) || !slot.has(DELIVERED),
    ),
];

const MIXTURES: &Wrong<Option<usize>> = &[
    ("the next number's payload compared too", Some(1)),
    ("the next sender's payload compared too", Some(16)),
];

const UNIONS: &Wrong<fn(u64, u64) -> u64> = &[
    ("the last slot's names alone", |word, named| match named {
        0 => word,
        _ => named,
    }),
    ("the first slot's names alone", |word, named| match word {
        0 => named,
        _ => word,
    }),
    ("whoever an odd number of slots names", |word, named| {
        word ^ named
    }),
];

const WORDS: &Wrong<fn(&Pair, u64) -> u64> = &[
    ("bits from 32 on lost", |_, word| word & 0xffff_ffff),
    ("bits from 32 on as bit 31", |_, word| word as i32 as u64),
    ("bit 63 lost", |_, word| word & !bit(63)),
    ("bit 0 lost", |_, word| word & !1),
    ("the last node's bit lost", |pair, word| {
        word & !bit(pair.config.n - 1)
    }),
    ("the high byte last", |_, word| word.swap_bytes()),
    ("bits in falling order", |_, word| word.reverse_bits()),
    ("the first node never named", |pair, word| {
        word & !bit(pair.config.own.min(63))
    }),
    ("the second node never named", |pair, word| {
        word & !bit(pair.other.min(63))
    }),
    ("at most t named", |pair, word| {
        (0..pair.config.t)
            .fold((word, 0), |(rest, kept), _| {
                let lowest = rest & rest.wrapping_neg();
                (rest & !lowest, kept | lowest)
            })
            .1
    }),
    ("how many are named", |_, word| word.count_ones().into()),
];

const TABLE: Reason = Reason::Table;
const FIRST_LENGTH: Reason = Reason::Length(Side::First);
const FIRST_RECORDS: Reason = Reason::Malformed(Side::First);
const SECOND_LENGTH: Reason = Reason::Length(Side::Second);
const SECOND_RECORDS: Reason = Reason::Malformed(Side::Second);
const SAME_NODE: Reason = Reason::SameNode;

const ORDERS: &Wrong<fn() -> Vec<Reason>> = &[
    ("28 not given", || without(SAME_NODE)),
    ("28 before 1", || moved(SAME_NODE, TABLE)),
    ("28 straight after 1", || moved(SAME_NODE, FIRST_LENGTH)),
    ("28 before the first's 21", || {
        moved(SAME_NODE, FIRST_RECORDS)
    }),
    ("28 before the second's 20", || {
        moved(SAME_NODE, SECOND_LENGTH)
    }),
    ("28 before the second's 21", || {
        moved(SAME_NODE, SECOND_RECORDS)
    }),
    ("the second tested before the first", || {
        vec![
            TABLE,
            SECOND_LENGTH,
            SECOND_RECORDS,
            FIRST_LENGTH,
            FIRST_RECORDS,
            SAME_NODE,
        ]
    }),
    ("both lengths before the records", || {
        moved(SECOND_LENGTH, FIRST_RECORDS)
    }),
    ("the first's 21 before its 20", || {
        moved(FIRST_RECORDS, FIRST_LENGTH)
    }),
    ("the second's 21 before its 20", || {
        moved(SECOND_RECORDS, SECOND_LENGTH)
    }),
    ("the first's 20 before 1", || moved(FIRST_LENGTH, TABLE)),
    ("the second's 20 before 1", || moved(SECOND_LENGTH, TABLE)),
    ("the first's length not tested", || without(FIRST_LENGTH)),
    ("the first's records not tested", || without(FIRST_RECORDS)),
    ("the second's length not tested", || without(SECOND_LENGTH)),
    ("the second's records not tested", || {
        without(SECOND_RECORDS)
    }),
];

fn without(reason: Reason) -> Vec<Reason> {
    REASONS
        .into_iter()
        .filter(|other| *other != reason)
        .collect()
}

/// A reason is tested straight before another.
fn moved(reason: Reason, before: Reason) -> Vec<Reason> {
    let mut order = without(reason);
    let at = order.iter().position(|other| *other == before);
    order.insert(at.expect("another"), reason);
    order
}

const TABLES: &Wrong<&[Side]> = &[
    ("the second's number not tested", &[Side::First]),
    ("the first's number not tested", &[Side::Second]),
];

const JUDGES: &Wrong<fn(Numbers) -> Numbers> = &[
    (
        "the second's records judged by the first's number",
        |[first, _]| [first; 2],
    ),
    (
        "the first's records judged by the second's number",
        |[_, second]| [second; 2],
    ),
    (
        "each one's records judged by the other's number",
        |[first, second]| [second, first],
    ),
];

const TESTS: &Wrong<fn(&Slot) -> bool> = &[
    ("number 15 not tested", |slot| slot.seq < 15),
    ("number 0 not tested", |slot| slot.seq > 0),
    ("the last sender not tested", |slot| !slot.of_last_sender()),
    ("slots not tested that one of them has empty", |slot| {
        !slot.has(EMPTY)
    }),
    ("slots not tested that neither has empty", |slot| {
        slot.has(EMPTY)
    }),
];

const REFUSALS: &Wrong<fn(u64, u32) -> Answer> = &[
    ("the word told beside 28", |word, number| match number {
        28 => (word, 28),
        _ => (0, number),
    }),
    ("the word told beside 21", |word, number| match number {
        21 => (word, 21),
        _ => (0, number),
    }),
    ("the refusal's number as the word", |_, number| {
        (number.into(), number)
    }),
    ("1 for every refusal", |_, _| (0, 1)),
    ("20 for 21", |_, number| match number {
        21 => (0, 20),
        _ => (0, number),
    }),
];
