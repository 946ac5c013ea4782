//! Who signed two payloads in one slot, by the exported functions beside the reference: both compare the same two recordings, and leave
//! them as they were.
//!
//! `MBRB_BUFFERS` sets how many pairs, `MBRB_SEED` another seed. With fewer than twenty thousand some kind may be too rare, and the test
//! fails for that.

mod defects;
mod pairs;
mod rules;
mod slots;
mod small;
mod tally;
mod wrong;

use crate::arena::{CONFIG, LENGTH};
use crate::records::{bit, bytes, encode, put_note, DELIVERED};
use mbrb::random::Random;
use mbrb::reference::{RecordBytes, RECORD_LENGTH};
use mbrb::{host, reference, setting, Config};
use pairs::{pair, Pair};
use rules::RIGHT;
use slots::{Compared, COMPARED};
use std::fmt;
use tally::Tally;

const PAIRS: u64 = 120_000;
const SEED: u64 = 1;

/// The word, and the refusal or 0.
type Answer = (u64, u32);

/// It is lent the records to write as well: whether it leaves them is to be seen, and a wrong one may not.
type Equivocators = fn(&Config, u8, [&mut [u8]; 2]) -> Answer;

const HOST: Equivocators = |config, other, [first, second]| {
    let word = host::equivocators(config, other, first, second);
    (word, host::check_equivocators(config, other, first, second))
};
const REFERENCE: Equivocators = |config, other, [first, second]| {
    let word = reference::equivocators_word(config, other, first, second);
    let refusal = reference::equivocators_refusal(config, other, first, second);
    (word, refusal)
};

/// Two answers for one pair, or a buffer that did not stay.
struct Difference {
    answers: [Answer; 2],
    written: [bool; 2],
}

/// The answer on which both agree.
fn judge(calls: [Equivocators; 2], pair: &mut Pair) -> Result<Answer, Difference> {
    let before = pair.lent.each_ref().map(|lent| lent.bytes.clone());
    let answers = calls.map(|call| {
        let lent = pair.lent.each_mut().map(|lent| lent.records_mut());
        call(&pair.config, pair.other, lent)
    });
    let written = [0, 1].map(|side| pair.lent[side].bytes != before[side]);
    for (lent, before) in pair.lent.iter_mut().zip(before) {
        lent.bytes = before;
    }
    if written != [false; 2] || answers[0] != answers[1] {
        return Err(Difference { answers, written });
    }
    Ok(answers[0])
}

impl fmt::Debug for Difference {
    fn fmt(&self, f: &mut fmt::Formatter) -> fmt::Result {
        for (word, refusal) in self.answers {
            write!(f, "word {word:016x} and refusal {refusal}, ")?;
        }
        write!(f, "first and second written: {:?}", self.written)
    }
}

#[test]
fn host_and_reference_agree_on_recordings_of_every_kind() {
    let (seed, count) = (setting("MBRB_SEED", SEED), setting("MBRB_BUFFERS", PAIRS));
    println!("seed: {seed}");
    let mut tally = Tally::default();
    for number in 0..count {
        let mut pair = pair(seed, number);
        let expected = pair.reason().map_or(0, |reason| reason.number());
        match judge([HOST, REFERENCE], &mut pair) {
            Ok((word, refusal)) if refusal == expected => tally.count(&pair, word),
            outcome => {
                let Pair { config, other, .. } = pair;
                println!("{config:?}, other {other}, {:?}", pair.defects);
                println!("slots {:?}", pair.slots);
                panic!("seed {seed}, pair {number}: {outcome:?}, not {expected}");
            }
        }
    }
    println!("{tally}");
    tally.assert_complete((count / 2_000).clamp(1, 100));
}

#[test]
fn wrong_equivocators_are_found() {
    const TRIED: u64 = 5_000;
    let wrong = wrong::wrong();
    let mut found = vec![0; wrong.len()];
    for number in 0..TRIED {
        let mut pair = pair(SEED, number);
        let answer = judge([REFERENCE; 2], &mut pair).expect("one and the same");
        assert_eq!(RIGHT.answer(&pair), answer, "{number}");
        for (found, (_, rules)) in found.iter_mut().zip(&wrong) {
            *found += u64::from(rules.answer(&pair) != answer);
        }
    }
    for (found, (name, _)) in found.into_iter().zip(wrong) {
        println!("found in {found:>5} pairs of {TRIED}: {name}");
        assert!(found >= 10, "{name}: in {found} pairs only");
    }
}

#[test]
fn a_written_recording_is_found() {
    let in_first: Equivocators = |config, other, [first, second]| {
        let answer = REFERENCE(config, other, [first, second]);
        if answer.0 != 0 {
            first[16] ^= 1;
        }
        answer
    };
    let in_second: Equivocators = |config, other, [first, second]| {
        let answer = REFERENCE(config, other, [first, second]);
        if answer.0 != 0 {
            second[48] ^= 1;
        }
        answer
    };
    for (writing, sides) in [(in_first, [true, false]), (in_second, [false, true])] {
        let written = |number| {
            let difference = judge([REFERENCE, writing], &mut pair(SEED, number)).err();
            difference.is_some_and(|difference| difference.written == sides)
        };
        assert!((0..100).filter(|&number| written(number)).count() >= 20);
    }
}

/// Records of two of four nodes among the program's constants, where a write ends the program. Node 0 has signed two payloads of its
/// number 0, which node 1 delivered and noted; node 3 another of its number 15 for node 1 than for node 2, and node 2 signed both.
static CONSTANT: [[RecordBytes; 64]; 2] = {
    let mut records = [[[0; RECORD_LENGTH]; 64]; 2];
    records[0][0] = constant(b'a', 0b0111);
    (records[0][0][39], records[0][0][48]) = (0b0001, b'b');
    records[1][0] = constant(b'a', 0b0111);
    records[0][63] = constant(b'a', 0b1110);
    records[1][63] = constant(b'b', 0b1101);
    records
};

/// The record of a payload that is delivered with these signers.
const fn constant(payload: u8, signers: u8) -> RecordBytes {
    let mut record = [0; RECORD_LENGTH];
    (record[0], record[15], record[16]) = (2, signers, payload);
    record
}

/// The number of the second node.
const OTHER: u8 = 2;
const NAMED: Answer = (0b1101, 0);

#[test]
fn recordings_need_not_be_writable() {
    let [first, second] = CONSTANT.each_ref().map(|records| records.as_flattened());
    let word = host::equivocators(&CONFIG, OTHER, first, second);
    let refusal = host::check_equivocators(&CONFIG, OTHER, first, second);
    assert_eq!((word, refusal), NAMED);
}

#[test]
fn a_recording_beside_itself_names_whom_it_names_alone() {
    let records = CONSTANT[0].as_flattened();
    let empty = [0; LENGTH];
    for second in [records, &empty] {
        assert_eq!(host::equivocators(&CONFIG, OTHER, records, second), 0b0001);
        assert_eq!(host::check_equivocators(&CONFIG, OTHER, records, second), 0);
    }
}

#[test]
fn recordings_may_start_anywhere_and_nothing_around_them_changes() {
    for shift in 0..32 {
        let mut memory: [u8; 2 * (LENGTH + 96)] = bytes(&mut Random::new(1));
        let (half, other_half) = memory.split_at_mut(LENGTH + 96);
        let [first, second] = [&mut half[32 + shift..], &mut other_half[63 - shift..]];
        first[..LENGTH].copy_from_slice(CONSTANT[0].as_flattened());
        second[..LENGTH].copy_from_slice(CONSTANT[1].as_flattened());
        let before = memory;
        let (half, other_half) = memory.split_at_mut(LENGTH + 96);
        for call in [HOST, REFERENCE] {
            let lent = [&mut half[32 + shift..], &mut other_half[63 - shift..]];
            let lent = lent.map(|records| &mut records[..LENGTH]);
            assert_eq!(call(&CONFIG, OTHER, lent), NAMED);
        }
        assert_eq!(memory, before);
    }
}

#[test]
fn each_length_of_recordings_counts_in_full() {
    for more in [0x100, 0x1_0000, 0x100_0000] {
        for side in [0, 1] {
            let mut lent = CONSTANT
                .each_ref()
                .map(|records| records.as_flattened().to_vec());
            lent[side].resize(LENGTH + more, 0);
            for call in [HOST, REFERENCE] {
                let lent = lent.each_mut().map(|records| &mut records[..]);
                assert_eq!(call(&CONFIG, OTHER, lent), (0, 20));
            }
        }
    }
}

const SENDER: u8 = 5;

/// Whether the host names a node of 64 whose bit stands beside these two payloads of the sender's, and beside no other. Elsewhere in the
/// slot the other nodes have signed a third.
fn is_named(node: u8, compared: Compared, [one, other]: [[u8; 16]; 2]) -> bool {
    const THIRD: [u8; 16] = [b'c'; 16];
    let config = Config {
        n: 64,
        t: 21,
        d: 0,
        own: 0,
        day: 7,
        q: 43,
    };
    let record = |payload: Option<[u8; 16]>, noted: Option<[u8; 16]>| {
        let mut record = match payload {
            Some(payload) => encode(DELIVERED, u64::MAX, &payload),
            None => encode(DELIVERED, !bit(node), &THIRD),
        };
        if let Some(noted) = noted {
            put_note(&mut record, bit(SENDER) | bit(node), &noted);
        }
        record
    };
    let records = match compared {
        Compared::InFirst => [record(Some(one), Some(other)), record(None, None)],
        Compared::InSecond => [record(None, None), record(Some(one), Some(other))],
        Compared::Payloads => [record(Some(one), None), record(Some(other), None)],
        Compared::PayloadAndNote => [record(Some(one), None), record(None, Some(other))],
        Compared::NoteAndPayload => [record(None, Some(one)), record(Some(other), None)],
        Compared::Notes => [record(None, Some(one)), record(None, Some(other))],
    };
    let mut lent = [[[0; RECORD_LENGTH]; 1024]; 2];
    for (lent, record) in lent.iter_mut().zip(records) {
        lent[16 * usize::from(SENDER) + 15] = record;
    }
    let lent = lent.each_mut().map(|records| records.as_flattened_mut());
    let (word, refusal) = HOST(&config, 63, lent);
    assert_eq!(refusal, 0);
    word & bit(node) != 0
}

#[test]
fn every_bit_of_a_payload_counts_wherever_the_payload_stands() {
    let payload: [u8; 16] = bytes(&mut Random::new(1));
    for compared in COMPARED {
        let named = |other| is_named(40, compared, [payload, other]);
        for at in 0..128 {
            let mut off = payload;
            off[at / 8] ^= 1 << (at % 8);
            assert!(named(off), "bit {at}, {compared:?}");
        }
        assert!(!compared.is_across() || !named(payload), "{compared:?}");
    }
}

#[test]
fn every_node_is_named_by_its_bit_wherever_it_stands() {
    for compared in COMPARED {
        // The sender has signed the third as well.
        for node in (0..64).filter(|&node| node != SENDER) {
            let named = |payloads| is_named(node, compared, payloads);
            assert!(named([[b'a'; 16], [b'b'; 16]]), "{node}, {compared:?}");
            let equal = [[b'a'; 16]; 2];
            assert!(
                !compared.is_across() || !named(equal),
                "{node}, {compared:?}"
            );
        }
    }
}
