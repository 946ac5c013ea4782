//! Buffers of records, each from a seed and a number, in which the search for our next number ends at a place that is known.

use crate::comparison::{place, Case, Kind, Records};
use crate::records::{bytes, good_config, Clause, Slot, CLAUSES, DELIVERED, HELD};
use mbrb::random::Random;
use mbrb::reference::{RecordBytes, RECORD_LENGTH, SENDER_LENGTH};
use std::array;

/// What one of our records holds.
#[derive(Clone, Copy, Debug, PartialEq, Eq, PartialOrd, Ord)]
pub enum Content {
    Empty,
    Held,
    Delivered,
    Malformed(Clause),
    /// random ones, which make a record malformed by several clauses at once
    AnyBytes,
}

impl Content {
    fn in_use(random: &mut Random) -> Content {
        [Content::Held, Content::Delivered][random.below(2)]
    }

    /// By a clause that the config leaves room for, of those that can occur in the slot.
    fn malformed(random: &mut Random, slot: &Slot) -> (Content, RecordBytes) {
        loop {
            let clause = CLAUSES[random.below(CLAUSES.len())];
            if let Some(record) = slot.malformed(random, clause) {
                return (Content::Malformed(clause), record);
            }
        }
    }

    fn any(random: &mut Random, slot: &Slot) -> (Content, RecordBytes) {
        let content = match random.below(4) {
            0 => Content::Empty,
            1 => Content::in_use(random),
            2 => Content::AnyBytes,
            _ => return Content::malformed(random, slot),
        };
        content.with_record(random, slot)
    }

    /// Of any content but a malformed one by a clause.
    fn with_record(self, random: &mut Random, slot: &Slot) -> (Content, RecordBytes) {
        let record = match self {
            Content::Held => slot.well_formed(random, HELD),
            Content::Delivered => slot.well_formed(random, DELIVERED),
            Content::AnyBytes => bytes(random),
            _ => [0; RECORD_LENGTH],
        };
        (self, record)
    }
}

/// Which of our records the search ends at, by its number and what it is.
#[derive(Clone, Copy, Debug, PartialEq, Eq, PartialOrd, Ord)]
pub enum End {
    Empty(usize),
    Malformed(usize),
    /// It ends at none of them.
    AllInUse,
}

impl End {
    pub const COUNT: usize = 33;

    pub fn nth(index: usize) -> End {
        match index {
            ..16 => End::Empty(index),
            16..32 => End::Malformed(index - 16),
            _ => End::AllInUse,
        }
    }

    pub fn code(self) -> u32 {
        match self {
            End::Empty(seq) => 200 + seq as u32,
            End::Malformed(_) => 21,
            End::AllInUse => 25,
        }
    }

    /// The number of that record; past the last where there is none.
    pub fn seq(self) -> usize {
        match self {
            End::Empty(seq) | End::Malformed(seq) => seq,
            End::AllInUse => 16,
        }
    }

    /// What our record of a number holds: before the end something in use, behind it anything.
    fn content(self, random: &mut Random, seq: usize, slot: &Slot) -> (Content, RecordBytes) {
        match self {
            _ if seq < self.seq() => Content::in_use(random).with_record(random, slot),
            _ if seq > self.seq() => Content::any(random, slot),
            End::Malformed(_) => Content::malformed(random, slot),
            _ => Content::Empty.with_record(random, slot),
        }
    }
}

/// A broadcast, the records that it finds, and what they were made to show.
pub struct Buffer {
    pub case: Case,
    pub records: Records,
    pub end: End,
    /// of our own records
    pub contents: [Content; 16],
}

/// The buffer of this number.
pub fn buffer(seed: u64, number: u64) -> Buffer {
    let random = &mut Random::new(Random::new(seed).word().wrapping_add(number));
    let config = good_config(random);
    let payload = [[0; 16], bytes(random)][random.below(2)];
    let end = End::nth(random.below(End::COUNT));
    let mut records = any_records(random, config.n);
    let contents = array::from_fn(|seq| {
        // What is announced again, or is all zero, is a payload like any other.
        let payload = &[payload, [0; 16], bytes(random)][random.below(3)];
        let slot = Slot {
            config: &config,
            sender: config.own,
            payload,
        };
        let (content, record) = end.content(random, seq, &slot);
        records.put(place(config.own, seq as u8), &record);
        content
    });
    let case = Case {
        kind: Kind::Broadcast,
        config,
        input: payload.to_vec(),
        records_length: config.records_length(),
        out: bytes(random),
        out_length: 32,
    };
    Buffer {
        case,
        records,
        end,
        contents,
    }
}

/// Of each sender, and in the room behind them, empty records or any bytes.
fn any_records(random: &mut Random, n: u8) -> Records {
    let mut records = Records::zeroed(n);
    for first in (0..records.room()).step_by(SENDER_LENGTH) {
        if random.once_in(2) {
            for place in (first..first + SENDER_LENGTH).step_by(RECORD_LENGTH) {
                records.put(place, &bytes(random));
            }
        }
    }
    records
}
