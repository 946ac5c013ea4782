//! A node's records as they are lent to a call that looks at all of them: whole, or of a wrong length.

use crate::comparison::place;
use mbrb::random::Random;
use mbrb::reference::{RecordBytes, RECORD_LENGTH, SENDER_LENGTH};

pub struct Lent {
    /// the records, and room behind them
    pub bytes: Vec<u8>,
    /// the length that is right for them
    whole: usize,
    /// The call gets so many of the bytes.
    lent: usize,
}

impl Lent {
    /// A day just opened.
    pub fn empty(n: u8) -> Lent {
        let whole = place(n, 0);
        Lent {
            bytes: vec![0; whole + SENDER_LENGTH],
            whole,
            lent: whole,
        }
    }

    pub fn records(&self) -> &[u8] {
        &self.bytes[..self.lent]
    }

    pub fn records_mut(&mut self) -> &mut [u8] {
        &mut self.bytes[..self.lent]
    }

    pub fn put(&mut self, sender: u8, seq: usize, record: &RecordBytes) {
        let place = place(sender, seq as u8);
        self.bytes[place..place + RECORD_LENGTH].copy_from_slice(record);
    }

    /// Lends as many bytes as are right for another table.
    pub fn lend(&mut self, length: usize) {
        self.lent = length;
        let room = self.bytes.len().max(length);
        self.bytes.resize(room, 0);
    }

    /// Lends too few or too many.
    pub fn misfit(&mut self, random: &mut Random) -> Length {
        let length = LENGTHS[random.below(LENGTHS.len())];
        self.lent = length.in_place_of(self.whole);
        length
    }
}

/// How many bytes are lent in place of all.
#[derive(Clone, Copy, Debug, PartialEq, Eq, PartialOrd, Ord)]
pub enum Length {
    Nothing,
    /// as many as records without notes would have
    Half,
    SenderLess,
    RecordLess,
    ByteLess,
    ByteMore,
    RecordMore,
    SenderMore,
}

pub const LENGTHS: [Length; 8] = [
    Length::Nothing,
    Length::Half,
    Length::SenderLess,
    Length::RecordLess,
    Length::ByteLess,
    Length::ByteMore,
    Length::RecordMore,
    Length::SenderMore,
];

impl Length {
    fn in_place_of(self, right: usize) -> usize {
        match self {
            Length::Nothing => 0,
            Length::Half => right / 2,
            Length::SenderLess => right - SENDER_LENGTH,
            Length::RecordLess => right - RECORD_LENGTH,
            Length::ByteLess => right - 1,
            Length::ByteMore => right + 1,
            Length::RecordMore => right + RECORD_LENGTH,
            Length::SenderMore => right + SENDER_LENGTH,
        }
    }
}
