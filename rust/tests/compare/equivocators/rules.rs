//! Two recordings compared, cut where a wrong implementation differs.

use super::defects::{Reason, REASONS};
use super::pairs::Pair;
use super::slots::{Compared, Side, Signed, COMPARED, SIDES};
use super::Answer;
use crate::lent::Lent;
use crate::misjudged::Judge;
use crate::records::well_formed;
use mbrb::reference::{RecordBytes, RECORD_LENGTH};
use mbrb::Config;

const EMPTY: RecordBytes = [0; RECORD_LENGTH];

/// A slot with the records of both. Where a buffer is too short, its records are taken for empty.
pub struct Slot<'a> {
    pub pair: &'a Pair,
    pub sender: u8,
    pub seq: usize,
    pub records: [&'a RecordBytes; 2],
}

impl<'a> Slot<'a> {
    fn at(pair: &'a Pair, place: usize) -> Slot<'a> {
        let record = |lent: &'a Lent| {
            let (records, _) = lent.records().as_chunks();
            records.get(place).unwrap_or(&EMPTY)
        };
        Slot {
            pair,
            sender: (place / 16) as u8,
            seq: place % 16,
            records: pair.lent.each_ref().map(record),
        }
    }

    /// The slot so many records behind.
    fn behind(&self, more: usize) -> Slot<'a> {
        Slot::at(self.pair, 16 * usize::from(self.sender) + self.seq + more)
    }

    /// One of the records has this state.
    pub fn has(&self, state: u8) -> bool {
        self.records.iter().any(|record| record[0] == state)
    }

    pub fn of_last_sender(&self) -> bool {
        self.sender == self.pair.config.n - 1
    }
}

/// The number of the first node, and that of the second.
pub type Numbers = [u8; 2];

/// The rules in parts. With all of them right they are one more implementation.
#[derive(Clone, Copy)]
pub struct Rules {
    /// the refusals, the one that is tested first in front
    pub order: fn() -> Vec<Reason>,
    /// with whose numbers the table has to be good
    pub good_for: &'static [Side],
    /// by which numbers the records of both are judged
    pub judged_by: fn(Numbers) -> Numbers,
    pub well_formed: Judge,
    /// whether the records of a slot are tested
    pub tested: fn(&Slot) -> bool,
    /// whether its payloads are compared
    pub looked_at: fn(&Slot) -> bool,
    /// and which of them
    pub compared: &'static [Compared],
    pub differ: fn(Signed, Signed) -> bool,
    /// the bytes of a payload that are not looked at: the first, and the one behind the last
    pub unseen: (usize, usize),
    /// who is named by the signers of two payloads, given their sender
    pub named: fn(u8, u64, u64) -> u64,
    /// So many records behind, the second's payload is compared with the first's as well.
    pub mixed_with: Option<usize>,
    /// what is named so far, with what a slot names
    pub joined: fn(u64, u64) -> u64,
    /// the word as it is told
    pub told: fn(&Pair, u64) -> u64,
    /// word and refusal as they are told, where it is refused
    pub refused: fn(u64, u32) -> Answer,
}

pub const RIGHT: Rules = Rules {
    order: || REASONS.to_vec(),
    good_for: &SIDES,
    judged_by: |numbers| numbers,
    well_formed,
    tested: |_| true,
    looked_at: |_| true,
    compared: &COMPARED,
    differ: |(_, one), (_, other)| one != other,
    unseen: (0, 0),
    named: |_, one, other| one & other,
    mixed_with: None,
    joined: |word, named| word | named,
    told: |_, word| word,
    refused: |_, number| (0, number),
};

impl Rules {
    pub fn answer(&self, pair: &Pair) -> Answer {
        let length = pair.config.records_length();
        let good = |side: &Side| pair.config_of(*side).good();
        let (word, malformed) = match SIDES.iter().any(good) {
            true => self.look(pair),
            false => (0, [false; 2]),
        };
        let refused = (self.order)().into_iter().find(|reason| match *reason {
            Reason::Table => !self.good_for.iter().all(good),
            Reason::Length(side) => pair.lent[side as usize].records().len() != length,
            Reason::Malformed(side) => malformed[side as usize],
            Reason::SameNode => pair.config.own == pair.other,
        });
        match refused {
            Some(reason) => (self.refused)(word, reason.number()),
            None => (word, 0),
        }
    }

    /// The word, and for each side whether a record is malformed that is tested.
    fn look(&self, pair: &Pair) -> (u64, [bool; 2]) {
        // A number that is not good may be too large for a shift.
        let numbers = (self.judged_by)([pair.config.own, pair.other]).map(|own| own.min(63));
        let configs = numbers.map(|own| Config { own, ..pair.config });
        let slots = (0..16 * usize::from(pair.config.n)).map(|place| Slot::at(pair, place));
        let (mut word, mut malformed) = (0, [false; 2]);
        // Where both are empty nobody is named and nothing is malformed by any of the wrong rules.
        for slot in slots.filter(|slot| slot.records != [&EMPTY; 2]) {
            word = (self.joined)(word, self.named_in(&slot));
            let judged = [0, 1].map(|side| self.malformed(&configs[side], &slot, side));
            malformed = [malformed[0] | judged[0], malformed[1] | judged[1]];
        }
        ((self.told)(pair, word), malformed)
    }

    fn malformed(&self, config: &Config, slot: &Slot, side: usize) -> bool {
        (self.tested)(slot) && !(self.well_formed)(config, slot.sender, slot.records[side])
    }

    fn named_in(&self, slot: &Slot) -> u64 {
        if !(self.looked_at)(slot) {
            return 0;
        }
        let mixed = self.mixed_with.map(|more| {
            let records = [slot.records[0], slot.behind(more).records[1]];
            Compared::Payloads.of(records)
        });
        let compared = self.compared.iter().map(|both| both.of(slot.records));
        compared.chain(mixed).fold(0, |word, [one, other]| {
            // Without signers there is no payload.
            let payloads = one.0 != 0 && other.0 != 0;
            match payloads && (self.differ)(self.read(one), self.read(other)) {
                true => word | (self.named)(slot.sender, one.0, other.0),
                false => word,
            }
        })
    }

    fn read(&self, (signers, mut payload): Signed) -> Signed {
        payload[self.unseen.0..self.unseen.1].fill(0);
        (signers, payload)
    }
}
