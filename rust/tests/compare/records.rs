//! Good configs and records from a seed: well-formed ones in each state, and malformed ones by each clause of what makes a record
//! well-formed. The rules call them sound and unsound.

use crate::quorums::{allowed, any_of};
use mbrb::reference::{RecordBytes, RECORD_LENGTH};
use mbrb::{random::Random, Config};

/// 0, the most, or anything between.
pub fn up_to(random: &mut Random, most: usize) -> usize {
    match random.below(3) {
        0 => 0,
        1 => most,
        _ => random.below(most + 1),
    }
}

pub fn bytes<const LENGTH: usize>(random: &mut Random) -> [u8; LENGTH] {
    let mut bytes = [0; LENGTH];
    for word in bytes.chunks_exact_mut(8) {
        word.copy_from_slice(&random.word().to_be_bytes());
    }
    bytes
}

pub fn good_config(random: &mut Random) -> Config {
    let most = if random.once_in(2) { 64 } else { 8 };
    let n = 1 + random.below(most);
    good_config_of(random, n)
}

/// One in three is of 64 nodes: there a mask or a count first goes wrong.
pub fn good_config_often_of_64(random: &mut Random) -> Config {
    let n = match random.below(3) {
        0 => 64,
        1 => 1 + random.below(64),
        _ => 1 + random.below(10),
    };
    good_config_of(random, n)
}

/// A good config of so many nodes.
pub fn good_config_of(random: &mut Random, n: usize) -> Config {
    // With nodes that faults and losses do not need there is more than one quorum.
    let needed = n - [0, 3][random.below(2)].min(n - 1);
    let t = up_to(random, (needed - 1) / 3);
    let d = up_to(random, (needed - 1 - 3 * t) / 2);
    let own = up_to(random, n - 1);
    let day = match random.below(4) {
        0 => 0,
        1 => u32::MAX,
        _ => random.word() as u32,
    };
    let [n, t, d, own] = [n, t, d, own].map(|number| number as u8);
    let any_quorum = Config {
        n,
        t,
        d,
        own,
        day,
        q: 0,
    };
    Config {
        q: any_of(random, allowed(&any_quorum)),
        ..any_quorum
    }
}

pub fn bit(node: u8) -> u64 {
    1 << node
}

/// So many of the set's nodes, or all if it has fewer.
pub fn choose(random: &mut Random, set: u64, count: u32) -> u64 {
    let count = count.min(set.count_ones());
    let mut chosen = set & random.word();
    while chosen.count_ones() > count {
        chosen &= !one_of(random, chosen);
    }
    while chosen.count_ones() < count {
        chosen |= one_of(random, set & !chosen);
    }
    chosen
}

fn one_of(random: &mut Random, set: u64) -> u64 {
    let turn = random.below(64) as u32;
    let turned = set.rotate_right(turn);
    (turned & turned.wrapping_neg()).rotate_left(turn)
}

/// `fixed` and so many nodes more that there are `count`, all of them from `set`.
pub fn fill_up(random: &mut Random, fixed: u64, set: u64, count: u32) -> u64 {
    let missing = count.saturating_sub(fixed.count_ones());
    fixed | choose(random, set & !fixed, missing)
}

/// A count of signers from 1 to n, most often one at the edge of something.
pub fn edge_count(random: &mut Random, config: &Config) -> u32 {
    let (n, quorum) = (u32::from(config.n), config.quorum());
    let count = match random.below(8) {
        0 | 1 => 1,
        2 => quorum.saturating_sub(2),
        3 => quorum - 1,
        4 => quorum,
        5 => quorum + 1,
        6 => n,
        _ => 1 + random.below(usize::from(config.n)) as u32,
    };
    count.clamp(1, n)
}

/// A payload that differs in a single bit.
pub fn one_bit_off(random: &mut Random, mut payload: [u8; 16]) -> [u8; 16] {
    payload[random.below(16)] ^= 1 << random.below(8);
    payload
}

/// Of a bundle, or of what a record holds or has delivered.
pub fn signers_of(bytes: &[u8]) -> u64 {
    u64::from_be_bytes(bytes[8..16].try_into().expect("8 bytes"))
}

pub fn payload_of(bytes: &[u8]) -> [u8; 16] {
    bytes[16..32].try_into().expect("16 bytes")
}

pub fn noted_signers_of(record: &RecordBytes) -> u64 {
    u64::from_be_bytes(record[32..40].try_into().expect("8 bytes"))
}

pub fn noted_payload_of(record: &RecordBytes) -> [u8; 16] {
    record[48..].try_into().expect("16 bytes")
}

/// With nothing noted.
pub fn encode(state: u8, signers: u64, payload: &[u8; 16]) -> RecordBytes {
    let mut record = [0; RECORD_LENGTH];
    record[0] = state;
    record[8..16].copy_from_slice(&signers.to_be_bytes());
    record[16..32].copy_from_slice(payload);
    record
}

pub fn put_note(record: &mut RecordBytes, signers: u64, payload: &[u8; 16]) {
    record[32..40].copy_from_slice(&signers.to_be_bytes());
    record[48..].copy_from_slice(payload);
}

pub const EMPTY: u8 = 0;
pub const HELD: u8 = 1;
pub const DELIVERED: u8 = 2;

/// Whether a record is well-formed, by what the rules ask of it and not by how it was made.
pub fn well_formed(config: &Config, sender: u8, record: &RecordBytes) -> bool {
    let signers = signers_of(record);
    let has = |node| signers & bit(node) != 0;
    let state = match record[0] {
        EMPTY => *record == [0; RECORD_LENGTH],
        HELD => has(sender) && has(config.own),
        DELIVERED => has(sender) && signers.count_ones() >= config.q,
        _ => false,
    };
    let first_half = state && record[1..8] == [0; 7] && signers & !config.mask() == 0;
    first_half && well_noted(config, sender, record)
}

fn well_noted(config: &Config, sender: u8, record: &RecordBytes) -> bool {
    let (signers, payload) = (noted_signers_of(record), noted_payload_of(record));
    let allowed = match signers {
        0 => payload == [0; 16],
        _ => {
            let from_sender = signers & bit(sender) != 0;
            from_sender && signers & !config.mask() == 0 && payload != payload_of(record)
        }
    };
    allowed && record[40..48] == [0; 8]
}

/// The slot whose record is made, and what it would hold.
#[derive(Clone, Copy)]
pub struct Slot<'a> {
    pub config: &'a Config,
    pub sender: u8,
    pub payload: &'a [u8; 16],
}

impl Slot<'_> {
    /// In half of those that are not empty something is noted.
    pub fn well_formed(&self, random: &mut Random, state: u8) -> RecordBytes {
        let mut record = self.without_note(random, state);
        if state != EMPTY && random.once_in(2) {
            self.note(random, &mut record);
        }
        record
    }

    pub fn without_note(&self, random: &mut Random, state: u8) -> RecordBytes {
        let Config { n, own, .. } = *self.config;
        let (mask, quorum, sender) = (self.config.mask(), self.config.quorum(), bit(self.sender));
        let signers = match state {
            EMPTY => return [0; RECORD_LENGTH],
            HELD => {
                let count = edge_count(random, self.config);
                fill_up(random, sender | bit(own), mask, count)
            }
            _ => {
                let beyond = up_to(random, usize::from(n) - quorum as usize);
                fill_up(random, sender, mask, quorum + beyond as u32)
            }
        };
        encode(state, signers, self.payload)
    }

    /// Notes another payload than the record has.
    fn note(&self, random: &mut Random, record: &mut RecordBytes) {
        let first = payload_of(record);
        let payload = match random.below(3) {
            0 if first != [0; 16] => [0; 16],
            1 => bytes(random),
            _ => one_bit_off(random, first),
        };
        self.note_payload(random, record, &payload);
    }

    /// Notes the payload, with any signers that may be noted.
    pub fn note_payload(&self, random: &mut Random, record: &mut RecordBytes, payload: &[u8; 16]) {
        let (sender, count) = (bit(self.sender), edge_count(random, self.config));
        let signers = fill_up(random, sender, self.config.mask(), count);
        put_note(record, signers, payload);
    }

    /// A record that is malformed by this clause alone. There is none where the config or the slot leaves no room for it.
    pub fn malformed(&self, random: &mut Random, clause: Clause) -> Option<RecordBytes> {
        match clause {
            Clause::State | Clause::ReservedByte | Clause::SignerOutOfRange => {
                let state = 1 + random.below(2) as u8;
                let record = self.well_formed(random, state);
                self.spoilt(random, record, clause)
            }
            Clause::EmptyReservedByte | Clause::EmptySigners | Clause::EmptyPayload => {
                self.spoilt(random, [0; RECORD_LENGTH], clause)
            }
            Clause::HeldWithoutSender
            | Clause::HeldWithoutOwn
            | Clause::HeldWithoutEither
            | Clause::DeliveredWithoutSender
            | Clause::DeliveredBelowQuorum => self.badly_signed(random, clause),
            _ => self.badly_noted(random, clause),
        }
    }

    fn spoilt(
        &self,
        random: &mut Random,
        mut record: RecordBytes,
        clause: Clause,
    ) -> Option<RecordBytes> {
        let nonzero = 1 + random.below(255) as u8;
        match clause {
            Clause::State => record[0] = 3 + up_to(random, 252) as u8,
            Clause::ReservedByte | Clause::EmptyReservedByte => {
                record[1 + random.below(7)] = nonzero;
            }
            Clause::EmptyPayload => record[16 + random.below(16)] = nonzero,
            Clause::EmptySigners => {
                let signers = choose(random, self.config.mask(), 1);
                record[8..16].copy_from_slice(&signers.to_be_bytes());
            }
            _ => {
                let beyond = choose(random, !self.config.mask(), 1);
                let signers = signers_of(&record) | beyond;
                record[8..16].copy_from_slice(&signers.to_be_bytes());
                return (beyond != 0).then_some(record);
            }
        }
        Some(record)
    }

    fn badly_signed(&self, random: &mut Random, clause: Clause) -> Option<RecordBytes> {
        let (sender, own) = (bit(self.sender), bit(self.config.own));
        let others = self.config.mask() & !sender & !own;
        let (quorum, count) = (self.config.quorum(), edge_count(random, self.config));
        let (state, signers, possible) = match clause {
            Clause::HeldWithoutSender => (HELD, fill_up(random, own, others, count), sender != own),
            Clause::HeldWithoutOwn => (HELD, fill_up(random, sender, others, count), sender != own),
            Clause::HeldWithoutEither => (HELD, choose(random, others, count), true),
            Clause::DeliveredWithoutSender => {
                let signers = choose(random, self.config.mask() & !sender, count.max(quorum));
                (DELIVERED, signers, signers.count_ones() >= quorum)
            }
            _ => {
                let signers = fill_up(random, sender, self.config.mask(), quorum - 1);
                (DELIVERED, signers, quorum > 1)
            }
        };
        let mut record = encode(state, signers, self.payload);
        if random.once_in(2) {
            self.note(random, &mut record);
        }
        possible.then_some(record)
    }

    /// By a clause of the noted half.
    fn badly_noted(&self, random: &mut Random, clause: Clause) -> Option<RecordBytes> {
        let state = match clause {
            Clause::EmptyNote | Clause::EmptyNotedReservedByte | Clause::EmptyNotedPayload => EMPTY,
            Clause::NotedHeldPayload => HELD,
            Clause::NotedDeliveredPayload => DELIVERED,
            _ => 1 + random.below(2) as u8,
        };
        let mut record = self.well_formed(random, state);
        match clause {
            Clause::NotedReservedByte | Clause::EmptyNotedReservedByte => {
                record[40 + random.below(8)] = 1 + random.below(255) as u8;
            }
            Clause::NotedHeldPayload | Clause::NotedDeliveredPayload => {
                self.note_payload(random, &mut record, self.payload);
            }
            _ => {
                self.note(random, &mut record);
                let (noted, payload) = (noted_signers_of(&record), noted_payload_of(&record));
                let signers = self.noted_signers(random, clause, noted)?;
                put_note(&mut record, signers, &payload);
            }
        }
        // Zero signers of a zero payload are nothing noted.
        Some(record).filter(|record| !well_formed(self.config, self.sender, record))
    }

    /// What the clause makes of noted signers.
    fn noted_signers(&self, random: &mut Random, clause: Clause, noted: u64) -> Option<u64> {
        let mask = self.config.mask();
        match clause {
            Clause::NotedWithoutSender => {
                let others = choose(random, mask & !bit(self.sender), noted.count_ones());
                (others != 0).then_some(others)
            }
            Clause::NotedSignerOutOfRange => {
                let beyond = choose(random, !mask, 1);
                (beyond != 0).then_some(noted | beyond)
            }
            Clause::NotedPayloadAlone | Clause::EmptyNotedPayload => Some(0),
            _ => Some(noted),
        }
    }
}

/// By which clause a record is malformed.
#[derive(Clone, Copy, Debug, PartialEq, Eq, PartialOrd, Ord)]
pub enum Clause {
    State,
    ReservedByte,
    SignerOutOfRange,
    EmptyReservedByte,
    EmptySigners,
    EmptyPayload,
    HeldWithoutSender,
    HeldWithoutOwn,
    HeldWithoutEither,
    DeliveredWithoutSender,
    DeliveredBelowQuorum,
    /// one of the bytes between noted signers and noted payload, whether something is noted or not
    NotedReservedByte,
    NotedSignerOutOfRange,
    NotedWithoutSender,
    /// without any signer
    NotedPayloadAlone,
    NotedHeldPayload,
    NotedDeliveredPayload,
    /// a note that would be well-formed beside a payload
    EmptyNote,
    EmptyNotedReservedByte,
    EmptyNotedPayload,
}

pub fn any_clause(random: &mut Random) -> Clause {
    // By this clause alone a stricter quorum than the least shows.
    match random.once_in(12) {
        true => Clause::DeliveredBelowQuorum,
        false => CLAUSES[random.below(CLAUSES.len())],
    }
}

pub const CLAUSES: [Clause; 20] = [
    Clause::State,
    Clause::ReservedByte,
    Clause::SignerOutOfRange,
    Clause::EmptyReservedByte,
    Clause::EmptySigners,
    Clause::EmptyPayload,
    Clause::HeldWithoutSender,
    Clause::HeldWithoutOwn,
    Clause::HeldWithoutEither,
    Clause::DeliveredWithoutSender,
    Clause::DeliveredBelowQuorum,
    Clause::NotedReservedByte,
    Clause::NotedSignerOutOfRange,
    Clause::NotedWithoutSender,
    Clause::NotedPayloadAlone,
    Clause::NotedHeldPayload,
    Clause::NotedDeliveredPayload,
    Clause::EmptyNote,
    Clause::EmptyNotedReservedByte,
    Clause::EmptyNotedPayload,
];
