//! A node with its records, and what the tally needs to know of them.

use crate::comparison::{place, Case, Kind, Records};
use crate::records::{bytes, Clause, Slot, CLAUSES};
use mbrb::reference::{RecordBytes, RECORD_LENGTH};
use mbrb::{random::Random, Config};
use std::collections::BTreeMap;

pub struct Node {
    pub config: Config,
    pub records: Records,
    /// by its place, the clause that a record was made malformed by
    malformed: BTreeMap<usize, Clause>,
    /// by its place, how far a slot has come since it was empty
    stages: BTreeMap<usize, u32>,
}

impl Node {
    pub fn new(random: &mut Random, config: Config) -> Node {
        let records = Records::zeroed(config.n);
        let mut node = Node {
            config,
            records,
            malformed: BTreeMap::new(),
            stages: BTreeMap::new(),
        };
        // What lies in the slots that a call is not about must not matter, so it need not be well-formed either.
        if random.once_in(4) {
            node.scramble(random);
        }
        node
    }

    /// Any bytes in the whole buffer, as before a day is opened.
    pub fn scramble(&mut self, random: &mut Random) {
        for place in (0..self.records.room()).step_by(RECORD_LENGTH) {
            self.records.put(place, &bytes(random));
        }
        self.forget();
    }

    /// Nothing is known any more of what the records hold.
    pub fn forget(&mut self) {
        self.malformed.clear();
        self.stages.clear();
    }

    fn put(&mut self, place: usize, record: &RecordBytes, clause: Option<Clause>) {
        self.records.put(place, record);
        self.stages.remove(&place);
        self.malformed.remove(&place);
        self.malformed.extend(clause.map(|clause| (place, clause)));
    }

    pub fn put_well_formed(
        &mut self,
        random: &mut Random,
        at: (u8, u8),
        state: u8,
        payload: &[u8; 16],
    ) {
        let (config, sender) = (&self.config, at.0);
        let slot = Slot {
            config,
            sender,
            payload,
        };
        let record = slot.well_formed(random, state);
        let place = place(sender, at.1);
        self.put(place, &record, None);
    }

    pub fn put_malformed(&mut self, random: &mut Random, at: (u8, u8), payload: &[u8; 16]) {
        let (config, sender) = (&self.config, at.0);
        let clause = CLAUSES[random.below(CLAUSES.len())];
        let slot = Slot {
            config,
            sender,
            payload,
        };
        if let Some(record) = slot.malformed(random, clause) {
            let place = place(sender, at.1);
            self.put(place, &record, Some(clause));
        }
    }

    /// By which clause the record is malformed that makes this call refuse with 21, if it was made so.
    pub fn clause(&self, case: &Case) -> Option<Clause> {
        let (start, length) = case.concerned();
        let mut concerned = self.malformed.range(start..start + length);
        concerned.next().map(|(_, &clause)| clause)
    }

    /// Whether this answer completes the life of a slot: signed here, kept, delivered, refused from then on. A preview is no part of it.
    pub fn completes_life(&mut self, case: &Case, code: u32) -> bool {
        if case.kind == Kind::Preview {
            return false;
        }
        let (start, _) = case.concerned();
        let (place, stage) = match code {
            200..=215 => (start + RECORD_LENGTH * (code as usize - 200), 1),
            101 => (start, 1),
            100 => (start, 2),
            102 => (start, 3),
            22 => (start, 4),
            _ => return false,
        };
        let reached = self.stages.entry(place).or_default();
        let advances = *reached + 1 == stage;
        *reached += u32::from(advances);
        advances && stage == 4
    }
}
