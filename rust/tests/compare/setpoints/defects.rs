//! What the refusals of one setpoint from many are about, but for too few setpoints.

use super::buffers::{setpoint, Buffer, Sender};
use crate::damage::{bad_config, Cause};
use crate::lent::Length;
use crate::records::{any_clause, Clause, Slot};
use mbrb::random::Random;

#[derive(Clone, Copy, Debug, PartialEq, Eq, PartialOrd, Ord)]
pub enum Defect {
    Table(Cause),
    Length(Length),
    Malformed(Clause, Place),
}

impl Defect {
    /// The refusal that it is about.
    pub fn number(self) -> u32 {
        match self {
            Defect::Table(_) => 1,
            Defect::Length(_) => 20,
            Defect::Malformed(..) => 21,
        }
    }
}

/// Where a record is malformed.
#[derive(Clone, Copy, Debug, PartialEq, Eq, PartialOrd, Ord)]
pub enum Place {
    First,
    Last,
    /// All other records of the sender are empty.
    OfSilent,
    /// The sender has sent something else than setpoints.
    OfUncounted,
    BelowCounted,
    Counted,
    AboveCounted,
}

pub const PLACES: [Place; 7] = [
    Place::First,
    Place::Last,
    Place::OfSilent,
    Place::OfUncounted,
    Place::BelowCounted,
    Place::Counted,
    Place::AboveCounted,
];

impl Place {
    /// Sender and number of such a record, where there is one.
    fn slot(self, random: &mut Random, senders: &[Sender]) -> Option<(u8, usize)> {
        let last = senders.len() - 1;
        let sender = match self {
            Place::First => return Some((0, 0)),
            Place::Last => return Some((last as u8, 15)),
            _ => random.below(last + 1),
        };
        // The senders take turns from any one on.
        let turns = (sender..=last).chain(0..sender);
        turns.map(|at| (at, &senders[at])).find_map(|(at, sender)| {
            let seq = self.seq(random, sender)?;
            Some((at as u8, seq))
        })
    }

    fn seq(self, random: &mut Random, sender: &Sender) -> Option<usize> {
        let silent = sender.contents.is_empty();
        match (self, sender.counted) {
            (Place::OfSilent, None) if silent => Some(random.below(16)),
            (Place::OfUncounted, None) if !silent => Some(random.below(16)),
            (Place::BelowCounted, Some((seq @ 1.., _))) => Some(random.below(seq)),
            (Place::Counted, Some((seq, _))) => Some(seq),
            (Place::AboveCounted, Some((seq @ ..15, _))) => Some(15 - random.below(15 - seq)),
            _ => None,
        }
    }
}

/// Does one thing to the buffer that a refusal is about, each at most once and where there is room for it.
pub fn damage(random: &mut Random, buffer: &mut Buffer) {
    let (number, spoil): (_, fn(&mut Random, &mut Buffer)) = match random.below(4) {
        0 => (1, spoil_table),
        1 => (20, spoil_length),
        _ => (21, spoil_record),
    };
    let mut done = buffer.defects.iter().map(|defect| defect.number());
    if done.all(|other| other != number) {
        spoil(random, buffer);
    }
}

fn spoil_table(random: &mut Random, buffer: &mut Buffer) {
    buffer.config = bad_config(random, buffer.config);
    // With the length that is right for it, the table alone is to blame.
    if buffer.defects.is_empty() && random.once_in(2) {
        buffer.lent.lend(buffer.config.records_length());
    }
    let cause = Cause::of(&buffer.config).expect("a reason why it is not good");
    buffer.defects.push(Defect::Table(cause));
}

fn spoil_length(random: &mut Random, buffer: &mut Buffer) {
    let length = buffer.lent.misfit(random);
    buffer.defects.push(Defect::Length(length));
}

fn spoil_record(random: &mut Random, buffer: &mut Buffer) {
    let place = PLACES[random.below(PLACES.len())];
    let clause = any_clause(random);
    let slot = place.slot(random, &buffer.senders);
    // What makes a record malformed is known only while the table is good.
    let Some((sender, seq)) = slot.filter(|_| buffer.config.good()) else {
        return;
    };
    // Where it is passed over, or taken for well-formed, its value may be missing or count.
    let payload = &setpoint(buffer.any_value(random));
    let config = &buffer.config;
    let slot = Slot {
        config,
        sender,
        payload,
    };
    if let Some(record) = slot.malformed(random, clause) {
        buffer.lent.put(sender, seq, &record);
        buffer.defects.push(Defect::Malformed(clause, place));
    }
}
