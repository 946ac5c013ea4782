//! What the refusals of two recordings side by side are about.

use super::pairs::Pair;
use super::slots::{Side, SIDES};
use crate::damage::{bad_config, Cause};
use crate::lent::Length;
use crate::records::{any_clause, bytes, up_to, well_formed, Clause, Slot, EMPTY};
use mbrb::random::Random;

/// A refusal, and of those that either buffer may cause, whose it is.
#[derive(Clone, Copy, Debug, PartialEq, Eq, PartialOrd, Ord)]
pub enum Reason {
    Table,
    Length(Side),
    Malformed(Side),
    SameNode,
}

/// In the order of the tests.
pub const REASONS: [Reason; 6] = [
    Reason::Table,
    Reason::Length(Side::First),
    Reason::Malformed(Side::First),
    Reason::Length(Side::Second),
    Reason::Malformed(Side::Second),
    Reason::SameNode,
];

impl Reason {
    pub fn number(self) -> u32 {
        match self {
            Reason::Table => 1,
            Reason::Length(_) => 20,
            Reason::Malformed(_) => 21,
            Reason::SameNode => 28,
        }
    }
}

#[derive(Clone, Copy, Debug, PartialEq, Eq, PartialOrd, Ord)]
pub enum Defect {
    Table(BadTable),
    Length(Side, Length),
    Malformed(Side, Malformed),
    SameNode,
}

impl Defect {
    pub fn reason(self) -> Reason {
        match self {
            Defect::Table(_) => Reason::Table,
            Defect::Length(side, _) => Reason::Length(side),
            Defect::Malformed(side, _) => Reason::Malformed(side),
            Defect::SameNode => Reason::SameNode,
        }
    }
}

/// With which number a table is not good.
#[derive(Clone, Copy, Debug, PartialEq, Eq, PartialOrd, Ord)]
pub enum BadTable {
    /// with the first node's, for this cause
    First(Cause),
    /// Only the second node's number is n or above.
    SecondOwn,
    BothOwns,
}

impl BadTable {
    fn of(pair: &Pair) -> BadTable {
        match SIDES.map(|side| Cause::of(&pair.config_of(side))) {
            [Some(Cause::Own), Some(Cause::Own)] => BadTable::BothOwns,
            [Some(cause), _] => BadTable::First(cause),
            [None, _] => BadTable::SecondOwn,
        }
    }
}

#[derive(Clone, Copy, Debug, PartialEq, Eq, PartialOrd, Ord)]
pub struct Malformed {
    pub clause: Clause,
    pub place: Place,
    /// It is well-formed by the other node's number.
    pub for_other: bool,
}

/// Where a record is malformed.
#[derive(Clone, Copy, Debug, PartialEq, Eq, PartialOrd, Ord)]
pub enum Place {
    First,
    Last,
    /// The other node holds something in the slot.
    InUse,
    /// The other node's record is empty.
    Unused,
}

pub const PLACES: [Place; 4] = [Place::First, Place::Last, Place::InUse, Place::Unused];

impl Place {
    /// Sender and number of such a record of a side, where there is one.
    fn slot(self, random: &mut Random, pair: &Pair, side: Side) -> Option<(u8, usize)> {
        let last = pair.config.n - 1;
        let any = (
            random.below(usize::from(pair.config.n)) as u8,
            random.below(16),
        );
        let in_use = |slot: &(u8, usize)| {
            let [first, second] = pair.records(*slot);
            let other = match side {
                Side::First => second,
                Side::Second => first,
            };
            other[0] != EMPTY
        };
        match self {
            Place::First => Some((0, 0)),
            Place::Last => Some((last, 15)),
            Place::InUse => pair.slots.iter().copied().find(in_use),
            Place::Unused => Some(any).filter(|slot| !in_use(slot)),
        }
    }
}

/// Does one thing to the pair that a refusal is about, each at most once and where there is room for it.
pub fn damage(random: &mut Random, pair: &mut Pair) {
    let side = SIDES[random.below(2)];
    let (reason, spoil): (_, fn(&mut Random, &mut Pair, Side)) = match random.below(8) {
        0 | 1 => (Reason::Table, spoil_table),
        2 | 3 => (Reason::Length(side), spoil_length),
        _ => (Reason::Malformed(side), spoil_record),
    };
    let mut done = pair.defects.iter().map(|defect| defect.reason());
    if done.all(|other| other != reason) {
        spoil(random, pair, side);
    }
}

fn spoil_table(random: &mut Random, pair: &mut Pair, _: Side) {
    let n = pair.config.n;
    let mut beyond = || n + up_to(random, usize::from(255 - n)) as u8;
    let numbers = [beyond(), beyond()];
    match random.below(6) {
        0 => pair.other = numbers[1],
        1 => [pair.config.own, pair.other] = numbers,
        _ => pair.config = bad_config(random, pair.config),
    }
    // With the length that is right for it, the table alone is to blame.
    if pair.defects.is_empty() && random.once_in(2) {
        let length = pair.config.records_length();
        pair.lent.iter_mut().for_each(|lent| lent.lend(length));
    }
    let defect = Defect::Table(BadTable::of(pair));
    pair.defects.push(defect);
}

fn spoil_length(random: &mut Random, pair: &mut Pair, side: Side) {
    let length = pair.lent_of(side).misfit(random);
    pair.defects.push(Defect::Length(side, length));
}

fn spoil_record(random: &mut Random, pair: &mut Pair, side: Side) {
    let (clause, place) = (any_clause(random), PLACES[random.below(PLACES.len())]);
    let configs = SIDES.map(|side| pair.config_of(side));
    // What makes a record malformed is known only while the table is good.
    if !configs.iter().all(|config| config.good()) {
        return;
    }
    let Some((sender, seq)) = place.slot(random, pair, side) else {
        return;
    };
    let (config, other) = (&configs[side as usize], &configs[1 - side as usize]);
    let slot = Slot {
        config,
        sender,
        payload: &bytes(random),
    };
    if let Some(record) = slot.malformed(random, clause) {
        pair.lent_of(side).put(sender, seq, &record);
        let malformed = Malformed {
            clause,
            place,
            for_other: well_formed(other, sender, &record),
        };
        pair.defects.push(Defect::Malformed(side, malformed));
    }
}
