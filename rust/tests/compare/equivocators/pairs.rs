//! The recordings of two nodes, each pair from a seed and a number, and what it was made to show.

use super::defects::{damage, Defect, Reason, REASONS};
use super::slots::{Side, SIDES};
use crate::comparison::place;
use crate::lent::Lent;
use crate::records::{
    bytes, good_config_often_of_64, noted_signers_of, one_bit_off, up_to, Slot, DELIVERED, EMPTY,
    HELD,
};
use mbrb::reference::RecordBytes;
use mbrb::{random::Random, Config};

/// What a record holds.
#[derive(Clone, Copy, Debug, PartialEq, Eq, PartialOrd, Ord)]
pub enum Content {
    Empty,
    Held,
    HeldBesideNote,
    Delivered,
    DeliveredBesideNote,
}

pub const CONTENTS: [Content; 5] = [
    Content::Empty,
    Content::Held,
    Content::HeldBesideNote,
    Content::Delivered,
    Content::DeliveredBesideNote,
];

impl Content {
    pub fn of(record: &RecordBytes) -> Content {
        match (record[0], noted_signers_of(record)) {
            (EMPTY, _) => Content::Empty,
            (HELD, 0) => Content::Held,
            (HELD, _) => Content::HeldBesideNote,
            (_, 0) => Content::Delivered,
            _ => Content::DeliveredBesideNote,
        }
    }

    fn any(random: &mut Random, payloads: Payloads) -> Content {
        match payloads {
            Payloads::One => [Content::Empty, Content::Held, Content::Delivered][random.below(3)],
            _ => CONTENTS[random.below(CONTENTS.len())],
        }
    }

    fn state(self) -> u8 {
        match self {
            Content::Empty => EMPTY,
            Content::Held | Content::HeldBesideNote => HELD,
            Content::Delivered | Content::DeliveredBesideNote => DELIVERED,
        }
    }

    fn has_note(self) -> bool {
        matches!(self, Content::HeldBesideNote | Content::DeliveredBesideNote)
    }
}

/// Which payloads each slot of a pair has, of four that are made for it.
#[derive(Clone, Copy)]
enum Payloads {
    /// Both nodes have the same and have noted nothing, so that nobody is named.
    One,
    /// They are a bit apart.
    Two,
    Any,
}

impl Payloads {
    fn held(self, random: &mut Random) -> usize {
        match self {
            Payloads::One => 0,
            Payloads::Two => random.below(2),
            Payloads::Any => [0, 0, 0, 1, 2, 3][random.below(6)],
        }
    }

    fn noted_beside(self, random: &mut Random, held: usize) -> usize {
        match self {
            Payloads::One | Payloads::Two => 1 - held,
            Payloads::Any => (held + 1 + random.below(3)) % 4,
        }
    }
}

pub struct Pair {
    /// with the first node's number
    pub config: Config,
    /// the second node's number
    pub other: u8,
    /// the records of the first and of the second
    pub lent: [Lent; 2],
    /// sender and number where one of them or both were given something to hold
    pub slots: Vec<(u8, usize)>,
    pub defects: Vec<Defect>,
}

/// The pair of this number.
pub fn pair(seed: u64, number: u64) -> Pair {
    let random = &mut Random::new(Random::new(seed).word().wrapping_add(number));
    let config = good_config_often_of_64(random);
    let mut pair = Pair {
        config,
        other: other_number(random, &config),
        lent: SIDES.map(|_| Lent::empty(config.n)),
        slots: slots_in_use(random, config.n),
        defects: Vec::new(),
    };
    let payloads = [
        Payloads::One,
        Payloads::Two,
        Payloads::Two,
        Payloads::Any,
        Payloads::Any,
    ];
    let payloads = payloads[random.below(payloads.len())];
    for (sender, seq) in pair.slots.clone() {
        pair.fill(random, sender, seq, payloads);
    }
    // Two defects at once, or three, show which check comes first.
    for _ in 0..[0, 0, 0, 0, 1, 1, 2, 3][random.below(8)] {
        damage(random, &mut pair);
    }
    if pair.other == pair.config.own {
        pair.defects.push(Defect::SameNode);
    }
    pair
}

/// Now and then the first node's own: the only one, where there is one node.
fn other_number(random: &mut Random, config: &Config) -> u8 {
    let other = up_to(random, usize::from(config.n) - 1) as u8;
    match random.once_in(8) {
        true => config.own,
        false if other == config.own => (other + 1) % config.n,
        false => other,
    }
}

/// Mostly one: what is named there by mistake, or not named, is then not hidden by what is named elsewhere.
fn slots_in_use(random: &mut Random, n: u8) -> Vec<(u8, usize)> {
    let count = match random.below(16) {
        0 => {
            return (0..n)
                .flat_map(|sender| (0..16).map(move |seq| (sender, seq)))
                .collect()
        }
        1 => 0,
        2..=4 => 2 + random.below(6),
        _ => 1,
    };
    let mut slot = |_| (up_to(random, usize::from(n) - 1) as u8, up_to(random, 15));
    (0..count).map(&mut slot).collect()
}

impl Pair {
    pub fn config_of(&self, side: Side) -> Config {
        let own = match side {
            Side::First => self.config.own,
            Side::Second => self.other,
        };
        Config { own, ..self.config }
    }

    pub fn lent_of(&mut self, side: Side) -> &mut Lent {
        &mut self.lent[side as usize]
    }

    /// The records of both in a slot.
    pub fn records(&self, (sender, seq): (u8, usize)) -> [&RecordBytes; 2] {
        let place = place(sender, seq as u8);
        [&self.lent[0], &self.lent[1]].map(|lent| lent.bytes[place..].first_chunk().expect("it"))
    }

    /// Something for each of them to hold.
    fn fill(&mut self, random: &mut Random, sender: u8, seq: usize, payloads: Payloads) {
        let made = four_payloads(random);
        for side in SIDES {
            let content = Content::any(random, payloads);
            let held = payloads.held(random);
            let slot = Slot {
                config: &self.config_of(side),
                sender,
                payload: &made[held],
            };
            let mut record = slot.without_note(random, content.state());
            if content.has_note() {
                let noted = payloads.noted_beside(random, held);
                slot.note_payload(random, &mut record, &made[noted]);
            }
            self.lent_of(side).put(sender, seq, &record);
        }
    }

    /// Why it is to be refused, if it is.
    pub fn reason(&self) -> Option<Reason> {
        let applies =
            |reason: &Reason| self.defects.iter().any(|defect| defect.reason() == *reason);
        REASONS.into_iter().find(applies)
    }
}

/// Different ones. The first two are a bit apart, and one is all zero.
fn four_payloads(random: &mut Random) -> [[u8; 16]; 4] {
    let (one, other, zero) = (bytes(random), bytes(random), [0; 16]);
    match random.once_in(3) {
        true => [zero, one_bit_off(random, zero), one, other],
        false => [one, one_bit_off(random, one), other, zero],
    }
}
