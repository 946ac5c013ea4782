//! Whole buffers of records with setpoints in them, each from a seed and a number, and what it was made to show.

use super::defects::{damage, Defect};
use crate::lent::Lent;
use crate::records::{bytes, choose, good_config_often_of_64, up_to, Slot, DELIVERED, HELD};
use mbrb::reference::RecordBytes;
use mbrb::{random::Random, Config};

/// What a record holds that is not empty.
#[derive(Clone, Copy, Debug, PartialEq, Eq, PartialOrd, Ord)]
pub enum Content {
    /// delivered; another setpoint may be noted
    Setpoint,
    HeldSetpoint,
    /// noted beside another payload that is delivered
    NotedSetpoint,
    /// noted beside another payload that is held
    HeldNotedSetpoint,
    HeldOther,
    /// delivered, and far from a setpoint
    Other,
    /// delivered, and a setpoint but for this byte of the payload
    Stray(usize),
}

/// The bytes by which a payload is a setpoint. The other two are its value.
pub const MARKS: [usize; 14] = [0, 3, 4, 5, 6, 7, 8, 9, 10, 11, 12, 13, 14, 15];

pub fn setpoint(value: i16) -> [u8; 16] {
    let mut payload = [0; 16];
    payload[0] = 1;
    payload[1..3].copy_from_slice(&value.to_be_bytes());
    payload
}

impl Content {
    /// What does not count though it is there.
    fn passed_over(random: &mut Random) -> Content {
        match random.below(6) {
            0 => Content::HeldSetpoint,
            1 => Content::HeldOther,
            2 => Content::Other,
            3 => Content::NotedSetpoint,
            4 => Content::HeldNotedSetpoint,
            _ => Content::Stray(MARKS[random.below(MARKS.len())]),
        }
    }

    fn record(self, random: &mut Random, config: &Config, sender: u8, value: i16) -> RecordBytes {
        let (state, payload) = match self {
            Content::Setpoint => (DELIVERED, setpoint(value)),
            Content::HeldSetpoint => (HELD, setpoint(value)),
            Content::HeldOther | Content::HeldNotedSetpoint => (HELD, other_payload(random)),
            Content::Other | Content::NotedSetpoint => (DELIVERED, other_payload(random)),
            Content::Stray(at) => {
                let mut payload = setpoint(value);
                payload[at] ^= 1 << random.below(8);
                (DELIVERED, payload)
            }
        };
        let payload = &payload;
        let slot = Slot {
            config,
            sender,
            payload,
        };
        let mut record = slot.well_formed(random, state);
        let noted = match self {
            Content::NotedSetpoint | Content::HeldNotedSetpoint => Some(value),
            Content::Setpoint if random.once_in(3) => Some(EDGES[random.below(EDGES.len())]),
            _ => None,
        };
        if let Some(noted) = noted.map(setpoint).filter(|noted| noted != payload) {
            slot.note_payload(random, &mut record, &noted);
        }
        record
    }
}

fn other_payload(random: &mut Random) -> [u8; 16] {
    if random.once_in(2) {
        [0; 16]
    } else {
        bytes(random)
    }
}

/// The values of a buffer's setpoints.
#[derive(Clone, Copy)]
enum Values {
    Any,
    /// of a room, in hundredths of a degree
    Usual,
    AroundZero,
    /// one of three, so that many are equal
    Few([i16; 3]),
    /// where a byte or a sign changes
    Edges,
}

const EDGES: [i16; 12] = [
    i16::MIN,
    i16::MIN + 1,
    -257,
    -256,
    -255,
    -1,
    0,
    1,
    255,
    256,
    i16::MAX - 1,
    i16::MAX,
];

impl Values {
    fn new(random: &mut Random) -> Values {
        match random.below(5) {
            0 => Values::Any,
            1 => Values::Usual,
            2 => Values::AroundZero,
            3 => Values::Few([(); 3].map(|()| random.word() as i16)),
            _ => Values::Edges,
        }
    }

    fn value(self, random: &mut Random) -> i16 {
        match self {
            Values::Any => random.word() as i16,
            Values::Usual => 1800 + random.below(400) as i16,
            Values::AroundZero => random.below(9) as i16 - 4,
            Values::Few(values) => values[random.below(3)],
            Values::Edges => EDGES[random.below(EDGES.len())],
        }
    }
}

/// What the sixteen records of a sender were made to hold.
#[derive(Clone, Default)]
pub struct Sender {
    /// what its records hold that are not empty, by rising number
    pub contents: Vec<(usize, Content)>,
    /// number and value of the setpoint that counts
    pub counted: Option<(usize, i16)>,
    /// a setpoint under a lower number has another value
    pub changed: bool,
}

pub struct Buffer {
    pub config: Config,
    pub lent: Lent,
    pub senders: Vec<Sender>,
    pub defects: Vec<Defect>,
    values: Values,
    /// One record in so many is not empty, beside those that count.
    used_once_in: usize,
}

/// The buffer of this number.
pub fn buffer(seed: u64, number: u64) -> Buffer {
    let random = &mut Random::new(Random::new(seed).word().wrapping_add(number));
    let config = good_config_often_of_64(random);
    let mut buffer = Buffer::empty(random, config);
    let count = pooled_count(random, &config);
    let pooled = choose(random, config.mask(), count);
    let values = buffer.values;
    buffer.fill(random, pooled, |random, _| values.value(random));
    // Two defects at once show which check comes first.
    for _ in 0..[0, 0, 0, 0, 1, 1, 1, 2][random.below(8)] {
        damage(random, &mut buffer);
    }
    buffer
}

/// How many senders have a setpoint that counts: mostly about as many as are needed.
fn pooled_count(random: &mut Random, config: &Config) -> u32 {
    let (n, needed) = (u32::from(config.n), 2 * u32::from(config.t) + 1);
    let count = match random.below(10) {
        0 => needed.saturating_sub(2),
        1 => needed - 1,
        2..=4 => needed,
        5 | 6 => needed + 1,
        7 => n,
        _ => random.below(usize::from(config.n) + 1) as u32,
    };
    count.min(n)
}

impl Buffer {
    /// A day just opened.
    pub fn empty(random: &mut Random, config: Config) -> Buffer {
        Buffer {
            config,
            lent: Lent::empty(config.n),
            senders: vec![Sender::default(); config.n.into()],
            defects: Vec::new(),
            values: Values::new(random),
            used_once_in: [1, 4, 4, 20, 20, 20][random.below(6)],
        }
    }

    /// Records for all senders. Those of the word `pooled` have a setpoint that counts, with the value given for the sender.
    pub fn fill(
        &mut self,
        random: &mut Random,
        pooled: u64,
        mut value: impl FnMut(&mut Random, u8) -> i16,
    ) {
        for sender in 0..self.config.n {
            let pools = pooled >> sender & 1 == 1;
            let counted = pools.then(|| (up_to(random, 15), value(random, sender)));
            self.fill_sender(random, sender, counted);
        }
    }

    fn fill_sender(&mut self, random: &mut Random, sender: u8, counted: Option<(usize, i16)>) {
        self.senders[usize::from(sender)].counted = counted;
        for seq in 0..16 {
            let content = match counted {
                Some((last, _)) if seq == last => Content::Setpoint,
                _ if !random.once_in(self.used_once_in) => continue,
                Some((last, _)) if seq < last && random.once_in(2) => Content::Setpoint,
                _ => Content::passed_over(random),
            };
            let value = match counted {
                Some((last, value)) if seq == last => value,
                _ => self.values.value(random),
            };
            self.put(random, (sender, seq), content, value);
        }
    }

    fn put(&mut self, random: &mut Random, at: (u8, usize), content: Content, value: i16) {
        let (sender, seq) = at;
        let record = content.record(random, &self.config, sender, value);
        self.lent.put(sender, seq, &record);
        let sender = &mut self.senders[usize::from(sender)];
        sender.contents.push((seq, content));
        let counted = sender.counted.map(|(_, counted)| counted);
        sender.changed |= content == Content::Setpoint && counted != Some(value);
    }

    pub fn any_value(&self, random: &mut Random) -> i16 {
        self.values.value(random)
    }

    /// The values that count, in rising order.
    pub fn pooled(&self) -> Vec<i16> {
        let counted = |sender: &Sender| sender.counted.map(|(_, value)| value);
        let mut values: Vec<_> = self.senders.iter().filter_map(counted).collect();
        values.sort_unstable();
        values
    }
}
