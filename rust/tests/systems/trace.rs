//! A list of calls as it went: what each call was given, what it answered, and the outgoing bytes it left.
//!
//! What demand 3 asks of a call, whether it announces, delivers, sends, signs or reaches, is read off that call here. The checks know
//! nothing else of a run.

use mbrb::Config;
use std::fmt;
use std::ops::RangeInclusive;

pub type Payload = [u8; 16];
pub type Bundle = [u8; 32];

pub const KEPT: u32 = 100;
pub const SIGNED: u32 = 101;
pub const DELIVERED: u32 = 102;
pub const NOTED: u32 = 103;
pub const ANNOUNCED: u32 = 200;

/// The refusals that reading gives: a bundle with a higher code was read.
const LAST_OF_READING: u32 = 8;

/// The bit of a node in a word of signers.
pub fn bit(node: u8) -> u64 {
    1 << node
}

pub fn nodes_of(set: u64) -> impl Iterator<Item = u8> {
    (0..64).filter(move |&node| set & bit(node) != 0)
}

/// At most eight bytes, the high one first.
pub fn word(bytes: &[u8]) -> u64 {
    let shifted_in = |word, &byte| word << 8 | u64::from(byte);
    bytes.iter().fold(0, shifted_in)
}

/// A system: its table but for the own numbers, and the faulty nodes as a word of bits.
#[derive(Clone, Copy)]
pub struct System {
    pub n: u8,
    pub t: u8,
    pub d: u8,
    pub day: u32,
    pub q: u32,
    pub faulty: u64,
}

impl System {
    pub fn config(&self, own: u8) -> Config {
        Config {
            n: self.n,
            t: self.t,
            d: self.d,
            own,
            day: self.day,
            q: self.q,
        }
    }

    /// The quorums that its table may have.
    pub fn quorums(&self) -> RangeInclusive<u32> {
        self.config(0).quorums().expect("good with some quorum")
    }

    /// The quorum is not the least one.
    pub fn is_strict(&self) -> bool {
        self.q > *self.quorums().start()
    }

    pub fn correct(&self) -> u64 {
        self.config(0).mask() & !self.faulty
    }

    /// The number of correct nodes, less the d that may miss a sending.
    pub fn nearly_all(&self) -> u32 {
        self.correct().count_ones() - u32::from(self.d)
    }
}

#[derive(Clone, Copy, Debug, PartialEq, Eq, Hash)]
pub struct Slot {
    pub day: u32,
    pub sender: u8,
    pub seq: u8,
}

/// What the 32 bytes of a bundle say.
#[derive(Clone, Copy)]
pub struct Fields {
    pub slot: Slot,
    pub signers: u64,
    pub payload: Payload,
}

impl Fields {
    pub fn of(bundle: &Bundle) -> Fields {
        Fields {
            slot: Slot {
                day: word(&bundle[..4]) as u32,
                sender: bundle[4],
                seq: bundle[5],
            },
            signers: word(&bundle[8..16]),
            payload: std::array::from_fn(|at| bundle[16 + at]),
        }
    }

    pub fn bundle(&self) -> Bundle {
        let mut bundle = [0; 32];
        bundle[..4].copy_from_slice(&self.slot.day.to_be_bytes());
        bundle[4] = self.slot.sender;
        bundle[5] = self.slot.seq;
        bundle[8..16].copy_from_slice(&self.signers.to_be_bytes());
        bundle[16..].copy_from_slice(&self.payload);
        bundle
    }
}

pub enum Call {
    Open,
    Broadcast { payload: Vec<u8> },
    Receive { bundle: Vec<u8> },
}

/// A call at a node, its code, and the outgoing bytes afterwards. An opening has the code 0 and no outgoing bytes.
pub struct Step {
    pub node: u8,
    pub call: Call,
    pub code: u32,
    pub out: Vec<u8>,
}

impl Step {
    /// What a node announces: by the answer announced, in its own slot of the number in the answer.
    pub fn announces(&self, day: u32) -> Option<(Slot, Payload)> {
        let Call::Broadcast { payload } = &self.call else {
            return None;
        };
        let seq = self.code.checked_sub(ANNOUNCED)?;
        let slot = Slot {
            day,
            sender: self.node,
            seq: u8::try_from(seq).expect("the number announced is a byte"),
        };
        let payload = payload
            .as_slice()
            .try_into()
            .expect("what is announced has 16 bytes");
        Some((slot, payload))
    }

    /// What a node delivers: slot and payload of the bundle it was handed, by the answer delivered.
    pub fn delivers(&self) -> Option<(Slot, Payload)> {
        let fields = self.accepts().filter(|_| self.code == DELIVERED)?;
        Some((fields.slot, fields.payload))
    }

    /// The bundle that a node sends: by each of the answers announced, signed and delivered, and by no other.
    pub fn sends(&self) -> Option<Bundle> {
        if self.code != SIGNED && self.code != DELIVERED && self.code < ANNOUNCED {
            return None;
        }
        Some(
            self.out
                .as_slice()
                .try_into()
                .expect("what is sent has 32 bytes"),
        )
    }

    /// What a node signs: slot and payload of a bundle that it sends with its own bit in it.
    pub fn signs(&self) -> Option<(Slot, Payload)> {
        let fields = Fields::of(&self.sends()?);
        (fields.signers & bit(self.node) != 0).then_some((fields.slot, fields.payload))
    }

    /// The bundle that reaches a node: its bytes count and not who brings them, and a refused call counts if it had 32 outgoing bytes.
    pub fn reached_by(&self) -> Option<Bundle> {
        let Call::Receive { bundle } = &self.call else {
            return None;
        };
        bundle
            .as_slice()
            .try_into()
            .ok()
            .filter(|_| self.out.len() == 32)
    }

    /// The fields of a bundle that the node could read, whatever it answered then.
    pub fn accepts(&self) -> Option<Fields> {
        let Call::Receive { bundle } = &self.call else {
            return None;
        };
        if self.code <= LAST_OF_READING {
            return None;
        }
        let bundle = bundle
            .as_slice()
            .try_into()
            .expect("what reading accepts has 32 bytes");
        Some(Fields::of(bundle))
    }

    /// Another payload comes in place of the held one: only there is a bundle sent without the node's own bit.
    pub fn replaces(&self) -> bool {
        self.code == DELIVERED && self.signs().is_none()
    }
}

impl fmt::Display for System {
    fn fmt(&self, f: &mut fmt::Formatter) -> fmt::Result {
        let System { n, t, d, q, .. } = self;
        let faulty: Vec<u8> = nodes_of(self.faulty).collect();
        write!(f, "n {n}, t {t}, d {d}, q {q}, faulty {faulty:?}")
    }
}

impl fmt::Display for Step {
    fn fmt(&self, f: &mut fmt::Formatter) -> fmt::Result {
        write!(f, "node {} ", self.node)?;
        match &self.call {
            Call::Open => return write!(f, "opens"),
            Call::Broadcast { payload } => write!(f, "broadcasts {}", hex(payload))?,
            Call::Receive { bundle } => match self.accepts() {
                Some(fields) => write!(f, "receives {fields}")?,
                None => write!(f, "receives {}", hex(bundle))?,
            },
        }
        write!(f, ": {}", answer(self.code))
    }
}

impl fmt::Display for Fields {
    fn fmt(&self, f: &mut fmt::Formatter) -> fmt::Result {
        let Slot { sender, seq, .. } = self.slot;
        let signers: Vec<u8> = nodes_of(self.signers).collect();
        let payload = hex(&self.payload);
        write!(f, "sender {sender} seq {seq} signers {signers:?} {payload}")
    }
}

fn hex(bytes: &[u8]) -> String {
    bytes.iter().map(|byte| format!("{byte:02x}")).collect()
}

fn answer(code: u32) -> String {
    match code {
        KEPT => "kept".to_string(),
        SIGNED => "signed".to_string(),
        DELIVERED => "delivered".to_string(),
        NOTED => "noted".to_string(),
        ANNOUNCED.. => format!("announced {}", code - ANNOUNCED),
        _ => format!("refused {code}"),
    }
}
