//! Buffers that start anywhere in a larger piece of memory, and lengths far from the right ones.

use crate::comparison::{Implementation, Kind};
use mbrb::random::Random;
use mbrb::reference::{RecordBytes, RECORD_LENGTH};
use mbrb::Config;

pub const CONFIG: Config = Config {
    n: 4,
    t: 1,
    d: 0,
    own: 1,
    day: 7,
    q: 3,
};
/// The length of the records under this config.
pub const LENGTH: usize = 4096;
const ROOM: usize = 64;

/// One piece of memory with the three buffers of a call in it, apart from each other and from both ends.
pub struct Arena {
    pub bytes: Vec<u8>,
    /// the lengths of input, records and outgoing bytes
    lengths: [usize; 3],
    /// how far the buffers are moved from where they would be aligned
    shift: usize,
}

impl Arena {
    /// Random bytes, an input for the call among them, and empty records for one of an opened day.
    pub fn new(kind: Kind, shift: usize, lengths: [usize; 3], input: &[u8]) -> Arena {
        let mut random = Random::new(1);
        let size = lengths.iter().sum::<usize>() + 4 * ROOM;
        let bytes = (0..size).map(|_| random.word() as u8).collect();
        let mut arena = Arena {
            bytes,
            lengths,
            shift,
        };
        let (given, records, _) = arena.lent();
        let length = input.len().min(given.len());
        given[..length].copy_from_slice(&input[..length]);
        if kind != Kind::Open {
            records.fill(0);
        }
        arena
    }

    fn lent(&mut self) -> (&mut [u8], &mut [u8], &mut [u8]) {
        let [input, records, out] = self.lengths;
        let (_, rest) = self.bytes.split_at_mut(ROOM + self.shift);
        let (given, rest) = rest.split_at_mut(input);
        let (_, rest) = rest.split_at_mut(ROOM);
        let (records, rest) = rest.split_at_mut(records);
        let (_, rest) = rest.split_at_mut(ROOM - self.shift);
        (given, records, &mut rest[..out])
    }

    pub fn call(&mut self, implementation: &Implementation, kind: Kind) -> u32 {
        let (given, records, out) = self.lent();
        match kind {
            Kind::Open => (implementation.open)(&CONFIG, records),
            Kind::Broadcast => (implementation.broadcast)(&CONFIG, given, records, out),
            Kind::Receive => (implementation.receive)(&CONFIG, given, records, out),
            Kind::Preview => (implementation.preview)(&CONFIG, given, records, out),
        }
    }
}

/// A bundle of sender 0, number 0, that node 1 signs on an empty record, or delivers if a third signer is in it.
pub fn bundle(signers: u8) -> [u8; 32] {
    let mut bundle = [0; 32];
    bundle[3] = 7;
    bundle[15] = signers;
    bundle[16..].fill(b'a');
    bundle
}

/// Records among the program's constants, where a write ends the program. In the first, node 1 holds that bundle's payload, signed by
/// the sender and itself; the others are empty.
pub static CONSTANT: [RecordBytes; 64] = {
    let held = b"\x01\0\0\0\0\0\0\0\0\0\0\0\0\0\0\x03aaaaaaaaaaaaaaaa";
    let mut records = [[0; RECORD_LENGTH]; 64];
    records[0].split_at_mut(held.len()).0.copy_from_slice(held);
    records
};
