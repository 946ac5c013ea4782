//! Announcing by rules that are right but for one thing in the search for our next number: the comparison has to find each.

use crate::records::{bit, encode, noted_signers_of, well_formed, DELIVERED, EMPTY, HELD};
use mbrb::reference::RecordBytes;
use mbrb::Config;
use std::ops::Range;

#[derive(Clone, Copy, PartialEq, Eq)]
enum Found {
    Empty,
    InUse,
    Malformed,
}

/// The rules, cut where a wrong implementation differs. With all of them right they are one more implementation.
pub struct Rules {
    /// whose records are looked at
    sender: fn(&Config) -> u8,
    /// which of them, in this order
    seqs: Range<usize>,
    found: fn(&Config, &RecordBytes) -> Found,
    /// which of the records looked at is used, or the refusal
    search: fn(&[Found]) -> Result<usize, u32>,
    /// the number as it is told in the code and in the bundle
    told: fn(usize) -> [usize; 2],
}

pub const RIGHT: Rules = Rules {
    sender: |config| config.own,
    seqs: 0..16,
    found,
    search,
    told: |seq| [seq, seq],
};

fn found(config: &Config, record: &RecordBytes) -> Found {
    if !well_formed(config, config.own, record) {
        Found::Malformed
    } else if record[0] == EMPTY {
        Found::Empty
    } else {
        Found::InUse
    }
}

/// The first that is not in use decides.
fn search(found: &[Found]) -> Result<usize, u32> {
    let first = found.iter().position(|&found| found != Found::InUse);
    decided_by(found, first)
}

fn decided_by(found: &[Found], index: Option<usize>) -> Result<usize, u32> {
    match index {
        Some(index) if found[index] == Found::Empty => Ok(index),
        Some(_) => Err(21),
        None => Err(25),
    }
}

/// As `found`, but that a record in use of this state is taken for an empty one.
fn found_empty_if(state: u8, config: &Config, record: &RecordBytes) -> Found {
    match found(config, record) {
        Found::InUse if record[0] == state => Found::Empty,
        found => found,
    }
}

impl Rules {
    /// The config is good, and all lengths are right.
    pub fn broadcast(
        &self,
        config: &Config,
        payload: &[u8],
        records: &mut [u8],
        out: &mut [u8],
    ) -> u32 {
        let (records, _) = records.as_chunks_mut();
        let first = 16 * usize::from((self.sender)(config));
        let looked_at = records[first..].iter().take(self.seqs.end);
        let found: Vec<_> = looked_at
            .skip(self.seqs.start)
            .map(|record| (self.found)(config, record))
            .collect();
        let seq = match (self.search)(&found) {
            Ok(index) => self.seqs.start + index,
            Err(refusal) => return refusal,
        };
        let payload = payload.try_into().expect("16 bytes");
        let record = encode(HELD, bit(config.own), payload);
        records[16 * usize::from(config.own) + seq] = record;
        let [in_code, in_bundle] = (self.told)(seq);
        out[..4].copy_from_slice(&config.day.to_be_bytes());
        out[4..8].copy_from_slice(&[config.own, in_bundle as u8, 0, 0]);
        // From the signers up to the note, bundle and record are the same.
        out[8..].copy_from_slice(&record[8..32]);
        200 + in_code as u32
    }
}

/// What is wrong, and the rules with it.
pub const WRONG: &[(&str, Rules)] = &[
    (
        "it starts at number 1",
        Rules {
            seqs: 1..16,
            ..RIGHT
        },
    ),
    (
        "number 15 looked at, and not used",
        Rules {
            search: |found| match search(found) {
                Ok(15) => Err(25),
                answer => answer,
            },
            ..RIGHT
        },
    ),
    (
        "number 15 not looked at",
        Rules {
            seqs: 0..15,
            ..RIGHT
        },
    ),
    (
        "a record more looked at, the next sender's first",
        Rules {
            seqs: 0..17,
            ..RIGHT
        },
    ),
    (
        "a held record overwritten",
        Rules {
            found: |config, record| found_empty_if(HELD, config, record),
            ..RIGHT
        },
    ),
    (
        "a delivered record overwritten",
        Rules {
            found: |config, record| found_empty_if(DELIVERED, config, record),
            ..RIGHT
        },
    ),
    (
        "a malformed record passed over",
        Rules {
            search: |found| {
                let empty = found.iter().position(|&found| found == Found::Empty);
                decided_by(found, empty)
            },
            ..RIGHT
        },
    ),
    (
        "the highest empty number",
        Rules {
            search: |found| {
                let highest = found.iter().rposition(|&found| found == Found::Empty);
                search(found).map(|index| highest.unwrap_or(index))
            },
            ..RIGHT
        },
    ),
    (
        "the last decides that is not in use",
        Rules {
            search: |found| {
                let last = found.iter().rposition(|&found| found != Found::InUse);
                decided_by(found, last)
            },
            ..RIGHT
        },
    ),
    (
        "21 for a malformed record behind the first empty one",
        Rules {
            search: |found| match found.contains(&Found::Malformed) {
                true => Err(21),
                false => search(found),
            },
            ..RIGHT
        },
    ),
    (
        "25 before 21",
        Rules {
            search: |found| match found.contains(&Found::Empty) {
                true => search(found),
                false => Err(25),
            },
            ..RIGHT
        },
    ),
    (
        "an empty record known by its state byte alone",
        Rules {
            found: |config, record| match record[0] {
                EMPTY => Found::Empty,
                _ => found(config, record),
            },
            ..RIGHT
        },
    ),
    (
        "an empty record known by all but its note",
        Rules {
            found: |config, record| match record[..32] == [0; 32] {
                true => Found::Empty,
                false => found(config, record),
            },
            ..RIGHT
        },
    ),
    (
        "the note of a record in use not looked at",
        Rules {
            found: |config, record| {
                let mut without = *record;
                if record[0] != EMPTY {
                    without[32..].fill(0);
                }
                found(config, &without)
            },
            ..RIGHT
        },
    ),
    (
        "a note in our own slot malformed",
        Rules {
            found: |config, record| match noted_signers_of(record) {
                0 => found(config, record),
                _ => Found::Malformed,
            },
            ..RIGHT
        },
    ),
    (
        "the next sender's records looked at",
        Rules {
            sender: |config| config.own + u8::from(config.own + 1 < config.n),
            ..RIGHT
        },
    ),
    (
        "the number one too high in the code",
        Rules {
            told: |seq| [seq + 1, seq],
            ..RIGHT
        },
    ),
    (
        "the number one too high in the bundle",
        Rules {
            told: |seq| [seq, seq + 1],
            ..RIGHT
        },
    ),
];
