//! Tests of a record that are right but for one thing: by every call that judges records the comparison has to find each.

use crate::records::{
    bit, noted_payload_of, noted_signers_of, payload_of, put_note, well_formed, DELIVERED, EMPTY,
    HELD,
};
use mbrb::reference::{least_quorum, RecordBytes};
use mbrb::Config;

/// Whether a record of this sender is well-formed.
pub type Judge = fn(&Config, u8, &RecordBytes) -> bool;

/// Whether it is once this is done to it.
fn mended(
    config: &Config,
    sender: u8,
    record: &RecordBytes,
    mend: impl FnOnce(&mut RecordBytes),
) -> bool {
    let mut record = *record;
    mend(&mut record);
    well_formed(config, sender, &record)
}

/// The same with other noted signers.
fn mended_signers(
    config: &Config,
    sender: u8,
    record: &RecordBytes,
    mend: impl FnOnce(u64) -> u64,
) -> bool {
    mended(config, sender, record, |record| {
        let (signers, payload) = (noted_signers_of(record), noted_payload_of(record));
        put_note(record, mend(signers), &payload);
    })
}

/// The same with another noted payload, where the first one is noted in a record of this state.
fn mended_payload(config: &Config, sender: u8, record: &RecordBytes, state: u8) -> bool {
    mended(config, sender, record, |record| {
        let signers = noted_signers_of(record);
        let mut payload = noted_payload_of(record);
        if record[0] == state && signers != 0 && payload == payload_of(record) {
            payload[0] ^= 1;
            put_note(record, signers, &payload);
        }
    })
}

/// The same without the note, where the record is of one of these states.
fn mended_note(config: &Config, sender: u8, record: &RecordBytes, states: &[u8]) -> bool {
    mended(config, sender, record, |record| {
        if states.contains(&record[0]) {
            record[32..].fill(0);
        }
    })
}

/// What is wrong, and the test with it. The last five take something for malformed that no rule forbids; the others pass over something.
pub const MISJUDGED: [(&str, Judge); 18] = [
    (
        "records judged by the least quorum",
        |config, sender, record| {
            let q = least_quorum(config.n, config.t);
            well_formed(&Config { q, ..*config }, sender, record)
        },
    ),
    ("records judged as our own", |config, _, record| {
        well_formed(config, config.own, record)
    }),
    ("empty records not tested", |config, sender, record| {
        record[0] == EMPTY || well_formed(config, sender, record)
    }),
    ("held records not tested", |config, sender, record| {
        record[0] == HELD || well_formed(config, sender, record)
    }),
    ("notes not tested", |config, sender, record| {
        mended_note(config, sender, record, &[EMPTY, HELD, DELIVERED])
    }),
    (
        "notes of delivered records not tested",
        |config, sender, record| mended_note(config, sender, record, &[DELIVERED]),
    ),
    (
        "an empty record with a note taken for empty",
        |config, sender, record| mended_note(config, sender, record, &[EMPTY]),
    ),
    ("bytes 40 to 47 passed over", |config, sender, record| {
        mended(config, sender, record, |record| record[40..48].fill(0))
    }),
    (
        "a noted bit at n or above passed over",
        |config, sender, record| {
            mended_signers(config, sender, record, |signers| signers & config.mask())
        },
    ),
    (
        "a note without the sender's bit passed over",
        |config, sender, record| {
            mended_signers(config, sender, record, |signers| match signers {
                0 => 0,
                _ => signers | bit(sender),
            })
        },
    ),
    (
        "a noted payload without signers passed over",
        |config, sender, record| {
            mended(config, sender, record, |record| {
                if noted_signers_of(record) == 0 {
                    put_note(record, 0, &[0; 16]);
                }
            })
        },
    ),
    (
        "a note of the held payload passed over",
        |config, sender, record| mended_payload(config, sender, record, HELD),
    ),
    (
        "a note of the delivered payload passed over",
        |config, sender, record| mended_payload(config, sender, record, DELIVERED),
    ),
    (
        "our own bit in a note malformed",
        |config, sender, record| {
            let ours = noted_signers_of(record) & bit(config.own) != 0;
            well_formed(config, sender, record) && !ours
        },
    ),
    ("our own bit asked of a note", |config, sender, record| {
        let noted = noted_signers_of(record);
        let ours = noted == 0 || noted & bit(config.own) != 0;
        well_formed(config, sender, record) && ours
    }),
    ("a noted quorum malformed", |config, sender, record| {
        let enough = noted_signers_of(record).count_ones() >= config.q;
        well_formed(config, sender, record) && !enough
    }),
    (
        "a note in our own slot malformed",
        |config, sender, record| {
            let noted = noted_signers_of(record) != 0;
            well_formed(config, sender, record) && !(noted && sender == config.own)
        },
    ),
    (
        "a note of an all-zero payload malformed",
        |config, sender, record| {
            let zero = noted_signers_of(record) != 0 && noted_payload_of(record) == [0; 16];
            well_formed(config, sender, record) && !zero
        },
    ),
];
