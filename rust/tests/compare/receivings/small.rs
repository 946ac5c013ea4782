//! Every record and every bundle of small tables: all states, signers, payloads and notes, malformed ones included, and all bundles that
//! can be read. So what a note does is compared without a gap, if only for few nodes and three payloads.

use super::differs;
use super::rules::RIGHT;
use crate::comparison::{call_both, place, Case, Kind, Records, HOST, REFERENCE};
use crate::records::{bit, encode, put_note};
use crate::tally::{Meets, MEETINGS};
use crate::Called;
use mbrb::reference::RecordBytes;
use mbrb::Config;
use std::collections::BTreeMap;

const PAYLOADS: [[u8; 16]; 3] = [
    [0; 16],
    [7; 16],
    [0, 0, 0, 0, 0, 0, 0, 0, 0, 0, 0, 0, 0, 0, 0, 1],
];
const SENDER: u8 = 0;
const SEQ: u8 = 5;

/// Nodes, faults, our own number, and quorum. Where our number is 0 the slot is ours.
const TABLES: [(u8, u8, u8, u32); 7] = [
    (1, 0, 0, 1),
    (2, 0, 0, 2),
    (2, 0, 1, 2),
    (3, 0, 0, 2),
    (3, 0, 1, 2),
    (3, 0, 1, 3),
    (4, 1, 1, 3),
];

fn config((n, t, own, q): (u8, u8, u8, u32)) -> Config {
    Config {
        n,
        t,
        d: 0,
        own,
        day: 7,
        q,
    }
}

/// Each set of signers up to one bit past the last node, with each payload.
fn halves(n: u8) -> impl Iterator<Item = (u64, [u8; 16])> {
    let sets = 0..1 << (n + 1);
    sets.flat_map(|signers| PAYLOADS.map(|payload| (signers, payload)))
}

/// Each record of a slot, with one of the zero bytes beside the noted signers set or not.
pub fn records(n: u8) -> impl Iterator<Item = RecordBytes> {
    let firsts = (0..4).flat_map(move |state| halves(n).map(move |first| (state, first)));
    let notes = move || halves(n).flat_map(|noted| [0, 1].map(|stray| (noted, stray)));
    firsts.flat_map(move |(state, (signers, payload))| {
        notes().map(move |((noted, noted_payload), stray)| {
            let mut record = encode(state, signers, &payload);
            put_note(&mut record, noted, &noted_payload);
            record[43] = stray;
            record
        })
    })
}

/// Each bundle that can be read, as a call.
fn cases(kind: Kind, config: Config) -> impl Iterator<Item = Case> {
    let from_sender = |(signers, _): &(u64, _)| signers & bit(SENDER) != 0;
    let in_range = move |(signers, _): &(u64, _)| signers & !config.mask() == 0;
    let readable = halves(config.n).filter(from_sender).filter(in_range);
    readable.map(move |(signers, payload)| {
        let head = [0, 0, 0, 7, SENDER, SEQ, 0, 0];
        Case {
            kind,
            config,
            input: [&head[..], &signers.to_be_bytes(), &payload].concat(),
            records_length: config.records_length(),
            out: [0xee; 64],
            out_length: 32,
        }
    })
}

/// The code of a call on this record, by the host, the reference and the rules that the wrong ones are made from.
fn code(case: &Case, record: &RecordBytes, records: &mut Records) -> u32 {
    records.put(place(SENDER, SEQ), record);
    let pair = [HOST, REFERENCE];
    let (code, out) = call_both(&pair, case, records).unwrap_or_else(|found| panic!("{found:?}"));
    let case = case.clone();
    let called = Called {
        at: 0,
        case,
        code,
        out,
    };
    let preview = called.case.kind == Kind::Preview;
    assert!(preview || !differs(&RIGHT, &called, records), "{code}");
    code
}

#[test]
fn every_bundle_on_every_record_of_small_tables() {
    let mut seen = BTreeMap::<_, u64>::new();
    let mut malformed = 0;
    for config in TABLES.map(config) {
        let mut buffer = Records::zeroed(config.n);
        for case in [Kind::Receive, Kind::Preview]
            .into_iter()
            .flat_map(|kind| cases(kind, config))
        {
            for record in records(config.n) {
                match code(&case, &record, &mut buffer) {
                    21 => malformed += 1,
                    code => {
                        let meets = Meets::of(&case, &record).expect("a state that there is");
                        *seen.entry((meets, code)).or_default() += 1;
                    }
                }
            }
        }
    }
    println!("every bundle on every record of small tables: {malformed} malformed");
    for ((meets, code), count) in &seen {
        println!("  {:34}{count:>9}", format!("{meets:?} {code}"));
    }
    assert!(seen.keys().eq(MEETINGS.iter()), "{seen:?}");
}
