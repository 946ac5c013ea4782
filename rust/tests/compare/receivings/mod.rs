//! Taking by rules that are wrong in one thing, on the calls of the comparison: each has to show in some of them, so that a library with
//! that error would be found. And taking on every record of small tables.

mod rules;
pub mod small;
mod wrong;

use crate::comparison::{Kind, Records, REFERENCE};
use crate::{each_call, Called};
use mbrb::reference::RecordBytes;
use rules::{Rules, RIGHT};

const SEED: u64 = 1;
const CALLS: u64 = 200_000;

/// Whether these rules come to something else than what was called, in code, record or outgoing bytes.
fn differs(rules: &Rules, called: &Called, records: &Records) -> bool {
    let (place, _) = called.case.concerned();
    let record_in = |bytes: &[u8]| -> RecordBytes { *bytes[place..].first_chunk().expect("it") };
    let (mut record, mut out) = (record_in(&records.before), called.case.out);
    let lent = out.first_chunk_mut().expect("32 outgoing bytes");
    let code = rules.receive(&called.case.config, &called.case.input, &mut record, lent);
    (code, record, out) != (called.code, record_in(&records.sides[0]), called.out)
}

#[test]
fn wrong_receivings_are_found() {
    let wrong = wrong::wrong();
    let (mut taken, mut found) = (0, vec![0; wrong.len()]);
    let mut look = |called: &Called, records: &Records| {
        // What is refused before the record is looked at is the same by all of them.
        if called.case.kind != Kind::Receive || called.code < 21 {
            return;
        }
        taken += 1;
        assert!(!differs(&RIGHT, called, records), "{:?}", called.case);
        for (found, (_, rules)) in found.iter_mut().zip(&wrong) {
            *found += u64::from(differs(rules, called, records));
        }
    };
    each_call(SEED, CALLS, &[REFERENCE; 2], |called, system| {
        look(called, &system.nodes[called.at].records);
    })
    .expect("one implementation, twice");
    for (found, (name, _)) in found.into_iter().zip(wrong) {
        println!("found in {found:>5} takings of {taken}: {name}");
        assert!(found >= 10, "{name}: in {found} takings only");
    }
}
