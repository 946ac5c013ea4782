//! Every two records of a slot of small tables, side by side: all states, signers, payloads and notes. So who is named is compared without
//! a gap, if only for few nodes and three payloads; and each malformed record is refused, whichever of the two nodes has it.

use super::pairs::Pair;
use super::rules::RIGHT;
use super::slots::SIDES;
use super::{Answer, HOST, REFERENCE};
use crate::lent::Lent;
use crate::receivings::small::records;
use crate::records::well_formed;
use mbrb::reference::{RecordBytes, RECORD_LENGTH};
use mbrb::Config;

const SEQ: usize = 5;

/// Nodes, faults, the numbers of both nodes, quorum, and senders.
type Table = (u8, u8, [u8; 2], u32, &'static [u8]);

const TABLES: [Table; 4] = [
    (2, 0, [0, 1], 2, &[0, 1]),
    (3, 0, [0, 1], 2, &[0, 1, 2]),
    (3, 0, [2, 0], 3, &[0, 1, 2]),
    (4, 1, [1, 3], 3, &[0]),
];

/// A day just opened at both.
fn empty_pair((n, t, [own, other], q, _): Table) -> Pair {
    let config = Config {
        n,
        t,
        d: 0,
        own,
        day: 7,
        q,
    };
    Pair {
        config,
        other,
        lent: SIDES.map(|_| Lent::empty(n)),
        slots: Vec::new(),
        defects: Vec::new(),
    }
}

/// The answer to these records of a slot, by the host, the reference and the rules that the wrong ones are made from.
fn answer(pair: &mut Pair, sender: u8, records: [&RecordBytes; 2]) -> Answer {
    for (lent, record) in pair.lent.iter_mut().zip(records) {
        lent.put(sender, SEQ, record);
    }
    let right = RIGHT.answer(pair);
    for call in [HOST, REFERENCE] {
        let lent = pair.lent.each_mut().map(Lent::records_mut);
        let answer = call(&pair.config, pair.other, lent);
        assert_eq!(
            answer, right,
            "{:?}, sender {sender}, {records:?}",
            pair.config
        );
    }
    right
}

#[derive(Default)]
struct Counts {
    pairs: u64,
    naming: u64,
    malformed: u64,
}

impl Counts {
    /// Every two records of a slot of this sender.
    fn count(&mut self, pair: &mut Pair, sender: u8) {
        let judged = SIDES.map(|side| {
            let config = pair.config_of(side);
            let well_formed = |record: &_| well_formed(&config, sender, record);
            records(config.n).partition::<Vec<_>, _>(well_formed)
        });
        let [(firsts, bad_firsts), (seconds, bad_seconds)] = &judged;
        for first in firsts {
            for second in seconds {
                let (word, refusal) = answer(pair, sender, [first, second]);
                assert_eq!(refusal, 0);
                self.pairs += 1;
                self.naming += u64::from(word != 0);
            }
        }
        let empty = &[0; RECORD_LENGTH];
        let bad_firsts = bad_firsts.iter().map(|bad| [bad, empty]);
        for records in bad_firsts.chain(bad_seconds.iter().map(|bad| [empty, bad])) {
            assert_eq!(answer(pair, sender, records), (0, 21));
            self.malformed += 1;
        }
    }
}

#[test]
fn every_two_records_of_small_tables() {
    let mut counts = Counts::default();
    for table in TABLES {
        let (.., senders) = table;
        for &sender in senders {
            counts.count(&mut empty_pair(table), sender);
        }
    }
    let Counts {
        pairs,
        naming,
        malformed,
    } = counts;
    println!("every two records of small tables: {pairs}, {naming} of them name somebody");
    println!("  a malformed record beside an empty one: {malformed}");
    assert!(naming >= pairs / 2 && naming < pairs);
}
