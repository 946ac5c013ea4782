//! The checks of the records at the end of a list are seen to fail, of each node's and of two side by side: where faulty nodes forge
//! signatures, where a node notes wrongly, and where two recordings are not of one list.

use crate::equivocators::correct_is_named;
use crate::first_seed;
use crate::lists::{played, played_again, Rules, LAWFUL};
use crate::notes::{self, Wrong, NOTED_SIGNERS, SIGNERS};
use crate::run::Receive;
use crate::trace::{bit, word, DELIVERED, NOTED};
use mbrb::{host, Config};

/// In how many of 10,000 lists each thing does not hold of a record, and in how many two recordings name a correct node.
fn count_wrong(rules: Rules) -> ([u64; Wrong::ALL.len()], u64) {
    let (mut counts, mut naming) = ([0; Wrong::ALL.len()], 0);
    for seed in (first_seed()..).take(10_000) {
        let run = played(rules, seed);
        for (wrong, ..) in notes::wrong(&run) {
            counts[wrong as usize] += 1;
        }
        naming += u64::from(correct_is_named(&run, &run));
    }
    (counts, naming)
}

#[test]
fn forged_signatures_are_seen_in_the_records() {
    let forging = Rules {
        forging: true,
        ..LAWFUL
    };
    let (counts, naming) = count_wrong(forging);
    println!("forged signatures, a correct node named: {naming} of 10000 lists");
    assert!(naming >= 100, "a correct node named: {naming}");
    for (wrong, count) in Wrong::ALL.into_iter().zip(counts) {
        println!("forged signatures, {wrong:?}: {count} of 10000 lists");
        assert!(count >= 100, "{wrong:?}: {count}");
    }
}

/// Takings that are wrong in what they note, and what is to be seen of it in the records.
const WRONG_NOTES: [(&str, Receive, Wrong); 4] = [
    (
        "our own bit noted too",
        |config, bundle, records, out| {
            let code = host::receive(config, bundle, records, out);
            if code == NOTED {
                add_signers(config, bundle, records, NOTED_SIGNERS, bit(config.own));
            }
            code
        },
        Wrong::Noted,
    ),
    (
        "signers of a third payload joined to the noted ones",
        |config, bundle, records, out| {
            let code = host::receive(config, bundle, records, out);
            if code == 24 {
                add_signers(config, bundle, records, NOTED_SIGNERS, word(&bundle[8..16]));
                return NOTED;
            }
            code
        },
        Wrong::Noted,
    ),
    (
        "noted signers joined to the held ones",
        |config, bundle, records, out| {
            let code = host::receive(config, bundle, records, out);
            if code == NOTED {
                add_signers(config, bundle, records, SIGNERS, word(&bundle[8..16]));
            }
            code
        },
        Wrong::Held,
    ),
    (
        "held signers kept beside the payload that replaces theirs",
        |config, bundle, records, out| {
            let held = match bundle {
                [_, _, _, _, sender, seq, ..] => {
                    word(&records[config.place(*sender, *seq)..][8..16])
                }
                _ => 0,
            };
            let code = host::receive(config, bundle, records, out);
            if code == DELIVERED {
                add_signers(config, bundle, records, SIGNERS, held);
            }
            code
        },
        Wrong::Delivered,
    ),
];

/// Adds signers at this byte of the record that the bundle is for.
fn add_signers(config: &Config, bundle: &[u8], records: &mut [u8], at: usize, signers: u64) {
    let place = config.place(bundle[4], bundle[5]) + at;
    let bytes = &mut records[place..place + 8];
    let joined = word(bytes) | signers;
    bytes.copy_from_slice(&joined.to_be_bytes());
}

#[test]
fn wrong_notes_are_seen_in_the_records() {
    for (name, receive, wrong) in WRONG_NOTES {
        let (counts, naming) = count_wrong(Rules { receive, ..LAWFUL });
        println!("{name}: {counts:?} of 10000 lists, a correct node named in {naming}");
        assert!(counts[wrong as usize] >= 100 && naming >= 100, "{name}");
    }
}

#[test]
fn recordings_of_two_lists_name_correct_nodes() {
    let names = |seed: &u64| {
        let run = played(LAWFUL, *seed);
        correct_is_named(&run, &played_again(&run, LAWFUL, !seed))
    };
    let naming = (first_seed()..).take(10_000).filter(names).count();
    println!("recordings of two lists, a correct node named: {naming} of 10000");
    assert!(naming >= 100, "{naming}");
}
