//! The exported functions beside the reference: code, records and outgoing bytes of each call, on calls made from a seed. A preview is
//! compared besides with taking on a copy of the records, by each of the two, and the records have to stay. One setpoint from many is about
//! whole buffers of records, and who signed two payloads about those of two nodes: both are compared on such, apart from the other calls.
//! Announcing is compared once more on buffers in which its search for our next number ends at each possible place, taking and its preview
//! once more on every record of small tables, and who signed two payloads on every two of them.
//!
//! `MBRB_CALLS` sets how many calls, `MBRB_SEED` another seed, both decimal. With fewer than three hundred thousand calls some code,
//! record, quorum or n may be too rare, and the test fails for that.

#[path = "compare/arena.rs"]
mod arena;
#[path = "compare/comparison.rs"]
mod comparison;
#[path = "compare/damage.rs"]
mod damage;
#[path = "compare/equivocators/mod.rs"]
mod equivocators;
#[path = "compare/lent.rs"]
mod lent;
#[path = "compare/misjudged.rs"]
mod misjudged;
#[path = "compare/node.rs"]
mod node;
#[path = "compare/notes.rs"]
mod notes;
#[path = "compare/quorums.rs"]
mod quorums;
#[path = "compare/receivings/mod.rs"]
mod receivings;
#[path = "compare/records.rs"]
mod records;
#[path = "compare/searches/mod.rs"]
mod searches;
#[path = "compare/setpoints/mod.rs"]
mod setpoints;
#[path = "compare/system.rs"]
mod system;
#[path = "compare/tally.rs"]
mod tally;

use arena::{bundle, Arena, CONFIG, CONSTANT, LENGTH};
use comparison::{call_both, Call, Case, Difference, Implementation, Kind, HOST, REFERENCE};
use mbrb::random::Random;
use mbrb::reference::{least_quorum, RECORD_LENGTH};
use mbrb::{host, reference, setting, Config};
use quorums::{allowed, Choice, CHOICES};
use system::System;
use tally::Tally;

const CALLS: u64 = 1_000_000;
const SEED: u64 = 1;

/// A call on which both implementations agree, at the node of this place in its system.
struct Called {
    at: usize,
    case: Case,
    code: u32,
    out: [u8; 64],
}

/// Gives both implementations the calls of a seed, up to the first on which they differ.
fn each_call(
    seed: u64,
    calls: u64,
    pair: &[Implementation; 2],
    mut look: impl FnMut(&Called, &mut System),
) -> Result<(), Box<Difference>> {
    let mut random = Random::new(seed);
    let mut made = 0;
    while made < calls {
        let length = 1 + random.below(60) as u64;
        let mut system = System::new(&mut random);
        for _ in 0..length.min(calls - made) {
            made += 1;
            let called = step(&mut random, &mut system, pair).map_err(|mut difference| {
                (difference.seed, difference.call) = (seed, made);
                difference
            })?;
            look(&called, &mut system);
        }
    }
    Ok(())
}

/// Makes one call at a node of the system.
fn step(
    random: &mut Random,
    system: &mut System,
    pair: &[Implementation; 2],
) -> Result<Called, Box<Difference>> {
    system.disturb(random);
    let (at, case) = system.next_call(random);
    let (code, out) = call_both(pair, &case, &mut system.nodes[at].records)?;
    // What a preview puts out stays where it is.
    if matches!(code, 101 | 102 | 200..) && case.kind != Kind::Preview {
        system.keep_sent(random, &out);
    }
    Ok(Called {
        at,
        case,
        code,
        out,
    })
}

fn compare(seed: u64, calls: u64, pair: &[Implementation; 2]) -> Result<Tally, Box<Difference>> {
    let mut tally = Tally::default();
    each_call(seed, calls, pair, |called, system| {
        let Called { at, case, code, .. } = called;
        let node = &mut system.nodes[*at];
        tally.count(case, &node.records.before, node.clause(case), *code);
        if case.kind == Kind::Open && *code == 0 {
            node.forget();
        }
        tally.lives += u64::from(node.completes_life(case, *code));
    })?;
    Ok(tally)
}

#[test]
fn host_and_reference_agree_and_every_code_occurs() {
    let (seed, calls) = (setting("MBRB_SEED", SEED), setting("MBRB_CALLS", CALLS));
    println!("seed: {seed}");
    let tally = compare(seed, calls, &[HOST, REFERENCE]).unwrap();
    println!("{tally}");
    tally.assert_complete((calls / 10_000).clamp(1, 100));
}

/// The codes of one call by each implementation, on memory that is the same at both, and the same afterwards.
fn codes_in_arenas(shift: usize, kind: Kind, lengths: [usize; 3], input: &[u8]) -> u32 {
    let [(code, bytes), (other_code, other_bytes)] = [HOST, REFERENCE].map(|implementation| {
        let mut arena = Arena::new(kind, shift, lengths, input);
        let code = arena.call(&implementation, kind);
        (code, arena.bytes)
    });
    assert_eq!(code, other_code);
    assert!(bytes == other_bytes, "memory differs after {code}");
    code
}

#[test]
fn buffers_may_start_anywhere_and_nothing_around_them_changes() {
    for shift in 0..32 {
        let at =
            |kind, input: &[u8]| codes_in_arenas(shift, kind, [input.len(), LENGTH, 32], input);
        assert_eq!(at(Kind::Open, &[]), 0);
        assert_eq!(at(Kind::Broadcast, &[b'a'; 16]), 200);
        assert_eq!(at(Kind::Receive, &bundle(1)), 101);
        assert_eq!(at(Kind::Receive, &bundle(1 | 4)), 102);
        assert_eq!(at(Kind::Receive, &bundle(4)), 8);
        assert_eq!(at(Kind::Preview, &bundle(1)), 101);
        assert_eq!(at(Kind::Preview, &bundle(1 | 4)), 102);
        assert_eq!(at(Kind::Preview, &bundle(4)), 8);
    }
}

#[test]
fn a_length_counts_in_full() {
    for more in [0x100, 0x1_0000, 0x100_0000] {
        let open = |lengths| codes_in_arenas(0, Kind::Open, lengths, &[]);
        let broadcast = |lengths| codes_in_arenas(0, Kind::Broadcast, lengths, &[b'a'; 16]);
        assert_eq!(open([0, LENGTH + more, 32]), 20);
        assert_eq!(broadcast([16 + more, LENGTH, 32]), 9);
        assert_eq!(broadcast([16, LENGTH, 32 + more]), 10);
        assert_eq!(broadcast([16, LENGTH + more, 32]), 20);
        for kind in [Kind::Receive, Kind::Preview] {
            let take = |lengths| codes_in_arenas(0, kind, lengths, &bundle(1));
            assert_eq!(take([32 + more, LENGTH, 32]), 2);
            assert_eq!(take([32, LENGTH, 32 + more]), 10);
            assert_eq!(take([32, LENGTH + more, 32]), 20);
        }
    }
}

#[test]
fn a_preview_needs_no_records_that_can_be_written() {
    let code = |seq, signers| {
        let mut bundle = bundle(signers);
        bundle[5] = seq;
        host::preview(&CONFIG, &bundle, CONSTANT.as_flattened(), &mut [0; 32])
    };
    assert_eq!([code(0, 1), code(0, 1 | 4)], [100, 102]);
    assert_eq!([code(1, 1), code(1, 1 | 4)], [101, 102]);
    let other = |signers| {
        let mut bundle = bundle(signers);
        bundle[31] = b'b';
        host::preview(&CONFIG, &bundle, CONSTANT.as_flattened(), &mut [0; 32])
    };
    assert_eq!([other(1), other(1 | 4 | 8)], [103, 102]);
}

/// What the comparison says of two implementations, from one seed after the other. Repeating the calls before shows no difference, so
/// what is said is about the call named.
fn differences(pair: [Implementation; 2]) -> impl Iterator<Item = Box<Difference>> {
    (SEED..SEED + 20).map(move |seed| {
        let difference = compare(seed, 100_000, &pair).err().expect("a difference");
        assert!(compare(seed, difference.call - 1, &pair).is_ok());
        let text = format!("{difference:?}");
        assert!(text.starts_with(&format!("seed {seed}, call {}:", difference.call)));
        difference
    })
}

/// What it says of one that is the reference but for one thing, which is not its preview. A wrong receive shows at previews as well, since
/// they are held to it; those are passed over.
fn found(wrong: Implementation) -> Box<Difference> {
    differences([REFERENCE, wrong])
        .find(|difference| difference.case.kind != Kind::Preview)
        .expect("a difference in a call that is no preview")
}

#[test]
fn a_wrong_code_is_found() {
    let difference = found(Implementation {
        receive: |config, bundle, records, out| {
            let code = reference::receive_code(config, bundle, records, out);
            if code == 24 {
                100
            } else {
                code
            }
        },
        ..REFERENCE
    });
    assert_eq!(difference.codes, [24, 100]);
    assert!(!difference.records_differ() && !difference.outs_differ());
}

#[test]
fn a_wrong_record_byte_is_found() {
    let difference = found(Implementation {
        broadcast: |config, payload, records, out| {
            let code = reference::broadcast_code(config, payload, records, out);
            if code == 215 {
                let last = config.place(config.own, 15) + RECORD_LENGTH - 1;
                records[last] ^= 1;
            }
            code
        },
        ..REFERENCE
    });
    assert_eq!(difference.codes, [215, 215]);
    assert!(difference.records_differ() && !difference.outs_differ());
}

#[test]
fn a_wrong_outgoing_byte_is_found() {
    let difference = found(Implementation {
        receive: |config, bundle, records, out| {
            let code = reference::receive_code(config, bundle, records, out);
            if code == 100 {
                out[31] ^= 1;
            }
            code
        },
        ..REFERENCE
    });
    assert_eq!(difference.codes, [100, 100]);
    assert!(!difference.records_differ() && difference.outs_differ());
}

#[test]
fn a_byte_left_by_an_opening_is_found() {
    let difference = found(Implementation {
        open: |config, records| {
            let last = records.last().copied();
            let code = reference::open_code(config, records);
            if let (0, Some(byte)) = (code, last) {
                *records.last_mut().expect("it has a last byte") = byte;
            }
            code
        },
        ..REFERENCE
    });
    assert_eq!(difference.codes, [0, 0]);
    assert!(difference.records_differ() && !difference.outs_differ());
}

#[test]
fn a_wrong_length_opened_is_found() {
    let difference = found(Implementation {
        open: |config, records| {
            let code = reference::open_code(config, records);
            if code == 20 {
                records.fill(0);
                return 0;
            }
            code
        },
        ..REFERENCE
    });
    assert_eq!(difference.codes, [20, 0]);
}

#[test]
fn a_bad_config_accepted_is_found() {
    let difference = found(Implementation {
        receive: |config, bundle, records, out| {
            let config = Config { d: 0, ..*config };
            reference::receive_code(&config, bundle, records, out)
        },
        ..REFERENCE
    });
    assert_eq!(difference.codes[0], 1);
    assert_ne!(difference.codes[1], 1);
}

/// The config, but that a quorum of one kind is read as another: the least, or the most in place of the least.
fn misread<const KIND: usize>(config: &Config) -> Config {
    match Choice::of(config) {
        Some(Choice::Least) if CHOICES[KIND] == Choice::Least => with_most_quorum(config),
        choice if choice == Some(CHOICES[KIND]) => with_least_quorum(config),
        _ => *config,
    }
}

fn with_least_quorum(config: &Config) -> Config {
    Config {
        q: least_quorum(config.n, config.t),
        ..*config
    }
}

fn with_most_quorum(config: &Config) -> Config {
    Config {
        q: *allowed(config).end(),
        ..*config
    }
}

const fn misreading<const KIND: usize>() -> Implementation {
    use reference::{broadcast_code, open_code, preview_code, receive_code};
    Implementation {
        open: |config, records| open_code(&misread::<KIND>(config), records),
        broadcast: |config, payload, records, out| {
            broadcast_code(&misread::<KIND>(config), payload, records, out)
        },
        receive: |config, bundle, records, out| {
            receive_code(&misread::<KIND>(config), bundle, records, out)
        },
        preview: |config, bundle, records, out| {
            preview_code(&misread::<KIND>(config), bundle, records, out)
        },
    }
}

#[test]
fn a_quorum_misread_is_found() {
    // All but the first, where there is no other quorum to take.
    let wrong = [
        misreading::<1>(),
        misreading::<2>(),
        misreading::<3>(),
        misreading::<4>(),
        misreading::<5>(),
        misreading::<6>(),
        misreading::<7>(),
        misreading::<8>(),
        misreading::<9>(),
        misreading::<10>(),
    ];
    assert_eq!(wrong.len(), CHOICES.len() - 1);
    for (wrong, choice) in wrong.into_iter().zip(&CHOICES[1..]) {
        let difference = found(wrong);
        assert_eq!(Choice::of(&difference.case.config), Some(*choice));
        let refused = difference.codes.map(|code| code == 1);
        assert_eq!(refused, [!choice.is_allowed(), false], "{choice:?}");
    }
}

#[test]
fn a_record_judged_by_the_least_quorum_is_found() {
    let received = found(Implementation {
        receive: |config, bundle, records, out| {
            let code = reference::receive_code(config, bundle, records, out);
            match code {
                21 => reference::receive_code(&with_least_quorum(config), bundle, records, out),
                _ => code,
            }
        },
        ..REFERENCE
    });
    assert_eq!(received.codes, [21, 22]);
    let announced = found(Implementation {
        broadcast: |config, payload, records, out| {
            let code = reference::broadcast_code(config, payload, records, out);
            match code {
                21 => reference::broadcast_code(&with_least_quorum(config), payload, records, out),
                _ => code,
            }
        },
        ..REFERENCE
    });
    assert_eq!(announced.codes[0], 21);
    assert_ne!(announced.codes[1], 21);
}

#[test]
fn another_payload_for_the_least_quorum_is_found() {
    let difference = found(Implementation {
        receive: |config, bundle, records, out| {
            let code = reference::receive_code(config, bundle, records, out);
            match code {
                24 => reference::receive_code(&with_least_quorum(config), bundle, records, out),
                _ => code,
            }
        },
        ..REFERENCE
    });
    assert_eq!(difference.codes, [24, 102]);
    assert!(difference.records_differ() && difference.outs_differ());
}

#[test]
fn a_second_payload_for_the_least_quorum_is_found() {
    let difference = found(Implementation {
        receive: |config, bundle, records, out| {
            let foreseen = reference::preview_code(config, bundle, records, &mut [0; 32]);
            match foreseen {
                103 => reference::receive_code(&with_least_quorum(config), bundle, records, out),
                _ => reference::receive_code(config, bundle, records, out),
            }
        },
        ..REFERENCE
    });
    assert_eq!(difference.codes, [103, 102]);
    assert!(difference.records_differ() && difference.outs_differ());
}

#[test]
fn a_preview_that_notes_is_found() {
    let differences = found_previews(|config, bundle, records, out| {
        let code = reference::preview_code(config, bundle, records, out);
        match code {
            103 => reference::receive_code(config, bundle, records, out),
            _ => code,
        }
    });
    for difference in differences {
        assert_eq!(difference.codes, [103, 103]);
        assert!(difference.records_differ() && !difference.outs_differ());
    }
}

/// What it says of a wrong preview: beside the reference's, and where both have it, so that only taking is right.
fn found_previews(preview: Call) -> [Box<Difference>; 2] {
    let wrong = Implementation {
        preview,
        ..REFERENCE
    };
    [REFERENCE, wrong].map(|beside| {
        let difference = differences([beside, wrong]).next().expect("a seed");
        assert_eq!(difference.case.kind, Kind::Preview);
        difference
    })
}

#[test]
fn a_preview_that_stores_is_found() {
    for difference in found_previews(reference::receive_code) {
        assert!(difference.codes[0] >= 100);
        assert_eq!(difference.codes[0], difference.codes[1]);
        assert!(difference.records_differ() && !difference.outs_differ());
    }
}

#[test]
fn a_preview_that_puts_out_what_is_kept_is_found() {
    let differences = found_previews(|config, bundle, records, out| {
        let code = reference::preview_code(config, bundle, records, out);
        if code == 100 {
            out.copy_from_slice(bundle);
        }
        code
    });
    for difference in differences {
        assert_eq!(difference.codes, [100, 100]);
        assert!(!difference.records_differ() && difference.outs_differ());
    }
}

#[test]
fn a_preview_for_outgoing_bytes_of_any_length_is_found() {
    let differences = found_previews(|config, bundle, records, out| {
        let code = reference::preview_code(config, bundle, records, out);
        if code == 10 {
            reference::preview_code(config, bundle, records, &mut [0; 32])
        } else {
            code
        }
    });
    for difference in differences {
        assert_eq!(difference.codes[0], 10);
        assert!(difference.codes[1] >= 20);
        assert!(!difference.records_differ() && !difference.outs_differ());
    }
}

#[test]
fn a_preview_from_the_bundle_alone_is_found() {
    let differences = found_previews(|config, bundle, records, out| {
        let code = reference::preview_code(config, bundle, records, out);
        if code != 100 {
            return code;
        }
        // Signed as on a fresh day; what is refused there stays kept.
        let fresh = vec![0; records.len()];
        reference::preview_code(config, bundle, &fresh, out).max(code)
    });
    for difference in differences {
        assert_eq!(difference.codes, [100, 101]);
        assert!(!difference.records_differ() && difference.outs_differ());
    }
}

#[test]
fn a_preview_is_held_to_the_taking_of_each() {
    let wrong = Implementation {
        receive: |config, bundle, records, out| {
            let code = reference::receive_code(config, bundle, records, out);
            if code == 101 {
                100
            } else {
                code
            }
        },
        ..REFERENCE
    };
    for pair in [[REFERENCE, wrong], [wrong, REFERENCE]] {
        let difference = differences(pair)
            .find(|difference| difference.case.kind == Kind::Preview)
            .expect("a difference in a preview");
        assert_eq!(difference.codes, [100, 101]);
        assert!(!difference.records_differ() && !difference.outs_differ());
    }
}
