//! Announcing by the exported function beside the reference, on buffers in which the search for our next number ends at each place that it
//! can: at an empty record, at a malformed one, or at none.
//!
//! `MBRB_BUFFERS` sets how many buffers, `MBRB_SEED` another seed. With fewer than twenty thousand some kind may be too rare, and the test
//! fails for that.

mod buffers;
mod tally;
mod wrong;

use crate::comparison::{call_both, Call, Implementation, HOST, REFERENCE};
use buffers::{buffer, Buffer, End};
use mbrb::{reference, setting, Config};
use tally::Tally;

const BUFFERS: u64 = 120_000;
const SEED: u64 = 1;

/// Gives both the buffer of this number. They have to agree, to answer what the end of the search asks for, and to leave every byte as it
/// was where that is a refusal; else it says what went wrong.
fn judge(pair: &[Implementation; 2], seed: u64, number: u64) -> Result<Buffer, String> {
    let mut buffer = buffer(seed, number);
    let Buffer { case, records, .. } = &mut buffer;
    let (code, out) = call_both(pair, case, records).map_err(|mut difference| {
        (difference.seed, difference.call) = (seed, number + 1);
        format!("{difference:?}")
    })?;
    let left = records.sides[0] == records.before && out == case.out;
    let contents = buffer.contents;
    if code != buffer.end.code() {
        return Err(format!("code {code} with {contents:?}"));
    }
    if code < 100 && !left {
        return Err(format!("a byte changed by {code} with {contents:?}"));
    }
    Ok(buffer)
}

#[test]
fn host_and_reference_agree_wherever_the_search_ends() {
    let (seed, count) = (setting("MBRB_SEED", SEED), setting("MBRB_BUFFERS", BUFFERS));
    println!("seed: {seed}");
    let mut tally = Tally::default();
    for number in 0..count {
        match judge(&[HOST, REFERENCE], seed, number) {
            Ok(buffer) => tally.count(&buffer),
            Err(what) => panic!("buffer {number}: {what}"),
        }
    }
    println!("{tally}");
    tally.assert_complete((count / 2_000).clamp(1, 100));
}

/// Code, outgoing bytes and records after the call.
fn after(
    buffer: &Buffer,
    call: impl Fn(&Config, &[u8], &mut [u8], &mut [u8]) -> u32,
) -> (u32, [u8; 64], Vec<u8>) {
    let mut records = buffer.records.sides[0].clone();
    let (code, out) = buffer.case.run_call(call, &mut records);
    (code, out, records)
}

#[test]
fn wrong_searches_are_found() {
    const TRIED: u64 = 5_000;
    let mut found = [0; wrong::WRONG.len()];
    for number in 0..TRIED {
        let buffer = buffer(SEED, number);
        let right = after(&buffer, reference::broadcast_code);
        let differs = |rules: &wrong::Rules| {
            let call = |config: &Config, payload: &[u8], records: &mut [u8], out: &mut [u8]| {
                rules.broadcast(config, payload, records, out)
            };
            after(&buffer, call) != right
        };
        assert!(!differs(&wrong::RIGHT), "buffer {number}");
        for (found, (_, rules)) in found.iter_mut().zip(wrong::WRONG) {
            *found += u64::from(differs(rules));
        }
    }
    for (found, (name, _)) in found.into_iter().zip(wrong::WRONG) {
        println!("found in {found:>5} buffers of {TRIED}: {name}");
        assert!(found >= 10, "{name}: in {found} buffers only");
    }
}

#[test]
fn an_error_that_both_have_is_found() {
    let wrong: [(Call, End, &str); 3] = [
        (
            |config, payload, records, out| {
                let code = reference::broadcast_code(config, payload, records, out);
                if code == 25 {
                    21
                } else {
                    code
                }
            },
            End::AllInUse,
            "code 21 with",
        ),
        (
            |config, payload, records, out| {
                let code = reference::broadcast_code(config, payload, records, out);
                records[0] ^= u8::from(code == 25);
                code
            },
            End::AllInUse,
            "a byte changed by 25",
        ),
        (
            |config, payload, records, out| {
                let code = reference::broadcast_code(config, payload, records, out);
                out[0] ^= u8::from(code == 21);
                code
            },
            End::Malformed(0),
            "a byte changed by 21",
        ),
    ];
    for (broadcast, end, said) in wrong {
        let both = [Implementation {
            broadcast,
            ..REFERENCE
        }; 2];
        let mut ends = (0..1_000).filter(|&number| buffer(SEED, number).end == end);
        assert!(ends.clone().count() >= 10);
        assert!(ends.all(|number| {
            judge(&both, SEED, number).is_err_and(|what| what.starts_with(said))
        }));
    }
}
