//! One setpoint from many, by the exported function beside the reference: both judge the same buffers of records, and leave them as they
//! were.
//!
//! `MBRB_BUFFERS` sets how many buffers, `MBRB_SEED` another seed. With fewer than twenty thousand some kind may be too rare, and the test
//! fails for that.

mod buffers;
mod defects;
mod promise;
mod tally;
mod wrong;

use crate::arena::{CONFIG, LENGTH};
use crate::records::bytes;
use buffers::{buffer, setpoint, Buffer};
use mbrb::random::Random;
use mbrb::reference::{RecordBytes, RECORD_LENGTH, SENDER_LENGTH};
use mbrb::{host, reference, setting, Config};
use std::fmt;
use tally::Tally;

const BUFFERS: u64 = 120_000;
const SEED: u64 = 1;

/// It is lent the records to write as well: whether it leaves them is to be seen, and a wrong one may not.
type Setpoint = fn(&Config, &mut [u8]) -> u32;

const HOST: Setpoint = |config, records| host::setpoint(config, records);
const REFERENCE: Setpoint = |config, records| reference::setpoint_code(config, records);

/// Two codes for one buffer, or a buffer that did not stay.
struct Difference {
    codes: [u32; 2],
    written: bool,
}

/// The code on which both agree.
fn judge(pair: [Setpoint; 2], buffer: &mut Buffer) -> Result<u32, Difference> {
    let before = buffer.lent.bytes.clone();
    let codes = pair.map(|call| call(&buffer.config, buffer.lent.records_mut()));
    let written = buffer.lent.bytes != before;
    buffer.lent.bytes = before;
    if written || codes[0] != codes[1] {
        return Err(Difference { codes, written });
    }
    Ok(codes[0])
}

impl fmt::Debug for Difference {
    fn fmt(&self, f: &mut fmt::Formatter) -> fmt::Result {
        let [one, other] = self.codes;
        let records = if self.written { "written" } else { "left" };
        write!(f, "codes {one} and {other}, the records {records}")
    }
}

#[test]
fn host_and_reference_agree_on_setpoints_of_every_kind() {
    let (seed, count) = (setting("MBRB_SEED", SEED), setting("MBRB_BUFFERS", BUFFERS));
    println!("seed: {seed}");
    let mut tally = Tally::default();
    for number in 0..count {
        let mut buffer = buffer(seed, number);
        match judge([HOST, REFERENCE], &mut buffer) {
            Ok(code) => tally.count(&buffer, code),
            Err(difference) => {
                let (config, pooled) = (buffer.config, buffer.pooled());
                println!("{config:?}, {:?}, pooled {pooled:?}", buffer.defects);
                panic!("seed {seed}, buffer {number}: {difference:?}");
            }
        }
    }
    println!("{tally}");
    tally.assert_complete((count / 2_000).clamp(1, 100));
}

#[test]
fn wrong_setpoints_are_found() {
    const TRIED: u64 = 5_000;
    let wrong = wrong::wrong();
    let mut found = vec![0; wrong.len()];
    for number in 0..TRIED {
        let mut buffer = buffer(SEED, number);
        let records = buffer.lent.records_mut();
        let code = REFERENCE(&buffer.config, records);
        assert_eq!(wrong::RIGHT.code(&buffer.config, records), code, "{number}");
        for (found, (_, rules)) in found.iter_mut().zip(&wrong) {
            *found += u64::from(rules.code(&buffer.config, records) != code);
        }
    }
    for (found, (name, _)) in found.into_iter().zip(wrong) {
        println!("found in {found:>5} buffers of {TRIED}: {name}");
        assert!(found >= 10, "{name}: in {found} buffers only");
    }
}

#[test]
fn a_written_record_is_found() {
    let in_place: Setpoint = |config, records| {
        let code = REFERENCE(config, records);
        if code >= 1 << 16 {
            records[16] ^= 1;
        }
        code
    };
    let written = |number| {
        let mut buffer = buffer(SEED, number);
        judge([REFERENCE, in_place], &mut buffer).is_err_and(|difference| difference.written)
    };
    assert!((0..100).filter(|&number| written(number)).count() >= 20);
}

/// Records of four nodes among the program's constants, where a write ends the program. All but our own node have delivered a setpoint,
/// under different numbers: 7, 2100 and -5 hundredths of a degree.
static CONSTANT: [RecordBytes; 64] = {
    let mut records = [[0; RECORD_LENGTH]; 64];
    records[0] = delivered([0x00, 0x07]);
    records[32 + 5] = delivered([0x08, 0x34]);
    records[48 + 15] = delivered([0xff, 0xfb]);
    records
};

/// The record of a setpoint that all four nodes have signed.
const fn delivered([high, low]: [u8; 2]) -> RecordBytes {
    let mut record = [0; RECORD_LENGTH];
    (record[0], record[15]) = (2, 0b1111);
    (record[16], record[17], record[18]) = (1, high, low);
    record
}

#[test]
fn a_setpoint_needs_no_records_that_can_be_written() {
    let code = host::setpoint(&CONFIG, CONSTANT.as_flattened());
    assert_eq!(code, (1 << 16) + 7);
}

#[test]
fn records_may_start_anywhere_and_nothing_around_them_changes() {
    for shift in 0..32 {
        let mut memory: [u8; LENGTH + 96] = bytes(&mut Random::new(1));
        memory[32 + shift..][..LENGTH].copy_from_slice(CONSTANT.as_flattened());
        let before = memory;
        let records = &mut memory[32 + shift..][..LENGTH];
        assert_eq!(
            [HOST, REFERENCE].map(|call| call(&CONFIG, records)),
            [(1 << 16) + 7; 2]
        );
        assert_eq!(memory, before);
    }
}

#[test]
fn a_length_of_records_counts_in_full() {
    for more in [0x100, 0x1_0000, 0x100_0000] {
        let mut records = CONSTANT.as_flattened().to_vec();
        records.resize(LENGTH + more, 0);
        assert_eq!(
            [HOST, REFERENCE].map(|call| call(&CONFIG, &mut records)),
            [20; 2]
        );
    }
}

#[test]
fn every_value_comes_out_as_its_two_bytes() {
    let alone = Config {
        n: 1,
        t: 0,
        d: 0,
        own: 0,
        day: 7,
        q: 1,
    };
    for value in i16::MIN..=i16::MAX {
        let mut records = [0; SENDER_LENGTH];
        (records[0], records[15]) = (2, 1);
        records[16..32].copy_from_slice(&setpoint(value));
        let code = host::setpoint(&alone, &records);
        assert_eq!(code, (1 << 16) + u32::from(value as u16));
        assert_eq!(code as i16, value);
    }
}
