//! Setpoints by rules that are right but for one: the comparison has to find each.

use super::buffers::MARKS;
use crate::misjudged::{Judge, MISJUDGED};
use crate::records::{noted_payload_of, payload_of, well_formed};
use mbrb::reference::{RecordBytes, SEQS};
use mbrb::Config;

/// A setpoint and its number.
type Numbered = (usize, i16);

/// A payload's number, and its value if it is a setpoint.
type Payload = (usize, Option<i16>);

/// The rules, cut where a wrong implementation differs. With all of them right they are one more implementation.
#[derive(Clone, Copy)]
pub struct Rules {
    /// the refusals, the one that is tested first in front
    order: &'static [u32],
    well_formed: Judge,
    /// whether the record of a number is tested at a sender, given what counts there
    tested: fn(usize, &[Numbered]) -> bool,
    states: &'static [u8],
    /// which payload of a record is looked at
    payload: fn(&RecordBytes) -> [u8; 16],
    /// the value of a payload, or none if it is no setpoint
    value: fn(&[u8]) -> Option<i16>,
    /// a byte of a payload that is taken to be as in a setpoint, whatever it is
    unseen: Option<usize>,
    /// what counts of a sender's payloads, in the order of their numbers
    counts: fn(&[Payload]) -> Vec<Numbered>,
    needed: fn(usize) -> usize,
    /// from values in the order of senders
    outcome: fn(Vec<i16>) -> i16,
}

pub const RIGHT: Rules = Rules {
    order: &[1, 20, 21, 27],
    well_formed,
    tested: |_, _| true,
    states: &[2],
    payload: |record| payload_of(record),
    value: |payload| marked(payload).then(|| i16::from_be_bytes([payload[1], payload[2]])),
    unseen: None,
    counts: |payloads| setpoints(payloads).last().into_iter().collect(),
    needed: |t| 2 * t + 1,
    outcome: |values| sorted(values, |value| value.into(), |count| count.div_ceil(2)),
};

fn marked(payload: &[u8]) -> bool {
    payload[0] == 1 && payload[3..] == [0; 13]
}

fn setpoints(payloads: &[Payload]) -> impl Iterator<Item = Numbered> + '_ {
    payloads
        .iter()
        .filter_map(|&(seq, value)| Some((seq, value?)))
}

/// The value at a place from 1, in rising order of the keys.
fn sorted(mut values: Vec<i16>, key: fn(i16) -> i32, place: fn(usize) -> usize) -> i16 {
    values.sort_by_key(|&value| key(value));
    values[place(values.len()) - 1]
}

impl Rules {
    pub fn code(&self, config: &Config, records: &[u8]) -> u32 {
        let length = config.records_length();
        let readable = config.good() && records.len() == length;
        let (values, malformed) = if readable {
            self.pool(config, records)
        } else {
            (Vec::new(), false)
        };
        let refused = self.order.iter().copied().find(|number| match number {
            1 => !config.good(),
            20 => records.len() != length,
            21 => malformed,
            _ => values.len() < (self.needed)(config.t.into()),
        });
        // Where no setpoint is needed, the outcome of none is 0.
        refused.unwrap_or_else(|| match values.is_empty() {
            true => 1 << 16,
            false => 1 << 16 | u32::from((self.outcome)(values) as u16),
        })
    }

    /// The values that count, and whether a record is malformed that is tested.
    fn pool(&self, config: &Config, records: &[u8]) -> (Vec<i16>, bool) {
        let (records, _) = records.as_chunks();
        let (mut values, mut malformed) = (Vec::new(), false);
        for (sender, records) in (0..config.n).zip(records.chunks(SEQS.into())) {
            let passes = |record: &RecordBytes| (self.well_formed)(config, sender, record);
            let payloads: Vec<_> = records
                .iter()
                .enumerate()
                .filter(|(_, record)| self.states.contains(&record[0]) && passes(record))
                .map(|(seq, record)| (seq, self.read((self.payload)(record))))
                .collect();
            let counted = (self.counts)(&payloads);
            let mut numbered = records.iter().enumerate();
            malformed |=
                numbered.any(|(seq, record)| (self.tested)(seq, &counted) && !passes(record));
            values.extend(counted.iter().map(|(_, value)| value));
        }
        (values, malformed)
    }

    fn read(&self, mut payload: [u8; 16]) -> Option<i16> {
        if let Some(at) = self.unseen {
            payload[at] = u8::from(at == 0);
        }
        (self.value)(&payload)
    }
}

/// What is wrong, and the rules with it.
pub fn wrong() -> Vec<(String, Rules)> {
    let named = |(name, rules): &(&str, Rules)| (name.to_string(), *rules);
    let unseen = |at| {
        let rules = Rules {
            unseen: Some(at),
            ..RIGHT
        };
        (format!("byte {at} of the payload not looked at"), rules)
    };
    let misjudging = MISJUDGED.map(|(name, well_formed)| {
        let rules = Rules {
            well_formed,
            ..RIGHT
        };
        (name, rules)
    });
    [OUTCOMES, POOLS, REFUSALS, &misjudging]
        .concat()
        .iter()
        .map(named)
        .chain(MARKS.map(unseen))
        .collect()
}

const OUTCOMES: &[(&str, Rules)] = &[
    (
        "the upper middle",
        Rules {
            outcome: |values| sorted(values, |value| value.into(), |count| count / 2 + 1),
            ..RIGHT
        },
    ),
    (
        "one below the lower middle",
        Rules {
            outcome: |values| sorted(values, |value| value.into(), |count| (count / 2).max(1)),
            ..RIGHT
        },
    ),
    (
        "the mean",
        Rules {
            outcome: |values| {
                let sum: i64 = values.iter().map(|&value| i64::from(value)).sum();
                (sum / values.len() as i64) as i16
            },
            ..RIGHT
        },
    ),
    (
        "the mean of both middles",
        Rules {
            outcome: |values| {
                let middles = [
                    |count: usize| count.div_ceil(2),
                    |count: usize| count / 2 + 1,
                ];
                let [low, high] =
                    middles.map(|place| i32::from(sorted(values.clone(), i32::from, place)));
                ((low + high) / 2) as i16
            },
            ..RIGHT
        },
    ),
    (
        "the middle of what is not sorted",
        Rules {
            outcome: |values| values[values.len().div_ceil(2) - 1],
            ..RIGHT
        },
    ),
    (
        "values compared without their sign",
        Rules {
            outcome: |values| {
                let key = |value: i16| i32::from(value as u16);
                sorted(values, key, |count| count.div_ceil(2))
            },
            ..RIGHT
        },
    ),
    (
        "values compared by their size",
        Rules {
            outcome: |values| {
                let key = |value: i16| i32::from(value).abs();
                sorted(values, key, |count| count.div_ceil(2))
            },
            ..RIGHT
        },
    ),
    (
        "equal values once",
        Rules {
            outcome: |mut values| {
                values.sort_unstable();
                values.dedup();
                sorted(values, |value| value.into(), |count| count.div_ceil(2))
            },
            ..RIGHT
        },
    ),
    (
        "the low byte first",
        Rules {
            value: |payload| marked(payload).then(|| i16::from_le_bytes([payload[1], payload[2]])),
            ..RIGHT
        },
    ),
    (
        "whole degrees",
        Rules {
            value: |payload| {
                let value = i16::from_be_bytes([payload[1], payload[2]]);
                marked(payload).then_some(value / 100 * 100)
            },
            ..RIGHT
        },
    ),
];

const POOLS: &[(&str, Rules)] = &[
    (
        "the lowest number",
        Rules {
            counts: |payloads| setpoints(payloads).take(1).collect(),
            ..RIGHT
        },
    ),
    (
        "only the highest delivered payload",
        Rules {
            counts: |payloads| setpoints(&payloads[payloads.len().saturating_sub(1)..]).collect(),
            ..RIGHT
        },
    ),
    (
        "setpoints up to the first other payload",
        Rules {
            counts: |payloads| {
                let first = payloads.iter().position(|(_, value)| value.is_none());
                let before = &payloads[..first.unwrap_or(payloads.len())];
                setpoints(before).last().into_iter().collect()
            },
            ..RIGHT
        },
    ),
    (
        "every setpoint",
        Rules {
            counts: |payloads| setpoints(payloads).collect(),
            ..RIGHT
        },
    ),
    (
        "the highest value of a sender",
        Rules {
            counts: |payloads| {
                setpoints(payloads)
                    .max_by_key(|seen| seen.1)
                    .into_iter()
                    .collect()
            },
            ..RIGHT
        },
    ),
    (
        "number 15 passed over",
        Rules {
            counts: |payloads| {
                setpoints(payloads)
                    .filter(|seen| seen.0 < 15)
                    .last()
                    .into_iter()
                    .collect()
            },
            ..RIGHT
        },
    ),
    (
        "number 0 passed over",
        Rules {
            counts: |payloads| {
                setpoints(payloads)
                    .filter(|seen| seen.0 > 0)
                    .last()
                    .into_iter()
                    .collect()
            },
            ..RIGHT
        },
    ),
    (
        "held setpoints too",
        Rules {
            states: &[1, 2],
            ..RIGHT
        },
    ),
    (
        "held setpoints only",
        Rules {
            states: &[1],
            ..RIGHT
        },
    ),
    (
        "noted setpoints too, where the payload is none",
        Rules {
            payload: |record| match marked(&payload_of(record)) {
                true => payload_of(record),
                false => noted_payload_of(record),
            },
            ..RIGHT
        },
    ),
    (
        "noted setpoints before the delivered ones",
        Rules {
            payload: |record| match marked(&noted_payload_of(record)) {
                true => noted_payload_of(record),
                false => payload_of(record),
            },
            ..RIGHT
        },
    ),
    (
        "noted setpoints of what is held too",
        Rules {
            states: &[1, 2],
            payload: |record| match record[0] {
                2 => payload_of(record),
                _ => noted_payload_of(record),
            },
            ..RIGHT
        },
    ),
    (
        "setpoints below zero passed over",
        Rules {
            value: |payload| (RIGHT.value)(payload).filter(|&value| value >= 0),
            ..RIGHT
        },
    ),
    (
        "setpoints of 0 passed over",
        Rules {
            value: |payload| (RIGHT.value)(payload).filter(|&value| value != 0),
            ..RIGHT
        },
    ),
];

const REFUSALS: &[(&str, Rules)] = &[
    (
        "27 only below 2t",
        Rules {
            needed: |t| 2 * t,
            ..RIGHT
        },
    ),
    (
        "27 below 2t + 2",
        Rules {
            needed: |t| 2 * t + 2,
            ..RIGHT
        },
    ),
    (
        "27 below t + 1",
        Rules {
            needed: |t| t + 1,
            ..RIGHT
        },
    ),
    (
        "27 below 3t + 1",
        Rules {
            needed: |t| 3 * t + 1,
            ..RIGHT
        },
    ),
    (
        "no setpoint needed without faults",
        Rules {
            needed: |t| if t == 0 { 0 } else { 2 * t + 1 },
            ..RIGHT
        },
    ),
    (
        "a malformed record passed over",
        Rules {
            order: &[1, 20, 27],
            ..RIGHT
        },
    ),
    (
        "27 before 21",
        Rules {
            order: &[1, 20, 27, 21],
            ..RIGHT
        },
    ),
    (
        "20 before 1",
        Rules {
            order: &[20, 1, 21, 27],
            ..RIGHT
        },
    ),
    (
        "a sender without setpoint not tested",
        Rules {
            tested: |_, counted| !counted.is_empty(),
            ..RIGHT
        },
    ),
    (
        "records below the one that counts not tested",
        Rules {
            tested: |seq, counted| counted.iter().all(|&(last, _)| seq >= last),
            ..RIGHT
        },
    ),
    (
        "records above the one that counts not tested",
        Rules {
            tested: |seq, counted| counted.iter().all(|&(last, _)| seq <= last),
            ..RIGHT
        },
    ),
    (
        "the last number not tested",
        Rules {
            tested: |seq, _| seq < 15,
            ..RIGHT
        },
    ),
];
