//! Quorums that a site may choose and others, and the counts of signers at which a stricter one than the least decides.

use crate::comparison::{Case, Kind};
use crate::records::{bit, signers_of, up_to, Clause, DELIVERED};
use crate::tally::Meets;
use mbrb::{random::Random, reference::RecordBytes, Config};
use std::ops::RangeInclusive;

/// The quorums that make a config good, which is good but for the one it has.
pub fn allowed(config: &Config) -> RangeInclusive<u32> {
    config.quorums().expect("good with some quorum")
}

/// The least, the most or any other.
pub fn any_of(random: &mut Random, numbers: RangeInclusive<u32>) -> u32 {
    let further = numbers.end() - numbers.start();
    numbers.start() + up_to(random, further as usize) as u32
}

/// What the quorum of a config is that is good but for it.
#[derive(Clone, Copy, Debug, PartialEq, Eq, PartialOrd, Ord)]
pub enum Choice {
    /// the least and the most are the same
    Only,
    Least,
    Between,
    Most,
    Zero,
    OneBelow,
    OneAbove,
    /// 32 bits are too few for q + t + d, and what is left of the sum is small.
    SumWraps,
    /// 32 bits are too few for 2q, and what is left is twice one that may be chosen.
    DoubleWraps,
    /// Its last byte is one that may be chosen.
    LastByte,
    Greatest,
}

pub const CHOICES: [Choice; 11] = [
    Choice::Only,
    Choice::Least,
    Choice::Between,
    Choice::Most,
    Choice::Zero,
    Choice::OneBelow,
    Choice::OneAbove,
    Choice::SumWraps,
    Choice::DoubleWraps,
    Choice::LastByte,
    Choice::Greatest,
];

impl Choice {
    /// None if the config is bad whichever quorum it has.
    pub fn of(config: &Config) -> Option<Choice> {
        let (q, allowed) = (config.q, config.quorums()?);
        let (least, most) = (*allowed.start(), *allowed.end());
        let beside = u32::from(config.t) + u32::from(config.d);
        Some(match q {
            _ if q == least && q == most => Choice::Only,
            _ if q == least => Choice::Least,
            _ if q == most => Choice::Most,
            _ if allowed.contains(&q) => Choice::Between,
            0 => Choice::Zero,
            u32::MAX => Choice::Greatest,
            _ if q + 1 == least => Choice::OneBelow,
            _ if q == most + 1 => Choice::OneAbove,
            _ if q.checked_add(beside).is_none() => Choice::SumWraps,
            _ if allowed.contains(&(q.wrapping_mul(2) / 2)) => Choice::DoubleWraps,
            _ if allowed.contains(&(q & 0xff)) => Choice::LastByte,
            _ => panic!("a quorum of no kind: {config:?}"),
        })
    }

    pub fn is_allowed(self) -> bool {
        self <= Choice::Most
    }

    /// Stricter than the least, and yet not all nodes.
    fn is_stricter(config: &Config) -> bool {
        let choice = Choice::of(config);
        matches!(choice, Some(Choice::Between | Choice::Most)) && config.q < config.n.into()
    }
}

/// A quorum that makes a good config bad.
pub fn bad_quorum(random: &mut Random, config: &Config) -> u32 {
    let allowed = allowed(config);
    let wrapping = (usize::from(config.t) + usize::from(config.d)).saturating_sub(1);
    match random.below(7) {
        0 => 0,
        1 => u32::MAX,
        2 => allowed.start() - 1,
        3 => allowed.end() + 1,
        4 => u32::MAX - wrapping.min(1 + up_to(random, wrapping)) as u32,
        5 => 1 << 31 | any_of(random, allowed),
        _ => 1 << (8 + random.below(23)) | any_of(random, allowed),
    }
}

/// Whether the signers that decide are just a quorum, or one is missing.
#[derive(Clone, Copy, Debug, PartialEq, Eq, PartialOrd, Ord)]
pub enum Edge {
    OneShort,
    Enough,
}

impl Edge {
    fn of(config: &Config, signers: u64) -> Option<Edge> {
        match config.q.checked_sub(signers.count_ones())? {
            0 => Some(Edge::Enough),
            1 => Some(Edge::OneShort),
            _ => None,
        }
    }
}

/// What a call meets where a stricter quorum than the least decides, and one signer more or less would change the answer. `records` are
/// those that the call is about, as they were before it; `clause` is of the one that it finds malformed, if it does.
pub fn edge(
    case: &Case,
    records: &[RecordBytes],
    clause: Option<Clause>,
    code: u32,
) -> Option<(Meets, Edge)> {
    if !Choice::is_stricter(&case.config) {
        return None;
    }
    let delivered_with = |records: &[RecordBytes], edge| {
        let mut delivered = records.iter().filter(|record| record[0] == DELIVERED);
        delivered
            .any(|record| Edge::of(&case.config, signers_of(record)) == Some(edge))
            .then_some((Meets::Delivered, edge))
    };
    match (case.kind, code) {
        (_, 21) if clause == Some(Clause::DeliveredBelowQuorum) => {
            delivered_with(records, Edge::OneShort)
        }
        (Kind::Broadcast, 200..) => delivered_with(&records[..code as usize - 200], Edge::Enough),
        // Our own bit decides 23.
        (Kind::Receive | Kind::Preview, 22 | 24..) => {
            let meets = Meets::of(case, &records[0])?;
            let signers = signers_that_decide(case, &records[0], meets);
            Some((meets, Edge::of(&case.config, signers)?))
        }
        _ => None,
    }
}

fn signers_that_decide(case: &Case, record: &RecordBytes, meets: Meets) -> u64 {
    let (known, brought) = (signers_of(record), signers_of(&case.input));
    match meets {
        Meets::Empty => brought | bit(case.config.own),
        Meets::SamePayload | Meets::SamePayloadBesideNote => brought | known,
        Meets::AnotherPayload | Meets::NotedPayload | Meets::ThirdPayload => brought,
        Meets::Delivered => known,
    }
}
