//! How many buffers showed each thing that a wrong setpoint could go wrong by.

use super::buffers::{Buffer, Content, Sender, MARKS};
use super::defects::{Defect, Place, PLACES};
use crate::damage::{causes, Cause};
use crate::lent::{Length, LENGTHS};
use crate::quorums::{Choice, CHOICES};
use crate::records::{Clause, CLAUSES};
use std::collections::{BTreeMap, BTreeSet};
use std::fmt;

#[derive(Clone, Copy, Debug, PartialEq, Eq, PartialOrd, Ord)]
pub enum Seen {
    /// refused by the first, where the second would apply too
    FirstOf(u32, u32),
    BadTable(Cause),
    WrongLength(Length),
    Malformed(Clause),
    MalformedAt(Place),
    /// refused as one setpoint is missing, of several
    OneMissing,
    SeveralMissing,
    /// refused as there is no setpoint at all, though no fault is borne
    NonePooledWithoutFaults,
    /// n of a buffer with an outcome; all that follows is of such
    Nodes(u8),
    /// t
    Faults(u8),
    Quorum(Choice),
    /// how many setpoints there are more than are needed
    Spare(usize),
    /// a sender whose setpoint changed from one number to a higher one
    Changed,
    /// what lies above the setpoint that counts
    Above(Content),
    /// what a sender has that has no setpoint
    InPlaceOf(Content),
    OutcomeBelowZero,
    OutcomeAboveZero,
    BothSigns,
    /// an even number of them, and the two in the middle differ
    MiddlesDiffer,
    MiddlesEqual,
    AllEqual,
    Lowest,
    Highest,
}

/// More to spare is counted as this.
const MANY: usize = 2;

#[derive(Default)]
pub struct Tally {
    pub buffers: u64,
    codes: BTreeMap<u32, u64>,
    seen: BTreeMap<Seen, u64>,
}

/// The lowest code of an outcome, and here the code of each.
const OUTCOME: u32 = 1 << 16;

impl Tally {
    pub fn count(&mut self, buffer: &Buffer, code: u32) {
        self.buffers += 1;
        *self.codes.entry(code.min(OUTCOME)).or_default() += 1;
        let mut seen = BTreeSet::new();
        match code {
            1 | 20 | 21 => see_defects(&mut seen, buffer, code),
            27 => see_missing(&mut seen, buffer),
            _ => see_outcome(&mut seen, buffer, code as i16),
        }
        for kind in seen {
            *self.seen.entry(kind).or_default() += 1;
        }
    }

    /// Fails if something that can occur was seen less than `least` times, or if something was seen that cannot occur.
    pub fn assert_complete(&self, least: u64) {
        for code in [1, 20, 21, 27, OUTCOME] {
            let count = self.codes.get(&code).copied().unwrap_or(0);
            assert!(count >= 10 * least, "code {code}: {count}");
        }
        assert_eq!(self.codes.len(), 5, "a code that cannot occur");
        let mut others = self.seen.clone();
        for kind in kinds() {
            let count = others.remove(&kind).unwrap_or(0);
            assert!(count >= least, "{kind:?}: {count}, not {least}");
        }
        assert!(others.is_empty(), "cannot occur: {others:?}");
    }
}

/// All that can be seen.
fn kinds() -> impl Iterator<Item = Seen> {
    let quorums = CHOICES
        .into_iter()
        .filter(|choice| choice.is_allowed())
        .map(Seen::Quorum);
    let contents = || {
        let others = [
            Content::HeldSetpoint,
            Content::HeldOther,
            Content::Other,
            Content::NotedSetpoint,
            Content::HeldNotedSetpoint,
        ];
        others.into_iter().chain(MARKS.map(Content::Stray))
    };
    refusals()
        .chain((1..=64).map(Seen::Nodes))
        .chain((0..=21).map(Seen::Faults))
        .chain(quorums)
        .chain((0..=MANY).map(Seen::Spare))
        .chain(contents().map(Seen::Above))
        .chain(contents().map(Seen::InPlaceOf))
        .chain(OF_SENDERS_AND_VALUES)
}

fn refusals() -> impl Iterator<Item = Seen> {
    let pairs = [(1, 20), (1, 21), (1, 27), (20, 21), (20, 27), (21, 27)];
    let missing = [
        Seen::OneMissing,
        Seen::SeveralMissing,
        Seen::NonePooledWithoutFaults,
    ];
    pairs
        .map(|(first, second)| Seen::FirstOf(first, second))
        .into_iter()
        .chain(causes().map(Seen::BadTable))
        .chain(LENGTHS.map(Seen::WrongLength))
        .chain(CLAUSES.map(Seen::Malformed))
        .chain(PLACES.map(Seen::MalformedAt))
        .chain(missing)
}

const OF_SENDERS_AND_VALUES: [Seen; 9] = [
    Seen::Changed,
    Seen::OutcomeBelowZero,
    Seen::OutcomeAboveZero,
    Seen::BothSigns,
    Seen::MiddlesDiffer,
    Seen::MiddlesEqual,
    Seen::AllEqual,
    Seen::Lowest,
    Seen::Highest,
];

fn needed(buffer: &Buffer) -> usize {
    2 * usize::from(buffer.config.t) + 1
}

fn see_defects(seen: &mut BTreeSet<Seen>, buffer: &Buffer, code: u32) {
    for defect in &buffer.defects {
        match *defect {
            Defect::Table(cause) => _ = seen.insert(Seen::BadTable(cause)),
            _ if defect.number() > code => _ = seen.insert(Seen::FirstOf(code, defect.number())),
            Defect::Length(length) => _ = seen.insert(Seen::WrongLength(length)),
            Defect::Malformed(clause, place) => {
                seen.extend([Seen::Malformed(clause), Seen::MalformedAt(place)]);
            }
        }
    }
    if buffer.pooled().len() < needed(buffer) {
        seen.insert(Seen::FirstOf(code, 27));
    }
}

fn see_missing(seen: &mut BTreeSet<Seen>, buffer: &Buffer) {
    seen.insert(match needed(buffer) - buffer.pooled().len() {
        1 if buffer.config.t == 0 => Seen::NonePooledWithoutFaults,
        1 => Seen::OneMissing,
        _ => Seen::SeveralMissing,
    });
}

fn see_outcome(seen: &mut BTreeSet<Seen>, buffer: &Buffer, outcome: i16) {
    let config = &buffer.config;
    let choice = Choice::of(config).expect("a good table");
    seen.extend([Seen::Nodes(config.n), Seen::Faults(config.t)]);
    seen.insert(Seen::Quorum(choice));
    buffer
        .senders
        .iter()
        .for_each(|sender| see_sender(seen, sender));
    let values = buffer.pooled();
    see_values(seen, &values, outcome);
    let spare = values.len() - needed(buffer);
    seen.insert(Seen::Spare(spare.min(MANY)));
}

fn see_sender(seen: &mut BTreeSet<Seen>, sender: &Sender) {
    if sender.counted.is_some() && sender.changed {
        seen.insert(Seen::Changed);
    }
    for &(seq, content) in &sender.contents {
        match sender.counted {
            Some((counted, _)) if seq > counted => _ = seen.insert(Seen::Above(content)),
            Some(_) => {}
            None => _ = seen.insert(Seen::InPlaceOf(content)),
        }
    }
}

/// `values` are in rising order, and not none.
fn see_values(seen: &mut BTreeSet<Seen>, values: &[i16], outcome: i16) {
    let (lowest, highest) = (values[0], values[values.len() - 1]);
    let middles = [values[(values.len() - 1) / 2], values[values.len() / 2]];
    let several = values.len() > 1;
    let kinds = [
        (Seen::OutcomeBelowZero, outcome < 0),
        (Seen::OutcomeAboveZero, outcome > 0),
        (Seen::BothSigns, lowest < 0 && highest > 0),
        (Seen::MiddlesDiffer, middles[0] != middles[1]),
        (
            Seen::MiddlesEqual,
            several && lowest < highest && middles[0] == middles[1],
        ),
        (Seen::AllEqual, several && lowest == highest),
        (Seen::Lowest, outcome == i16::MIN),
        (Seen::Highest, outcome == i16::MAX),
    ];
    seen.extend(kinds.iter().filter(|kind| kind.1).map(|kind| kind.0));
}

impl fmt::Display for Tally {
    fn fmt(&self, f: &mut fmt::Formatter) -> fmt::Result {
        writeln!(f, "buffers with setpoints: {}", self.buffers)?;
        for (code, count) in &self.codes {
            writeln!(f, "  code {code:<29}{count:>9}")?;
        }
        for (kind, count) in &self.seen {
            let single = !matches!(kind, Seen::Nodes(_) | Seen::Faults(_));
            if single {
                writeln!(f, "  {:34}{count:>9}", format!("{kind:?}"))?;
            }
        }
        let rarest = self.seen.iter().min_by_key(|(_, count)| **count);
        let (kind, count) = rarest.expect("something was seen");
        write!(
            f,
            "of {} kinds the rarest: {kind:?}, {count}",
            self.seen.len()
        )
    }
}
