//! How many pairs showed each thing that who compares two recordings could go wrong by.

use super::defects::{BadTable, Defect, Place, Reason, PLACES, REASONS};
use super::pairs::{Content, Pair, CONTENTS};
use super::slots::{Compared, Side, COMPARED, SIDES};
use crate::damage::causes;
use crate::lent::{Length, LENGTHS};
use crate::quorums::{Choice, CHOICES};
use crate::records::{bit, well_formed, Clause, CLAUSES};
use crate::tally::assert_seen;
use std::collections::{BTreeMap, BTreeSet};
use std::fmt;

#[derive(Clone, Copy, Debug, PartialEq, Eq, PartialOrd, Ord)]
pub enum Seen {
    /// refused by the first, where the second applies too
    FirstOf(Reason, Reason),
    BadTable(BadTable),
    WrongLength(Side, Length),
    Malformed(Side, Clause),
    MalformedAt(Side, Place),
    /// malformed, yet well-formed by the other node's number
    MalformedForOwn(Side),
    /// Nothing else is wrong than that both numbers are the same.
    SameNode,
    /// n of a pair that is not refused; all that follows is of such
    Nodes(u8),
    Quorum(Choice),
    /// well-formed, yet malformed by the other node's number
    WellFormedForOwn(Side),
    /// what the first and the second hold of a slot
    Slot(Content, Content),
    /// so many different payloads in a slot
    Payloads(usize),
    /// two equal payloads that a node has signed both times
    Equal(Compared),
    /// Somebody is named by this alone.
    OnlyBy(Compared),
    /// by two payloads that differ in this bit alone
    OnlyByBit(u32),
    /// in this slot alone
    OnlyAt(At),
    /// in one slot alone, and somebody else in another alone
    InSeveralSlots,
    /// a node's bit stands beside different payloads in different slots, and the node is not named
    InDifferentSlots,
    /// by its number, of 64 nodes
    Named(u8),
    LastNodeNamed,
    OwnNamed(Side),
    SenderAlone,
    /// a node without a slot in use
    NotSender,
    MoreThanFaulty,
    Everybody,
    Nobody,
    /// all slots in use
    NobodyInAllSlots,
    SomebodyInAllSlots,
}

/// Where a slot lies.
#[derive(Clone, Copy, Debug, PartialEq, Eq, PartialOrd, Ord)]
pub enum At {
    First,
    Last,
    /// the last number of another sender
    LastNumber,
    /// another number of the last sender
    LastSender,
    Elsewhere,
}

const PLACES_IN_USE: [At; 5] = [
    At::First,
    At::Last,
    At::LastNumber,
    At::LastSender,
    At::Elsewhere,
];

impl At {
    fn of(slot: (u8, usize), n: u8) -> At {
        match slot {
            (0, 0) => At::First,
            (sender, 15) if sender == n - 1 => At::Last,
            (_, 15) => At::LastNumber,
            (sender, _) if sender == n - 1 => At::LastSender,
            _ => At::Elsewhere,
        }
    }
}

#[derive(Default)]
pub struct Tally {
    pairs: u64,
    /// None where a pair is not refused
    reasons: BTreeMap<Option<Reason>, u64>,
    seen: BTreeMap<Seen, u64>,
}

impl Tally {
    /// A pair that was refused, or not, for what is wrong with it, and the word told.
    pub fn count(&mut self, pair: &Pair, word: u64) {
        self.pairs += 1;
        *self.reasons.entry(pair.reason()).or_default() += 1;
        let mut seen = BTreeSet::new();
        match pair.reason() {
            Some(reason) => see_defects(&mut seen, pair, reason),
            None => see_accepted(&mut seen, pair, word),
        }
        for kind in seen {
            *self.seen.entry(kind).or_default() += 1;
        }
    }

    /// Fails if something that can occur was seen less than `least` times, or if something was seen that cannot occur.
    pub fn assert_complete(&self, least: u64) {
        let reasons = REASONS.into_iter().map(Some).chain([None]);
        assert_seen("refused for", &self.reasons, reasons, 10 * least);
        assert_seen("pair", &self.seen, kinds(), least);
    }
}

/// All that can be seen.
fn kinds() -> impl Iterator<Item = Seen> {
    let quorums = CHOICES.into_iter().filter(|choice| choice.is_allowed());
    let slots = CONTENTS
        .into_iter()
        .flat_map(|first| CONTENTS.map(|second| Seen::Slot(first, second)))
        .filter(|slot| *slot != Seen::Slot(Content::Empty, Content::Empty));
    // What is noted in a record differs from its payload.
    let across = COMPARED.into_iter().filter(|compared| compared.is_across());
    refusals()
        .chain((2..=64).map(Seen::Nodes))
        .chain(quorums.map(Seen::Quorum))
        .chain(SIDES.map(Seen::WellFormedForOwn))
        .chain(slots)
        .chain((1..=4).map(Seen::Payloads))
        .chain(across.map(Seen::Equal))
        .chain(COMPARED.map(Seen::OnlyBy))
        .chain((0..128).map(Seen::OnlyByBit))
        .chain(PLACES_IN_USE.map(Seen::OnlyAt))
        .chain((0..64).map(Seen::Named))
        .chain(SIDES.map(Seen::OwnNamed))
        .chain(OF_WORDS)
}

fn refusals() -> impl Iterator<Item = Seen> {
    let later = |(at, first): (usize, Reason)| {
        REASONS[at + 1..]
            .iter()
            .map(move |&second| Seen::FirstOf(first, second))
    };
    let tables = causes()
        .map(BadTable::First)
        .chain([BadTable::SecondOwn, BadTable::BothOwns]);
    let of_side = |side| {
        LENGTHS
            .into_iter()
            .map(move |length| Seen::WrongLength(side, length))
            .chain(CLAUSES.map(|clause| Seen::Malformed(side, clause)))
            .chain(PLACES.map(|place| Seen::MalformedAt(side, place)))
            .chain([Seen::MalformedForOwn(side)])
    };
    REASONS
        .into_iter()
        .enumerate()
        .flat_map(later)
        .chain(tables.map(Seen::BadTable))
        .chain(SIDES.into_iter().flat_map(of_side))
        .chain([Seen::SameNode])
}

const OF_WORDS: [Seen; 10] = [
    Seen::InSeveralSlots,
    Seen::InDifferentSlots,
    Seen::LastNodeNamed,
    Seen::SenderAlone,
    Seen::NotSender,
    Seen::MoreThanFaulty,
    Seen::Everybody,
    Seen::Nobody,
    Seen::NobodyInAllSlots,
    Seen::SomebodyInAllSlots,
];

fn see_defects(seen: &mut BTreeSet<Seen>, pair: &Pair, reason: Reason) {
    for defect in &pair.defects {
        match *defect {
            _ if defect.reason() != reason => {
                seen.insert(Seen::FirstOf(reason, defect.reason()));
            }
            Defect::Table(table) => _ = seen.insert(Seen::BadTable(table)),
            Defect::Length(side, length) => _ = seen.insert(Seen::WrongLength(side, length)),
            Defect::Malformed(side, malformed) => {
                seen.insert(Seen::Malformed(side, malformed.clause));
                seen.insert(Seen::MalformedAt(side, malformed.place));
                if malformed.for_other {
                    seen.insert(Seen::MalformedForOwn(side));
                }
            }
            Defect::SameNode => _ = seen.insert(Seen::SameNode),
        }
    }
}

fn see_accepted(seen: &mut BTreeSet<Seen>, pair: &Pair, word: u64) {
    let config = &pair.config;
    let choice = Choice::of(config).expect("a good table");
    seen.extend([Seen::Nodes(config.n), Seen::Quorum(choice)]);
    let mut names = Names::default();
    for &slot in &BTreeSet::from_iter(&pair.slots) {
        see_slot(seen, pair, *slot);
        names.add(seen, pair, *slot);
    }
    assert_eq!(names.word, word, "what the slots name is not told");
    seen.extend(needed(&names.by_compared).map(Seen::OnlyBy));
    seen.extend(needed(&names.by_bit).flatten().map(Seen::OnlyByBit));
    let slots = Vec::from_iter(needed(&names.by_slot));
    seen.extend(
        slots
            .iter()
            .map(|&slot| Seen::OnlyAt(At::of(slot, config.n))),
    );
    if slots.len() > 1 {
        seen.insert(Seen::InSeveralSlots);
    }
    see_word(seen, pair, word);
}

/// Who is named, by what.
#[derive(Default)]
struct Names {
    word: u64,
    by_compared: BTreeMap<Compared, u64>,
    /// by the only bit in which two payloads differ; None where they differ in several
    by_bit: BTreeMap<Option<u32>, u64>,
    by_slot: BTreeMap<(u8, usize), u64>,
}

impl Names {
    fn add(&mut self, seen: &mut BTreeSet<Seen>, pair: &Pair, slot: (u8, usize)) {
        let records = pair.records(slot);
        for compared in COMPARED {
            let [(signers, payload), (others, other_payload)] = compared.of(records);
            let (both, payloads) = (signers & others, [payload, other_payload]);
            let [one, other] = payloads.map(u128::from_be_bytes);
            let difference = one ^ other;
            match difference {
                _ if both == 0 => continue,
                0 => _ = seen.insert(Seen::Equal(compared)),
                _ => {
                    let bit = difference.is_power_of_two().then(|| difference.ilog2());
                    self.word |= both;
                    *self.by_compared.entry(compared).or_default() |= both;
                    *self.by_bit.entry(bit).or_default() |= both;
                    *self.by_slot.entry(slot).or_default() |= both;
                }
            }
        }
    }
}

/// The keys of words without which a bit would be missing.
fn needed<Key: Copy>(words: &BTreeMap<Key, u64>) -> impl Iterator<Item = Key> + '_ {
    let (mut once, mut twice) = (0, 0);
    for word in words.values() {
        twice |= once & word;
        once |= word;
    }
    let needed = words.iter().filter(move |(_, word)| **word & !twice != 0);
    needed.map(|(key, _)| *key)
}

fn see_slot(seen: &mut BTreeSet<Seen>, pair: &Pair, slot: (u8, usize)) {
    let records = pair.records(slot);
    let [first, second] = records.map(Content::of);
    if [first, second] == [Content::Empty; 2] {
        return;
    }
    seen.insert(Seen::Slot(first, second));
    let signed = COMPARED
        .into_iter()
        .flat_map(|compared| compared.of(records));
    let payloads = signed.filter(|(signers, _)| *signers != 0);
    let different = BTreeSet::from_iter(payloads.map(|(_, payload)| payload));
    seen.insert(Seen::Payloads(different.len()));
    for (side, record) in SIDES.into_iter().zip(records) {
        let other = SIDES[1 - side as usize];
        if !well_formed(&pair.config_of(other), slot.0, record) {
            seen.insert(Seen::WellFormedForOwn(side));
        }
    }
}

fn see_word(seen: &mut BTreeSet<Seen>, pair: &Pair, word: u64) {
    let config = &pair.config;
    let named = |node| word & bit(node) != 0;
    let senders = pair.slots.iter().fold(0, |set, slot| set | bit(slot.0));
    let all_slots = pair.slots.len() == 16 * usize::from(config.n);
    let [first, second] = SIDES.map(|side| named(pair.config_of(side).own));
    let kinds = [
        (Seen::InDifferentSlots, signs_in_different_slots(pair, word)),
        (Seen::LastNodeNamed, named(config.n - 1)),
        (Seen::OwnNamed(Side::First), first),
        (Seen::OwnNamed(Side::Second), second),
        (Seen::SenderAlone, word != 0 && word == senders),
        (Seen::NotSender, word & !senders != 0),
        (Seen::MoreThanFaulty, word.count_ones() > config.t.into()),
        (Seen::Everybody, word == config.mask()),
        (Seen::Nobody, word == 0),
        (Seen::NobodyInAllSlots, word == 0 && all_slots),
        (Seen::SomebodyInAllSlots, word != 0 && all_slots),
    ];
    seen.extend(kinds.iter().filter(|kind| kind.1).map(|kind| kind.0));
    if config.n == 64 {
        seen.extend((0..64).filter(|&node| named(node)).map(Seen::Named));
    }
}

/// Of the first two slots in use: a node that is not named has signed a payload in one and another payload in the other.
fn signs_in_different_slots(pair: &Pair, word: u64) -> bool {
    let [one, other, ..] = pair.slots[..] else {
        return false;
    };
    let payloads = [one, other].map(|slot| Compared::Payloads.of(pair.records(slot)));
    let mut signed = payloads[0]
        .iter()
        .flat_map(|one| payloads[1].map(|other| (one, other)));
    one != other
        && signed.any(|((signers, payload), (others, other_payload))| {
            signers & others & !word != 0 && *payload != other_payload
        })
}

impl fmt::Display for Tally {
    fn fmt(&self, f: &mut fmt::Formatter) -> fmt::Result {
        writeln!(f, "pairs of recordings: {}", self.pairs)?;
        for (reason, count) in &self.reasons {
            let refused = match reason {
                Some(reason) => format!("{} {reason:?}", reason.number()),
                None => "not refused".to_string(),
            };
            writeln!(f, "  {refused:34}{count:>9}")?;
        }
        for (kind, count) in &self.seen {
            let single = !matches!(kind, Seen::Nodes(_) | Seen::OnlyByBit(_) | Seen::Named(_));
            if single {
                writeln!(f, "  {:50}{count:>9}", format!("{kind:?}"))?;
            }
        }
        let rarest = self.seen.iter().min_by_key(|(_, count)| **count);
        let (kind, count) = rarest.expect("something was seen");
        write!(
            f,
            "of {} kinds the rarest: {kind:?}, {count}",
            self.seen.len()
        )
    }
}
