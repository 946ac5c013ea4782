//! How often each code was seen, and from what.

use crate::comparison::{Case, Kind};
use crate::notes::{Noting, Unusual, NOTINGS, UNUSUAL};
use crate::quorums::{edge, Choice, Edge, CHOICES};
use crate::records::{
    noted_payload_of, noted_signers_of, payload_of, Clause, CLAUSES, DELIVERED, EMPTY, HELD,
};
use mbrb::reference::RecordBytes;
use std::collections::BTreeMap;
use std::fmt;

/// What a bundle that is not refused for its own sake meets.
#[derive(Clone, Copy, Debug, PartialEq, Eq, PartialOrd, Ord)]
pub enum Meets {
    Empty,
    SamePayload,
    SamePayloadBesideNote,
    /// with nothing noted
    AnotherPayload,
    /// that very one is noted
    NotedPayload,
    /// neither held nor noted, and another one is noted
    ThirdPayload,
    Delivered,
}

impl Meets {
    pub fn of(case: &Case, record: &RecordBytes) -> Option<Meets> {
        match record[0] {
            EMPTY => Some(Meets::Empty),
            HELD => Some(Meets::held(&payload_of(&case.input), record)),
            DELIVERED => Some(Meets::Delivered),
            _ => None,
        }
    }

    fn held(payload: &[u8; 16], record: &RecordBytes) -> Meets {
        let (same, noted) = (
            payload_of(record) == *payload,
            noted_signers_of(record) != 0,
        );
        match noted_payload_of(record) == *payload {
            _ if same && noted => Meets::SamePayloadBesideNote,
            _ if same => Meets::SamePayload,
            _ if !noted => Meets::AnotherPayload,
            true => Meets::NotedPayload,
            false => Meets::ThirdPayload,
        }
    }
}

#[derive(Default)]
pub struct Tally {
    pub calls: u64,
    codes: BTreeMap<(Kind, u32), u64>,
    /// calls that were not refused, by the n of the config
    accepted: BTreeMap<(Kind, u8), u64>,
    /// refusals 21, by the clause that the record was made malformed by
    clauses: BTreeMap<(Kind, Clause), u64>,
    meetings: BTreeMap<(Kind, Meets, u32), u64>,
    /// calls accepted, and others refused by 1, by the quorum of a config that is good otherwise
    quorums: BTreeMap<(Kind, Choice, bool), u64>,
    /// answers noted, by what joins the note
    notes: BTreeMap<(Kind, Noting), u64>,
    /// well-formed records, by what a stricter rule would forbid of their notes
    unusual: BTreeMap<(Kind, Unusual), u64>,
    /// calls that a quorum stricter than the least decides by one signer; every code of announcing is 200 here
    edges: BTreeMap<(Kind, Meets, Edge, u32), u64>,
    /// slots signed, kept, delivered and then refused at one node, all by calls
    pub lives: u64,
}

impl Tally {
    /// `records` as they were before the call; `clause` is of the record that the call finds malformed, if it does.
    pub fn count(&mut self, case: &Case, records: &[u8], clause: Option<Clause>, code: u32) {
        self.calls += 1;
        *self.codes.entry((case.kind, code)).or_default() += 1;
        let accepted = code == 0 || code >= 100;
        if accepted {
            let key = (case.kind, case.config.n);
            *self.accepted.entry(key).or_default() += 1;
        }
        if let (true, Some(choice)) = (accepted || code == 1, Choice::of(&case.config)) {
            let key = (case.kind, choice, accepted);
            *self.quorums.entry(key).or_default() += 1;
        }
        if let (21, Some(clause)) = (code, clause) {
            *self.clauses.entry((case.kind, clause)).or_default() += 1;
        }
        if code >= 21 {
            self.count_by_record(case, records, clause, code);
        }
    }

    /// Of a call that got as far as the records it is about.
    fn count_by_record(&mut self, case: &Case, records: &[u8], clause: Option<Clause>, code: u32) {
        let (start, length) = case.concerned();
        let (records, _) = records[start..start + length].as_chunks();
        if BUNDLE_KINDS.contains(&case.kind) && code >= 22 {
            if let Some(meets) = Meets::of(case, &records[0]) {
                let key = (case.kind, meets, code);
                *self.meetings.entry(key).or_default() += 1;
            }
            self.count_notes(case, &records[0], code);
        }
        if let Some((meets, edge)) = edge(case, records, clause, code) {
            let key = (case.kind, meets, edge, code.min(200));
            *self.edges.entry(key).or_default() += 1;
        }
    }

    /// Of a record that a bundle finds well-formed.
    fn count_notes(&mut self, case: &Case, record: &RecordBytes, code: u32) {
        if code == NOTED {
            let key = (case.kind, Noting::of(case, record));
            *self.notes.entry(key).or_default() += 1;
        }
        for unusual in UNUSUAL.into_iter().filter(|kind| kind.is_in(case, record)) {
            *self.unusual.entry((case.kind, unusual)).or_default() += 1;
        }
    }

    /// Fails if something that can occur was seen less than `least` times, or if something was seen that cannot occur.
    pub fn assert_complete(&self, least: u64) {
        let codes = BROADCAST_CODES.map(|code| (Kind::Broadcast, code));
        let codes = codes
            .into_iter()
            .chain(OPEN_CODES.map(|code| (Kind::Open, code)))
            .chain((200..=215).map(|code| (Kind::Broadcast, code)))
            .chain(of_bundles(BUNDLE_CODES));
        assert_seen("code", &self.codes, codes, least);
        let sizes = KINDS
            .into_iter()
            .flat_map(|kind| (1..=64).map(move |n| (kind, n)));
        assert_seen("accepted at n", &self.accepted, sizes, least);
        let clauses = CLAUSES
            .into_iter()
            .filter(|&clause| in_our_slots(clause))
            .map(|clause| (Kind::Broadcast, clause))
            .chain(of_bundles(CLAUSES));
        assert_seen("malformed by", &self.clauses, clauses, least);
        let meetings = of_bundles(MEETINGS).map(|(kind, (meets, code))| (kind, meets, code));
        assert_seen("record and code", &self.meetings, meetings, least);
        assert_seen("noted", &self.notes, of_bundles(NOTINGS), least);
        assert_seen("unusual note", &self.unusual, of_bundles(UNUSUAL), least);
        let quorums = KINDS
            .into_iter()
            .flat_map(|kind| CHOICES.map(|choice| (kind, choice, choice.is_allowed())));
        assert_seen("quorum, accepted", &self.quorums, quorums, least);
        let edges = OWN_EDGES
            .map(|edge| (Kind::Broadcast, edge))
            .into_iter()
            .chain(of_bundles(EDGES))
            .map(|(kind, (meets, edge, code))| (kind, meets, edge, code));
        assert_seen("stricter quorum", &self.edges, edges, least);
        assert!(
            self.lives >= least,
            "whole lives: {}, not {least}",
            self.lives
        );
    }
}

const KINDS: [Kind; 4] = [Kind::Open, Kind::Broadcast, Kind::Receive, Kind::Preview];

/// A preview is expected to see all that taking sees.
const BUNDLE_KINDS: [Kind; 2] = [Kind::Receive, Kind::Preview];

fn of_bundles<Item: Copy, const COUNT: usize>(
    items: [Item; COUNT],
) -> impl Iterator<Item = (Kind, Item)> {
    BUNDLE_KINDS
        .into_iter()
        .flat_map(move |kind| items.map(|item| (kind, item)))
}

const OPEN_CODES: [u32; 3] = [0, 1, 20];

const BROADCAST_CODES: [u32; 6] = [1, 9, 10, 20, 21, 25];

const NOTED: u32 = 103;

const BUNDLE_CODES: [u32; 18] = [
    1, 2, 3, 4, 5, 6, 7, 8, 10, 20, 21, 22, 23, 24, 100, 101, 102, NOTED,
];

/// In the order of what is met, and of the codes.
pub const MEETINGS: [(Meets, u32); 17] = [
    (Meets::Empty, 23),
    (Meets::Empty, 101),
    (Meets::Empty, 102),
    (Meets::SamePayload, 100),
    (Meets::SamePayload, 102),
    (Meets::SamePayloadBesideNote, 100),
    (Meets::SamePayloadBesideNote, 102),
    (Meets::AnotherPayload, 23),
    (Meets::AnotherPayload, 102),
    (Meets::AnotherPayload, NOTED),
    (Meets::NotedPayload, 23),
    (Meets::NotedPayload, 102),
    (Meets::NotedPayload, NOTED),
    (Meets::ThirdPayload, 23),
    (Meets::ThirdPayload, 24),
    (Meets::ThirdPayload, 102),
    (Meets::Delivered, 22),
];

const EDGES: [(Meets, Edge, u32); 14] = [
    (Meets::Empty, Edge::OneShort, 101),
    (Meets::Empty, Edge::Enough, 102),
    (Meets::SamePayload, Edge::OneShort, 100),
    (Meets::SamePayload, Edge::Enough, 102),
    (Meets::SamePayloadBesideNote, Edge::OneShort, 100),
    (Meets::SamePayloadBesideNote, Edge::Enough, 102),
    (Meets::AnotherPayload, Edge::OneShort, NOTED),
    (Meets::AnotherPayload, Edge::Enough, 102),
    (Meets::NotedPayload, Edge::OneShort, NOTED),
    (Meets::NotedPayload, Edge::Enough, 102),
    (Meets::ThirdPayload, Edge::OneShort, 24),
    (Meets::ThirdPayload, Edge::Enough, 102),
    (Meets::Delivered, Edge::OneShort, 21),
    (Meets::Delivered, Edge::Enough, 22),
];

const OWN_EDGES: [(Meets, Edge, u32); 2] = [
    (Meets::Delivered, Edge::OneShort, 21),
    (Meets::Delivered, Edge::Enough, 200),
];

/// In our own slots the sender's bit is ours, so no record lacks just one of the two.
pub fn in_our_slots(clause: Clause) -> bool {
    !matches!(clause, Clause::HeldWithoutSender | Clause::HeldWithoutOwn)
}

/// Fails if something possible was seen less than `least` times, or if something else was seen.
pub fn assert_seen<Key: Copy + Ord + fmt::Debug>(
    what: &str,
    seen: &BTreeMap<Key, u64>,
    possible: impl IntoIterator<Item = Key>,
    least: u64,
) {
    let mut others = seen.clone();
    for key in possible {
        let count = others.remove(&key).unwrap_or(0);
        assert!(count >= least, "{what} {key:?}: {count}, not {least}");
    }
    assert!(others.is_empty(), "{what} cannot occur: {others:?}");
}

impl fmt::Display for Tally {
    fn fmt(&self, f: &mut fmt::Formatter) -> fmt::Result {
        writeln!(f, "calls: {}", self.calls)?;
        show(f, "code", &self.codes, |(kind, code)| {
            format!("{kind:?} {code}")
        })?;
        show(
            f,
            "21, by what makes the record malformed",
            &self.clauses,
            |(kind, clause)| format!("{kind:?} {clause:?}"),
        )?;
        show(
            f,
            "what a bundle meets, and the code",
            &self.meetings,
            |(kind, meets, code)| format!("{kind:?} {meets:?} {code}"),
        )?;
        show(
            f,
            "answers noted, by what joins the note",
            &self.notes,
            |(kind, noting)| format!("{kind:?} {noting:?}"),
        )?;
        show(
            f,
            "well-formed records, by what looks wrong in their notes",
            &self.unusual,
            |(kind, unusual)| format!("{kind:?} {unusual:?}"),
        )?;
        show(
            f,
            "quorum of the config, and whether it is accepted",
            &self.quorums,
            |(kind, choice, accepted)| {
                let answer = if *accepted { "accepted" } else { "refused 1" };
                format!("{kind:?} {choice:?} {answer}")
            },
        )?;
        show(
            f,
            "a stricter quorum than the least, what decides, and the code",
            &self.edges,
            |(kind, meets, edge, code)| format!("{kind:?} {meets:?} {edge:?} {code}"),
        )?;
        writeln!(f, "whole lives of slots: {}", self.lives)?;
        for kind in KINDS {
            let codes = self.codes.range((kind, 0)..=(kind, u32::MAX));
            let calls: u64 = codes.map(|(_, count)| count).sum();
            let counts = self.accepted.range((kind, 0)..=(kind, 255));
            let (sizes, least) = (counts.clone().count(), counts.map(|(_, count)| count).min());
            let least = least.unwrap_or(&0);
            writeln!(
                f,
                "{kind:?}: {calls} calls, accepted for {sizes} values of n, each at least {least} times"
            )?;
        }
        Ok(())
    }
}

fn show<Key>(
    f: &mut fmt::Formatter,
    title: &str,
    counts: &BTreeMap<Key, u64>,
    name: impl Fn(&Key) -> String,
) -> fmt::Result {
    writeln!(f, "{title}")?;
    for (key, count) in counts {
        writeln!(f, "  {:45}{count:>9}", name(key))?;
    }
    Ok(())
}
