//! What the records of correct nodes are worth at the end of a list, notes included: whoever looks at them sees what was signed.
//!
//! A correct node's bit stands only beside a payload that this node has signed in that slot, so it stands beside one payload of a slot. A
//! record with a note has the sender's bit beside two, so its sender is faulty. Both are read off the records and the list here.

use crate::run::Run;
use crate::trace::{bit, nodes_of, word, Payload, Slot};
use mbrb::reference::RecordBytes;
use std::collections::HashMap;
use std::fmt;

/// What does not hold of a record.
#[derive(Clone, Copy, Debug, PartialEq, Eq)]
pub enum Wrong {
    /// Beside a held payload stands the bit of a correct node that has not signed it.
    Held,
    /// the same beside a delivered payload
    Delivered,
    /// the same beside a noted payload
    Noted,
    /// A correct sender's slot has a note.
    CorrectSender,
}

impl Wrong {
    pub const ALL: [Wrong; 4] = [
        Wrong::Held,
        Wrong::Delivered,
        Wrong::Noted,
        Wrong::CorrectSender,
    ];
}

/// Where the signers of what is held or delivered start in a record.
pub const SIGNERS: usize = 8;
/// Where the noted signers start.
pub const NOTED_SIGNERS: usize = 32;

/// The payloads of a record that is not empty, each with its signers.
struct Content {
    delivered: bool,
    first: (u64, Payload),
    noted: Option<(u64, Payload)>,
}

impl Content {
    fn of(record: &RecordBytes) -> Option<Content> {
        let payload = |at| std::array::from_fn(|byte| record[at + byte]);
        let signers = |at| word(&record[at..at + 8]);
        let noted = (signers(NOTED_SIGNERS), payload(48));
        let state = record[0];
        (state != 0).then_some(Content {
            delivered: state == 2,
            first: (signers(SIGNERS), payload(16)),
            noted: (noted.0 != 0).then_some(noted),
        })
    }
}

/// Who signed what on the list.
struct Signatures {
    correct: u64,
    signed: HashMap<(Slot, Payload), u64>,
}

impl Signatures {
    fn of(run: &Run) -> Signatures {
        let mut signed = HashMap::new();
        for step in &run.trace {
            if let Some(slot_and_payload) = step.signs() {
                *signed.entry(slot_and_payload).or_default() |= bit(step.node);
            }
        }
        Signatures {
            correct: run.system.correct(),
            signed,
        }
    }

    /// Correct nodes among these have not signed the payload.
    fn lack(&self, slot: Slot, (signers, payload): (u64, Payload)) -> bool {
        let signed = self.signed.get(&(slot, payload)).copied().unwrap_or(0);
        signers & self.correct & !signed != 0
    }

    /// Whether they show this of a record.
    fn contradict(&self, wrong: Wrong, slot: Slot, content: &Content) -> bool {
        let noted = content.noted.is_some();
        match wrong {
            Wrong::Held => !content.delivered && self.lack(slot, content.first),
            Wrong::Delivered => content.delivered && self.lack(slot, content.first),
            Wrong::Noted => content.noted.is_some_and(|noted| self.lack(slot, noted)),
            Wrong::CorrectSender => noted && self.correct & bit(slot.sender) != 0,
        }
    }
}

/// Each thing that does not hold of some record, with the node that has the record, and its slot.
pub fn wrong(run: &Run) -> Vec<(Wrong, u8, Slot)> {
    let (signatures, contents) = (Signatures::of(run), Vec::from_iter(contents(run)));
    let first = |wrong| {
        let contradicted = |(_, slot, content): &&(u8, Slot, Content)| {
            signatures.contradict(wrong, *slot, content)
        };
        let &(node, slot, _) = contents.iter().find(contradicted)?;
        Some((wrong, node, slot))
    };
    Wrong::ALL.into_iter().filter_map(first).collect()
}

fn contents(run: &Run) -> impl Iterator<Item = (u8, Slot, Content)> + '_ {
    let of_node = |node| {
        let records = run.records(node);
        records.filter_map(move |(slot, record)| Some((node, slot, Content::of(record)?)))
    };
    nodes_of(run.system.correct()).flat_map(of_node)
}

/// The notes at the ends of lists.
#[derive(Default)]
pub struct Notes {
    lists: u64,
    /// lists with any
    lists_with_notes: u64,
    beside_held: u64,
    beside_delivered: u64,
    /// notes with the bit of a correct node
    of_correct: u64,
    /// what the node itself signed, before a quorum brought another payload
    of_ourselves: u64,
    /// notes of several signers
    joined: u64,
}

impl Notes {
    pub fn add(&mut self, run: &Run) {
        self.lists += 1;
        let mut any = false;
        for (node, _, content) in contents(run) {
            let Some((signers, _)) = content.noted else {
                continue;
            };
            any = true;
            self.beside_held += u64::from(!content.delivered);
            self.beside_delivered += u64::from(content.delivered);
            self.of_correct += u64::from(signers & run.system.correct() != 0);
            self.of_ourselves += u64::from(signers & bit(node) != 0);
            self.joined += u64::from(signers.count_ones() > 1);
        }
        self.lists_with_notes += u64::from(any);
    }

    /// Each count, and how many there must be in a hundred lists.
    fn counts(&self) -> [(&str, u64, u64); 6] {
        [
            ("lists with a note", self.lists_with_notes, 20),
            ("notes beside a held payload", self.beside_held, 20),
            (
                "notes beside a delivered payload",
                self.beside_delivered,
                20,
            ),
            ("notes with a correct node's bit", self.of_correct, 20),
            ("notes with the node's own bit", self.of_ourselves, 10),
            ("notes of several signers", self.joined, 20),
        ]
    }

    pub fn assert_not_vacuous(&self) {
        for (what, count, in_a_hundred) in self.counts() {
            assert!(count >= self.lists * in_a_hundred / 100, "{count} {what}");
        }
    }
}

impl fmt::Display for Notes {
    fn fmt(&self, f: &mut fmt::Formatter) -> fmt::Result {
        write!(f, "at the ends of {} lists", self.lists)?;
        for (what, count, _) in self.counts() {
            write!(f, "\n  {count} {what}")?;
        }
        Ok(())
    }
}
