//! What can be noted in a record: what an answer noted adds there, and what a stricter rule than ours would forbid there.

use crate::comparison::Case;
use crate::records::{bit, noted_signers_of, signers_of};
use mbrb::reference::RecordBytes;

/// How a bundle's signers are noted. However many they come to be, they deliver nothing.
#[derive(Clone, Copy, Debug, PartialEq, Eq, PartialOrd, Ord)]
pub enum Noting {
    /// the bundle's, where nothing was noted
    First,
    /// The bundle's were all noted before.
    NoneJoined,
    /// Some have joined, and they are no quorum.
    Joined,
    /// Some have joined, and only with them there is a quorum.
    JoinedToQuorum,
    /// Some have joined a quorum.
    JoinedQuorum,
}

pub const NOTINGS: [Noting; 5] = [
    Noting::First,
    Noting::NoneJoined,
    Noting::Joined,
    Noting::JoinedToQuorum,
    Noting::JoinedQuorum,
];

impl Noting {
    /// `record` as it was before.
    pub fn of(case: &Case, record: &RecordBytes) -> Noting {
        let before = noted_signers_of(record);
        let joined = before | signers_of(&case.input);
        let enough = |signers: u64| signers.count_ones() >= case.config.q;
        match before {
            0 => Noting::First,
            _ if before == joined => Noting::NoneJoined,
            _ if enough(before) => Noting::JoinedQuorum,
            _ if enough(joined) => Noting::JoinedToQuorum,
            _ => Noting::Joined,
        }
    }
}

/// What no rule forbids of a note, though it looks wrong.
#[derive(Clone, Copy, Debug, PartialEq, Eq, PartialOrd, Ord)]
pub enum Unusual {
    /// our own bit, which calls leave in delivered records alone
    OwnBit,
    Quorum,
    /// where no call notes anything
    InOwnSlot,
}

pub const UNUSUAL: [Unusual; 3] = [Unusual::OwnBit, Unusual::Quorum, Unusual::InOwnSlot];

impl Unusual {
    pub fn is_in(self, case: &Case, record: &RecordBytes) -> bool {
        let noted = noted_signers_of(record);
        match self {
            Unusual::OwnBit => noted & bit(case.config.own) != 0,
            Unusual::Quorum => noted.count_ones() >= case.config.q,
            Unusual::InOwnSlot => noted != 0 && case.input[4] == case.config.own,
        }
    }
}
