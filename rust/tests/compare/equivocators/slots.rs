//! A slot as two nodes have recorded it: up to four payloads with their signers, and which two of them are compared.

use crate::records::{noted_payload_of, noted_signers_of, payload_of, signers_of};
use mbrb::reference::RecordBytes;

/// Whose records.
#[derive(Clone, Copy, Debug, PartialEq, Eq, PartialOrd, Ord)]
pub enum Side {
    First,
    Second,
}

pub const SIDES: [Side; 2] = [Side::First, Side::Second];

/// Signers and payload. Where there are no signers there is no payload.
pub type Signed = (u64, [u8; 16]);

/// Two of the payloads.
#[derive(Clone, Copy, Debug, PartialEq, Eq, PartialOrd, Ord)]
pub enum Compared {
    /// the first node's, and what it has noted
    InFirst,
    InSecond,
    /// what both hold or have delivered
    Payloads,
    /// the first node's, and what the second has noted
    PayloadAndNote,
    NoteAndPayload,
    Notes,
}

pub const COMPARED: [Compared; 6] = [
    Compared::InFirst,
    Compared::InSecond,
    Compared::Payloads,
    Compared::PayloadAndNote,
    Compared::NoteAndPayload,
    Compared::Notes,
];

impl Compared {
    pub fn of(self, [first, second]: [&RecordBytes; 2]) -> [Signed; 2] {
        let payload = |record| (signers_of(record), payload_of(record));
        let note = |record| (noted_signers_of(record), noted_payload_of(record));
        match self {
            Compared::InFirst => [payload(first), note(first)],
            Compared::InSecond => [payload(second), note(second)],
            Compared::Payloads => [payload(first), payload(second)],
            Compared::PayloadAndNote => [payload(first), note(second)],
            Compared::NoteAndPayload => [note(first), payload(second)],
            Compared::Notes => [note(first), note(second)],
        }
    }

    pub fn is_across(self) -> bool {
        !matches!(self, Compared::InFirst | Compared::InSecond)
    }
}
