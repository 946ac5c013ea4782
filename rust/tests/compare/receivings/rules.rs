//! Taking a bundle on its record, cut where a wrong implementation differs.

use crate::misjudged::Judge;
use crate::records::{
    bit, encode, noted_payload_of, noted_signers_of, payload_of, put_note, signers_of, well_formed,
    DELIVERED, EMPTY, HELD,
};
use mbrb::reference::RecordBytes;
use mbrb::Config;

/// A payload and its signers.
#[derive(Clone, Copy, PartialEq, Eq)]
pub struct Half {
    pub signers: u64,
    pub payload: [u8; 16],
}

impl Half {
    pub const NOTHING: Half = Half {
        signers: 0,
        payload: [0; 16],
    };

    pub fn with(self, further: u64) -> Half {
        let signers = self.signers | further;
        Half { signers, ..self }
    }

    pub fn without(self, node: u8) -> Half {
        let signers = self.signers & !bit(node);
        Half { signers, ..self }
    }
}

/// A record that was found well-formed, and what a bundle brings there.
pub struct Meeting<'a> {
    pub config: &'a Config,
    pub state: u8,
    pub first: Half,
    pub noted: Half,
    pub brought: Half,
}

impl Meeting<'_> {
    pub fn enough(&self, half: Half) -> bool {
        half.signers.count_ones() >= self.config.q
    }

    pub fn holds(&self) -> bool {
        self.state == HELD && self.first.payload == self.brought.payload
    }

    pub fn notes(&self) -> bool {
        self.noted != Half::NOTHING && self.noted.payload == self.brought.payload
    }

    pub fn has_our_bit(&self) -> bool {
        self.brought.signers & bit(self.config.own) != 0
    }

    /// With these in the record, and the code that they ask for.
    pub fn settled(&self, first: Half, noted: Half) -> Outcome {
        let (code, state) = match self.state {
            _ if self.enough(first) => (102, DELIVERED),
            EMPTY => (101, HELD),
            _ => (100, HELD),
        };
        Outcome {
            code,
            state,
            first,
            noted,
            sends: code != 100,
        }
    }

    /// With this noted, and all else as it was.
    pub fn noting(&self, noted: Half) -> Outcome {
        Outcome {
            code: 103,
            state: self.state,
            first: self.first,
            noted,
            sends: false,
        }
    }
}

/// What a bundle comes to.
pub struct Outcome {
    pub code: u32,
    pub state: u8,
    pub first: Half,
    pub noted: Half,
    pub sends: bool,
}

/// What a bundle comes to, or the refusal's number.
pub type Part = fn(&Meeting) -> Result<Outcome, u32>;

/// The rules in parts. With all of them right they are one more implementation.
#[derive(Clone, Copy)]
pub struct Rules {
    pub well_formed: Judge,
    /// 22 or 23
    pub refusal: fn(&Meeting) -> Option<u32>,
    /// on an empty record, or where the payload is held
    pub join: Part,
    /// fewer than a quorum for another payload
    pub note: Part,
    /// a quorum for another payload
    pub replace: Part,
}

pub const RIGHT: Rules = Rules {
    well_formed,
    refusal,
    join,
    note,
    replace,
};

pub fn refusal(meeting: &Meeting) -> Option<u32> {
    match meeting.state {
        DELIVERED => Some(22),
        _ => (meeting.has_our_bit() && !meeting.holds()).then_some(23),
    }
}

pub fn join(meeting: &Meeting) -> Result<Outcome, u32> {
    let first = match meeting.state {
        EMPTY => meeting.brought.with(bit(meeting.config.own)),
        _ => meeting.first.with(meeting.brought.signers),
    };
    Ok(meeting.settled(first, meeting.noted))
}

pub fn note(meeting: &Meeting) -> Result<Outcome, u32> {
    match meeting.noted {
        Half::NOTHING => Ok(meeting.noting(meeting.brought)),
        noted if meeting.notes() => Ok(meeting.noting(noted.with(meeting.brought.signers))),
        _ => Err(24),
    }
}

pub fn replace(meeting: &Meeting) -> Result<Outcome, u32> {
    Ok(meeting.settled(meeting.brought, meeting.first))
}

impl Rules {
    /// The bundle can be read, and all lengths are right.
    pub fn receive(
        &self,
        config: &Config,
        bundle: &[u8],
        record: &mut RecordBytes,
        out: &mut [u8; 32],
    ) -> u32 {
        let sender = bundle[4];
        if !(self.well_formed)(config, sender, record) {
            return 21;
        }
        let meeting = meeting(config, record, bundle);
        let part = if meeting.state == EMPTY || meeting.holds() {
            self.join
        } else if meeting.enough(meeting.brought) {
            self.replace
        } else {
            self.note
        };
        let refused = (self.refusal)(&meeting).map_or(Ok(()), Err);
        let outcome = match refused.and_then(|()| part(&meeting)) {
            Ok(outcome) => outcome,
            Err(number) => return number,
        };
        let Half { signers, payload } = outcome.first;
        *record = encode(outcome.state, signers, &payload);
        if outcome.sends {
            out[..8].copy_from_slice(&bundle[..8]);
            // From the signers up to the note, bundle and record are the same.
            out[8..].copy_from_slice(&record[8..32]);
        }
        put_note(record, outcome.noted.signers, &outcome.noted.payload);
        outcome.code
    }
}

fn meeting<'a>(config: &'a Config, record: &RecordBytes, bundle: &[u8]) -> Meeting<'a> {
    let half = |bytes: &[u8]| Half {
        signers: signers_of(bytes),
        payload: payload_of(bytes),
    };
    let noted = Half {
        signers: noted_signers_of(record),
        payload: noted_payload_of(record),
    };
    Meeting {
        config,
        state: record[0],
        first: half(record),
        noted,
        brought: half(bundle),
    }
}
