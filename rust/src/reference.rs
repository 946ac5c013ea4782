//! Opening, broadcast, receive and its preview, the setpoint of many, and who signed two payloads, written from the papers alone, to be
//! compared with the proved functions.
//!
//! Every check comes before the first store, so a refusal changes no byte.

use crate::Config;
use std::ops::RangeInclusive;

/// Why a call changes nothing, by its number in docs/RULES.md.
#[derive(Clone, Copy, Debug, PartialEq, Eq)]
#[repr(u32)]
pub enum Refusal {
    ConfigNotGood = 1,
    BundleLength = 2,
    ReservedNotZero = 3,
    OtherDay = 4,
    SenderOutOfRange = 5,
    SeqOutOfRange = 6,
    SignerOutOfRange = 7,
    SenderNotSigner = 8,
    PayloadLength = 9,
    OutLength = 10,
    RecordsLength = 20,
    RecordMalformed = 21,
    AlreadyDelivered = 22,
    OwnSignatureNotHeld = 23,
    OtherPayloadWithoutQuorum = 24,
    NoEmptyRecord = 25,
    TooFewSetpoints = 27,
    SameNode = 28,
}

impl Refusal {
    pub fn number(self) -> u32 {
        self as u32
    }
}

/// The answer of `receive`, with the count of signers in the record afterwards; from `preview`,
/// what they would be.
#[derive(Clone, Copy, Debug, PartialEq, Eq)]
pub enum Receipt {
    Kept(u32),
    Signed(u32),
    Delivered(u32),
    /// The bundle's payload is not the one held. The count is of the noted signers.
    Noted(u32),
}

impl Receipt {
    /// What a C host gets for it.
    pub fn code(self) -> u32 {
        match self {
            Receipt::Kept(_) => 100,
            Receipt::Signed(_) => 101,
            Receipt::Delivered(_) => 102,
            Receipt::Noted(_) => 103,
        }
    }
}

/// How many numbers a sender has in a day.
pub const SEQS: u8 = 16;

/// How many bytes a record has. The first half is a head, and the payload that is held or delivered, with its signers; the second half is
/// another payload that the sender has signed, with its signers.
pub const RECORD_LENGTH: usize = 64;

/// How many bytes the records of a sender have.
pub const SENDER_LENGTH: usize = RECORD_LENGTH * SEQS as usize;

pub type RecordBytes = [u8; RECORD_LENGTH];

/// The least quorum that a site may choose: two smaller ones may have no correct node in common.
#[inline]
pub fn least_quorum(n: u8, t: u8) -> u32 {
    (u32::from(n) + u32::from(t)) / 2 + 1
}

impl Config {
    /// The quorums that the site may choose from; None if the config is not good with any.
    // Inlined, it and `good` are computed once in a call, however often they are asked.
    #[inline(always)]
    pub fn quorums(&self) -> Option<RangeInclusive<u32>> {
        let [n, t, d] = [self.n, self.t, self.d].map(u32::from);
        let good = (1..=64).contains(&n) && n > 3 * t + 2 * d && self.own < self.n;
        good.then(|| least_quorum(self.n, self.t)..=n - t - d)
    }

    #[inline(always)]
    pub fn good(&self) -> bool {
        self.quorums()
            .is_some_and(|quorums| quorums.contains(&self.q))
    }

    /// 0 if the config is not good.
    #[inline]
    pub fn quorum(&self) -> u32 {
        if !self.good() {
            return 0;
        }
        self.q
    }

    /// The bits of all nodes; 0 if the config is not good.
    #[inline]
    pub fn mask(&self) -> u64 {
        if !self.good() {
            return 0;
        }
        // To the right, by 0 to 63: to the left, n = 64 would be one too far.
        u64::MAX >> (64 - self.n)
    }

    /// Where the slot's record starts; 0 if the config is not good or the slot out of range.
    #[inline]
    pub fn place(&self, sender: u8, seq: u8) -> usize {
        if !self.good() || sender >= self.n || seq >= SEQS {
            return 0;
        }
        SENDER_LENGTH * usize::from(sender) + RECORD_LENGTH * usize::from(seq)
    }

    /// How many bytes the records of a day have.
    #[inline]
    pub fn records_length(&self) -> usize {
        SENDER_LENGTH * usize::from(self.n)
    }
}

fn require(holds: bool, refusal: Refusal) -> Result<(), Refusal> {
    holds.then_some(()).ok_or(refusal)
}

/// The signer bit of a node below 64.
fn bit(node: u8) -> u64 {
    1 << node
}

/// A payload with the nodes that have signed it.
#[derive(Clone, Copy, PartialEq, Eq)]
struct SignedPayload {
    signers: u64,
    payload: [u8; 16],
}

impl SignedPayload {
    /// Nobody has signed anything.
    const NONE: SignedPayload = SignedPayload {
        signers: 0,
        payload: [0; 16],
    };

    fn signed_by(&self, node: u8) -> bool {
        self.signers & bit(node) != 0
    }

    fn count(&self) -> u32 {
        self.signers.count_ones()
    }

    fn with_signers(self, further: u64) -> SignedPayload {
        let signers = self.signers | further;
        SignedPayload { signers, ..self }
    }

    /// The nodes that have signed both, if the payloads differ.
    fn equivocators(&self, other: &SignedPayload) -> u64 {
        if self.payload == other.payload {
            return 0;
        }
        self.signers & other.signers
    }
}

/// A bundle and the first half of a record are cut alike: a head of 8 bytes, the signers, the payload.
fn split(bytes: &[u8; 32]) -> ([u8; 8], SignedPayload) {
    let (words, _) = bytes.as_chunks::<8>();
    let (halves, _) = bytes.as_chunks::<16>();
    let (signers, payload) = (u64::from_be_bytes(words[1]), halves[1]);
    (words[0], SignedPayload { signers, payload })
}

fn join(head: [u8; 8], signed: &SignedPayload, bytes: &mut [u8; 32]) {
    bytes[..8].copy_from_slice(&head);
    bytes[8..16].copy_from_slice(&signed.signers.to_be_bytes());
    bytes[16..].copy_from_slice(&signed.payload);
}

/// The second half of a record: the noted signers, 8 bytes that are zero, the noted payload.
fn split_note(bytes: &[u8; 32]) -> (SignedPayload, [u8; 8]) {
    let (words, _) = bytes.as_chunks::<8>();
    let (halves, _) = bytes.as_chunks::<16>();
    let (signers, payload) = (u64::from_be_bytes(words[0]), halves[1]);
    (SignedPayload { signers, payload }, words[1])
}

fn join_note(noted: &SignedPayload, bytes: &mut [u8; 32]) {
    bytes[..8].copy_from_slice(&noted.signers.to_be_bytes());
    bytes[8..16].fill(0);
    bytes[16..].copy_from_slice(&noted.payload);
}

/// A readable bundle; its day is the config's.
struct Bundle {
    sender: u8,
    seq: u8,
    signed: SignedPayload,
}

impl Bundle {
    fn read(config: &Config, bytes: &[u8]) -> Result<Bundle, Refusal> {
        require(config.good(), Refusal::ConfigNotGood)?;
        let bytes = bytes.try_into().map_err(|_| Refusal::BundleLength)?;
        let ([d0, d1, d2, d3, sender, seq, reserved @ ..], signed) = split(bytes);
        let day = u32::from_be_bytes([d0, d1, d2, d3]);
        require(reserved == [0, 0], Refusal::ReservedNotZero)?;
        require(day == config.day, Refusal::OtherDay)?;
        require(sender < config.n, Refusal::SenderOutOfRange)?;
        require(seq < SEQS, Refusal::SeqOutOfRange)?;
        let in_range = signed.signers & !config.mask() == 0;
        require(in_range, Refusal::SignerOutOfRange)?;
        require(signed.signed_by(sender), Refusal::SenderNotSigner)?;
        Ok(Bundle {
            sender,
            seq,
            signed,
        })
    }

    fn write(&self, day: u32, out: &mut [u8; 32]) {
        let [d0, d1, d2, d3] = day.to_be_bytes();
        let head = [d0, d1, d2, d3, self.sender, self.seq, 0, 0];
        join(head, &self.signed, out);
    }
}

/// The state byte with the seven zero bytes behind it, as one word.
#[derive(Clone, Copy, PartialEq, Eq)]
#[repr(u64)]
enum State {
    Empty = 0,
    Held = 1 << 56,
    Delivered = 2 << 56,
}

impl State {
    fn read(head: [u8; 8]) -> Option<State> {
        let word = u64::from_be_bytes(head);
        [State::Empty, State::Held, State::Delivered]
            .into_iter()
            .find(|&state| state as u64 == word)
    }
}

/// A well-formed record; the rules call it sound.
#[derive(Clone, Copy)]
struct Record {
    state: State,
    /// what is held or delivered
    first: SignedPayload,
    /// another payload that the sender has signed, or nothing
    noted: SignedPayload,
}

impl Record {
    // Inlined, it shares the caller's check of the config instead of repeating it.
    #[inline(always)]
    fn read(config: &Config, sender: u8, bytes: &RecordBytes) -> Result<Record, Refusal> {
        let (halves, _) = bytes.as_chunks();
        let (head, first) = split(&halves[0]);
        let (noted, reserved) = split_note(&halves[1]);
        let state = State::read(head).ok_or(Refusal::RecordMalformed)?;
        let nothing_noted = noted == SignedPayload::NONE;
        let first_allowed = match state {
            State::Empty => first == SignedPayload::NONE && nothing_noted,
            State::Held => first.signed_by(sender) && first.signed_by(config.own),
            // Our bit is missing where a quorum for another payload has replaced ours.
            State::Delivered => first.signed_by(sender) && first.count() >= config.quorum(),
        };
        let note_allowed =
            nothing_noted || noted.signed_by(sender) && noted.payload != first.payload;
        let in_range = (first.signers | noted.signers) & !config.mask() == 0;
        let well_formed = first_allowed && note_allowed && in_range && reserved == [0; 8];
        require(well_formed, Refusal::RecordMalformed)?;
        Ok(Record {
            state,
            first,
            noted,
        })
    }

    fn store(&self, bytes: &mut RecordBytes) {
        let (halves, _) = bytes.as_chunks_mut();
        let head = (self.state as u64).to_be_bytes();
        join(head, &self.first, &mut halves[0]);
        join_note(&self.noted, &mut halves[1]);
    }

    /// What is answered to a bundle that brings this, and the record afterwards.
    #[inline(always)]
    fn receive(
        self,
        config: &Config,
        brought: SignedPayload,
    ) -> Result<(Receipt, Record), Refusal> {
        match self.state {
            State::Delivered => Err(Refusal::AlreadyDelivered),
            State::Held if self.first.payload == brought.payload => {
                Ok(self.hold(config, self.first.with_signers(brought.signers)))
            }
            _ if brought.signed_by(config.own) => Err(Refusal::OwnSignatureNotHeld),
            State::Empty => Ok(self.hold(config, brought.with_signers(bit(config.own)))),
            State::Held if brought.count() < config.quorum() => self.note(brought),
            // What was held so far is noted, since its signers, we among them, have not signed this.
            State::Held => {
                let noted = self.first;
                Ok(Record { noted, ..self }.hold(config, brought))
            }
        }
    }

    /// Holds this, or delivers it if a quorum has signed it. Noted signers do not count, as they signed another payload.
    #[inline(always)]
    fn hold(self, config: &Config, first: SignedPayload) -> (Receipt, Record) {
        let count = first.count();
        let (state, receipt) = if count >= config.quorum() {
            (State::Delivered, Receipt::Delivered(count))
        } else if self.state == State::Empty {
            (State::Held, Receipt::Signed(count))
        } else {
            (State::Held, Receipt::Kept(count))
        };
        let record = Record {
            state,
            first,
            ..self
        };
        (receipt, record)
    }

    /// Notes this beside what is held. There is room for one payload: a third is refused.
    #[inline(always)]
    fn note(self, brought: SignedPayload) -> Result<(Receipt, Record), Refusal> {
        // A note has its sender's signature at least, so without signers there is none.
        let nothing_noted = self.noted.signers == 0;
        let room = nothing_noted || self.noted.payload == brought.payload;
        require(room, Refusal::OtherPayloadWithoutQuorum)?;
        let noted = brought.with_signers(self.noted.signers);
        Ok((Receipt::Noted(noted.count()), Record { noted, ..self }))
    }
}

/// The sixteen records of each sender.
fn by_sender(records: &[u8]) -> &[[RecordBytes; SEQS as usize]] {
    let (slots, _) = records.as_chunks();
    let (senders, _) = slots.as_chunks();
    senders
}

/// The first empty of our own records, with its number. A malformed one before it refuses; those behind it do not matter.
fn first_empty<'a>(
    config: &Config,
    own_records: &'a mut [RecordBytes],
) -> Result<(u8, &'a mut RecordBytes), Refusal> {
    for (seq, bytes) in (0..SEQS).zip(own_records) {
        if Record::read(config, config.own, bytes)?.state == State::Empty {
            return Ok((seq, bytes));
        }
    }
    Err(Refusal::NoEmptyRecord)
}

/// Makes every record empty. The rules: opening a day.
pub fn open(config: &Config, records: &mut [u8]) -> Result<(), Refusal> {
    require(config.good(), Refusal::ConfigNotGood)?;
    let complete = records.len() == config.records_length();
    require(complete, Refusal::RecordsLength)?;
    records.fill(0);
    Ok(())
}

/// Signs the payload in our lowest empty slot, puts its bundle into `out` and gives the slot's
/// number. The rules: announcing.
pub fn broadcast(
    config: &Config,
    payload: &[u8],
    records: &mut [u8],
    out: &mut [u8],
) -> Result<u8, Refusal> {
    require(config.good(), Refusal::ConfigNotGood)?;
    let payload = payload.try_into().map_err(|_| Refusal::PayloadLength)?;
    let out = out.try_into().map_err(|_| Refusal::OutLength)?;
    let complete = records.len() == config.records_length();
    require(complete, Refusal::RecordsLength)?;
    let from_own = &mut records[config.place(config.own, 0)..];
    let (own_records, _) = from_own[..SENDER_LENGTH].as_chunks_mut();
    let (seq, bytes) = first_empty(config, own_records)?;
    let (sender, signers) = (config.own, bit(config.own));
    let signed = SignedPayload { signers, payload };
    Record {
        state: State::Held,
        first: signed,
        noted: SignedPayload::NONE,
    }
    .store(bytes);
    Bundle {
        sender,
        seq,
        signed,
    }
    .write(config.day, out);
    Ok(seq)
}

/// What a bundle comes to on its slot's record.
struct Outcome {
    receipt: Receipt,
    /// where the record starts
    place: usize,
    /// the record afterwards
    record: Record,
}

/// All of taking but the store: the checks, the answer and the outgoing bytes.
// Inlined into both: so `preview` makes no record that it does not store, and `receive` looks for the slot once.
#[inline(always)]
fn foresee(
    config: &Config,
    bundle: &[u8],
    records: &[u8],
    out: &mut [u8],
) -> Result<Outcome, Refusal> {
    let bundle = Bundle::read(config, bundle)?;
    let out = out.try_into().map_err(|_| Refusal::OutLength)?;
    let complete = records.len() == config.records_length();
    require(complete, Refusal::RecordsLength)?;
    let place = config.place(bundle.sender, bundle.seq);
    let (from_slot, _) = records[place..].as_chunks();
    let before = Record::read(config, bundle.sender, &from_slot[0])?;
    let (receipt, record) = before.receive(config, bundle.signed)?;
    if let Receipt::Signed(_) | Receipt::Delivered(_) = receipt {
        let signed = record.first;
        Bundle { signed, ..bundle }.write(config.day, out);
    }
    Ok(Outcome {
        receipt,
        place,
        record,
    })
}

/// Takes the bundle into its slot's record. Signed or delivered, the bundle to send is in `out`;
/// at kept and noted `out` stays as it is. The rules: taking.
pub fn receive(
    config: &Config,
    bundle: &[u8],
    records: &mut [u8],
    out: &mut [u8],
) -> Result<Receipt, Refusal> {
    let outcome = foresee(config, bundle, records, out)?;
    let (from_slot, _) = records[outcome.place..].as_chunks_mut();
    outcome.record.store(&mut from_slot[0]);
    Ok(outcome.receipt)
}

/// Answers as `receive` would on a copy of the records, and leaves `out` as that would. The rules:
/// a preview.
pub fn preview(
    config: &Config,
    bundle: &[u8],
    records: &[u8],
    out: &mut [u8],
) -> Result<Receipt, Refusal> {
    foresee(config, bundle, records, out).map(|outcome| outcome.receipt)
}

/// The setpoint that a payload holds, in hundredths of a degree Celsius; None if it holds something else.
#[inline]
fn setpoint_in(payload: [u8; 16]) -> Option<i16> {
    let [1, high, low, rest @ ..] = payload else {
        return None;
    };
    (rest == [0; 13]).then_some(i16::from_be_bytes([high, low]))
}

/// The setpoint that counts for a sender: of its setpoints delivered here, the one with the highest number.
// Inlined, it shares the caller's check of the config, as reading a record does.
#[inline(always)]
fn last_setpoint(
    config: &Config,
    sender: u8,
    records: &[RecordBytes; SEQS as usize],
) -> Result<Option<i16>, Refusal> {
    let mut last = None;
    for bytes in records {
        let record = Record::read(config, sender, bytes)?;
        if record.state == State::Delivered {
            last = setpoint_in(record.first.payload).or(last);
        }
    }
    Ok(last)
}

/// The lower middle of the setpoints that count, one for each sender that has any. With 2t + 1 of them, t that faulty senders made up do
/// not move it past all the others. The rules: one setpoint from many.
pub fn setpoint(config: &Config, records: &[u8]) -> Result<i16, Refusal> {
    require(config.good(), Refusal::ConfigNotGood)?;
    let complete = records.len() == config.records_length();
    require(complete, Refusal::RecordsLength)?;
    let (mut pooled, mut count) = ([0; 64], 0);
    for (sender, records) in (0..config.n).zip(by_sender(records)) {
        if let Some(value) = last_setpoint(config, sender, records)? {
            pooled[count] = value;
            count += 1;
        }
    }
    let enough = count > 2 * usize::from(config.t);
    require(enough, Refusal::TooFewSetpoints)?;
    let pooled = &mut pooled[..count];
    pooled.sort_unstable();
    Ok(pooled[(count - 1) / 2])
}

/// The nodes that have signed two payloads of a slot, as far as the records of two nodes tell.
#[inline(always)]
fn equivocators_in_slot(one: &Record, other: &Record) -> u64 {
    let payloads = one.first.equivocators(&other.first);
    // So it mostly is.
    let nothing_noted = one.noted.signers | other.noted.signers == 0;
    if nothing_noted {
        return payloads;
    }
    // What is noted in a record differs from its payload, and without signers it names nobody.
    let [within_one, within_other] =
        [one, other].map(|record| record.first.signers & record.noted.signers);
    payloads
        | within_one
        | within_other
        | one.first.equivocators(&other.noted)
        | one.noted.equivocators(&other.first)
        | one.noted.equivocators(&other.noted)
}

/// The nodes that have signed two payloads in one slot, as a word of signer bits, from the records of two nodes: ours, and those of the
/// node `other`. The rules: two units' recordings side by side.
// Inlined, so that who asks for the refusal alone does not compare payloads.
#[inline(always)]
pub fn equivocators(
    config: &Config,
    other: u8,
    first: &[u8],
    second: &[u8],
) -> Result<u64, Refusal> {
    let other = &Config {
        own: other,
        ..*config
    };
    require(config.good() && other.good(), Refusal::ConfigNotGood)?;
    let complete = |records: &[u8]| records.len() == config.records_length();
    require(complete(first), Refusal::RecordsLength)?;
    let senders = (0..config.n).zip(by_sender(first));
    if !complete(second) {
        // The first buffer's records come before the second's length.
        for (sender, records) in senders {
            for bytes in records {
                Record::read(config, sender, bytes)?;
            }
        }
        return Err(Refusal::RecordsLength);
    }
    // Whichever of them is malformed, the refusal is the same: so they are read side by side.
    let mut named = 0;
    for ((sender, records), others) in senders.zip(by_sender(second)) {
        for (bytes, other_bytes) in records.iter().zip(others) {
            let record = Record::read(config, sender, bytes)?;
            let other_record = Record::read(other, sender, other_bytes)?;
            named |= equivocators_in_slot(&record, &other_record);
        }
    }
    require(config.own != other.own, Refusal::SameNode)?;
    Ok(named)
}

/// `open` for a C host: the refusal's number, or 0.
pub fn open_code(config: &Config, records: &mut [u8]) -> u32 {
    match open(config, records) {
        Ok(()) => 0,
        Err(refusal) => refusal.number(),
    }
}

/// `broadcast` for a C host: the refusal's number, or 200 plus the slot's number.
pub fn broadcast_code(config: &Config, payload: &[u8], records: &mut [u8], out: &mut [u8]) -> u32 {
    match broadcast(config, payload, records, out) {
        Ok(seq) => 200 + u32::from(seq),
        Err(refusal) => refusal.number(),
    }
}

/// `receive` for a C host: the refusal's number, or the receipt's code.
pub fn receive_code(config: &Config, bundle: &[u8], records: &mut [u8], out: &mut [u8]) -> u32 {
    receive(config, bundle, records, out).map_or_else(Refusal::number, Receipt::code)
}

/// `preview` for a C host: the refusal's number, or the receipt's code.
pub fn preview_code(config: &Config, bundle: &[u8], records: &[u8], out: &mut [u8]) -> u32 {
    preview(config, bundle, records, out).map_or_else(Refusal::number, Receipt::code)
}

/// `setpoint` for a C host: the refusal's number, or the setpoint's two bytes behind a 1, above every refusal whatever its sign.
pub fn setpoint_code(config: &Config, records: &[u8]) -> u32 {
    match setpoint(config, records) {
        Ok(value) => 1 << 16 | u32::from(value.cast_unsigned()),
        Err(refusal) => refusal.number(),
    }
}

/// `equivocators` for a C host: the word, or 0 where it is refused. The word may be any, so the refusal is asked for apart.
pub fn equivocators_word(config: &Config, other: u8, first: &[u8], second: &[u8]) -> u64 {
    equivocators(config, other, first, second).unwrap_or(0)
}

/// The refusal of `equivocators` for a C host: its number, or 0.
pub fn equivocators_refusal(config: &Config, other: u8, first: &[u8], second: &[u8]) -> u32 {
    match equivocators(config, other, first, second) {
        Ok(_) => 0,
        Err(refusal) => refusal.number(),
    }
}

#[cfg(test)]
mod tests {
    use super::*;

    const PAYLOAD: [u8; 16] = [0, 1, 2, 3, 4, 5, 6, 7, 8, 9, 10, 11, 12, 13, 14, 15];
    const OTHER: [u8; 16] = [0; 16];
    const THIRD: [u8; 16] = [3; 16];
    const UNSENT: [u8; 32] = [0xee; 32];
    const EMPTY: RecordBytes = [0; RECORD_LENGTH];
    /// The length of the records of four nodes.
    const LENGTH: usize = 4096;

    /// With the least quorum.
    fn config(n: u8, t: u8, d: u8, own: u8) -> Config {
        let (day, q) = (7, least_quorum(n, t));
        Config {
            n,
            t,
            d,
            own,
            day,
            q,
        }
    }

    fn bytes(head: [u8; 8], signers: u64, payload: [u8; 16]) -> [u8; 32] {
        let parts = [&head[..], &signers.to_be_bytes(), &payload].concat();
        parts.try_into().unwrap()
    }

    /// A bundle of day 7, sender 0, number 0.
    fn bundle(signers: u64, payload: [u8; 16]) -> [u8; 32] {
        bytes([0, 0, 0, 7, 0, 0, 0, 0], signers, payload)
    }

    /// With nothing noted.
    fn record(state: u8, signers: u64, payload: [u8; 16]) -> RecordBytes {
        let first = bytes([state, 0, 0, 0, 0, 0, 0, 0], signers, payload);
        [first, [0; 32]].concat().try_into().unwrap()
    }

    /// The record with this noted in it.
    fn noting(mut record: RecordBytes, signers: u64, payload: [u8; 16]) -> RecordBytes {
        record[32..40].copy_from_slice(&signers.to_be_bytes());
        record[48..].copy_from_slice(&payload);
        record
    }

    /// Receives at node 1 of 4, 1, 0, as `receive_at` does.
    fn receive_on(before: RecordBytes, bundle: [u8; 32]) -> (u32, RecordBytes, [u8; 32]) {
        receive_at(config(4, 1, 0, 1), before, bundle)
    }

    /// Receives at a node whose record of the slot is `before`, after a preview with the same outcome;
    /// gives the code, the record afterwards and the outgoing bytes.
    fn receive_at(
        config: Config,
        before: RecordBytes,
        bundle: [u8; 32],
    ) -> (u32, RecordBytes, [u8; 32]) {
        let mut records = vec![EMPTY; 16 * usize::from(config.n)];
        records[0] = before;
        let [mut foreseen, mut out] = [UNSENT; 2];
        let previewed = preview_code(&config, &bundle, records.as_flattened(), &mut foreseen);
        let code = receive_code(&config, &bundle, records.as_flattened_mut(), &mut out);
        assert_eq!((previewed, foreseen), (code, out));
        assert!(records[1..].iter().all(|record| *record == EMPTY));
        (code, records[0], out)
    }

    fn assert_refused(number: u32, before: RecordBytes, bundle: [u8; 32]) {
        assert_eq!(receive_on(before, bundle), (number, before, UNSENT));
    }

    #[test]
    fn least_quorums_of_the_table() {
        let good = [(1, 0, 0, 1), (2, 0, 0, 2), (4, 1, 0, 3), (6, 1, 1, 4)];
        let large = [(64, 21, 0, 43), (64, 0, 31, 33)];
        for (n, t, d, quorum) in good.into_iter().chain(large) {
            assert_eq!(config(n, t, d, 0).quorum(), quorum);
        }
        let bad = [
            (0, 0, 0),
            (5, 1, 1),
            (64, 0, 32),
            (65, 0, 0),
            (64, 255, 255),
        ];
        for (n, t, d) in bad {
            let chosen = |q| Config {
                q,
                ..config(n, t, d, 0)
            };
            assert!((0..=70).chain([u32::MAX]).all(|q| !chosen(q).good()));
            assert_eq!(config(n, t, d, 0).quorum(), 0);
        }
        assert!(!config(4, 1, 0, 4).good());
    }

    #[test]
    fn a_site_chooses_from_the_least_quorum_to_the_most() {
        let sizes =
            (1..=64).flat_map(|n| (0..=22).flat_map(move |t| (0..=33).map(move |d| (n, t, d))));
        for (n, t, d) in sizes {
            let [faults, losses, nodes] = [t, d, n].map(u64::from);
            let bearable = nodes > 3 * faults + 2 * losses;
            let small = 0..=nodes + 2;
            // Where 32 bits are too few for q + t + d or for 2q, what is left of it may be small enough.
            let halves = (0..=nodes).map(|few| (1 << 31) + few);
            let last = (0..=faults + losses + 2).map(|few| u64::from(u32::MAX) - few);
            for q in small.chain(halves).chain(last) {
                let chosen = Config {
                    q: q as u32,
                    ..config(n, t, d, n - 1)
                };
                let allowed = 2 * q > nodes + faults && q + faults + losses <= nodes;
                let good = bearable && allowed;
                assert_eq!(chosen.good(), good, "{chosen:?}");
                assert_eq!(chosen.quorum(), if good { chosen.q } else { 0 });
            }
        }
    }

    #[test]
    fn every_count_goes_by_the_quorum_chosen() {
        // So many signers of seven; the first is the sender, and we are not among them.
        let others = |count: u32| [1, 4, 8, 16, 32, 64][..count as usize].iter().sum();
        for q in [5, 6] {
            let config = Config {
                q,
                ..config(7, 1, 0, 1)
            };
            let (held, delivered) = (record(1, 3, PAYLOAD), |count| {
                record(2, others(count), PAYLOAD)
            });
            // The record, the signers of the bundle and its payload, and the code.
            let rows = [
                (EMPTY, others(q - 2), PAYLOAD, 101),
                (EMPTY, others(q - 1), PAYLOAD, 102),
                (held, others(q - 2), PAYLOAD, 100),
                (held, others(q - 1), PAYLOAD, 102),
                (held, others(q - 1), OTHER, 103),
                (held, others(q), OTHER, 102),
                (noting(held, others(q), OTHER), others(q - 1), OTHER, 103),
                (noting(held, others(q), OTHER), others(q - 1), THIRD, 24),
                (noting(held, others(q), OTHER), others(q), THIRD, 102),
                (delivered(q - 1), 1, PAYLOAD, 21),
                (delivered(q), 1, PAYLOAD, 22),
            ];
            for (before, signers, payload, code) in rows {
                let received = receive_at(config, before, bundle(signers, payload));
                assert_eq!(received.0, code, "q = {q}");
            }
            for (count, code) in [(q - 1, 21), (q, 201)] {
                let mut records = [EMPTY; 16 * 7];
                records[16] = record(2, others(count - 1) | 2, PAYLOAD);
                let records = records.as_flattened_mut();
                let announced = broadcast_code(&config, &PAYLOAD, records, &mut [0; 32]);
                assert_eq!(announced, code, "q = {q}");
            }
        }
    }

    #[test]
    fn mask_and_place_at_their_edges() {
        for (n, mask) in [(0, 0), (1, 1), (4, 15), (64, u64::MAX), (65, 0)] {
            assert_eq!(config(n, 0, 0, 0).mask(), mask);
        }
        for (sender, seq, place) in [(0, 1, 64), (3, 15, 4032), (4, 0, 0), (3, 16, 0)] {
            assert_eq!(config(4, 1, 0, 0).place(sender, seq), place);
        }
        let without_quorum = Config {
            q: 0,
            ..config(4, 1, 0, 0)
        };
        for bad in [config(4, 1, 0, 4), without_quorum] {
            assert_eq!((bad.place(3, 15), bad.mask()), (0, 0));
        }
    }

    #[test]
    fn the_play() {
        let (mut records, mut out) = ([[0; LENGTH]; 4], UNSENT);
        let announced = broadcast(&config(4, 1, 0, 0), &PAYLOAD, &mut records[0], &mut out);
        assert_eq!((announced, out), (Ok(0), bundle(1, PAYLOAD)));
        let steps = [
            (1, 1, Ok(Receipt::Signed(2)), bundle(3, PAYLOAD)),
            (1, 1, Ok(Receipt::Kept(2)), UNSENT),
            (2, 3, Ok(Receipt::Delivered(3)), bundle(7, PAYLOAD)),
            (2, 7, Err(Refusal::AlreadyDelivered), UNSENT),
            (3, 2, Err(Refusal::SenderNotSigner), UNSENT),
            (0, 7, Ok(Receipt::Delivered(3)), bundle(7, PAYLOAD)),
        ];
        for (node, signers, answer, sent) in steps {
            let (config, bundle) = (config(4, 1, 0, node), bundle(signers, PAYLOAD));
            let records = &mut records[usize::from(node)];
            let [mut foreseen, mut out] = [UNSENT; 2];
            let previewed = preview(&config, &bundle, records, &mut foreseen);
            let received = receive(&config, &bundle, records, &mut out);
            assert_eq!((previewed, foreseen), (answer, sent));
            assert_eq!((received, out), (answer, sent));
        }
        let (held, delivered) = (record(1, 3, PAYLOAD), record(2, 7, PAYLOAD));
        for (records, record) in records.iter().zip([delivered, held, delivered, EMPTY]) {
            assert!(records.starts_with(&record));
        }
    }

    #[test]
    fn a_quorum_replaces_another_payload_which_is_noted_over_any_note() {
        let (held, sent) = (record(1, 3, PAYLOAD), bundle(13, OTHER));
        // Our bit goes with the payload that we signed.
        let delivered = noting(record(2, 13, OTHER), 3, PAYLOAD);
        let (third, that_very) = (noting(held, 9, THIRD), noting(held, 5, OTHER));
        let with_a_quorum = noting(held, 15, OTHER);
        for before in [held, third, that_very, with_a_quorum] {
            assert_eq!(receive_on(before, sent), (102, delivered, sent));
        }
        assert_refused(22, delivered, bundle(15, OTHER));
        assert_refused(22, delivered, bundle(1, PAYLOAD));
        assert_refused(22, delivered, bundle(1, THIRD));
    }

    #[test]
    fn a_second_payload_is_noted_and_nothing_is_sent() {
        let held = record(1, 3, PAYLOAD);
        for signers in [1, 5, 9] {
            let received = receive_on(held, bundle(signers, OTHER));
            assert_eq!(received, (103, noting(held, signers, OTHER), UNSENT));
        }
        // In our own slot the sender's bit is ours, and we know that we have not signed this.
        let ours = config(4, 1, 0, 0);
        let received = receive_at(ours, record(1, 1, PAYLOAD), bundle(5, OTHER));
        assert_eq!(received.0, 23);
    }

    #[test]
    fn signers_of_the_noted_payload_join_and_never_deliver() {
        let noting = |signers| noting(record(1, 3, PAYLOAD), signers, OTHER);
        // Noted before, brought, noted afterwards.
        for (before, brought, after) in [(1, 1, 1), (1, 5, 5), (5, 9, 13), (13, 1, 13), (15, 9, 15)]
        {
            let received = receive_on(noting(before), bundle(brought, OTHER));
            assert_eq!(received, (103, noting(after), UNSENT));
        }
    }

    #[test]
    fn the_count_at_noted_is_of_the_noted_signers() {
        let config = config(7, 1, 0, 1);
        let held = record(1, 0b111, PAYLOAD);
        let counted = |before, signers| {
            let mut records = vec![EMPTY; 16 * 7];
            records[0] = before;
            let records = records.as_flattened_mut();
            let bundle = bundle(signers, OTHER);
            let previewed = preview(&config, &bundle, records, &mut [0; 32]);
            let received = receive(&config, &bundle, records, &mut [0; 32]);
            assert_eq!(previewed, received);
            received
        };
        assert_eq!(counted(held, 0b1), Ok(Receipt::Noted(1)));
        assert_eq!(counted(held, 0b1101), Ok(Receipt::Noted(3)));
        let noted = noting(held, 0b1001, OTHER);
        assert_eq!(counted(noted, 0b1), Ok(Receipt::Noted(2)));
        assert_eq!(counted(noted, 0b101_0001), Ok(Receipt::Noted(4)));
        assert_eq!(counted(noted, 0b111_0001), Ok(Receipt::Noted(5)));
    }

    #[test]
    fn a_third_payload_is_refused() {
        let noted = noting(record(1, 3, PAYLOAD), 1, OTHER);
        assert_refused(24, noted, bundle(1, THIRD));
        assert_refused(24, noted, bundle(9, THIRD));
    }

    #[test]
    fn our_bit_beside_the_noted_payload_is_refused() {
        let held = record(1, 3, PAYLOAD);
        // Even where our bit is noted, which no call does, or a quorum comes.
        for before in [noting(held, 1, OTHER), noting(held, 3, OTHER)] {
            assert_refused(23, before, bundle(3, OTHER));
            assert_refused(23, before, bundle(15, OTHER));
            assert_refused(23, before, bundle(3, THIRD));
        }
    }

    #[test]
    fn joining_leaves_the_note() {
        let held = noting(record(1, 3, PAYLOAD), 5, OTHER);
        assert_eq!(receive_on(held, bundle(1, PAYLOAD)), (100, held, UNSENT));
        let delivered = noting(record(2, 11, PAYLOAD), 5, OTHER);
        let received = receive_on(held, bundle(9, PAYLOAD));
        assert_eq!(received, (102, delivered, bundle(11, PAYLOAD)));
        // Here the noted signers would be the two that are missing.
        let config = config(7, 1, 0, 1);
        let [held, joined] = [3, 11].map(|signers| {
            let record = record(1, signers, PAYLOAD);
            noting(record, 0b11_0101, OTHER)
        });
        let received = receive_at(config, held, bundle(9, PAYLOAD));
        assert_eq!(received, (100, joined, UNSENT));
    }

    #[test]
    fn a_held_quorum_is_well_formed_and_delivered_next() {
        let received = receive_on(record(1, 15, PAYLOAD), bundle(1, PAYLOAD));
        assert_eq!(received, (102, record(2, 15, PAYLOAD), bundle(15, PAYLOAD)));
    }

    #[test]
    fn a_preview_answers_for_each_kind_of_record() {
        let (empty, malformed) = (EMPTY, record(3, 3, PAYLOAD));
        let (held, delivered) = (record(1, 3, PAYLOAD), record(2, 7, PAYLOAD));
        let noted = noting(held, 9, OTHER);
        let at_odds = Err(Refusal::OwnSignatureNotHeld);
        let too_few = Err(Refusal::OtherPayloadWithoutQuorum);
        // The record, the bundle's signers and payload, the answer, and the signers of the bundle put out.
        let rows = [
            (empty, 1, PAYLOAD, Ok(Receipt::Signed(2)), Some(3)),
            (empty, 5, PAYLOAD, Ok(Receipt::Delivered(3)), Some(7)),
            (empty, 3, PAYLOAD, at_odds, None),
            (held, 1, PAYLOAD, Ok(Receipt::Kept(2)), None),
            (held, 9, PAYLOAD, Ok(Receipt::Delivered(3)), Some(11)),
            (held, 13, OTHER, Ok(Receipt::Delivered(3)), Some(13)),
            (held, 15, OTHER, at_odds, None),
            (held, 5, OTHER, Ok(Receipt::Noted(2)), None),
            (noted, 5, OTHER, Ok(Receipt::Noted(3)), None),
            (noted, 13, OTHER, Ok(Receipt::Delivered(3)), Some(13)),
            (noted, 5, THIRD, too_few, None),
            (delivered, 7, PAYLOAD, Err(Refusal::AlreadyDelivered), None),
            (malformed, 1, PAYLOAD, Err(Refusal::RecordMalformed), None),
        ];
        for (before, signers, payload, answer, sent) in rows {
            let (mut records, mut out) = ([0; LENGTH], UNSENT);
            records[..RECORD_LENGTH].copy_from_slice(&before);
            let bundle_given = bundle(signers, payload);
            let previewed = preview(&config(4, 1, 0, 1), &bundle_given, &records, &mut out);
            let sent = sent.map_or(UNSENT, |signers| bundle(signers, payload));
            assert_eq!((previewed, out), (answer, sent));
        }
    }

    #[test]
    fn a_preview_takes_nothing() {
        let (config, records, bundle) = (config(4, 1, 0, 1), [0; LENGTH], bundle(1, PAYLOAD));
        // Taken the first time, the bundle would be kept the second time.
        for _ in 0..2 {
            let previewed = preview(&config, &bundle, &records, &mut [0; 32]);
            assert_eq!(previewed, Ok(Receipt::Signed(2)));
        }
    }

    fn setpoint_payload(value: i16) -> [u8; 16] {
        let [high, low] = value.to_be_bytes();
        let mut payload = [0; 16];
        payload[..3].copy_from_slice(&[1, high, low]);
        payload
    }

    /// The setpoint at node 1 of 4, 1, 0, from such records, each delivered by all: sender, number, payload.
    fn setpoint_from(delivered: &[(usize, usize, [u8; 16])]) -> Result<i16, Refusal> {
        let mut records = [EMPTY; 64];
        for &(sender, seq, payload) in delivered {
            records[16 * sender + seq] = record(2, 15, payload);
        }
        setpoint(&config(4, 1, 0, 1), records.as_flattened())
    }

    #[test]
    fn a_setpoint_is_signed_with_its_high_byte_first() {
        let payload = |high, low| [1, high, low, 0, 0, 0, 0, 0, 0, 0, 0, 0, 0, 0, 0, 0];
        assert_eq!(setpoint_in(payload(0xff, 0xfb)), Some(-5));
        assert_eq!(setpoint_in(payload(0x08, 0x34)), Some(2100));
        assert_eq!(setpoint_in(payload(0x80, 0)), Some(i16::MIN));
        for at in [0, 3, 9, 15] {
            let mut other = payload(0xff, 0xfb);
            other[at] ^= 0x80;
            assert_eq!(setpoint_in(other), None);
        }
        assert_eq!(setpoint_in([0; 16]), None);
    }

    #[test]
    fn the_outcome_is_the_lower_middle_of_signed_values() {
        let outcome = |values: &[i16]| {
            let of_sender = |(sender, &value)| (sender, 0, setpoint_payload(value));
            let delivered: Vec<_> = values.iter().enumerate().map(of_sender).collect();
            setpoint_from(&delivered)
        };
        assert_eq!(outcome(&[300, -5, 200]), Ok(200));
        assert_eq!(outcome(&[-5, 7, -300, 2]), Ok(-5));
        assert_eq!(
            outcome(&[i16::MAX, i16::MIN, i16::MAX, i16::MIN]),
            Ok(i16::MIN)
        );
        assert_eq!(outcome(&[4, 4, 4, 9]), Ok(4));
        assert_eq!(outcome(&[300, -5]), Err(Refusal::TooFewSetpoints));
    }

    #[test]
    fn the_last_setpoint_of_a_sender_counts_whatever_else_it_says_later() {
        let [low, mid, high] = [-5, 0, 5].map(setpoint_payload);
        let three = [(0, 3, high), (0, 9, low), (1, 0, mid), (2, 15, high)];
        assert_eq!(setpoint_from(&three), Ok(0));
        let other_later = [(0, 3, low), (0, 9, PAYLOAD), (1, 0, low), (2, 15, high)];
        assert_eq!(setpoint_from(&other_later), Ok(-5));
        let too_few = [(0, 3, low), (0, 9, PAYLOAD), (1, 0, low), (2, 15, OTHER)];
        assert_eq!(setpoint_from(&too_few), Err(Refusal::TooFewSetpoints));
    }

    #[test]
    fn a_noted_setpoint_does_not_count() {
        let [low, mid, high] = [-5, 0, 5].map(setpoint_payload);
        let mut records = [EMPTY; 64];
        records[0] = noting(record(2, 15, low), 1, high);
        records[16] = noting(record(2, 15, OTHER), 2, high);
        records[32] = record(2, 15, mid);
        records[33] = noting(record(1, 6, OTHER), 4, high);
        let outcome =
            |records: &[RecordBytes]| setpoint(&config(4, 1, 0, 1), records.as_flattened());
        assert_eq!(outcome(&records), Err(Refusal::TooFewSetpoints));
        records[48] = record(2, 15, high);
        assert_eq!(outcome(&records), Ok(0));
    }

    #[test]
    fn setpoints_are_refused_in_order() {
        let (good, bad) = (config(4, 1, 0, 1), config(5, 1, 1, 1));
        let mut records = [EMPTY; 64];
        assert_eq!(setpoint_code(&good, records.as_flattened()), 27);
        records[63] = record(1, 1, setpoint_payload(0));
        assert_eq!(setpoint_code(&good, records.as_flattened()), 21);
        assert_eq!(setpoint_code(&good, &records.as_flattened()[1..]), 20);
        assert_eq!(setpoint_code(&bad, &records.as_flattened()[1..]), 1);
        assert_eq!(setpoint_code(&config(1, 0, 0, 0), &[0; 1024]), 27);
    }

    #[test]
    fn the_code_of_a_setpoint_is_above_every_refusal() {
        for (value, code) in [(0, 65536), (-5, 0x1fffb), (2100, 67636), (-1, 131_071)] {
            let mut records = [EMPTY; 16];
            records[7] = record(2, 1, setpoint_payload(value));
            assert_eq!(
                setpoint_code(&config(1, 0, 0, 0), records.as_flattened()),
                code
            );
        }
    }

    /// What nodes 0 and 1 of 4, 1, 0 tell whose records of sender 3, number 15 are these.
    fn named(first: RecordBytes, second: RecordBytes) -> Result<u64, Refusal> {
        let [first, second] = [first, second].map(|record| {
            let mut records = [EMPTY; 64];
            records[63] = record;
            records
        });
        let [first, second] = [&first, &second].map(|records| records.as_flattened());
        equivocators(&config(4, 1, 0, 0), 1, first, second)
    }

    #[test]
    fn who_signed_two_payloads_is_named() {
        let [held, other] = [record(1, 0b1001, PAYLOAD), record(1, 0b1010, OTHER)];
        let delivered = record(2, 0b1110, PAYLOAD);
        let (noted, other_noted) = (noting(held, 0b1100, OTHER), noting(other, 0b1100, PAYLOAD));
        // The records of both, and who is named.
        let rows = [
            (EMPTY, EMPTY, 0),
            (held, EMPTY, 0),
            (held, record(1, 0b1010, PAYLOAD), 0),
            (delivered, delivered, 0),
            (held, other, 0b1000),
            (delivered, other, 0b1010),
            // Within one recording, the other's being empty or agreeing.
            (noted, EMPTY, 0b1000),
            (EMPTY, other_noted, 0b1000),
            (noting(delivered, 0b1100, OTHER), delivered, 0b1100),
            (noted, noting(delivered, 0b1001, OTHER), 0b1101),
            // A payload that is held here is noted there.
            (noted, other_noted, 0b1100),
            (noted, noting(other, 0b1100, THIRD), 0b1100),
            (noting(held, 0b1010, OTHER), delivered, 0b1010),
            (
                record(1, 0b1011, PAYLOAD),
                noting(delivered, 0b1010, OTHER),
                0b1010,
            ),
            (
                noted,
                noting(record(1, 0b1010, PAYLOAD), 0b1110, THIRD),
                0b1110,
            ),
        ];
        for (first, second, word) in rows {
            assert_eq!(named(first, second), Ok(word), "{first:?} {second:?}");
        }
    }

    #[test]
    fn payloads_of_different_slots_are_not_compared() {
        let (config, mut records) = (config(4, 1, 0, 0), [[EMPTY; 64]; 2]);
        records[0][0] = record(2, 0b1111, PAYLOAD);
        records[0][1] = record(2, 0b1111, OTHER);
        records[1][16] = record(2, 0b1111, THIRD);
        let word = |records: &[[RecordBytes; 64]; 2]| {
            let [first, second] = [0, 1].map(|at| records[at].as_flattened());
            equivocators_word(&config, 3, first, second)
        };
        assert_eq!(word(&records), 0);
        // Those of each slot are named.
        records[1][1] = record(1, 0b1001, PAYLOAD);
        records[0][16] = record(1, 0b0011, PAYLOAD);
        assert_eq!(word(&records), 0b1011);
    }

    #[test]
    fn all_of_64_nodes_may_be_named() {
        let config = config(64, 21, 0, 63);
        let mut records = [[EMPTY; 1024]; 2];
        records[0][1023] = record(2, u64::MAX, PAYLOAD);
        records[1][1023] = record(2, u64::MAX, OTHER);
        let [first, second] = [0, 1].map(|at| records[at].as_flattened());
        assert_eq!(equivocators(&config, 0, first, second), Ok(u64::MAX));
    }

    #[test]
    fn two_recordings_are_refused_in_order() {
        let good = config(4, 1, 0, 1);
        let bad = config(5, 1, 1, 1);
        let refused = |config: &Config, other, first: &[RecordBytes], second: &[RecordBytes]| {
            let [first, second] = [first, second].map(|records| records.as_flattened());
            assert_eq!(equivocators_word(config, other, first, second), 0);
            equivocators_refusal(config, other, first, second)
        };
        // Held by node 1, and by node 2; somebody is named.
        let (mut ours, mut theirs) = ([EMPTY; 64], [EMPTY; 64]);
        (ours[5], theirs[5]) = (record(1, 0b0011, PAYLOAD), record(1, 0b0101, OTHER));
        assert_eq!(refused(&good, 2, &ours, &[EMPTY; 64]), 0);
        // Defects add up from the last reason to the first.
        assert_eq!(refused(&good, 1, &ours, &ours), 28);
        assert_eq!(refused(&good, 1, &ours, &theirs), 21);
        assert_eq!(refused(&good, 2, &ours, &ours), 21);
        assert_eq!(refused(&good, 1, &ours, &theirs[1..]), 20);
        assert_eq!(refused(&good, 1, &theirs, &theirs[1..]), 21);
        assert_eq!(refused(&good, 2, &theirs, &theirs), 21);
        assert_eq!(refused(&good, 1, &theirs[1..], &theirs[1..]), 20);
        assert_eq!(refused(&good, 4, &theirs[1..], &theirs[1..]), 1);
        assert_eq!(refused(&bad, 1, &theirs[1..], &theirs[1..]), 1);
        let own = Config { own: 4, ..good };
        assert_eq!(refused(&own, 2, &ours, &theirs), 1);
        assert_eq!(refused(&own, 4, &ours, &theirs), 1);
    }

    #[test]
    fn wrong_configs_and_lengths_are_refused_in_order() {
        let (good, bad) = (config(4, 1, 0, 1), config(5, 1, 1, 1));
        let strict = Config { q: 4, ..good };
        // Defects add up from row to row: the code is the first of them.
        let rows = [
            (good, 32, 16, 32, LENGTH - 1, 20, 20),
            (good, 32, 16, 31, LENGTH - 1, 10, 10),
            (good, 31, 15, 31, LENGTH - 1, 2, 9),
            (strict, 31, 15, 31, LENGTH - 1, 1, 1),
            (bad, 31, 15, 31, LENGTH - 1, 1, 1),
        ];
        for (config, bundle_length, payload_length, out_length, length, received, sent) in rows {
            let (mut records, mut out) = ([0; LENGTH], UNSENT);
            let (buffer, out_buffer) = (&mut records[..length], &mut out[..out_length]);
            let bundle = &bundle(1, PAYLOAD)[..bundle_length];
            assert_eq!(receive_code(&config, bundle, buffer, out_buffer), received);
            assert_eq!(preview_code(&config, bundle, buffer, out_buffer), received);
            let payload = &PAYLOAD[..payload_length];
            assert_eq!(broadcast_code(&config, payload, buffer, out_buffer), sent);
            assert_eq!((records, out), ([0; LENGTH], UNSENT));
        }
    }

    #[test]
    fn a_day_is_opened_whatever_was_there_and_only_where_table_and_length_fit() {
        let (good, bad) = (config(4, 1, 0, 1), config(5, 1, 1, 1));
        let strict = Config { q: 4, ..good };
        let rows = [
            (good, LENGTH, 0, 0),
            (good, LENGTH - 1, 20, 0xa5),
            (good, LENGTH / 2, 20, 0xa5),
            (good, 0, 20, 0xa5),
            (strict, LENGTH, 1, 0xa5),
            (bad, 5120, 1, 0xa5),
            (bad, 0, 1, 0xa5),
        ];
        for (config, length, code, left) in rows {
            let mut records = vec![0xa5; length];
            assert_eq!(open_code(&config, &mut records), code);
            assert!(records.iter().all(|&byte| byte == left));
        }
    }

    #[test]
    fn unreadable_bundles_are_refused_in_order() {
        // Defects add up from the last reason to the first: byte, value, reason.
        let defects = [
            (15, 2, 8),
            (8, 1, 7),
            (5, 16, 6),
            (4, 4, 5),
            (0, 1, 4),
            (7, 1, 3),
        ];
        let mut bytes = bundle(1, PAYLOAD);
        for (at, value, number) in defects {
            bytes[at] = value;
            assert_refused(number, EMPTY, bytes);
        }
    }

    #[test]
    fn malformed_records_are_refused() {
        let mut reserved = record(1, 3, PAYLOAD);
        reserved[7] = 1;
        let states = [reserved, record(3, 3, PAYLOAD)];
        let empty = [record(0, 3, OTHER), record(0, 0, PAYLOAD)];
        // The sender's bit is 1, ours 2, and 16 stands for no node.
        let held = [1, 2, 19].map(|signers| record(1, signers, PAYLOAD));
        let delivered = [3, 14, 23].map(|signers| record(2, signers, PAYLOAD));
        for before in states.into_iter().chain(empty).chain(held).chain(delivered) {
            assert_refused(21, before, bundle(3, PAYLOAD));
        }
    }

    #[test]
    fn malformed_notes_are_refused_in_every_state() {
        let (held, delivered) = (record(1, 3, PAYLOAD), record(2, 7, PAYLOAD));
        for record in [held, delivered] {
            // Without the sender's bit, without any, with that of no node, with the first payload.
            for (signers, payload) in [(2, OTHER), (0, THIRD), (17, OTHER), (1, PAYLOAD)] {
                assert_refused(21, noting(record, signers, payload), bundle(1, PAYLOAD));
            }
        }
        for (signers, payload) in [(1, PAYLOAD), (1, OTHER), (0, PAYLOAD), (3, THIRD)] {
            assert_refused(21, noting(EMPTY, signers, payload), bundle(1, PAYLOAD));
        }
        let noted = noting(held, 1, OTHER);
        for before in [EMPTY, held, delivered, noted] {
            for at in 40..48 {
                let mut reserved = before;
                reserved[at] = 1;
                assert_refused(21, reserved, bundle(1, PAYLOAD));
            }
        }
    }

    #[test]
    fn any_signers_may_be_noted_with_the_sender_among_them() {
        for signers in (1..16).step_by(2) {
            for payload in [OTHER, THIRD] {
                let held = noting(record(1, 3, PAYLOAD), signers, payload);
                assert_eq!(receive_on(held, bundle(1, PAYLOAD)).0, 100);
                let delivered = noting(record(2, 7, PAYLOAD), signers, payload);
                assert_refused(22, delivered, bundle(1, PAYLOAD));
                // In our own slot too.
                let (ours, own) = (
                    noting(record(1, 1, PAYLOAD), signers, payload),
                    config(4, 1, 0, 0),
                );
                assert_eq!(receive_at(own, ours, bundle(1, PAYLOAD)).0, 100);
                let mut records = [EMPTY; 64];
                records[0] = ours;
                let records = records.as_flattened_mut();
                assert_eq!(broadcast(&own, &PAYLOAD, records, &mut [0; 32]), Ok(1));
            }
        }
    }

    #[test]
    fn bundles_at_odds_with_our_record_are_refused() {
        assert_refused(23, EMPTY, bundle(3, OTHER));
        assert_refused(23, record(1, 3, PAYLOAD), bundle(3, OTHER));
    }

    #[test]
    fn broadcast_looks_no_further_than_the_first_empty_record() {
        let (config, mut records, mut out) = (config(4, 1, 0, 2), [0; LENGTH], UNSENT);
        let last = config.place(2, 15);
        records[last] = 3;
        for seq in 0..15 {
            let code = broadcast_code(&config, &OTHER, &mut records, &mut out);
            assert_eq!((code, out[5]), (200 + seq, seq as u8));
        }
        let noted_only = noting(EMPTY, 4, PAYLOAD);
        let delivered = record(2, 13, PAYLOAD);
        for (number, record) in [
            (21, record(0, 0, PAYLOAD)),
            (21, noted_only),
            (25, delivered),
            (25, noting(delivered, 4, OTHER)),
        ] {
            records[last..last + RECORD_LENGTH].copy_from_slice(&record);
            let (before, mut out) = (records, UNSENT);
            let code = broadcast_code(&config, &PAYLOAD, &mut records, &mut out);
            assert_eq!((code, records, out), (number, before, UNSENT));
        }
    }
}
