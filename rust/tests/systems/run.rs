//! A system that runs: the correct nodes with their record buffers, and every call made through the exported functions and put on the
//! list.

use crate::trace::{bit, word, Bundle, Call, Fields, Payload, Slot, Step, System};
use mbrb::random::Random;
use mbrb::reference::{RecordBytes, SEQS};
use mbrb::{host, Config};
use std::collections::HashMap;

/// What each outgoing byte is before a call. No bundle that reading accepts: bytes 6 and 7 are not zero.
const UNSENT: u8 = 0xee;

/// How bundles are taken: by the exported function, or by one that is wrong.
pub type Receive = fn(&Config, &[u8], &mut [u8], &mut [u8]) -> u32;

pub struct Run {
    pub system: System,
    /// what the nodes are given, but for their own numbers: the system's table, or one with another quorum
    table: Config,
    receive: Receive,
    records: Vec<Vec<u8>>,
    opened: u64,
    pub trace: Vec<Step>,
    /// which correct nodes have signed a payload in a slot
    signed: HashMap<(Slot, Payload), u64>,
    /// the bundles that correct nodes have sent, each once
    pub sent: Vec<Bundle>,
    reached: HashMap<Bundle, u64>,
}

impl Run {
    /// Nothing is called yet; the buffers have any content.
    pub fn new(system: System, table: Config, receive: Receive, random: &mut Random) -> Run {
        assert!(table.good(), "{table:?}");
        let words = table.records_length() / 8;
        let mut buffer = |_| {
            (0..words)
                .flat_map(|_| random.word().to_ne_bytes())
                .collect()
        };
        Run {
            system,
            table,
            receive,
            records: (0..system.n).map(&mut buffer).collect(),
            opened: 0,
            trace: Vec::new(),
            signed: HashMap::new(),
            sent: Vec::new(),
            reached: HashMap::new(),
        }
    }

    /// The table of a node, and the quorum that it goes by.
    pub fn config(&self, own: u8) -> Config {
        Config { own, ..self.table }
    }

    pub fn broadcast(&mut self, node: u8, payload: &[u8], out_length: usize) {
        self.open(node);
        let mut out = vec![UNSENT; out_length];
        let config = self.config(node);
        let records = &mut self.records[usize::from(node)];
        let code = host::broadcast(&config, payload, records, &mut out);
        let payload = payload.to_vec();
        self.list(node, Call::Broadcast { payload }, code, out);
    }

    pub fn receive(&mut self, node: u8, bundle: &[u8], out_length: usize) {
        self.open(node);
        let mut out = vec![UNSENT; out_length];
        let config = self.config(node);
        let records = &mut self.records[usize::from(node)];
        let code = (self.receive)(&config, bundle, records, &mut out);
        let bundle = bundle.to_vec();
        self.list(node, Call::Receive { bundle }, code, out);
    }

    /// The code of one setpoint from many at a node that bears so many faults; None before its day is opened. It is no call of the list.
    pub fn setpoint(&self, node: u8, t: u8) -> Option<u32> {
        let config = Config {
            t,
            ..self.config(node)
        };
        let opened = self.opened & bit(node) != 0;
        opened.then(|| host::setpoint(&config, &self.records[usize::from(node)]))
    }

    /// The nodes that were called, and so have opened their day.
    pub fn called(&self) -> u64 {
        self.opened
    }

    /// Who signed two payloads in one slot, by the recordings of two nodes that were called: the word, and the refusal or 0. The second
    /// one's may be of another list. It is no call of either.
    pub fn equivocators(&self, first: u8, other: &Run, second: u8) -> (u64, u32) {
        let records = &other.records[usize::from(second)];
        self.equivocators_beside(first, second, records)
    }

    /// By the recording of one node alone: beside that of another on a day just opened.
    pub fn equivocators_alone(&self, node: u8) -> (u64, u32) {
        let other = (node + 1) % self.system.n;
        let empty = vec![0; self.table.records_length()];
        self.equivocators_beside(node, other, &empty)
    }

    fn equivocators_beside(&self, node: u8, other: u8, others: &[u8]) -> (u64, u32) {
        let (config, records) = (&self.config(node), &self.records[usize::from(node)]);
        let word = host::equivocators(config, other, records, others);
        let refusal = host::check_equivocators(config, other, records, others);
        (word, refusal)
    }

    /// The first call at a node, and only that one, opens its day.
    fn open(&mut self, node: u8) {
        if self.opened & bit(node) == 0 {
            self.opened |= bit(node);
            let config = self.config(node);
            let code = host::open(&config, &mut self.records[usize::from(node)]);
            self.list(node, Call::Open, code, Vec::new());
        }
    }

    /// The records of a node by their slots; none before its day is opened.
    pub fn records(&self, node: u8) -> impl Iterator<Item = (Slot, &RecordBytes)> {
        let opened = self.opened & bit(node) != 0;
        let bytes = &self.records[usize::from(node)][..];
        let (records, _) = if opened { bytes } else { &[] }.as_chunks();
        let slot = |(place, record)| {
            let slot = Slot {
                day: self.system.day,
                sender: (place / usize::from(SEQS)) as u8,
                seq: (place % usize::from(SEQS)) as u8,
            };
            (slot, record)
        };
        records.iter().enumerate().map(slot)
    }

    fn list(&mut self, node: u8, call: Call, code: u32, out: Vec<u8>) {
        let step = Step {
            node,
            call,
            code,
            out,
        };
        if let Some(slot_and_payload) = step.signs() {
            *self.signed.entry(slot_and_payload).or_default() |= bit(node);
        }
        if let Some(bundle) = step.reached_by() {
            *self.reached.entry(bundle).or_default() |= bit(node);
        }
        if let Some(bundle) = step.sends().filter(|bundle| !self.sent.contains(bundle)) {
            self.sent.push(bundle);
        }
        self.trace.push(step);
    }

    /// The correct nodes whose signature on a payload in a slot exists.
    pub fn signers(&self, slot: Slot, payload: Payload) -> u64 {
        self.signed.get(&(slot, payload)).copied().unwrap_or(0)
    }

    /// The correct nodes that a bundle has not reached.
    pub fn unreached(&self, bundle: &Bundle) -> u64 {
        self.system.correct() & !self.reached.get(bundle).copied().unwrap_or(0)
    }

    /// What faulty nodes can hand out: a bundle that nobody reads, or one in which each correct node's bit is a signature that exists.
    pub fn permits(&self, bundle: &[u8]) -> bool {
        let Ok(bundle) = <&Bundle>::try_from(bundle) else {
            return true;
        };
        let Fields {
            slot,
            signers,
            payload,
        } = Fields::of(bundle);
        let read = bundle[6..8] == [0, 0]
            && slot.day == self.system.day
            && slot.sender < self.system.n
            && slot.seq < 16
            && signers & !self.config(0).mask() == 0
            && signers & bit(slot.sender) != 0;
        !read || signers & self.system.correct() & !self.signers(slot, payload) == 0
    }

    /// How much of a bundle is news to a node: nothing after delivery or beside another payload, though it may be noted there, and
    /// little if it adds no signer.
    pub fn news(&self, node: u8, bundle: &Bundle) -> u32 {
        const DELIVERED: u8 = 2;
        let fields = Fields::of(bundle);
        let config = self.config(node);
        let place = config.place(fields.slot.sender, fields.slot.seq);
        let record = &self.records[usize::from(node)][place..][..32];
        let empty = self.opened & bit(node) == 0 || record[0] == 0;
        let count = fields.signers.count_ones();
        if !empty && record[0] == DELIVERED {
            0
        } else if !empty && record[16..] == fields.payload {
            1 + (fields.signers & !word(&record[8..16])).count_ones()
        } else if empty || count >= config.quorum() {
            1 + count
        } else {
            0
        }
    }
}
