//! Runs of calls at some nodes of one system. Each node keeps its records over the run, and what a node sends comes back to it and
//! to the others, so that slots live from empty to delivered.

use crate::comparison::{place, Case, Kind};
use crate::damage::damage;
use crate::node::Node;
use crate::records::{
    bit, bytes, choose, edge_count, fill_up, good_config, noted_payload_of, noted_signers_of,
    one_bit_off, payload_of, signers_of, up_to, DELIVERED, EMPTY, HELD,
};
use mbrb::{random::Random, reference::RecordBytes, Config};

pub struct System {
    pub nodes: Vec<Node>,
    /// sender and number of the slots that most bundles are about
    slots: Vec<(u8, u8)>,
    payloads: [[u8; 16]; 3],
    /// the last bundles that some node sent
    sent: Vec<[u8; 32]>,
    /// One call in so many is a broadcast.
    broadcast_once_in: usize,
}

impl System {
    pub fn new(random: &mut Random) -> System {
        let config = good_config(random);
        let n = config.n;
        let nodes = (0..1 + random.below(3).min(usize::from(n) - 1))
            .map(|further| (config.own + further as u8) % n)
            .map(|own| Node::new(random, Config { own, ..config }))
            .collect();
        let mut system = System {
            nodes,
            slots: Vec::new(),
            payloads: payloads(random),
            sent: Vec::new(),
            broadcast_once_in: [2, 6, 6, 20][random.below(4)],
        };
        let slots = 1 + random.below(4);
        system.slots = (0..slots).map(|_| system.new_slot(random)).collect();
        for node in 0..system.nodes.len() {
            system.put_own_records(random, node);
            for at in system.slots.clone() {
                system.put_record(random, node, at);
            }
        }
        system
    }

    fn new_slot(&self, random: &mut Random) -> (u8, u8) {
        let Config { n, own, .. } = self.nodes[random.below(self.nodes.len())].config;
        let sender = if random.once_in(5) {
            own
        } else {
            up_to(random, usize::from(n) - 1) as u8
        };
        (sender, up_to(random, 15) as u8)
    }

    fn payload(&self, random: &mut Random) -> [u8; 16] {
        self.payloads[random.below(3)]
    }

    /// Our own slots in use up to some number, the rest empty: what earlier broadcasts leave.
    fn put_own_records(&mut self, random: &mut Random, node: usize) {
        let used = up_to(random, 16) as u8;
        for seq in 0..16 {
            let payload = self.payload(random);
            let state = if seq >= used {
                EMPTY
            } else if random.once_in(4) {
                DELIVERED
            } else {
                HELD
            };
            let node = &mut self.nodes[node];
            let at = (node.config.own, seq);
            node.put_well_formed(random, at, state, &payload);
            if random.once_in(60) {
                node.put_malformed(random, at, &payload);
            }
        }
    }

    fn put_record(&mut self, random: &mut Random, node: usize, at: (u8, u8)) {
        let payload = self.payload(random);
        let node = &mut self.nodes[node];
        match random.below(12) {
            0..=2 => node.put_well_formed(random, at, EMPTY, &payload),
            3..=8 => node.put_well_formed(random, at, HELD, &payload),
            9 => node.put_well_formed(random, at, DELIVERED, &payload),
            _ => node.put_malformed(random, at, &payload),
        }
    }

    /// A day is opened at a node, half the time on a buffer of any bytes.
    fn opening(&mut self, random: &mut Random, at: usize) -> Case {
        let node = &mut self.nodes[at];
        if random.once_in(2) {
            node.scramble(random);
        }
        Case {
            kind: Kind::Open,
            config: node.config,
            input: Vec::new(),
            records_length: node.config.records_length(),
            out: bytes(random),
            out_length: 32,
        }
    }

    /// Now and then another record replaces one of those in use: most slots are delivered soon, and answer nothing new then.
    pub fn disturb(&mut self, random: &mut Random) {
        if !random.once_in(6) {
            return;
        }
        let node = random.below(self.nodes.len());
        if random.once_in(3) {
            let at = (self.nodes[node].config.own, random.below(16) as u8);
            self.put_record(random, node, at);
        } else {
            let slot = random.below(self.slots.len());
            self.slots[slot] = self.new_slot(random);
            self.put_record(random, node, self.slots[slot]);
        }
    }

    /// Keeps the bundle that a call has put into `out`, to be received later.
    pub fn keep_sent(&mut self, random: &mut Random, out: &[u8; 64]) {
        let bundle = out[..32].try_into().expect("32 bytes");
        if self.sent.len() < 8 {
            self.sent.push(bundle);
        } else {
            self.sent[random.below(8)] = bundle;
        }
    }

    /// The next call and the node it is at.
    pub fn next_call(&mut self, random: &mut Random) -> (usize, Case) {
        let at = random.below(self.nodes.len());
        let mut case = if random.once_in(20) {
            self.opening(random, at)
        } else {
            self.call_of_the_day(random, at)
        };
        // Two defects at once show which check comes first.
        let defects = [0, 0, 0, 0, 0, 0, 0, 1, 1, 2][random.below(10)];
        for _ in 0..defects {
            damage(random, &mut case, &self.nodes[at]);
        }
        (at, case)
    }

    fn call_of_the_day(&self, random: &mut Random, at: usize) -> Case {
        let node = &self.nodes[at];
        let broadcasts = random.once_in(self.broadcast_once_in);
        let (kind, input) = if broadcasts {
            let payload = self.payload(random);
            (Kind::Broadcast, payload.to_vec())
        } else {
            let kind = [Kind::Receive, Kind::Preview][random.below(2)];
            (kind, self.bundle(random, node).to_vec())
        };
        Case {
            kind,
            config: node.config,
            input,
            records_length: node.config.records_length(),
            out: bytes(random),
            out_length: 32,
        }
    }

    fn bundle(&self, random: &mut Random, node: &Node) -> [u8; 32] {
        if !self.sent.is_empty() && random.once_in(4) {
            return self.sent[random.below(self.sent.len())];
        }
        let (sender, seq) = if random.once_in(12) {
            self.new_slot(random)
        } else {
            self.slots[random.below(self.slots.len())]
        };
        let record = node.records.record(place(sender, seq));
        let payload = self.payload_near(random, &record);
        let signers = signers_near(random, &node.config, sender, &record, &payload);
        let mut bundle = [0; 32];
        bundle[..4].copy_from_slice(&node.config.day.to_be_bytes());
        bundle[4] = sender;
        bundle[5] = seq;
        bundle[8..16].copy_from_slice(&signers.to_be_bytes());
        bundle[16..].copy_from_slice(&payload);
        bundle
    }

    /// The record's own payload, the noted one, one that differs from either in a single bit, or another.
    fn payload_near(&self, random: &mut Random, record: &RecordBytes) -> [u8; 16] {
        let noted = noted_signers_of(record) != 0;
        match random.below(12) {
            _ if record[0] == EMPTY => self.payload(random),
            0..=2 => payload_of(record),
            3..=6 if noted => noted_payload_of(record),
            7 if noted => one_bit_off(random, noted_payload_of(record)),
            8 => one_bit_off(random, payload_of(record)),
            _ => self.payload(random),
        }
    }
}

fn payloads(random: &mut Random) -> [[u8; 16]; 3] {
    let (first, third) = (bytes(random), bytes(random));
    let second = if random.once_in(2) {
        [0; 16]
    } else {
        one_bit_off(random, first)
    };
    [first, second, third]
}

/// Signers with the sender among them: an edge count of them, in the bundle alone or together with those that the record has beside the
/// payload, or beside its own if it has not got it.
fn signers_near(
    random: &mut Random,
    config: &Config,
    sender: u8,
    record: &RecordBytes,
    payload: &[u8; 16],
) -> u64 {
    let holds = record[0] == HELD && payload_of(record) == *payload;
    let notes = noted_signers_of(record) != 0 && noted_payload_of(record) == *payload;
    let own = bit(config.own);
    let with_own = random.once_in(if holds { 2 } else { 8 });
    let fixed = bit(sender) | if with_own { own } else { 0 };
    let others = config.mask() & !own;
    // Another payload than the held one is noted or refused below a quorum, and from there on delivered.
    let count = match record[0] == HELD && !holds && random.once_in(3) {
        true => config.quorum() - random.below(2) as u32,
        false => edge_count(random, config),
    };
    if random.once_in(2) {
        return fill_up(random, fixed, others, count);
    }
    let known = match notes {
        true => noted_signers_of(record),
        false => signers_of(record),
    };
    let known = known & config.mask();
    let further = count.saturating_sub((known | fixed).count_ones());
    fixed | known & others & random.word() | choose(random, others & !known & !fixed, further)
}
