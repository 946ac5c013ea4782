//! Runs that could have happened, written down row by row in the form of a run file. What a node sends is known, so that later rows can hand it
//! on.

use crate::reference::{broadcast, receive, Receipt};
use crate::Config;

#[derive(Clone, Copy, Debug, PartialEq, Eq)]
pub struct Bundle {
    pub sender: u8,
    pub seq: u8,
    pub signers: u64,
    pub payload: u128,
}

pub struct System {
    /// that of node 0
    pub config: Config,
    records: Vec<Vec<u8>>,
    /// what the nodes have sent so far
    pub sent: Vec<Bundle>,
}

impl System {
    pub fn new(config: Config) -> System {
        let records = vec![0; config.records_length()];
        System {
            config,
            records: vec![records; config.n.into()],
            sent: Vec::new(),
        }
    }

    /// The three lines before the first row.
    pub fn head(&self) -> String {
        let Config {
            n, t, d, day, q, ..
        } = self.config;
        format!("units faults losses day quorum\n{n} {t} {d} {day} {q}\nact unit sender number signers body\n")
    }

    /// Broadcasts at the node, and gives the row that says so.
    pub fn broadcast(&mut self, node: u8, payload: u128) -> String {
        let records = &mut self.records[usize::from(node)];
        let own = Config {
            own: node,
            ..self.config
        };
        if let Ok(seq) = broadcast(&own, &payload.to_be_bytes(), records, &mut [0; 32]) {
            self.sent.push(Bundle {
                sender: node,
                seq,
                signers: 1 << node,
                payload,
            });
        }
        format!("A {node} - - - {payload:032x}")
    }

    /// Hands the bundle to the node, and gives the row that says so.
    pub fn receive(&mut self, node: u8, bundle: Bundle) -> String {
        let Bundle {
            sender,
            seq,
            signers,
            payload,
        } = bundle;
        let records = &mut self.records[usize::from(node)];
        let own = Config {
            own: node,
            ..self.config
        };
        let head = [&own.day.to_be_bytes()[..], &[sender, seq, 0, 0]].concat();
        let bytes = [&head[..], &signers.to_be_bytes(), &payload.to_be_bytes()].concat();
        let mut out = [0; 32];
        let received = receive(&own, &bytes, records, &mut out);
        if let Ok(Receipt::Signed(_) | Receipt::Delivered(_)) = received {
            let (words, _) = out.as_chunks();
            let signers = u64::from_be_bytes(words[1]);
            self.sent.push(Bundle { signers, ..bundle });
        }
        format!("B {node} {sender} {seq} {signers:016x} {payload:032x}")
    }
}
