//! One setpoint from many at the end of a list: what each correct node makes of the setpoints that it has delivered.
//!
//! What a node has delivered is read off the list. That the outcome lies between what correct nodes announced needs that a correct
//! sender's slot yields only its announcement, and that at most t of the senders are faulty.

use crate::run::Run;
use crate::trace::{nodes_of, Payload, Slot, Step};
use std::collections::BTreeMap;
use std::fmt;

const TOO_FEW: u32 = 27;

pub fn setpoint(value: i16) -> Payload {
    let [high, low] = value.to_be_bytes();
    let mut payload = [0; 16];
    payload[..3].copy_from_slice(&[1, high, low]);
    payload
}

fn value(payload: &Payload) -> Option<i16> {
    let value = i16::from_be_bytes([payload[1], payload[2]]);
    (*payload == setpoint(value)).then_some(value)
}

/// The lowest and the highest setpoint that correct nodes announced.
fn announced(run: &Run) -> Option<(i16, i16)> {
    let announces = |step: &Step| step.announces(run.system.day);
    let values = run.trace.iter().filter_map(announces);
    let values = values.filter_map(|(_, payload)| value(&payload));
    values.fold(None, |span, value| {
        let (low, high) = span.unwrap_or((value, value));
        Some((low.min(value), high.max(value)))
    })
}

/// The last setpoint of each sender that a node delivered, in rising order of the values.
fn pooled(run: &Run, node: u8) -> Vec<i16> {
    let at_node = run.trace.iter().filter(|step| step.node == node);
    let mut delivered: Vec<(Slot, i16)> = at_node
        .filter_map(Step::delivers)
        .filter_map(|(slot, payload)| Some((slot, value(&payload)?)))
        .collect();
    delivered.sort_by_key(|(slot, _)| slot.seq);
    let by_sender = |(slot, value): (Slot, i16)| (slot.sender, value);
    let last: BTreeMap<u8, i16> = delivered.into_iter().map(by_sender).collect();
    let mut values: Vec<_> = last.into_values().collect();
    values.sort_unstable();
    values
}

/// The lower middle of the values, if there are enough.
fn outcome(values: &[i16], t: u8) -> Option<i16> {
    let enough = values.len() > 2 * usize::from(t);
    enough.then(|| values[(values.len() - 1) / 2])
}

fn code_of(outcome: i16) -> u32 {
    (1 << 16) + u32::from(outcome as u16)
}

/// What was seen at the ends of lists.
#[derive(Default)]
pub struct Outcomes {
    lists: u64,
    outcomes: u64,
    refused: u64,
    /// outcomes of pools that have a setpoint past what correct nodes announced
    with_far: u64,
    /// outcomes of pools whose mean is past it
    mean_dragged: u64,
    /// nodes whose outcome would be past it if their table bore no fault
    dragged_without_faults: u64,
    /// lists at whose end two nodes have different outcomes
    differing: u64,
}

impl Outcomes {
    /// Fails if a node's code is not what the list's deliveries make it, or its outcome is past what correct nodes announced.
    pub fn add(&mut self, run: &Run) -> Result<(), String> {
        self.lists += 1;
        let announced = announced(run);
        let between = |value| announced.is_some_and(|(low, high)| low <= value && value <= high);
        let mut outcomes = Vec::new();
        for node in nodes_of(run.system.correct()) {
            let Some(code) = run.setpoint(node, run.system.t) else {
                continue;
            };
            let values = pooled(run, node);
            let expected = outcome(&values, run.system.t);
            let right = expected.map_or(code == TOO_FEW, |value| code == code_of(value));
            if !right || expected.is_some_and(|value| !between(value)) {
                return Err(format!(
                    "node {node} pools {values:?} of {announced:?}: {code}"
                ));
            }
            self.count(&values, expected, between);
            let unguarded = run.setpoint(node, 0).filter(|&code| code != TOO_FEW);
            let dragged = unguarded.is_some_and(|code| !between(code as i16));
            self.dragged_without_faults += u64::from(dragged);
            outcomes.extend(expected);
        }
        outcomes.dedup();
        self.differing += u64::from(outcomes.len() > 1);
        Ok(())
    }

    fn count(&mut self, values: &[i16], outcome: Option<i16>, between: impl Fn(i16) -> bool) {
        if outcome.is_none() {
            self.refused += 1;
            return;
        }
        let sum: i64 = values.iter().map(|&value| i64::from(value)).sum();
        let mean = (sum / values.len() as i64) as i16;
        self.outcomes += 1;
        self.with_far += u64::from(!values.iter().all(|&value| between(value)));
        self.mean_dragged += u64::from(!between(mean));
    }

    /// Each count, and how many there must be in a hundred lists.
    fn counts(&self) -> [(&str, u64, u64); 6] {
        [
            ("outcomes, none of them dragged", self.outcomes, 50),
            ("refused for too few setpoints", self.refused, 50),
            ("outcomes with a far setpoint pooled", self.with_far, 20),
            (
                "outcomes of which the mean is dragged",
                self.mean_dragged,
                20,
            ),
            (
                "dragged if no fault is borne",
                self.dragged_without_faults,
                2,
            ),
            ("lists whose nodes differ", self.differing, 5),
        ]
    }

    pub fn assert_not_vacuous(&self) {
        for (what, count, in_a_hundred) in self.counts() {
            assert!(count >= self.lists * in_a_hundred / 100, "{count} {what}");
        }
    }
}

impl fmt::Display for Outcomes {
    fn fmt(&self, f: &mut fmt::Formatter) -> fmt::Result {
        write!(f, "{} lists with setpoints", self.lists)?;
        for (what, count, _) in self.counts() {
            write!(f, "\n  {count} {what}")?;
        }
        Ok(())
    }
}
