//! What happened in the lists, counted from the lists, so that a run that shows nothing does not pass.

use crate::demand3::{self, History};
use crate::trace::{Call, Payload, Slot, Step, System, ANNOUNCED, DELIVERED, KEPT, NOTED, SIGNED};
use std::collections::HashMap;
use std::fmt;

#[derive(Default)]
pub struct Tally {
    lists: u64,
    calls: u64,
    announced: u64,
    kept: u64,
    signed: u64,
    delivered: u64,
    /// another payload than the one held, by fewer than a quorum
    noted: u64,
    /// deliveries of another payload than the one held
    replaced: u64,
    /// by the refusal's number; at 0, the openings
    refused: [u64; 27],
    /// lists in which correct nodes signed different payloads in a slot, as only a faulty sender can make them
    equivocating: u64,
    /// lists in which every sending reached enough nodes, and something was announced or delivered
    premise_held: u64,
    /// those of them in which d is not 0 and some sending reached no node more than it must
    premise_barely_held: u64,
    /// lists in which some sending did not reach enough nodes
    premise_failed: u64,
    /// lists with a stricter quorum than the least, and of what there is in those
    strict: Strict,
}

#[derive(Default)]
struct Strict {
    lists: u64,
    /// with less than the most
    between: u64,
    faulty: u64,
    premise_held: u64,
    delivered: u64,
    /// bundles with signers enough for the least quorum, which were not delivered
    held_back: u64,
}

/// The refusals of lawful lists. Of the others, 26 is not for these calls; the tables are good (1), the buffers have their length (20), the
/// records are those that calls left (21); and a node's bit stands only beside what it has signed, which it then holds until it delivers (23).
const REFUSALS: [usize; 12] = [2, 3, 4, 5, 6, 7, 8, 9, 10, 22, 24, 25];

impl Tally {
    pub fn add(&mut self, system: &System, trace: &[Step], history: &History) {
        self.lists += 1;
        self.calls += trace.len() as u64;
        trace.iter().for_each(|step| self.add_step(step));
        self.equivocating += u64::from(equivocates(trace));
        self.add_premise(system, history);
        if system.is_strict() {
            self.strict.add(system, trace, history);
        }
    }

    fn add_step(&mut self, step: &Step) {
        match step.code {
            KEPT => self.kept += 1,
            SIGNED => self.signed += 1,
            DELIVERED => self.delivered += 1,
            NOTED => self.noted += 1,
            ANNOUNCED.. => self.announced += 1,
            code => self.add_refusal(code as usize, step),
        }
        self.replaced += u64::from(step.replaces());
    }

    fn add_refusal(&mut self, number: usize, step: &Step) {
        let opened = matches!(step.call, Call::Open) && number == 0;
        assert!(opened || REFUSALS.contains(&number), "{step}");
        self.refused[number] += 1;
    }

    fn add_premise(&mut self, system: &System, history: &History) {
        let receivers = system.nearly_all();
        if !demand3::reached(history, receivers) {
            self.premise_failed += 1;
        } else if history.has_something_to_deliver() {
            self.premise_held += 1;
            let barely = system.d > 0 && !demand3::reached(history, receivers + 1);
            self.premise_barely_held += u64::from(barely);
        }
    }

    /// Each count, and how many there must be in a hundred lists.
    fn counts(&self) -> [(&str, u64, u64); 17] {
        [
            ("calls", self.calls, 2000),
            ("announced", self.announced, 40),
            ("kept", self.kept, 100),
            ("signed", self.signed, 100),
            ("delivered", self.delivered, 100),
            ("noted", self.noted, 50),
            ("delivered in place of another", self.replaced, 10),
            ("lists with an equivocating sender", self.equivocating, 20),
            ("lists with the delivery premise", self.premise_held, 20),
            (
                "of them with d > 0 and no node to spare",
                self.premise_barely_held,
                5,
            ),
            (
                "lists without the delivery premise",
                self.premise_failed,
                20,
            ),
            ("lists with a stricter quorum", self.strict.lists, 20),
            ("of them with less than the most", self.strict.between, 2),
            ("of them with faulty nodes", self.strict.faulty, 5),
            (
                "of them with the delivery premise",
                self.strict.premise_held,
                5,
            ),
            ("delivered by a stricter quorum", self.strict.delivered, 20),
            (
                "bundles with the least quorum, held back",
                self.strict.held_back,
                10,
            ),
        ]
    }

    pub fn assert_not_vacuous(&self) {
        assert!(self.lists >= 1000, "{} lists show nothing", self.lists);
        for (what, count, in_a_hundred) in self.counts() {
            assert!(count >= self.lists * in_a_hundred / 100, "{count} {what}");
        }
        for number in REFUSALS {
            let count = self.refused[number];
            assert!(count >= self.lists / 2000, "{count} refused {number}");
        }
    }
}

impl Strict {
    fn add(&mut self, system: &System, trace: &[Step], history: &History) {
        let (least, most) = system.quorums().into_inner();
        self.lists += 1;
        self.between += u64::from(system.q < most);
        self.faulty += u64::from(system.faulty != 0);
        let reached = demand3::reached(history, system.nearly_all());
        self.premise_held += u64::from(reached && history.has_something_to_deliver());
        let held_back = |step: &&Step| {
            matches!(step.code, KEPT | SIGNED | NOTED | 24)
                && step
                    .accepts()
                    .is_some_and(|fields| fields.signers.count_ones() >= least)
        };
        let delivered = |step: &&Step| step.code == DELIVERED;
        self.held_back += trace.iter().filter(held_back).count() as u64;
        self.delivered += trace.iter().filter(delivered).count() as u64;
    }
}

fn equivocates(trace: &[Step]) -> bool {
    let mut first: HashMap<Slot, Payload> = HashMap::new();
    let mut signed = trace.iter().filter_map(Step::signs);
    signed.any(|(slot, payload)| *first.entry(slot).or_insert(payload) != payload)
}

impl fmt::Display for Tally {
    fn fmt(&self, f: &mut fmt::Formatter) -> fmt::Result {
        writeln!(f, "{} lists", self.lists)?;
        for (what, count, _) in self.counts() {
            writeln!(f, "  {count} {what}")?;
        }
        write!(f, "  refused, by number:")?;
        for number in REFUSALS {
            write!(f, " {number}: {}", self.refused[number])?;
        }
        Ok(())
    }
}
