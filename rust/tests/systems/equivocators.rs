//! Two recordings side by side at the end of a list: whom they name.
//!
//! A correct node's bit stands only beside what it has signed, and that is one payload of a slot. So the recordings of correct nodes name
//! no correct one, whatever the faulty ones did, and no more than may be faulty.

use crate::run::Run;
use crate::trace::nodes_of;
use std::collections::BTreeMap;
use std::fmt;

/// Whom the recordings of two nodes name, and the refusal or 0.
struct Naming {
    by: [u8; 2],
    word: u64,
    refusal: u32,
}

/// By every two different nodes that were called, in both orders; in larger systems, where there are many, by each and the next one. The
/// second one's recording is of `other`: the same list, but where a test shows that it has to be.
fn namings<'a>(run: &'a Run, other: &'a Run) -> impl Iterator<Item = Naming> + 'a {
    let called = Vec::from_iter(nodes_of(run.called() & other.called()));
    let count = called.len();
    let apart = match run.system.n {
        ..=10 => count,
        _ => count.min(2),
    };
    let pairs =
        (0..count).flat_map(move |at| (1..apart).map(move |more| [at, (at + more) % count]));
    pairs.map(move |pair| {
        let by = pair.map(|at| called[at]);
        let (word, refusal) = run.equivocators(by[0], other, by[1]);
        Naming { by, word, refusal }
    })
}

/// Whether the recordings of two nodes name a correct one, the second one's being of `other`.
pub fn correct_is_named(run: &Run, other: &Run) -> bool {
    namings(run, other).any(|naming| naming.word & run.system.correct() != 0)
}

/// What was seen at the ends of lists.
#[derive(Default)]
pub struct Named {
    lists: u64,
    /// lists in which somebody is named
    lists_with_named: u64,
    /// two recordings side by side
    pairs: u64,
    /// those of them that name somebody
    naming: u64,
    /// that name several
    naming_several: u64,
    /// that name as many as may be faulty
    naming_most: u64,
    /// that name somebody whom neither of the two names alone
    naming_together: u64,
}

impl Named {
    /// Fails if two recordings are refused, or name a correct node or more than may be faulty.
    pub fn add(&mut self, run: &Run) -> Result<(), String> {
        let (correct, most) = (run.system.correct(), u32::from(run.system.t));
        let alone = nodes_of(run.called()).map(|node| (node, run.equivocators_alone(node).0));
        let alone = BTreeMap::from_iter(alone);
        let mut any = false;
        for Naming { by, word, refusal } in namings(run, run) {
            let count = word.count_ones();
            if refusal != 0 || word & correct != 0 || count > most {
                let named = Vec::from_iter(nodes_of(word));
                return Err(format!("nodes {by:?} name {named:?}, refusal {refusal}"));
            }
            let [first, second] = by.map(|node| alone[&node]);
            any |= word != 0;
            self.pairs += 1;
            self.naming += u64::from(word != 0);
            self.naming_several += u64::from(count > 1);
            self.naming_most += u64::from(word != 0 && count == most);
            self.naming_together += u64::from(word & !(first | second) != 0);
        }
        self.lists += 1;
        self.lists_with_named += u64::from(any);
        Ok(())
    }

    /// Each count, and how many there must be in a hundred lists.
    fn counts(&self) -> [(&str, u64, u64); 6] {
        [
            ("pairs, none of them naming a correct node", self.pairs, 500),
            (
                "lists in which a faulty one is named",
                self.lists_with_named,
                20,
            ),
            ("pairs that name a faulty one", self.naming, 100),
            ("of them several", self.naming_several, 5),
            ("of them as many as may be faulty", self.naming_most, 50),
            (
                "of them one that neither node names alone",
                self.naming_together,
                20,
            ),
        ]
    }

    pub fn assert_not_vacuous(&self) {
        for (what, count, in_a_hundred) in self.counts() {
            assert!(count >= self.lists * in_a_hundred / 100, "{count} {what}");
        }
    }
}

impl fmt::Display for Named {
    fn fmt(&self, f: &mut fmt::Formatter) -> fmt::Result {
        write!(
            f,
            "recordings side by side at the ends of {} lists",
            self.lists
        )?;
        for (what, count, _) in self.counts() {
            write!(f, "\n  {count} {what}")?;
        }
        Ok(())
    }
}
