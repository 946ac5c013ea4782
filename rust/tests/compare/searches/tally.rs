//! How often the search ended at each place, and what lay around it.

use super::buffers::{Buffer, Content, End};
use crate::records::{Clause, CLAUSES};
use crate::tally::{assert_seen, in_our_slots};
use std::collections::{BTreeMap, BTreeSet};
use std::fmt;

#[derive(Clone, Copy, Debug, PartialEq, Eq, PartialOrd, Ord)]
enum Seen {
    End(End),
    /// what makes the record malformed that ends the search
    EndBy(Clause),
    /// the same, and the record's number
    EndByAt(Clause, usize),
    Nodes(u8),
    Before(Content),
    BehindEmpty(Content),
    BehindMalformed(Content),
}

#[derive(Default)]
pub struct Tally {
    buffers: u64,
    seen: BTreeMap<Seen, u64>,
}

impl Tally {
    pub fn count(&mut self, buffer: &Buffer) {
        self.buffers += 1;
        let mut seen = BTreeSet::from([Seen::End(buffer.end), Seen::Nodes(buffer.case.config.n)]);
        let (before, rest) = buffer.contents.split_at(buffer.end.seq());
        seen.extend(before.iter().copied().map(Seen::Before));
        let behind: fn(Content) -> Seen = match rest.first() {
            Some(Content::Malformed(clause)) => {
                let at = before.len();
                seen.extend([Seen::EndBy(*clause), Seen::EndByAt(*clause, at)]);
                Seen::BehindMalformed
            }
            _ => Seen::BehindEmpty,
        };
        seen.extend(rest.iter().skip(1).copied().map(behind));
        for kind in seen {
            *self.seen.entry(kind).or_default() += 1;
        }
    }

    /// Fails if something that can occur was seen less than `least` times, or if something was seen that cannot occur.
    pub fn assert_complete(&self, least: u64) {
        assert_seen("search", &self.seen, kinds(), least);
    }
}

/// All that can be seen.
fn kinds() -> impl Iterator<Item = Seen> {
    let clauses = || CLAUSES.into_iter().filter(|&clause| in_our_slots(clause));
    let numbered = |clause| (0..16).map(move |seq| Seen::EndByAt(clause, seq));
    let in_use = [Content::Held, Content::Delivered];
    let contents = || {
        [Content::Empty, Content::AnyBytes]
            .into_iter()
            .chain(in_use)
            .chain(clauses().map(Content::Malformed))
    };
    (0..End::COUNT)
        .map(|index| Seen::End(End::nth(index)))
        .chain(clauses().map(Seen::EndBy))
        .chain(clauses().flat_map(numbered))
        .chain((1..=64).map(Seen::Nodes))
        .chain(in_use.map(Seen::Before))
        .chain(contents().map(Seen::BehindEmpty))
        .chain(contents().map(Seen::BehindMalformed))
}

impl fmt::Display for Tally {
    fn fmt(&self, f: &mut fmt::Formatter) -> fmt::Result {
        writeln!(f, "searches for our next number: {}", self.buffers)?;
        for (kind, count) in &self.seen {
            if let Seen::End(_) | Seen::EndBy(_) = kind {
                writeln!(f, "  {:34}{count:>9}", format!("{kind:?}"))?;
            }
        }
        self.show_rarest(f, "ends", |kind| matches!(kind, Seen::End(_)))?;
        self.show_rarest(f, "kinds", |_| true)
    }
}

impl Tally {
    fn show_rarest(
        &self,
        f: &mut fmt::Formatter,
        what: &str,
        among: fn(&Seen) -> bool,
    ) -> fmt::Result {
        let counts = || self.seen.iter().filter(|(kind, _)| among(kind));
        let rarest = counts().min_by_key(|(_, count)| **count);
        let (kind, count) = rarest.expect("something was seen");
        let all = counts().count();
        writeln!(f, "of {all} {what} the rarest: {kind:?}, {count}")
    }
}
