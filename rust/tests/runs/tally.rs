//! How often each thing was seen that a run can print or have.

use crate::files::{Feed, Made};
use crate::heads::{nodes_of, Head, HEADS};
use crate::percents::{share, shares};
use std::collections::BTreeMap;
use std::fmt;

/// Besides, each refusal that can occur in a run: its tables, days, lengths and records are always right. And each percent, by the number of
/// nodes and of those that delivered.
const WORDS: [&str; 9] = [
    "announced 0",
    "kept 0",
    "signed 0",
    "delivered 0",
    "noted 0",
    "unread 0",
    "no table",
    "over-long row",
    "fed in pieces",
];
const REFUSALS: [u32; 8] = [5, 6, 7, 8, 22, 23, 24, 25];

#[derive(Default)]
pub struct Tally {
    seen: BTreeMap<String, u64>,
    kinds: BTreeMap<&'static str, u64>,
    heads: BTreeMap<Head, u64>,
}

impl Tally {
    pub fn count(&mut self, made: &Made, output: &[u8]) {
        *self.kinds.entry(made.kind).or_default() += 1;
        if matches!(made.feed, Feed::Pipe(_)) {
            self.add("fed in pieces".to_owned());
        }
        let output = std::str::from_utf8(output).expect("only letters and digits are printed");
        let names = |line: &&str| line.ends_with("count") || line.ends_with("percent");
        for line in output.lines().filter(|line| !names(line)) {
            match line.split(' ').collect::<Vec<_>>()[..] {
                [_, _, _, word, reason, _] => self.add(format!("{word} {reason}")),
                [_, _, nodes, percent] => self.add(share(nodes, nodes_of(&made.bytes), percent)),
                _ => self.add(line.to_owned()),
            }
        }
        let no_table = output == "no table\n";
        if let Some(head) = Head::of(&made.bytes) {
            assert_ne!(no_table, head.has_table(), "{head:?}");
            *self.heads.entry(head).or_default() += 1;
        }
        if !no_table {
            let rows = made.bytes.split(|&byte| byte == b'\n').skip(3);
            rows.filter(|row| row.len() > 120)
                .for_each(|_| self.add("over-long row".to_owned()));
        }
    }

    fn add(&mut self, key: String) {
        *self.seen.entry(key).or_default() += 1;
    }

    /// Fails if something that can occur was seen less than `least` times, or if something was seen that cannot occur.
    pub fn assert_complete(&self, least: u64) {
        let mut others = self.seen.clone();
        let words = WORDS.into_iter().map(str::to_owned);
        let refusals = REFUSALS.map(|number| format!("refused {number}"));
        for key in words.chain(refusals).chain(shares()) {
            let count = others.remove(&key).unwrap_or(0);
            assert!(count >= least, "{key}: {count}, not {least}");
        }
        assert!(others.is_empty(), "cannot occur: {others:?}");
        for head in HEADS {
            let count = self.heads.get(&head).copied().unwrap_or(0);
            assert!(count >= least / 4, "{head:?}: {count}, not {}", least / 4);
        }
    }
}

impl fmt::Display for Tally {
    fn fmt(&self, f: &mut fmt::Formatter) -> fmt::Result {
        writeln!(f, "rows, or files with no table")?;
        for (key, count) in &self.seen {
            writeln!(f, "  {key:34}{count:>9}")?;
        }
        writeln!(
            f,
            "files in which the quorum is right, or nothing else is wrong"
        )?;
        for (head, count) in &self.heads {
            writeln!(f, "  {:34}{count:>9}", format!("{head:?}"))?;
        }
        writeln!(f, "files")?;
        for (kind, count) in &self.kinds {
            writeln!(f, "  {kind:34}{count:>9}")?;
        }
        Ok(())
    }
}
