//! The three lines before the rows of a run file, by what the quorum is in them.

use mbrb::Config;

pub const NAMES: &str = "units faults losses day quorum";
pub const NAMES_WITHOUT_QUORUM: &str = "units faults losses day";
const STEP_NAMES: &str = "act unit sender number signers body";

/// A head in which nothing is wrong, or nothing but the quorum.
#[derive(Clone, Copy, Debug, PartialEq, Eq, PartialOrd, Ord)]
pub enum Head {
    /// the only quorum that the table may have
    Only,
    Least,
    Between,
    Most,
    /// Neither names nor table have it.
    Without,
    WithoutItsName,
    WithoutItsNumber,
    SixNumbers,
    Zero,
    OneBelow,
    OneAbove,
    FarAbove,
    /// the greatest number of 32 bits
    Greatest,
    /// 32 bits are too few for it.
    TooLarge,
}

pub const HEADS: [Head; 14] = [
    Head::Only,
    Head::Least,
    Head::Between,
    Head::Most,
    Head::Without,
    Head::WithoutItsName,
    Head::WithoutItsNumber,
    Head::SixNumbers,
    Head::Zero,
    Head::OneBelow,
    Head::OneAbove,
    Head::FarAbove,
    Head::Greatest,
    Head::TooLarge,
];

impl Head {
    /// None if something else is wrong.
    pub fn of(file: &[u8]) -> Option<Head> {
        let mut lines = file.split(|&byte| byte == b'\n');
        let mut line = || std::str::from_utf8(lines.next()?).ok();
        let (names, row, step_names) = (line()?, line()?, line()?);
        let numbers = numbers(row)?;
        let (least, most) = quorums(&numbers)?;
        let quorum = numbers.get(4).copied();
        let allowed = quorum.is_none_or(|quorum| (least..=most).contains(&quorum));
        match (names, numbers.len()) {
            _ if step_names != STEP_NAMES => None,
            (NAMES, 5) => Head::of_quorum(quorum?, least, most),
            _ if !allowed => None,
            (NAMES, 4) => Some(Head::WithoutItsNumber),
            (NAMES, 6) => Some(Head::SixNumbers),
            (NAMES_WITHOUT_QUORUM, 4) => Some(Head::Without),
            (NAMES_WITHOUT_QUORUM, 5) => Some(Head::WithoutItsName),
            _ => None,
        }
    }

    fn of_quorum(quorum: u128, least: u128, most: u128) -> Option<Head> {
        const GREATEST: u128 = u32::MAX as u128;
        match quorum {
            _ if quorum == least && quorum == most => Some(Head::Only),
            _ if quorum == least => Some(Head::Least),
            _ if quorum == most => Some(Head::Most),
            _ if (least..most).contains(&quorum) => Some(Head::Between),
            0 => Some(Head::Zero),
            _ if quorum + 1 == least => Some(Head::OneBelow),
            _ if quorum < least => None,
            _ if quorum == most + 1 => Some(Head::OneAbove),
            1..GREATEST => Some(Head::FarAbove),
            GREATEST => Some(Head::Greatest),
            _ => Some(Head::TooLarge),
        }
    }

    pub fn has_table(self) -> bool {
        self <= Head::Most
    }
}

/// How many nodes the run of a file with a good table has: one digit tells.
pub fn nodes_of(file: &[u8]) -> usize {
    let table = file.split(|&byte| byte == b'\n').nth(1);
    let digit = table.and_then(|table| table.first()).expect("a table");
    usize::from(digit - b'0')
}

/// The numbers of a table row, if all of them are plain and none has more digits than 128 bits have room for.
pub fn numbers(row: &str) -> Option<Vec<u128>> {
    let number = |field: &str| {
        let number: u128 = field.parse().ok()?;
        (number.to_string() == field).then_some(number)
    };
    row.split(' ').map(number).collect()
}

/// The least and the most quorum that a table may have, whatever its own is, if it is good otherwise and one of a run.
pub fn quorums(numbers: &[u128]) -> Option<(u128, u128)> {
    let byte = |at: usize| u8::try_from(*numbers.get(at)?).ok();
    let config = Config {
        n: byte(0).filter(|&n| n <= 8)?,
        t: byte(1)?,
        d: byte(2)?,
        own: 0,
        day: u32::try_from(*numbers.get(3)?).ok()?,
        q: 0,
    };
    let (least, most) = config.quorums()?.into_inner();
    Some((least.into(), most.into()))
}
