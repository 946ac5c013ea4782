//! Players that are the right one but for one thing, made by changing what it gets or what it prints: the comparison has to find each.

use crate::expected;
use crate::heads::{nodes_of, numbers, quorums, NAMES, NAMES_WITHOUT_QUORUM};
use crate::percents::PERCENTS;
use std::collections::BTreeMap;

type Player = fn(&[u8]) -> Vec<u8>;

pub const PLAYERS: [(&str, Player); 37] = [
    ("percent rounded up", |input| {
        with_last_rows(input, |nodes, n| (100 * nodes).div_ceil(n))
    }),
    ("the fraction dropped", |input| {
        with_last_rows(input, |nodes, n| 100 * nodes / n)
    }),
    ("a half up", |input| {
        with_last_rows(input, |nodes, n| nearest(nodes, n)[1])
    }),
    ("a half down", |input| {
        with_last_rows(input, |nodes, n| nearest(nodes, n)[0])
    }),
    ("a half to the odd neighbour", |input| {
        with_last_rows(input, |nodes, n| match nearest(nodes, n) {
            [down, _] if down % 2 == 1 => down,
            [_, up] => up,
        })
    }),
    ("percent of 8 always", |input| {
        with_last_rows(input, |nodes, _| PERCENTS[8 - 1][nodes - 1])
    }),
    ("an unread row has no place", |input| {
        let mut place = 0;
        edit_answers(input, |fields| {
            place += usize::from(fields[3] != "unread");
            fields[0] = place.to_string();
        })
    }),
    ("a sender n or above is unread", |input| {
        edit_answers(input, |fields| {
            if fields[3..5] == ["refused", "5"] {
                let unread = [&fields[0], "-", "-", "unread", "0", "0"].map(str::to_owned);
                fields.clone_from_slice(&unread);
            }
        })
    }),
    ("24 in place of 23", |input| {
        edit_answers(input, |fields| {
            if fields[4] == "23" {
                fields[4] = "24".to_owned();
            }
        })
    }),
    ("another word in place of noted", |input| {
        edit_answers(input, |fields| {
            if fields[3] == "noted" {
                fields[3] = "kept".to_owned();
            }
        })
    }),
    ("refused in place of noted", |input| {
        edit_answers(input, |fields| {
            if fields[3] == "noted" {
                fields[3..].clone_from_slice(&["refused", "24", "0"].map(str::to_owned));
            }
        })
    }),
    ("reason 24 beside noted", |input| {
        edit_answers(input, |fields| {
            if fields[3] == "noted" {
                fields[4] = "24".to_owned();
            }
        })
    }),
    ("no count beside noted", |input| {
        edit_answers(input, |fields| {
            if fields[3] == "noted" {
                fields[5] = "0".to_owned();
            }
        })
    }),
    ("the count of the held signers beside noted", |input| {
        with_noted_counts(input, |held, _, _| held)
    }),
    ("the count of the bundle's signers beside noted", |input| {
        with_noted_counts(input, |_, brought, _| brought)
    }),
    ("the counts of held and noted signers together", |input| {
        with_noted_counts(input, |held, _, noted| held + noted)
    }),
    ("leading zeros accepted", |input| {
        expected(&edit_fields(input, |field| {
            if field.len() < 6 {
                while let [b'0', _, ..] = field[..] {
                    field.remove(0);
                }
            }
        }))
    }),
    ("a plus sign accepted", |input| {
        expected(&edit_fields(input, |field| {
            if let [b'+', _, ..] = field[..] {
                field.remove(0);
            }
        }))
    }),
    ("upper-case digits accepted", |input| {
        expected(&edit_fields(input, |field| {
            if field.len() >= 16 {
                field.make_ascii_lowercase();
            }
        }))
    }),
    ("numbers wrap at 256", |input| {
        expected(&edit_fields(input, |field| {
            let number = std::str::from_utf8(field)
                .ok()
                .and_then(|text| text.parse::<u64>().ok());
            if let (Some(number), 3..) = (number, field.len()) {
                if field.len() < 16 {
                    *field = (number % 256).to_string().into_bytes();
                }
            }
        }))
    }),
    ("double spaces accepted", |input| {
        expected(&edit_lines(input, |line| {
            line.dedup_by(|a, b| (*a, *b) == (b' ', b' '))
        }))
    }),
    ("a carriage return dropped", |input| {
        expected(&edit_lines(input, |line| {
            line.pop_if(|last| *last == b'\r');
        }))
    }),
    ("an over-long row is two", |input| {
        expected(&edit_lines(input, |line| {
            if line.len() > 120 {
                line.insert(120, b'\n');
            }
        }))
    }),
    ("the fifth number is not looked at", |input| {
        with_head(input, |_, fields, [least, _]| {
            if fields.len() == 5 {
                fields[4] = least.to_string();
            }
        })
    }),
    ("the least quorum is played", |input| {
        with_quorum(input, |quorum, [least, most]| match quorum {
            _ if (least..=most).contains(&quorum) => least,
            _ => quorum,
        })
    }),
    ("the most quorum is played", |input| {
        with_quorum(input, |quorum, [least, most]| match quorum {
            _ if (least..=most).contains(&quorum) => most,
            _ => quorum,
        })
    }),
    ("a quorum above the most accepted", |input| {
        with_quorum(input, |quorum, [_, most]| quorum.min(most))
    }),
    ("a quorum one above the most accepted", |input| {
        with_quorum(input, |quorum, [_, most]| match quorum {
            _ if quorum == most + 1 => most,
            _ => quorum,
        })
    }),
    ("a quorum one below the least accepted", |input| {
        with_quorum(input, |quorum, [least, _]| match quorum {
            _ if quorum + 1 == least => least,
            _ => quorum,
        })
    }),
    ("a quorum of 0 is the least", |input| {
        with_quorum(input, |quorum, [least, _]| match quorum {
            0 => least,
            _ => quorum,
        })
    }),
    ("a quorum wraps at 32 bits", |input| {
        with_quorum(input, |quorum, _| quorum % (1 << 32))
    }),
    ("four numbers accepted", |input| {
        with_head(input, |names, fields, [least, _]| {
            if names == NAMES && fields.len() == 4 {
                fields.push(least.to_string());
            }
        })
    }),
    ("six numbers accepted", |input| {
        with_head(input, |_, fields, _| {
            if fields.len() == 6 {
                fields.pop();
            }
        })
    }),
    (
        "names without quorum accepted before a table without",
        |input| {
            with_head(input, |names, fields, [least, _]| {
                if names == NAMES_WITHOUT_QUORUM && fields.len() == 4 {
                    *names = NAMES.to_owned();
                    fields.push(least.to_string());
                }
            })
        },
    ),
    (
        "names without quorum accepted before a table with one",
        |input| {
            with_head(input, |names, fields, _| {
                if names == NAMES_WITHOUT_QUORUM && fields.len() == 5 {
                    *names = NAMES.to_owned();
                }
            })
        },
    ),
    ("a last row without line feed is not played", |input| {
        let end = input.iter().rposition(|&byte| byte == b'\n');
        expected(&input[..end.map_or(0, |end| end + 1)])
    }),
    ("a byte is lost at the end of a buffer", |input| {
        let mut bytes = input.to_vec();
        if bytes.len() > 65536 {
            bytes.remove(65536);
        }
        expected(&bytes)
    }),
];

/// What is printed where the names line and the fields of the table are changed; the change knows the least and the most quorum. A table of
/// other things than numbers, or that no quorum makes good, stays.
fn with_head(input: &[u8], edit: impl Fn(&mut String, &mut Vec<String>, [u128; 2])) -> Vec<u8> {
    let mut lines: Vec<_> = input.split(|&byte| byte == b'\n').collect();
    let edited = || {
        let mut names = String::from_utf8(lines.first()?.to_vec()).ok()?;
        let row = std::str::from_utf8(lines.get(1)?).ok()?;
        let (least, most) = quorums(&numbers(row)?)?;
        let mut fields: Vec<_> = row.split(' ').map(str::to_owned).collect();
        edit(&mut names, &mut fields, [least, most]);
        Some([names, fields.join(" ")])
    };
    let Some(head) = edited() else {
        return expected(input);
    };
    for (line, edited) in lines.iter_mut().zip(&head) {
        *line = edited.as_bytes();
    }
    expected(&lines.join(&b'\n'))
}

/// The same for the quorum of five numbers alone.
fn with_quorum(input: &[u8], edit: impl Fn(u128, [u128; 2]) -> u128) -> Vec<u8> {
    with_head(input, |_, fields, range| {
        if let [_, _, _, _, quorum] = &mut fields[..] {
            let chosen = edit(quorum.parse().expect("a number"), range);
            *quorum = chosen.to_string();
        }
    })
}

fn edit_lines(input: &[u8], mut edit: impl FnMut(&mut Vec<u8>)) -> Vec<u8> {
    let lines = input.split(|&byte| byte == b'\n');
    let mut lines: Vec<_> = lines.map(<[u8]>::to_vec).collect();
    lines.iter_mut().for_each(&mut edit);
    lines.join(&b'\n')
}

fn edit_fields(input: &[u8], mut edit: impl FnMut(&mut Vec<u8>)) -> Vec<u8> {
    edit_lines(input, |line| {
        let fields = line.split(|&byte| byte == b' ');
        let mut fields: Vec<_> = fields.map(<[u8]>::to_vec).collect();
        fields.iter_mut().for_each(&mut edit);
        *line = fields.join(&b' ');
    })
}

/// The right output with its rows of six fields changed, but for the names.
fn edit_answers(input: &[u8], mut edit: impl FnMut(&mut [String])) -> Vec<u8> {
    edit_printed(input, |fields| {
        if fields.len() == 6 && fields[0] != "line" {
            edit(fields);
        }
    })
}

/// The right output with other counts beside noted, from the counts of the held signers, of the bundle's and of the noted ones.
fn with_noted_counts(input: &[u8], count: impl Fn(u32, u32, u32) -> u32) -> Vec<u8> {
    let text = String::from_utf8_lossy(input);
    let rows: Vec<Vec<_>> = text
        .split('\n')
        .skip(3)
        .map(|row| row.split(' ').collect())
        .collect();
    let (mut announced, mut held) = (BTreeMap::new(), BTreeMap::new());
    edit_answers(input, |fields| {
        let place: usize = fields[0].parse().expect("a place");
        let printed: u32 = fields[5].parse().expect("a count");
        let row = &rows[place - 1];
        match fields[3].as_str() {
            "announced" => {
                let numbers = announced.entry(row[1]).or_insert(0);
                held.insert([row[1], row[1], &numbers.to_string()].join(" "), printed);
                *numbers += 1;
            }
            "signed" | "kept" | "delivered" => _ = held.insert(row[1..4].join(" "), printed),
            "noted" => {
                let brought = u64::from_str_radix(row[4], 16).expect("signers");
                let held = held[&row[1..4].join(" ")];
                fields[5] = count(held, brought.count_ones(), printed).to_string();
            }
            _ => {}
        }
    })
}

fn with_last_rows(input: &[u8], percent: impl Fn(usize, usize) -> usize) -> Vec<u8> {
    edit_printed(input, |fields| {
        if fields.len() == 4 && fields[0] != "sender" {
            let nodes = fields[2].parse().expect("a count");
            fields[3] = percent(nodes, nodes_of(input)).to_string();
        }
    })
}

/// The whole percents that are nearest: the lower and the upper one of two, or one twice.
fn nearest(nodes: usize, n: usize) -> [usize; 2] {
    [n - 1, n].map(|half| (2 * 100 * nodes + half) / (2 * n))
}

fn edit_printed(input: &[u8], mut edit: impl FnMut(&mut [String])) -> Vec<u8> {
    let output = String::from_utf8(expected(input)).expect("only letters and digits are printed");
    let mut text = String::new();
    for line in output.lines() {
        let mut fields: Vec<_> = line.split(' ').map(str::to_owned).collect();
        edit(&mut fields);
        text += &fields.join(" ");
        text += "\n";
    }
    text.into_bytes()
}
