//! Rules of taking that are right but for one thing: the comparison has to find each.

use super::rules::{join, note, refusal, replace, Half, Outcome, Rules, RIGHT};
use crate::misjudged::MISJUDGED;
use crate::records::{bit, DELIVERED, HELD};

/// What is wrong, and the rules with it.
pub fn wrong() -> Vec<(&'static str, Rules)> {
    let misjudging = MISJUDGED.map(|(name, well_formed)| {
        let rules = Rules {
            well_formed,
            ..RIGHT
        };
        (name, rules)
    });
    [NOTING, JOINING, REPLACING, REFUSING, &misjudging].concat()
}

/// What is right, with one thing changed.
fn changed(right: Result<Outcome, u32>, change: impl FnOnce(&mut Outcome)) -> Result<Outcome, u32> {
    right.map(|mut outcome| {
        change(&mut outcome);
        outcome
    })
}

const NOTING: &[(&str, Rules)] = &[
    (
        "a second payload refused",
        Rules {
            note: |_| Err(24),
            ..RIGHT
        },
    ),
    (
        "the noted payload refused where it comes again",
        Rules {
            note: |meeting| match meeting.notes() {
                true => Err(24),
                false => note(meeting),
            },
            ..RIGHT
        },
    ),
    (
        "a third payload noted in place of the second",
        Rules {
            note: |meeting| note(meeting).or_else(|_| Ok(meeting.noting(meeting.brought))),
            ..RIGHT
        },
    ),
    (
        "signers of a third payload joined to the noted ones",
        Rules {
            note: |meeting| {
                let joined = meeting.noted.with(meeting.brought.signers);
                note(meeting).or_else(|_| Ok(meeting.noting(joined)))
            },
            ..RIGHT
        },
    ),
    (
        "noted signers replaced",
        Rules {
            note: |meeting| changed(note(meeting), |outcome| outcome.noted = meeting.brought),
            ..RIGHT
        },
    ),
    (
        "a note of an all-zero payload taken for none",
        Rules {
            note: |meeting| match meeting.noted.payload {
                [0, 0, 0, 0, 0, 0, 0, 0, 0, 0, 0, 0, 0, 0, 0, 0] => {
                    Ok(meeting.noting(meeting.brought))
                }
                _ => note(meeting),
            },
            ..RIGHT
        },
    ),
    (
        "our own bit noted too",
        Rules {
            note: |meeting| {
                changed(note(meeting), |outcome| {
                    outcome.noted = outcome.noted.with(bit(meeting.config.own))
                })
            },
            ..RIGHT
        },
    ),
    (
        "noted signers joined to the held ones",
        Rules {
            note: |meeting| {
                changed(note(meeting), |outcome| {
                    outcome.first = outcome.first.with(meeting.brought.signers)
                })
            },
            ..RIGHT
        },
    ),
    (
        "what is noted sent",
        Rules {
            note: |meeting| changed(note(meeting), |outcome| outcome.sends = true),
            ..RIGHT
        },
    ),
    (
        "noted told as kept",
        Rules {
            note: |meeting| changed(note(meeting), |outcome| outcome.code = 100),
            ..RIGHT
        },
    ),
    (
        "a note counted towards the quorum: it delivers",
        Rules {
            note: |meeting| {
                note(meeting).map(|outcome| match meeting.enough(outcome.noted) {
                    true => meeting.settled(outcome.noted, meeting.first),
                    false => outcome,
                })
            },
            ..RIGHT
        },
    ),
    (
        "the state made delivered by a quorum of noted signers",
        Rules {
            note: |meeting| {
                changed(note(meeting), |outcome| {
                    if meeting.enough(outcome.noted) {
                        outcome.state = DELIVERED;
                    }
                })
            },
            ..RIGHT
        },
    ),
];

const JOINING: &[(&str, Rules)] = &[
    (
        "the note cleared at kept",
        Rules {
            join: |meeting| {
                changed(join(meeting), |outcome| {
                    if outcome.code == 100 {
                        outcome.noted = Half::NOTHING;
                    }
                })
            },
            ..RIGHT
        },
    ),
    (
        "the note cleared where the held payload is delivered",
        Rules {
            join: |meeting| {
                changed(join(meeting), |outcome| {
                    if outcome.code == 102 {
                        outcome.noted = Half::NOTHING;
                    }
                })
            },
            ..RIGHT
        },
    ),
    (
        "noted signers counted with those of the held payload",
        Rules {
            join: |meeting| {
                let right = join(meeting)?;
                let together = right.first.with(meeting.noted.signers);
                let state = meeting.settled(together, meeting.noted);
                Ok(Outcome {
                    first: right.first,
                    ..state
                })
            },
            ..RIGHT
        },
    ),
    (
        "noted signers joined to those of the held payload",
        Rules {
            join: |meeting| {
                let first = join(meeting)?.first;
                Ok(meeting.settled(first.with(meeting.noted.signers), meeting.noted))
            },
            ..RIGHT
        },
    ),
];

const REPLACING: &[(&str, Rules)] = &[
    (
        "the held half lost where a quorum brings another payload",
        Rules {
            replace: |meeting| Ok(meeting.settled(meeting.brought, Half::NOTHING)),
            ..RIGHT
        },
    ),
    (
        "the old note kept then, if there is one",
        Rules {
            replace: |meeting| match meeting.noted {
                Half::NOTHING => replace(meeting),
                noted => Ok(meeting.settled(meeting.brought, noted)),
            },
            ..RIGHT
        },
    ),
    (
        "a note of another payload kept then",
        Rules {
            replace: |meeting| match meeting.notes() || meeting.noted == Half::NOTHING {
                true => replace(meeting),
                false => Ok(meeting.settled(meeting.brought, meeting.noted)),
            },
            ..RIGHT
        },
    ),
    (
        "a note of that very payload joined to the delivered signers",
        Rules {
            replace: |meeting| match meeting.notes() {
                true => {
                    Ok(meeting.settled(meeting.brought.with(meeting.noted.signers), meeting.first))
                }
                false => replace(meeting),
            },
            ..RIGHT
        },
    ),
    (
        "the noted signers joined to those of the held half then",
        Rules {
            replace: |meeting| {
                Ok(meeting.settled(meeting.brought, meeting.first.with(meeting.noted.signers)))
            },
            ..RIGHT
        },
    ),
    (
        "the held half noted without our own bit",
        Rules {
            replace: |meeting| {
                Ok(meeting.settled(meeting.brought, meeting.first.without(meeting.config.own)))
            },
            ..RIGHT
        },
    ),
    (
        "the held signers kept beside the other payload",
        Rules {
            replace: |meeting| {
                Ok(meeting.settled(meeting.brought.with(meeting.first.signers), meeting.first))
            },
            ..RIGHT
        },
    ),
    (
        "a quorum for another payload noted",
        Rules {
            replace: note,
            ..RIGHT
        },
    ),
    (
        "a quorum for a third payload refused",
        Rules {
            replace: |meeting| match meeting.notes() || meeting.noted == Half::NOTHING {
                true => replace(meeting),
                false => Err(24),
            },
            ..RIGHT
        },
    ),
];

const REFUSING: &[(&str, Rules)] = &[
    (
        "noted where our bit comes with the noted payload",
        Rules {
            refusal: |meeting| refusal(meeting).filter(|&number| number != 23 || !meeting.notes()),
            ..RIGHT
        },
    ),
    (
        "noted where our bit comes with a second payload",
        Rules {
            refusal: |meeting| {
                let second = meeting.state == HELD && meeting.noted == Half::NOTHING;
                refusal(meeting).filter(|&number| number != 23 || !second)
            },
            ..RIGHT
        },
    ),
    (
        "24 before 23",
        Rules {
            refusal: |meeting| {
                let fewer =
                    meeting.state == HELD && !meeting.holds() && !meeting.enough(meeting.brought);
                match fewer && meeting.noted != Half::NOTHING && !meeting.notes() {
                    true => Some(24),
                    false => refusal(meeting),
                }
            },
            ..RIGHT
        },
    ),
    (
        "another payload noted in a delivered record",
        Rules {
            refusal: |meeting| {
                let other = meeting.first.payload != meeting.brought.payload;
                let noted = other && !meeting.enough(meeting.brought) && !meeting.has_our_bit();
                refusal(meeting).filter(|&number| number != 22 || !noted)
            },
            ..RIGHT
        },
    ),
];
