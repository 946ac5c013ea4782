//! One call given to two implementations, and what to show if they differ.

use mbrb::reference::{RecordBytes, RECORD_LENGTH, SENDER_LENGTH};
use mbrb::{host, reference, Config};
use std::fmt;

pub type Call = fn(&Config, &[u8], &mut [u8], &mut [u8]) -> u32;

/// The calls of a C host; each gives its code.
#[derive(Clone, Copy)]
pub struct Implementation {
    pub open: fn(&Config, &mut [u8]) -> u32,
    pub broadcast: Call,
    pub receive: Call,
    /// It is lent the records to write as well: whether it leaves them is to be seen, and a wrong one may not.
    pub preview: Call,
}

pub const HOST: Implementation = Implementation {
    open: host::open,
    broadcast: host::broadcast,
    receive: host::receive,
    preview: |config, bundle, records, out| host::preview(config, bundle, records, out),
};

pub const REFERENCE: Implementation = Implementation {
    open: reference::open_code,
    broadcast: reference::broadcast_code,
    receive: reference::receive_code,
    preview: |config, bundle, records, out| reference::preview_code(config, bundle, records, out),
};

#[derive(Clone, Copy, Debug, PartialEq, Eq, PartialOrd, Ord)]
pub enum Kind {
    Open,
    Broadcast,
    Receive,
    Preview,
}

/// Where the slot's record starts.
pub fn place(sender: u8, seq: u8) -> usize {
    SENDER_LENGTH * usize::from(sender) + RECORD_LENGTH * usize::from(seq)
}

/// What a call gets besides the records' content.
#[derive(Clone, Debug)]
pub struct Case {
    pub kind: Kind,
    pub config: Config,
    /// the payload of a broadcast, the bundle of a receive or a preview; an opening has none
    pub input: Vec<u8>,
    pub records_length: usize,
    /// The call gets the first `out_length` of these; those behind must stay.
    pub out: [u8; 64],
    pub out_length: usize,
}

impl Case {
    /// Where the records start that the answer may depend on, and how many bytes they have. None for an opening, nor for a bundle of no
    /// slot.
    pub fn concerned(&self) -> (usize, usize) {
        let Config { n, own, .. } = self.config;
        match (self.kind, self.input.get(4), self.input.get(5)) {
            (Kind::Broadcast, ..) if own < n => (place(own, 0), SENDER_LENGTH),
            (Kind::Receive | Kind::Preview, Some(&sender), Some(&seq))
                if sender < n && seq < 16 =>
            {
                (place(sender, seq), RECORD_LENGTH)
            }
            _ => (0, 0),
        }
    }

    /// The code and the outgoing bytes, with what lies behind them.
    fn run(&self, implementation: &Implementation, records: &mut [u8]) -> (u32, [u8; 64]) {
        let call = match self.kind {
            Kind::Open => {
                let code = (implementation.open)(&self.config, &mut records[..self.records_length]);
                return (code, self.out);
            }
            Kind::Broadcast => implementation.broadcast,
            Kind::Receive => implementation.receive,
            Kind::Preview => implementation.preview,
        };
        self.run_call(call, records)
    }

    pub fn run_call(
        &self,
        call: impl Fn(&Config, &[u8], &mut [u8], &mut [u8]) -> u32,
        records: &mut [u8],
    ) -> (u32, [u8; 64]) {
        let mut out = self.out;
        let lent = &mut records[..self.records_length];
        let lent_out = &mut out[..self.out_length];
        let code = call(&self.config, &self.input, lent, lent_out);
        (code, out)
    }
}

/// One node's records, a copy for each implementation. Both have room behind the length that is right, so that a write past the end
/// of what was lent is a difference.
#[derive(Clone)]
pub struct Records {
    pub sides: [Vec<u8>; 2],
    /// as they were before the last call
    pub before: Vec<u8>,
    /// what is taken on where a call is a preview
    copy: Vec<u8>,
}

impl Records {
    pub fn zeroed(n: u8) -> Records {
        let bytes = vec![0; SENDER_LENGTH * (usize::from(n) + 1)];
        Records {
            sides: [bytes.clone(), bytes.clone()],
            before: bytes.clone(),
            copy: bytes,
        }
    }

    pub fn room(&self) -> usize {
        self.before.len()
    }

    pub fn record(&self, place: usize) -> RecordBytes {
        let from_place = self.sides[0][place..].first_chunk();
        *from_place.expect("a whole record")
    }

    pub fn put(&mut self, place: usize, record: &RecordBytes) {
        for side in &mut self.sides {
            side[place..place + RECORD_LENGTH].copy_from_slice(record);
        }
    }
}

/// Calls both implementations, each on its own copy. Gives the code and the outgoing bytes on which they agree.
pub fn call_both(
    pair: &[Implementation; 2],
    case: &Case,
    records: &mut Records,
) -> Result<(u32, [u8; 64]), Box<Difference>> {
    records.before.copy_from_slice(&records.sides[0]);
    let one = case.run(&pair[0], &mut records.sides[0]);
    let other = case.run(&pair[1], &mut records.sides[1]);
    if one != other || records.sides[0] != records.sides[1] {
        let what = "one implementation and the other";
        return Err(Difference::new(what, case, [one, other], records));
    }
    if case.kind == Kind::Preview {
        hold_to_taking(pair, case, records, one)?;
    }
    Ok(one)
}

/// What both preview is what each of them takes on a copy, and the records are as before. So an error that both have is found as well.
fn hold_to_taking(
    pair: &[Implementation; 2],
    case: &Case,
    records: &mut Records,
    previewed: (u32, [u8; 64]),
) -> Result<(), Box<Difference>> {
    if records.sides[1] != records.before {
        records.sides[0].copy_from_slice(&records.before);
        let what = "the records before a preview and after";
        return Err(Difference::new(what, case, [previewed; 2], records));
    }
    for implementation in pair {
        records.copy.copy_from_slice(&records.before);
        let taken = case.run_call(implementation.receive, &mut records.copy);
        if taken != previewed {
            let what = "taking on a copy and a preview";
            return Err(Difference::new(what, case, [taken, previewed], records));
        }
    }
    Ok(())
}

/// All that one needs to repeat a call on which two implementations differ, or a preview that differs from taking.
pub struct Difference {
    /// what is shown first, and what second
    what: &'static str,
    pub seed: u64,
    /// the number of the call since the seed, from 1
    pub call: u64,
    pub case: Case,
    pub codes: [u32; 2],
    pub outs: [[u8; 64]; 2],
    pub records: Records,
}

impl Difference {
    /// Seed and number of the call are filled in where they are known.
    fn new(
        what: &'static str,
        case: &Case,
        [(code, out), (other_code, other_out)]: [(u32, [u8; 64]); 2],
        records: &Records,
    ) -> Box<Difference> {
        Box::new(Difference {
            what,
            seed: 0,
            call: 0,
            case: case.clone(),
            codes: [code, other_code],
            outs: [out, other_out],
            records: records.clone(),
        })
    }

    pub fn records_differ(&self) -> bool {
        self.records.sides[0] != self.records.sides[1]
    }

    pub fn outs_differ(&self) -> bool {
        self.outs[0] != self.outs[1]
    }

    /// The records concerned, and any other that differs.
    fn places_to_show(&self) -> impl Iterator<Item = usize> + '_ {
        let (start, length) = self.case.concerned();
        let [one, other] = &self.records.sides;
        (0..one.len()).step_by(RECORD_LENGTH).filter(move |&place| {
            let bytes = place..place + RECORD_LENGTH;
            (start..start + length).contains(&place) || one[bytes.clone()] != other[bytes]
        })
    }
}

impl fmt::Debug for Difference {
    fn fmt(&self, f: &mut fmt::Formatter) -> fmt::Result {
        let case = &self.case;
        writeln!(f, "seed {}, call {}: {:?}", self.seed, self.call, case.kind)?;
        writeln!(f, "  {}", self.what)?;
        writeln!(f, "  {:?}", case.config)?;
        let length = case.input.len();
        writeln!(f, "  input, {length} bytes: {}", hex(&case.input))?;
        writeln!(f, "  records: {} bytes lent", case.records_length)?;
        writeln!(f, "  out: {} bytes lent", case.out_length)?;
        writeln!(f, "  codes: {} and {}", self.codes[0], self.codes[1])?;
        for place in self.places_to_show() {
            let shown = |bytes: &[u8]| hex(&bytes[place..place + RECORD_LENGTH]);
            let sender = place / SENDER_LENGTH;
            let seq = place % SENDER_LENGTH / RECORD_LENGTH;
            writeln!(f, "  record of sender {sender}, number {seq}")?;
            writeln!(f, "    before {}", shown(&self.records.before))?;
            writeln!(f, "    after  {}", shown(&self.records.sides[0]))?;
            writeln!(f, "    and    {}", shown(&self.records.sides[1]))?;
        }
        writeln!(f, "  out, and what lies behind it")?;
        writeln!(f, "    before {}", hex(&case.out))?;
        writeln!(f, "    after  {}", hex(&self.outs[0]))?;
        writeln!(f, "    and    {}", hex(&self.outs[1]))
    }
}

fn hex(bytes: &[u8]) -> String {
    bytes.iter().map(|byte| format!("{byte:02x}")).collect()
}
