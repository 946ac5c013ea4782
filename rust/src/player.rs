//! The run program, written from the papers alone: it plays a written run and prints what each step answered.
//!
//! A row is read, played and printed before the next one is looked at, so the memory does not grow with the input.

use crate::reference::{broadcast, receive, Receipt, Refusal, SEQS};
use crate::Config;
use std::io::{self, BufRead, BufReader, Read, Write};

const TABLE_NAMES: &[u8] = b"units faults losses day quorum";
const STEP_NAMES: &[u8] = b"act unit sender number signers body";
const MOST_NODES: u8 = 8;
const LONGEST_ROW: usize = 120;
/// Large enough that system calls cost little beside the rows of a buffer.
const BUFFER: usize = 64 * 1024;

/// Longer than any row that is printed.
const LONGEST_PRINTED: usize = 64;

/// Which side failed: after a failed read what was played is still printed, after a failed write nothing is.
enum Failure {
    Read(io::Error),
    Write(io::Error),
}

/// Plays the run that `input` has. A read that fails ends the run where it is: a line that was not read whole is not played, and the last
/// rows are not printed.
pub fn play(input: impl Read, output: impl Write) -> io::Result<()> {
    let mut printer = Printer::new(output);
    match play_lines(Lines::new(input), &mut printer) {
        Ok(()) => printer.flush(),
        Err(Failure::Read(error)) => printer.flush().and(Err(error)),
        Err(Failure::Write(error)) => Err(error),
    }
}

fn play_lines<W: Write>(
    mut lines: Lines<impl Read>,
    printer: &mut Printer<W>,
) -> Result<(), Failure> {
    let Some(config) = lines.head().map_err(Failure::Read)? else {
        printer.text(b"no table\n");
        return Ok(());
    };
    let mut system = System::new(config);
    printer.text(b"line act unit answer reason count\n");
    let mut place = 0;
    while let Some(row) = lines.next().map_err(Failure::Read)? {
        place += 1;
        match parse_row(row, &config) {
            Some((node, step)) => printer.answer(place, node, &step, system.play(node, &step)),
            None => printer.unread(place),
        }
        printer.make_room().map_err(Failure::Write)?;
    }
    printer.text(b"sender number units percent\n");
    for slot in system.delivered() {
        printer.delivered(&slot);
        printer.make_room().map_err(Failure::Write)?;
    }
    Ok(())
}

/// The lines of the input, one at a time.
struct Lines<R> {
    input: BufReader<R>,
    line: Vec<u8>,
}

impl<R: Read> Lines<R> {
    fn new(input: R) -> Lines<R> {
        Lines {
            input: BufReader::with_capacity(BUFFER, input),
            line: Vec::with_capacity(LONGEST_ROW + 1),
        }
    }

    /// The next line without its line feed. Of a line that is too long for a row only so much is kept that it still is too long.
    fn next(&mut self) -> io::Result<Option<&[u8]>> {
        self.line.clear();
        let mut limited = self.input.by_ref().take(LONGEST_ROW as u64 + 1);
        if limited.read_until(b'\n', &mut self.line)? == 0 {
            return Ok(None);
        }
        if self.line.last() == Some(&b'\n') {
            self.line.pop();
        } else if self.line.len() > LONGEST_ROW {
            self.input.skip_until(b'\n')?;
        }
        Ok(Some(&self.line))
    }

    /// The table of node 0, from the three lines before the first row; None if one of them is missing or wrong.
    fn head(&mut self) -> io::Result<Option<Config>> {
        if self.next()? != Some(TABLE_NAMES) {
            return Ok(None);
        }
        let Some(config) = self.next()?.and_then(parse_config) else {
            return Ok(None);
        };
        Ok((self.next()? == Some(STEP_NAMES)).then_some(config))
    }
}

fn parse_config(row: &[u8]) -> Option<Config> {
    let mut fields = row.split(|&byte| byte == b' ');
    let mut number = || plain_number(fields.next()?);
    let [n, t, d] = [number()?, number()?, number()?];
    let config = Config {
        n: u8::try_from(n).ok()?,
        t: u8::try_from(t).ok()?,
        d: u8::try_from(d).ok()?,
        own: 0,
        day: number()?,
        q: number()?,
    };
    let complete = fields.next().is_none();
    (complete && config.good() && config.n <= MOST_NODES).then_some(config)
}

/// What a row asks of a node.
enum Step {
    /// Act A: announcing the payload.
    Broadcast([u8; 16]),
    /// Act B: taking the bundle.
    Receive([u8; 32]),
}

/// The node that a row is about, and the step; None if the row is not of a step's shape.
fn parse_row(row: &[u8], config: &Config) -> Option<(u8, Step)> {
    if row.len() > LONGEST_ROW {
        return None;
    }
    let (act, fields) = split_field(row)?;
    let (node, fields) = split_byte(fields)?;
    let step = match act {
        b"A" => Step::Broadcast(parse_broadcast(fields)?),
        b"B" => Step::Receive(parse_receive(fields, config.day)?),
        _ => return None,
    };
    (node < config.n).then_some((node, step))
}

fn parse_broadcast(fields: &[u8]) -> Option<[u8; 16]> {
    hexadecimal(fields.strip_prefix(b"- - - ")?)
}

fn parse_receive(fields: &[u8], day: u32) -> Option<[u8; 32]> {
    let (sender, fields) = split_byte(fields)?;
    let (seq, fields) = split_byte(fields)?;
    let (signers, payload) = fields.split_at_checked(16)?;
    let signers: [u8; 8] = hexadecimal(signers)?;
    let payload: [u8; 16] = hexadecimal(payload.strip_prefix(b" ")?)?;
    // One word and not six parts: the call loads it as a word.
    let head = u64::from(day) << 32 | u64::from(sender) << 24 | u64::from(seq) << 16;
    let mut bundle = [0; 32];
    bundle[..8].copy_from_slice(&head.to_be_bytes());
    bundle[8..16].copy_from_slice(&signers);
    bundle[16..].copy_from_slice(&payload);
    Some(bundle)
}

/// The first field, and what follows the space behind it.
fn split_field(row: &[u8]) -> Option<(&[u8], &[u8])> {
    let end = row.iter().position(|&byte| byte == b' ')?;
    Some((&row[..end], &row[end + 1..]))
}

fn split_byte(row: &[u8]) -> Option<(u8, &[u8])> {
    let (field, rest) = split_field(row)?;
    let number = plain_number(field)?;
    Some((u8::try_from(number).ok()?, rest))
}

/// Decimal digits without sign or leading zeros; None also if 32 bits are too few for the number.
fn plain_number(digits: &[u8]) -> Option<u32> {
    if matches!(digits, [] | [b'0', _, ..]) {
        return None;
    }
    digits.iter().try_fold(0_u32, |value, &digit| {
        let digit = digit.wrapping_sub(b'0');
        let value = value.checked_mul(10)?.checked_add(u32::from(digit))?;
        (digit <= 9).then_some(value)
    })
}

/// As many bytes as asked for, from exactly two lowercase digits each. All digits are looked at before one is judged: that way the loop
/// has no branch, and the compiler takes many digits in one instruction.
fn hexadecimal<const LENGTH: usize>(digits: &[u8]) -> Option<[u8; LENGTH]> {
    let (pairs, []) = digits.as_chunks::<2>() else {
        return None;
    };
    let pairs: &[[u8; 2]; LENGTH] = pairs.try_into().ok()?;
    let mut bytes = [0; LENGTH];
    let mut all = 0;
    for (byte, pair) in bytes.iter_mut().zip(pairs) {
        let [high, low] = pair.map(digit_value);
        *byte = high << 4 | low;
        all |= high | low;
    }
    (all <= 15).then_some(bytes)
}

/// Above 15 for what is no lowercase hexadecimal digit.
#[inline(always)]
fn digit_value(digit: u8) -> u8 {
    match digit {
        b'0'..=b'9' => digit - b'0',
        b'a'..=b'f' => digit - b'a' + 10,
        _ => 255,
    }
}

/// What a step answers; the counts are of signers.
enum Answer {
    Announced,
    Received(Receipt),
    Refused(Refusal),
}

struct Node {
    config: Config,
    records: Vec<u8>,
}

impl Node {
    /// With the day opened.
    fn new(config: Config) -> Node {
        let records = vec![0; config.records_length()];
        Node { config, records }
    }

    fn play(&mut self, step: &Step) -> Answer {
        let Node { config, records } = self;
        // Nobody reads what is sent: the rows say what reaches whom.
        let out = &mut [0; 32];
        let answer = match step {
            Step::Broadcast(payload) => {
                broadcast(config, payload, records, out).map(|_| Answer::Announced)
            }
            Step::Receive(bundle) => receive(config, bundle, records, out).map(Answer::Received),
        };
        answer.unwrap_or_else(Answer::Refused)
    }

    fn has_delivered(&self, sender: u8, seq: u8) -> bool {
        const DELIVERED: u8 = 2;
        self.records[self.config.place(sender, seq)] == DELIVERED
    }
}

struct System {
    nodes: Vec<Node>,
}

/// A slot that some node has delivered, and how many have.
struct DeliveredSlot {
    sender: u8,
    seq: u8,
    nodes: usize,
    percent: usize,
}

impl System {
    fn new(config: Config) -> System {
        let node = |own| Node::new(Config { own, ..config });
        System {
            nodes: (0..config.n).map(node).collect(),
        }
    }

    fn play(&mut self, node: u8, step: &Step) -> Answer {
        self.nodes[usize::from(node)].play(step)
    }

    fn delivered(&self) -> impl Iterator<Item = DeliveredSlot> + '_ {
        let n = self.nodes.len();
        let slots = (0..n as u8).flat_map(|sender| (0..SEQS).map(move |seq| (sender, seq)));
        let counted = slots.map(move |(sender, seq)| {
            let delivered = |node: &&Node| node.has_delivered(sender, seq);
            let nodes = self.nodes.iter().filter(delivered).count();
            DeliveredSlot {
                sender,
                seq,
                nodes,
                percent: percent(nodes, n),
            }
        });
        counted.filter(|slot| slot.nodes > 0)
    }
}

/// How many percent `nodes` of `n` are, to the nearest whole number; half-way between two it is the even one. The division rounds as well, to
/// a binary fraction, and that changes nothing: a quotient that lies half-way is a binary fraction and comes out as it is, and any other lies
/// at least 1 / 2n from there, which is far more than the division can err.
fn percent(nodes: usize, n: usize) -> usize {
    (100.0 * nodes as f64 / n as f64).round_ties_even() as usize
}

/// The output, of which no more than a buffer waits to be written. The formatting of the standard library would take longer than a step,
/// so numbers are printed here.
struct Printer<W> {
    output: W,
    waiting: Vec<u8>,
}

impl<W: Write> Printer<W> {
    fn new(output: W) -> Printer<W> {
        Printer {
            output,
            waiting: Vec::with_capacity(BUFFER),
        }
    }

    fn flush(&mut self) -> io::Result<()> {
        self.output.write_all(&self.waiting)?;
        self.waiting.clear();
        self.output.flush()
    }

    /// For one row more.
    fn make_room(&mut self) -> io::Result<()> {
        if self.waiting.len() + LONGEST_PRINTED <= BUFFER {
            return Ok(());
        }
        self.output.write_all(&self.waiting)?;
        self.waiting.clear();
        Ok(())
    }

    fn unread(&mut self, place: u64) {
        self.number(place);
        self.text(b" - - unread 0 0\n");
    }

    fn answer(&mut self, place: u64, node: u8, step: &Step, answer: Answer) {
        self.number(place);
        self.text(match step {
            Step::Broadcast(_) => b" A ",
            Step::Receive(_) => b" B ",
        });
        self.number(node.into());
        match answer {
            Answer::Announced => self.end_of_answer(b" announced 0 ", 1),
            Answer::Received(Receipt::Kept(count)) => self.end_of_answer(b" kept 0 ", count),
            Answer::Received(Receipt::Signed(count)) => self.end_of_answer(b" signed 0 ", count),
            Answer::Received(Receipt::Noted(count)) => self.end_of_answer(b" noted 0 ", count),
            Answer::Received(Receipt::Delivered(count)) => {
                self.end_of_answer(b" delivered 0 ", count)
            }
            Answer::Refused(refusal) => {
                self.text(b" refused ");
                self.number(refusal.number().into());
                self.text(b" 0\n");
            }
        }
    }

    #[inline(always)]
    fn end_of_answer(&mut self, word_and_reason: &[u8], count: u32) {
        self.text(word_and_reason);
        self.number(count.into());
        self.text(b"\n");
    }

    fn delivered(&mut self, slot: &DeliveredSlot) {
        self.number(slot.sender.into());
        self.text(b" ");
        self.number(slot.seq.into());
        self.text(b" ");
        self.number(slot.nodes as u64);
        self.text(b" ");
        self.number(slot.percent as u64);
        self.text(b"\n");
    }

    // Inlined, the copy of a constant is a store or two.
    #[inline(always)]
    fn text(&mut self, bytes: &[u8]) {
        self.waiting.extend_from_slice(bytes);
    }

    #[inline(always)]
    fn number(&mut self, number: u64) {
        if number < 10 {
            self.waiting.push(b'0' + number as u8);
        } else {
            self.long_number(number);
        }
    }

    fn long_number(&mut self, number: u64) {
        let mut digits = [0; 20];
        let (mut start, mut rest) = (digits.len(), number);
        while rest > 0 {
            start -= 1;
            digits[start] = b'0' + (rest % 10) as u8;
            rest /= 10;
        }
        self.text(&digits[start..]);
    }
}

#[cfg(test)]
mod tests {
    use super::*;
    use std::cmp::Ordering;

    const HEAD: &str =
        "units faults losses day quorum\n4 1 0 7 3\nact unit sender number signers body\n";
    const BODY: &str = "000102030405060708090a0b0c0d0e0f";
    const NOTHING_PLAYED: &str = "line act unit answer reason count\nsender number units percent\n";

    fn played(input: impl AsRef<[u8]>) -> String {
        let mut output = Vec::new();
        play(input.as_ref(), &mut output).unwrap();
        String::from_utf8(output).unwrap()
    }

    /// What the rows print at four nodes, the names lines left out.
    fn rows(rows: impl AsRef<[u8]>) -> String {
        let text = played([HEAD.as_bytes(), rows.as_ref()].concat());
        let text = text.strip_prefix("line act unit answer reason count\n");
        text.unwrap().replace("sender number units percent\n", "")
    }

    fn assert_no_table(input: impl AsRef<[u8]>) {
        let text = String::from_utf8_lossy(input.as_ref()).into_owned();
        assert_eq!(played(input), "no table\n", "{text:?}");
    }

    fn assert_unread(row: impl AsRef<[u8]>) {
        let text = String::from_utf8_lossy(row.as_ref()).into_owned();
        assert_eq!(rows(row), "1 - - unread 0 0\n", "{text:?}");
    }

    const EXAMPLE: &str = "units faults losses day quorum
4 1 0 7 3
act unit sender number signers body
A 0 - - - 000102030405060708090a0b0c0d0e0f
B 1 0 0 0000000000000001 000102030405060708090a0b0c0d0e0f
B 1 0 0 0000000000000001 000102030405060708090a0b0c0d0e0f
B 2 0 0 0000000000000003 000102030405060708090a0b0c0d0e0f
B 2 0 0 0000000000000007 000102030405060708090a0b0c0d0e0f
B 3 0 0 0000000000000002 000102030405060708090a0b0c0d0e0f
B 0 0 0 0000000000000007 000102030405060708090a0b0c0d0e0f
";

    const EXAMPLE_PRINTED: &str = "line act unit answer reason count
1 A 0 announced 0 1
2 B 1 signed 0 2
3 B 1 kept 0 2
4 B 2 delivered 0 3
5 B 2 refused 22 0
6 B 3 refused 8 0
7 B 0 delivered 0 3
sender number units percent
0 0 2 50
";

    #[test]
    fn the_example_of_document_01() {
        assert_eq!(played(EXAMPLE), EXAMPLE_PRINTED);
        assert_eq!(played(EXAMPLE.trim_end()), EXAMPLE_PRINTED);
    }

    #[test]
    fn a_run_without_rows_prints_both_names_lines() {
        assert_eq!(played(HEAD), NOTHING_PLAYED);
        assert_eq!(played(HEAD.trim_end()), NOTHING_PLAYED);
    }

    #[test]
    fn an_input_that_ends_before_the_rows_is_no_table() {
        for end in 0..HEAD.trim_end().len() {
            assert_no_table(&HEAD[..end]);
        }
        assert_no_table("\n");
        assert_no_table("\n".repeat(1000));
    }

    #[test]
    fn names_lines_are_compared_byte_by_byte() {
        for (right, wrong) in [
            ("units", "Units"),
            ("units", " units"),
            (" quorum\n", "\n"),
            ("quorum\n", "quorum \n"),
            ("quorum\n", "quorum\r\n"),
            ("quorum\n", "quorum own\n"),
            ("day quorum", "quorum day"),
            ("body\n", "body\r\n"),
            ("body\n", "body\0\n"),
            ("act unit", "act\tunit"),
            ("act unit", "act  unit"),
            ("act", "\nact"),
        ] {
            assert_no_table(HEAD.replace(right, wrong) + "A 0 - - - " + BODY);
        }
        let long = "x".repeat(1 << 20);
        assert_no_table(&long);
        assert_no_table(HEAD.replace("quorum\n", &format!("quorum{long}\n")));
        assert_no_table(HEAD.replace("body\n", &format!("body{long}\n")));
    }

    #[test]
    fn a_table_row_is_five_plain_numbers_of_a_good_table_of_8_at_most() {
        let with_table = |row: &str| HEAD.replace("4 1 0 7 3", row);
        let good =
            "1 0 0 0 1|8 2 0 4294967295 6|8 0 3 10 5|8 1 2 1 5|8 0 0 7 5|8 0 0 7 8|8 1 0 7 6";
        for row in good.split('|') {
            assert_eq!(played(with_table(row)), NOTHING_PLAYED, "{row}");
        }
        let not_plain = "|4|4 1 0 7|4 1 0 7 |4 1 0 7 3 |4 1 0 7 3 0| 4 1 0 7 3|4  1 0 7 3|+4 1 0 7 3|04 1 0 7 3|4 1 00 7 3|\
            4 1 -0 7 3|4 1 0 - 3|4 1 0 7 -|4 1 0 7 3\r|4 1 0 0x7 3|4\t1 0 7 3|4 1 0 7 3\0|4 1 0 7 03|4 1 0 7 +3|4 1 0 7  3";
        let too_large = "256 0 0 7 129|260 1 0 7 3|4 257 0 7 3|4 1 256 7 3|4 1 0 4294967296 3|4 1 0 4294967303 3|\
            4 1 0 999999999999999999999999999999 3|4 1 0 7 4294967296|4 1 0 7 4294967299|4 1 0 7 18446744073709551619|\
            4 1 0 7 999999999999999999999999999999";
        let not_good =
            "0 0 0 7 0|0 0 0 7 1|5 1 1 7 4|8 3 0 7 6|8 0 4 7 5|9 0 0 7 5|64 21 0 7 43|65 0 0 7 33";
        let quorum_out_of_range = "4 1 0 7 0|4 1 0 7 2|4 1 0 7 4|4 1 0 7 259|4 1 0 7 2147483651|4 1 0 7 4294967295|8 0 0 7 4|8 0 0 7 9";
        let bad = [not_plain, too_large, not_good, quorum_out_of_range];
        for row in bad.join("|").split('|') {
            assert_no_table(with_table(row));
        }
        assert_no_table(with_table(&format!("4 1 0 7 3{}", " ".repeat(1 << 20))));
    }

    #[test]
    fn a_run_without_quorum_is_no_table() {
        for row in ["4 1 0 7", "4 1 0 7 3"] {
            let names = "units faults losses day\n";
            assert_no_table(format!(
                "{names}{row}\nact unit sender number signers body\n"
            ));
        }
    }

    #[test]
    fn the_quorum_of_the_table_is_played() {
        let steps = format!("A 0 - - - {BODY}\nB 1 0 0 000000000000000d {BODY}\n");
        for (q, answer) in [(3, "delivered"), (4, "delivered"), (5, "signed")] {
            let head = HEAD.replace("4 1 0 7 3", &format!("5 0 0 7 {q}"));
            let text = played(head + &steps);
            assert!(text.contains(&format!("\n2 B 1 {answer} 0 4\n")), "{text}");
        }
    }

    #[test]
    fn a_second_payload_is_noted_with_its_own_count_and_delivers_nothing() {
        let second = "f".repeat(32);
        let third = "0".repeat(32);
        let steps = [
            ("0000000000000001", BODY, "signed 0 2"),
            ("0000000000000001", &second, "noted 0 1"),
            ("0000000000000005", &second, "noted 0 2"),
            ("0000000000000009", &second, "noted 0 3"),
            ("0000000000000003", &second, "refused 23 0"),
            ("0000000000000005", &third, "refused 24 0"),
            ("0000000000000001", BODY, "kept 0 2"),
            ("000000000000000d", &third, "delivered 0 3"),
        ];
        let (mut given, mut printed) = (String::new(), String::new());
        for (place, (signers, body, answer)) in (1..).zip(steps) {
            given += &format!("B 1 0 0 {signers} {body}\n");
            printed += &format!("{place} B 1 {answer}\n");
        }
        assert_eq!(rows(given), printed + "0 0 1 25\n");
    }

    #[test]
    fn a_row_of_another_shape_is_unread() {
        assert_eq!(rows(format!("A 0 - - - {BODY}")), "1 A 0 announced 0 1\n");
        let announcing = "A 4 - - - #|A 0 - - -  #|A 0 - - #|A 0 0 0 - #|A 0 - - 0000000000000001 #|a 0 - - - #|AA 0 - - - #|\
            A 00 - - - #|A +0 - - - #|A - - - - #|A 0 - - - # | A 0 - - - #|A 0 - - - #\r|A\t0 - - - #|A 0 - - - 0#|\
            A 0 - - - |A 0 - - -|A 0|A|-|\0|\r";
        let taking = "B 4 0 0 @ #|B 256 0 0 @ #|B 1 256 0 @ #|B 1 0 256 @ #|B 1 00 0 @ #|B 1 0 00 @ #|B 1 0 +0 @ #|\
            B 1 - 0 @ #|B 1 0 - @ #|B 1 0 0 - #|B 1 0 0 @ -|B - 0 0 @ #|B 1 0 0  @ #|B 1 0 0 @  #|B 1 0 0 0@ #|B 1 0 0 @ 0#|\
            B 1 0 0 @# |B 1 0 0 @ # #|B 1 0 65536 @ #|B 1 4294967296 0 @ #|B 1 999999999999999999999999999999 0 @ #|\
            B 1 0 0 @ #\0";
        for row in [announcing, taking].join("|").split('|') {
            assert_unread(row.replace('@', "0000000000000001").replace('#', BODY));
        }
        assert_unread(format!("B 1 0 0 000000000000000A {BODY}"));
        assert_unread(format!("A 0 - - - {}", BODY.to_uppercase()));
        assert_unread(b"A 0 - - - \xff\xfe");
    }

    #[test]
    fn sender_and_number_up_to_255_are_read_and_refused() {
        let with = |slot: &str| rows(format!("B 1 {slot} 0000000000000001 {BODY}"));
        assert_eq!(with("4 0"), "1 B 1 refused 5 0\n");
        assert_eq!(with("255 255"), "1 B 1 refused 5 0\n");
        assert_eq!(with("3 16"), "1 B 1 refused 6 0\n");
        assert_eq!(with("0 255"), "1 B 1 refused 6 0\n");
    }

    #[test]
    fn a_line_feed_ends_a_row_and_an_empty_row_is_one() {
        assert_eq!(rows("\n"), "1 - - unread 0 0\n");
        assert_eq!(rows("\n\n"), "1 - - unread 0 0\n2 - - unread 0 0\n");
        let announcing = format!("\nA 0 - - - {BODY}\n");
        assert_eq!(rows(&announcing), "1 - - unread 0 0\n2 A 0 announced 0 1\n");
    }

    #[test]
    fn a_row_is_one_row_however_long() {
        let announcing = format!("A 0 - - - {BODY}");
        for length in [119, 120, 121, 122, 240, 241, 242, BUFFER, 1 << 20] {
            let long = "x".repeat(length);
            assert_unread(&long);
            let printed = "1 - - unread 0 0\n2 A 0 announced 0 1\n";
            assert_eq!(rows(format!("{long}\n{announcing}")), printed);
            // What would be a row by itself is the end of this one.
            assert_unread(format!("{long}{announcing}"));
        }
    }

    #[test]
    fn the_seventeenth_announcement_is_refused() {
        let text = rows(format!("A 3 - - - {BODY}\n").repeat(17));
        assert!(text.ends_with("16 A 3 announced 0 1\n17 A 3 refused 25 0\n"));
    }

    /// The last rows of a run of `n` nodes, of which the last `delivering` deliver the only slot; the sender is the first.
    fn last_rows(delivering: usize, n: usize) -> String {
        let table = format!("{n} 0 0 7 {n}");
        let mut text = HEAD.replace("4 1 0 7 3", &table) + &format!("A 0 - - - {BODY}\n");
        for node in n - delivering..n {
            // All but the node's own bit, which it accepts in no bundle before it has signed: only the sender has.
            let signers = ((1_u64 << n) - 1) & !(1 << node) | 1;
            text += &format!("B {node} 0 0 {signers:016x} {BODY}\n");
        }
        let printed = played(text);
        let (_, rows) = printed.split_once("sender number units percent\n").unwrap();
        rows.to_owned()
    }

    #[test]
    fn percent_is_rounded_to_the_nearest_and_a_half_to_the_even_one() {
        let three = [33, 67, 100];
        let eight = [12, 25, 38, 50, 62, 75, 88, 100];
        for (n, percents) in [(3, &three[..]), (8, &eight)] {
            for (nodes, percent) in (1..=n).zip(percents) {
                assert_eq!(last_rows(nodes, n), format!("0 0 {nodes} {percent}\n"));
            }
            assert_eq!(last_rows(0, n), "", "a slot that nobody delivers");
        }
    }

    #[test]
    fn percent_is_the_only_number_that_the_norm_allows() {
        for (n, nodes) in (1..=255_usize).flat_map(|n| (0..=n).map(move |nodes| (n, nodes))) {
            // How far p is from the quotient, compared with a half: both sides are times 2n, so that nothing is rounded here.
            let allowed = |p: &usize| match (2 * (100 * nodes).abs_diff(p * n)).cmp(&n) {
                Ordering::Less => true,
                Ordering::Equal => p.is_multiple_of(2),
                Ordering::Greater => false,
            };
            let allowed: Vec<_> = (0..=100).filter(allowed).collect();
            assert_eq!(allowed, [percent(nodes, n)], "{nodes} of {n}");
        }
    }

    /// Gives its bytes one at a time, with interruptions, and then fails.
    struct Broken<'a>(&'a [u8], bool);

    impl Read for Broken<'_> {
        fn read(&mut self, buffer: &mut [u8]) -> io::Result<usize> {
            self.1 = !self.1;
            match self.0.split_first() {
                _ if self.1 => Err(io::ErrorKind::Interrupted.into()),
                None => Err(io::ErrorKind::Other.into()),
                Some((&byte, rest)) => {
                    buffer[0] = byte;
                    self.0 = rest;
                    Ok(1)
                }
            }
        }
    }

    #[test]
    fn a_failed_read_ends_the_run_after_the_last_whole_line() {
        let text_of = |input: &str| {
            let mut output = Vec::new();
            assert!(play(Broken(input.as_bytes(), false), &mut output).is_err());
            String::from_utf8(output).unwrap()
        };
        assert_eq!(
            text_of(EXAMPLE.trim_end()),
            EXAMPLE_PRINTED.split("7 B").next().unwrap()
        );
        assert_eq!(text_of(HEAD), "line act unit answer reason count\n");
        assert_eq!(text_of(HEAD.trim_end()), "");
    }

    /// Takes nothing, and counts how often it was asked to.
    struct Full(u32);

    impl Write for Full {
        fn write(&mut self, _: &[u8]) -> io::Result<usize> {
            self.0 += 1;
            Err(io::ErrorKind::StorageFull.into())
        }

        fn flush(&mut self) -> io::Result<()> {
            Ok(())
        }
    }

    #[test]
    fn a_failed_write_ends_the_run() {
        for input in [
            EXAMPLE.to_owned(),
            EXAMPLE.to_owned() + &"x\n".repeat(BUFFER),
        ] {
            let mut output = Full(0);
            assert!(play(input.as_bytes(), &mut output).is_err());
            assert_eq!(output.0, 1);
        }
    }
}
