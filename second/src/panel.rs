//! The panel: the sheet with a clock and halves around it. It answers each
//! record with a number of the answer table and a bus byte.

use crate::chip::{Counter, DisplayAddress, Entry, PatternAddress, Sheet, Width};
use crate::chips::Chip;
use crate::log::{self, Front, Message, Transfer, TIME_LIMIT};
use crate::written::{Written, SPACE};

/// A busy end lies below this: the last time there is, and the longest wait.
pub const BUSY_END_LIMIT: u64 = TIME_LIMIT + 65_536;

/// Execution times in microseconds.
#[derive(Clone, Copy, Debug, PartialEq)]
pub struct Times {
    pub reset: u16,
    pub long: u16,
    pub short: u16,
}

impl Times {
    /// The times of the mirror program and of the cases.
    pub const USUAL: Times = Times { reset: 10_000, long: 1_640, short: 40 };
}

/// The first half of a pair, while it waits for the second.
#[derive(Clone, Copy, Debug, PartialEq)]
pub struct Half {
    pub rs: bool,
    pub rw: bool,
    /// Written: the high half. To be read: the low half. `None` marks a pair
    /// that was begun while busy, and so is ignored.
    pub nibble: Option<u8>,
}

#[derive(Clone, Debug, PartialEq)]
pub struct Panel {
    pub sheet: Sheet,
    pub times: Times,
    pub busy_end: u64,
    pub last: u64,
    /// At most one half waits.
    pub half: Option<Half>,
}

/// A number of the answer table, and the bus byte (0 where nothing was read).
#[derive(Clone, Copy, Debug, PartialEq)]
pub struct Answer {
    pub number: u8,
    pub byte: u8,
}

impl Answer {
    fn plain(number: u8) -> Answer {
        Answer { number, byte: 0 }
    }
}

pub mod number {
    pub const TAKEN: u8 = 0;
    pub const HELD: u8 = 1;
    pub const STATUS: u8 = 2;
    pub const IGNORED: u8 = 3;
    pub const TORN: u8 = 4;
    pub const BACK: u8 = 5;
    pub const BAD: u8 = 6;
    pub const NONE: u8 = 7;
    pub const CUT: u8 = 8;
    pub const SIZE: u8 = 9;
    pub const UNSOUND: u8 = 10;
    pub const DOUBTFUL: u8 = 11;

    /// Doubtful counts as taken for clock, busy time, striking and replay.
    pub fn is_carried_out(number: u8) -> bool {
        matches!(number, TAKEN | DOUBTFUL)
    }
}
use number::*;

/// The answers that a run counts, in the order of the counts, with their names.
pub const COUNTED: [(u8, &str); 9] = [
    (TAKEN, "taken"), (DOUBTFUL, "doubtful"), (HELD, "held"), (STATUS, "status"), (IGNORED, "ignored"), (TORN, "torn"),
    (BACK, "back"), (BAD, "bad"), (NONE, "none"),
];

/// Where among the counts an answer's stands.
pub fn count_of(number: u8) -> usize {
    COUNTED.iter().position(|&(counted, _)| counted == number).expect("the answer to a record")
}

/// What a run over a log reports.
#[derive(Clone, Debug, PartialEq)]
pub struct Run {
    /// One for each record, none where the run is refused.
    pub answers: Vec<Answer>,
    /// How often each of the answers to a record was given, as `COUNTED` has them.
    pub counts: [u64; COUNTED.len()],
    /// Read off the lengths alone, up to the cut.
    pub records: u64,
    pub cut: bool,
    pub refused: bool,
}

/// All ways in which this panel is not sound: the chip, then the rules' order.
pub fn faults(panel: &Panel) -> Vec<&'static str> {
    let sheet = &panel.sheet;
    let places = sheet.chip.places();
    let mut found = Vec::new();
    if !sheet.chip.is_known() {
        found.push("chip");
    }
    if sheet.display[places..].iter().any(|&byte| byte != SPACE) {
        found.push("byte past the chip's own");
    }
    // All bits, on one line those past its own places too.
    if sheet.written != Written::walk(&sheet.display) {
        found.push("written places");
    }
    match sheet.counter {
        Counter::Display(DisplayAddress(at)) if usize::from(at) >= places => found.push("display address"),
        Counter::Pattern(PatternAddress(32..)) => found.push("pattern address"),
        _ => {}
    }
    if sheet.shift > 15 {
        found.push("shift");
    }
    if sheet.function > 15 {
        found.push("Function Set bits");
    }
    if sheet.pattern.iter().any(|&entry| entry > 31) {
        found.push("pattern entry");
    }
    found.extend(half_faults(panel.half, sheet.width));
    if panel.last >= TIME_LIMIT {
        found.push("last time");
    }
    if panel.busy_end >= BUSY_END_LIMIT {
        found.push("busy end");
    }
    found
}

fn half_faults(half: Option<Half>, width: Width) -> Vec<&'static str> {
    let mut found = Vec::new();
    let Some(Half { rs, rw, nibble }) = half else {
        return found;
    };
    match nibble {
        Some(16..) => found.push("half's nibble"),
        None if is_status(rs, rw) => found.push("status half ignored"),
        _ => {}
    }
    if width == Width::Eight {
        found.push("half at width 8");
    }
    found
}

impl Panel {
    pub fn fresh(chip: Chip, times: Times) -> Panel {
        Panel { sheet: Sheet::fresh(chip), times, busy_end: 0, last: 0, half: None }
    }

    /// Whether a fresh panel of its chip and times would be the same.
    pub fn is_fresh(&self) -> bool {
        *self == Panel::fresh(self.sheet.chip, self.times)
    }

    pub fn is_sound(&self) -> bool {
        faults(self).is_empty()
    }

    /// Whether a transfer that begins at this time is free.
    pub fn is_free(&self, time: u64) -> bool {
        time >= self.busy_end
    }

    /// Answers the record at the front of `bytes`. The order of the tests is
    /// the order of the rules: 10, 8, 6, 5, then a reset, then transfers.
    pub fn answer(&mut self, bytes: &[u8]) -> Answer {
        if !self.is_sound() {
            return Answer::plain(UNSOUND);
        }
        let Front::Record(record) = log::front(bytes) else {
            return Answer::plain(CUT);
        };
        let Some(message) = log::message(record) else {
            return Answer::plain(BAD);
        };
        if message.time() < self.last {
            return Answer::plain(BACK);
        }
        self.last = message.time();
        match message {
            Message::Reset { time } => self.reset(time),
            Message::Transfer(transfer) => match (self.sheet.width, self.half) {
                (Width::Eight, _) => self.whole(transfer),
                (Width::Four, None) => self.first_half(transfer),
                (Width::Four, Some(first)) => self.second_half(first, transfer),
            },
        }
    }

    /// Taken while busy too, and drops a waiting half.
    fn reset(&mut self, time: u64) -> Answer {
        self.sheet.carry_out(Entry::Reset);
        self.half = None;
        self.busy_end = time + u64::from(self.times.reset);
        Answer::plain(TAKEN)
    }

    fn whole(&mut self, transfer: Transfer) -> Answer {
        let Transfer { time, rs, rw, data } = transfer;
        if is_status(rs, rw) {
            return Answer { number: STATUS, byte: self.status_byte(time) };
        }
        if !self.is_free(time) {
            return Answer::plain(IGNORED);
        }
        if rw {
            return self.read(self.sheet.byte_at_address(), time);
        }
        self.write(rs, data, time)
    }

    /// Free or busy, and every byte to be read, is decided here for the pair.
    fn first_half(&mut self, transfer: Transfer) -> Answer {
        let Transfer { time, rs, rw, data } = transfer;
        if !is_status(rs, rw) && !self.is_free(time) {
            self.half = Some(Half { rs, rw, nibble: None });
            return Answer::plain(IGNORED);
        }
        if !rw {
            self.half = Some(Half { rs, rw, nibble: Some(data >> 4) });
            return Answer::plain(HELD);
        }
        let byte = match rs {
            false => self.status_byte(time),
            true if self.sheet.good => self.sheet.byte_at_address(),
            true => 0,
        };
        self.half = Some(Half { rs, rw, nibble: Some(byte & 0x0F) });
        Answer { number: HELD, byte: byte & 0xF0 }
    }

    /// Whatever the answer, no half waits afterwards.
    fn second_half(&mut self, first: Half, transfer: Transfer) -> Answer {
        let Transfer { time, rs, rw, data } = transfer;
        self.half = None;
        if (first.rs, first.rw) != (rs, rw) {
            return Answer::plain(TORN);
        }
        let Some(nibble) = first.nibble else {
            return Answer::plain(IGNORED);
        };
        if is_status(rs, rw) {
            return Answer { number: STATUS, byte: nibble << 4 };
        }
        if rw {
            return self.read(nibble << 4, time);
        }
        self.write(rs, nibble << 4 | data >> 4, time)
    }

    fn status_byte(&self, time: u64) -> u8 {
        let busy_bit = if self.is_free(time) { 0x00 } else { 0x80 };
        busy_bit | self.sheet.counter.number()
    }

    /// A free data read, whole or at its second half. It carries this byte where
    /// it is good; whether it is goes by the panel as the record comes, whatever
    /// half waited.
    fn read(&mut self, byte: u8, time: u64) -> Answer {
        let answer = match self.sheet.good {
            true => Answer { number: TAKEN, byte },
            false => Answer::plain(DOUBTFUL),
        };
        self.sheet.carry_out(Entry::Read);
        self.busy_end = time + u64::from(self.times.short);
        answer
    }

    /// A free write, whole or joined from two halves.
    fn write(&mut self, rs: bool, byte: u8, time: u64) -> Answer {
        let wait = match (rs, byte) {
            (false, 0x00) => return Answer::plain(NONE),
            (false, 0x01..=0x03) => self.times.long,
            _ => self.times.short,
        };
        let entry = if rs { Entry::Write(byte) } else { Entry::Instruction(byte) };
        self.sheet.carry_out(entry);
        self.busy_end = time + u64::from(wait);
        Answer::plain(TAKEN)
    }
}

pub fn is_status(rs: bool, rw: bool) -> bool {
    !rs && rw
}

/// Runs a panel over a whole log.
pub fn run(panel: &mut Panel, log: &[u8]) -> Run {
    let (records, cut) = log::records(log);
    let mut report = Run {
        answers: Vec::new(),
        counts: [0; COUNTED.len()],
        records: records.len() as u64,
        cut,
        refused: false,
    };
    if !panel.is_sound() {
        report.cut = false;
        report.refused = true;
        return report;
    }
    for record in records {
        let answer = panel.answer(record);
        report.counts[count_of(answer.number)] += 1;
        report.answers.push(answer);
    }
    report
}

#[cfg(test)]
mod good;
#[cfg(test)]
mod tests;
#[cfg(test)]
mod two_lines;
#[cfg(test)]
mod written;
