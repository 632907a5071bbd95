//! Nights of a box in haste, for the report: lines that fall on a busy chip
//! and are written again, wholly, in part, or otherwise.
//!
//! What is written is laid down first, as parts that the chip is to ignore or
//! to take; then the box sends it, and makes the chip busy where it has to.

use super::{Habits, Sender};
use crate::chip::Width;
use crate::log::{self, TIME_LIMIT};
use crate::panel::Panel;
use crate::random::Random;

/// Bytes that the chip is to ignore, or to take, one after the other.
enum Part {
    Ignored(Vec<u8>),
    Taken(Vec<u8>),
    /// The other width from here on.
    OtherWidth,
}
use Part::{Ignored, OtherWidth, Taken};

struct Nights<'a> {
    sender: Sender<'a>,
    /// The chance of something else before a data write, of a hundred.
    noise: u64,
}

/// A log of at least `target` records, sent to this fresh panel.
pub fn send_nights(random: &mut Random, panel: Panel, target: usize) -> Vec<u8> {
    let habits = Habits {
        patient: random.pick(&[30, 60, 90]),
        tearing: 0,
        faulty: random.pick(&[0, 0, 2]),
        stubborn: false,
    };
    let mut nights = Nights { sender: Sender::new(random, panel, habits), noise: 0 };
    nights.begin();
    while nights.sender.sent < target {
        nights.phrase();
    }
    nights.end();
    nights.sender.log
}

impl Nights<'_> {
    fn random(&mut self) -> &mut Random {
        self.sender.random
    }

    /// Starts somewhere in time, often shortly before the clock's digits turn.
    fn begin(&mut self) {
        let before_midnight = 86_399_999_000;
        let hundred_hours = 359_999_999_000;
        let time = match self.random().below(20) {
            0 => TIME_LIMIT - 20_000,
            1 => TIME_LIMIT - 5_000_000,
            2 | 3 => hundred_hours,
            4 | 5 => before_midnight,
            6 | 7 => 3_599_999_000,
            8 | 9 => 59_999_000,
            10..=13 => 11_520_000_000,
            _ => 0,
        };
        if self.random().flag() {
            self.sender.emit(log::write_reset(time));
        } else {
            self.transfer(time, false, false, 0x38);
        }
    }

    /// Often with a half that the chip ignores and nobody finishes.
    fn end(&mut self) {
        match self.random().below(16) {
            0..=7 => self.ignored_half(),
            8 | 9 => self.sender.lone_half(),
            10 => {
                let size = self.random().pick(&[256, 257, 300]);
                self.send(&[Ignored(vec![b'A'; size])]);
            }
            _ => {}
        }
    }

    fn phrase(&mut self) {
        if self.random().chance(30) {
            let width = self.random().pick(&[0x20, 0x28, 0x38]);
            self.instruct(width);
        }
        self.noise = self.random().pick(&[0, 0, 5, 25]);
        match self.random().below(24) {
            0 => self.long_run(),
            1..=3 => self.line_by_the_clock(),
            4..=6 => self.sender.phrase(),
            _ => {
                let parts = parts(self.random());
                self.send(&parts);
            }
        }
    }

    fn send(&mut self, parts: &[Part]) {
        for part in parts {
            match part {
                Ignored(bytes) => self.write(bytes, false),
                Taken(bytes) => self.write(bytes, true),
                OtherWidth => {
                    let wide = self.sender.panel.sheet.width == Width::Eight;
                    self.instruct(if wide { 0x28 } else { 0x38 });
                }
            }
        }
    }

    fn write(&mut self, bytes: &[u8], taken: bool) {
        for &byte in bytes {
            if self.sender.random.chance(self.noise) {
                self.something_else(byte);
            }
            self.sender.settle();
            let time = if taken { self.free_time() } else { self.busy_time() };
            self.transfer(time, true, false, byte);
        }
    }

    /// Runs about as long as the report compares, and longer ones, as one line
    /// or as a shorter line over and over.
    fn long_run(&mut self) {
        self.noise = self.random().pick(&[0, 0, 1]);
        let (size, tries) = self.random().pick(&[
            (1, 255), (3, 85), (255, 1), (1, 256), (2, 128), (16, 16), (128, 2), (256, 1), (256, 1), (1, 257),
            (257, 1), (257, 1), (2, 129), (129, 2), (258, 1), (86, 3), (64, 5), (1, 512), (16, 33),
        ]);
        let line = self.random().bytes(size);
        let run = line.repeat(tries);
        let heard = match self.random().below(8) {
            0 => run.clone(),
            1 => changed(self.random(), &line),
            2 => changed(self.random(), &run),
            // The last bytes alone, as if the first had been forgotten.
            3 => run[run.len().saturating_sub(256)..].to_vec(),
            4 => run[..run.len() % 256].to_vec(),
            _ => line,
        };
        let last = self.random().byte();
        let next = line_of_a_night(self.random());
        self.send(&[Ignored(run), Taken(heard), Taken(vec![last]), Ignored(next.clone()), Taken(next)]);
    }

    /// The box of the night in question: Clear, and then a line at its own
    /// pace, whether or not the chip is free by then, more than once.
    fn line_by_the_clock(&mut self) {
        let line = line_of_a_night(self.random());
        let pace = self.random().pick(&[1, 20, 39, 40, 41, 50, 100, 150, 820]);
        self.instruct(0x01);
        for _ in 0..1 + self.random().below(3) {
            let gap = self.random().pick(&[0, 100, 1_639, 1_640, 5_000]);
            let start = self.sender.panel.last + gap;
            for (n, &byte) in (0..).zip(&line) {
                self.sender.settle();
                let time = (start + pace * n).max(self.sender.panel.last);
                self.transfer(time, true, false, byte);
            }
        }
    }

    /// What may stand between the data writes and makes no difference there.
    fn something_else(&mut self, byte: u8) {
        let place = self.random().byte();
        match self.random().below(16) {
            0 => self.sender.status(),
            1 => self.sender.instruct(0x80 | place),
            2 => self.sender.instruct(0x01),
            3 => self.sender.instruct(place),
            4 => self.one_or_two_reads(),
            5 => self.sender.reset(),
            6 | 7 => self.sender.fault(),
            8 => self.backward_write(byte),
            9 | 10 => self.torn_pair(),
            11 => {
                self.ignored_half();
                self.sender.reset();
            }
            12 => self.sender.half_then_reset(),
            13 => self.instruct(0x00),
            14 => self.two_faults(),
            _ => self.sender.change_width(),
        }
    }

    /// After a data write the first is doubtful, and the second is not.
    fn one_or_two_reads(&mut self) {
        self.sender.read();
        if self.random().flag() {
            self.sender.read();
        }
    }

    /// A data write as the next one will be, but back in time.
    fn backward_write(&mut self, byte: u8) {
        if let Some(before) = self.sender.panel.last.checked_sub(1) {
            let time = self.random().pick(&[before, before, 0]);
            self.sender.send(time, true, false, byte);
        }
    }

    /// A bad record with more than one thing wrong; the report names the first.
    fn two_faults(&mut self) {
        let late = self.random().pick(&[TIME_LIMIT, u64::MAX]);
        let record = match self.random().below(4) {
            0 => log::write_record(3, &late.to_le_bytes()),
            1 => log::write_record(1, &late.to_le_bytes()),
            2 => log::write_record(2, &[&late.to_le_bytes()[..], &[4]].concat()),
            _ => log::write_transfer(late, 4, 0),
        };
        self.sender.emit(record);
    }

    fn torn_pair(&mut self) {
        self.make_narrow();
        self.sender.settle();
        let (rs, rw, data) = self.anything();
        let time = if self.random().flag() { self.free_time() } else { self.busy_time() };
        self.sender.torn_pair(time, rs, rw, data);
    }

    /// A first half while the chip is busy, of anything but a status read.
    fn ignored_half(&mut self) {
        self.make_narrow();
        self.sender.settle();
        let (rs, rw, data) = self.anything();
        let time = self.busy_time();
        self.sender.send(time, rs, rw && rs, data);
    }

    fn anything(&mut self) -> (bool, bool, u8) {
        (self.random().flag(), self.random().flag(), self.random().byte())
    }

    fn make_narrow(&mut self) {
        if self.sender.panel.sheet.width == Width::Eight {
            self.instruct(0x20);
        }
    }

    /// An instruction that the chip is free for.
    fn instruct(&mut self, code: u8) {
        self.sender.settle();
        let time = self.free_time();
        self.transfer(time, false, false, code);
    }

    fn free_time(&mut self) -> u64 {
        let ready = self.sender.panel.busy_end.max(self.sender.panel.last);
        let later = self.random().pick(&[0, 0, 0, 1, 7, 40, 300]);
        (ready + later).min(TIME_LIMIT - 1)
    }

    /// A time at which the chip is busy. It is made busy where it is not.
    fn busy_time(&mut self) -> u64 {
        if self.sender.panel.last >= self.sender.panel.busy_end {
            let code = self.random().pick(&[0x01, 0x01, 0x02, 0x03, 0x06, 0x0C, 0x80, 0x8F]);
            self.instruct(code);
        }
        let (last, end) = (self.sender.panel.last, self.sender.panel.busy_end);
        let latest = end.saturating_sub(1).clamp(last, TIME_LIMIT - 1);
        match self.random().below(12) {
            0 => latest,
            1 => last,
            _ => latest.min(last + self.random().below(8)),
        }
    }

    fn transfer(&mut self, time: u64, rs: bool, rw: bool, byte: u8) {
        self.sender.transfer_at(time, rs, rw, byte, self.noise / 2);
    }
}

/// A line of few bytes: of text, of any bytes, of two, or of one over and over.
fn line_of_a_night(random: &mut Random) -> Vec<u8> {
    let size = match random.below(10) {
        0 => 1,
        1 | 2 => 2,
        3..=8 => 3 + random.below(8),
        _ => 16,
    };
    let sort = random.below(4);
    let two = [random.byte(), random.byte()];
    let byte = |_| match sort {
        0 => 0x20 + random.byte() % 0x60,
        1 => random.byte(),
        2 => random.pick(&two),
        _ => two[0],
    };
    (0..size).map(byte).collect()
}

/// The bytes with one of them changed, often the first or the last.
fn changed(random: &mut Random, bytes: &[u8]) -> Vec<u8> {
    let last = bytes.len() as u64 - 1;
    let any = random.below(last + 1);
    let at = random.pick(&[0, last, last, any]);
    let mut other = bytes.to_vec();
    other[at as usize] ^= 1 << random.below(8);
    other
}

/// What becomes of one line, or of two.
fn parts(random: &mut Random) -> Vec<Part> {
    let line = line_of_a_night(random);
    let (front, back) = line.split_at(random.below(line.len() as u64 + 1) as usize);
    let (front, back) = (front.to_vec(), back.to_vec());
    let tries = random.pick(&[1, 1, 2, 2, 3, 4]);
    let run = line.repeat(tries);
    let other = random.byte();
    let changed_line = changed(random, &line);
    match random.below(14) {
        0 => vec![Ignored(line.clone()), Taken(line)],
        1 => vec![Ignored(run), Taken(line)],
        2 => vec![Ignored(run.clone()), Taken(run), Taken(vec![other])],
        // The chip becomes free in the middle.
        3 => vec![Ignored(front), Taken(back), Taken(line)],
        4 => vec![Ignored(run), Taken(vec![other]), Taken(line)],
        5 => vec![Ignored(run), Taken(changed_line)],
        6 => vec![Ignored(changed(random, &run)), Taken(line)],
        // A last try that broke off.
        7 => vec![Ignored([run, front].concat()), Taken(line), Taken(vec![other])],
        // The chip is busy again before the line is out.
        8 => vec![Ignored(run), Taken(front), Ignored(back), Taken(line)],
        9 => vec![Ignored(run), Taken(front), Ignored(line.clone()), Taken(line)],
        10 => vec![Ignored(run), Taken(front)],
        11 => vec![Ignored(run), OtherWidth, Taken(line)],
        12 => vec![Ignored(front), OtherWidth, Ignored(back), Taken(line)],
        _ => two_letters(random),
    }
}

/// Two letters in any order, ignored and taken by turns: what repeats here
/// does so by chance.
fn two_letters(random: &mut Random) -> Vec<Part> {
    let mut parts = Vec::new();
    for _ in 0..2 + random.below(6) {
        let sizes = [1 + random.below(4), 1 + random.below(4)];
        let [ignored, taken] = sizes.map(|size| (0..size).map(|_| random.pick(b"AB")).collect());
        parts.push(Ignored(ignored));
        parts.push(Taken(taken));
    }
    parts
}
