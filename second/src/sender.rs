//! A box that sends: it writes logs as a gateway box would, led by the model.
//!
//! The model knows the busy end and the waiting half, so the next time is
//! chosen around the busy end and the next half to match or to tear.

mod faults;
mod glass;
mod live;
mod mirrored;
mod nights;
mod phrases;
mod reads;
mod written;

pub use glass::{any_scene, send_glass, Scene};
pub use live::{send_deeds, Deed};
pub use mirrored::send_turns;
pub use nights::send_nights;
pub use reads::send_codes_before_reads;
pub use written::{send_around_the_ends, send_bytes, send_clears, send_what_leaves_the_bits, send_write};

use crate::chip::Width;
use crate::log::{self, TIME_LIMIT};
use crate::panel::{Half, Panel};
use crate::random::Random;

/// How a box behaves through one log, in chances of a hundred.
struct Habits {
    patient: u64,
    tearing: u64,
    faulty: u64,
    /// A box that sends by the width it believes in, not by the chip's.
    stubborn: bool,
}

pub struct Sender<'a> {
    random: &'a mut Random,
    panel: Panel,
    believed: Width,
    habits: Habits,
    log: Vec<u8>,
    sent: usize,
    leaps: bool,
}

/// A log of about `target` records, sent to the given panel.
pub fn send_log(random: &mut Random, panel: Panel, target: usize) -> Vec<u8> {
    let habits = Habits {
        patient: random.pick(&[20, 60, 85, 97]),
        tearing: random.pick(&[0, 2, 10, 30]),
        faulty: random.pick(&[0, 1, 5, 20]),
        stubborn: random.chance(15),
    };
    let leaps = random.chance(15);
    let mut sender = Sender { leaps, ..Sender::new(random, panel, habits) };
    if sender.random.chance(70) {
        sender.start_up();
    }
    while sender.sent < target {
        sender.phrase();
        if sender.leaps && sender.sent + 40 > target {
            sender.leap();
        }
    }
    if sender.random.chance(60) {
        sender.light_up();
    }
    if sender.random.chance(20) {
        sender.lone_half();
    }
    sender.log
}

impl Sender<'_> {
    fn new(random: &mut Random, panel: Panel, habits: Habits) -> Sender<'_> {
        let believed = panel.sheet.width;
        Sender { random, panel, believed, habits, log: Vec::new(), sent: 0, leaps: false }
    }

    fn reset(&mut self) {
        let time = self.time();
        self.emit(log::write_reset(time));
        self.believed = Width::Eight;
    }

    /// A reset in the midst of a pair.
    fn half_then_reset(&mut self) {
        self.lone_half();
        self.reset();
    }

    /// A first half without its second, where the width is 4.
    fn lone_half(&mut self) {
        if self.panel.sheet.width == Width::Four {
            self.settle();
            let (rs, rw, data) = (self.random.flag(), self.random.flag(), self.random.byte());
            let time = self.time();
            self.send(time, rs, rw, data);
        }
    }

    /// Goes near the last time there is, where a busy end lies above it.
    fn leap(&mut self) {
        self.leaps = false;
        let before = self.random.pick(&[1, 2, 40, 41, 1_641, 10_001, 65_535, 65_536, 65_537]);
        let (rs, data) = (self.random.flag(), self.random.byte());
        self.send((TIME_LIMIT - before).max(self.panel.last), rs, false, data);
    }

    fn instruct(&mut self, code: u8) {
        self.transfer(false, false, code);
        if (0x20..=0x3F).contains(&code) {
            self.believed = if code & 0x10 != 0 { Width::Eight } else { Width::Four };
        }
    }

    fn write(&mut self, byte: u8) {
        self.transfer(true, false, byte);
    }

    // The chip drives the bus in a read, so the record's data byte is junk.
    fn read(&mut self) {
        let junk = self.random.byte();
        self.transfer(true, true, junk);
    }

    fn status(&mut self) {
        let junk = self.random.byte();
        self.transfer(false, true, junk);
    }

    fn transfer(&mut self, rs: bool, rw: bool, byte: u8) {
        if self.random.chance(self.habits.faulty) {
            self.fault();
        }
        let width = if self.habits.stubborn { self.believed } else { self.panel.sheet.width };
        if width == Width::Four {
            self.pair(rs, rw, byte);
        } else {
            let time = self.time();
            self.send(time, rs, rw, byte);
        }
    }

    fn pair(&mut self, rs: bool, rw: bool, byte: u8) {
        if !self.habits.stubborn {
            self.settle();
        }
        let junk = self.random.byte();
        let time = self.time();
        self.send(time, rs, rw, byte & 0xF0 | junk & 0x0F);
        if self.random.chance(self.habits.faulty) {
            self.fault();
        }
        let (rs, rw) = self.second_control(rs, rw);
        let time = self.second_time();
        self.send(time, rs, rw, byte << 4 | junk >> 4);
    }

    /// Ends a pair that was left open, by a matching half or a tearing one.
    fn settle(&mut self) {
        let Some(Half { rs, rw, .. }) = self.panel.half else { return };
        let tears = self.random.chance(20);
        let way = if tears { self.random.below(3) } else { 3 };
        let (rs, rw) = torn(rs, rw, way);
        let data = self.random.byte();
        let time = self.second_time();
        self.send(time, rs, rw, data);
    }

    fn second_control(&mut self, rs: bool, rw: bool) -> (bool, bool) {
        if self.random.chance(self.habits.tearing) {
            let way = self.random.below(3);
            torn(rs, rw, way)
        } else {
            (rs, rw)
        }
    }

    fn send(&mut self, time: u64, rs: bool, rw: bool, data: u8) {
        self.emit(log::write_transfer(time, u8::from(rs) | u8::from(rw) << 1, data));
    }

    fn emit(&mut self, record: Vec<u8>) {
        self.panel.answer(&record);
        self.log.extend(record);
        self.sent += 1;
    }

    /// When the next transfer begins: mostly as a patient box would choose,
    /// otherwise close to the busy end on either side, or during it.
    fn time(&mut self) -> u64 {
        let (busy_end, last) = (self.panel.busy_end, self.panel.last);
        let ready = busy_end.max(last);
        let time = if self.random.chance(self.habits.patient) {
            ready + self.random.pick(&[0, 0, 1, 7, 40, 60])
        } else {
            match self.random.below(9) {
                0 => busy_end,
                1 | 2 => busy_end.saturating_sub(1),
                3 => busy_end + 1,
                4 => last,
                5 => last + self.random.below(5),
                6 | 7 => last + self.random.below(ready - last + 1),
                _ => ready + self.random.below(100_000),
            }
        };
        self.within(time)
    }

    /// When a second half comes: soon, or close to the busy end.
    fn second_time(&mut self) -> u64 {
        let (busy_end, last) = (self.panel.busy_end, self.panel.last);
        let time = match self.random.below(8) {
            0 => last,
            1 => busy_end.saturating_sub(1),
            2 => busy_end,
            3 => busy_end + 1,
            4 => last + self.random.below(3_000),
            _ => last + 1 + self.random.below(5),
        };
        self.within(time)
    }

    /// Mostly keeps a time from being back or bad.
    fn within(&mut self, time: u64) -> u64 {
        if self.random.chance(97) {
            time.max(self.panel.last).min(TIME_LIMIT - 1)
        } else {
            time
        }
    }
}

/// RS, R/W or both turned over; any other way leaves them.
fn torn(rs: bool, rw: bool, way: u64) -> (bool, bool) {
    match way {
        0 => (!rs, rw),
        1 => (rs, !rw),
        2 => (!rs, !rw),
        _ => (rs, rw),
    }
}
