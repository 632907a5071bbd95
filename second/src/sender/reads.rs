//! Reads that show whether the next read is good: something that makes it good or
//! not, something that leaves that alone, and a read.

use super::{torn, Habits, Sender};
use crate::chip::Width;
use crate::log::TIME_LIMIT;
use crate::panel::Panel;
use crate::random::Random;

/// Every code with a read right behind it, sent at this width to this fresh
/// panel: in either memory, once after an address set and once after a write.
pub fn send_codes_before_reads(random: &mut Random, panel: Panel, width: Width) -> Vec<u8> {
    let habits = Habits { patient: 100, tearing: 0, faulty: 0, stubborn: false };
    let mut sender = Sender::new(random, panel, habits);
    for code in 0..=0xFF {
        for (memory, is_good) in [(0x40, true), (0x40, false), (0x80, true), (0x80, false)] {
            sender.make_width(width);
            sender.point(memory, is_good);
            sender.instruct(code);
            sender.read();
        }
    }
    sender.log
}

impl Sender<'_> {
    /// Whether the next read is good, left alone or turned, and then a read.
    pub(super) fn read_that_shows(&mut self) {
        let patient = std::mem::replace(&mut self.habits.patient, 100);
        let (memory, is_good) = (self.random.pick(&[0x40, 0x80]), self.random.flag());
        self.point(memory, is_good);
        if self.random.chance(60) {
            self.turn();
        }
        if self.random.flag() {
            self.leave_alone();
        }
        let faults = self.random.pick(&[self.habits.faulty, self.habits.faulty, 30]);
        let faulty = std::mem::replace(&mut self.habits.faulty, faults);
        self.read();
        if self.random.chance(30) {
            self.read();
        }
        (self.habits.patient, self.habits.faulty) = (patient, faulty);
    }

    fn make_width(&mut self, width: Width) {
        if self.panel.sheet.width != width {
            self.instruct(if width == Width::Eight { 0x30 } else { 0x20 });
        }
    }

    /// Sets an address of one of the memories, which makes the next read good, and
    /// writes there, which makes it not good.
    fn point(&mut self, memory: u8, is_good: bool) {
        let place = self.random.byte() & 0x1F;
        self.instruct(memory | place);
        if !is_good {
            let byte = self.random.byte();
            self.write(byte);
        }
    }

    /// Something of each sort that is carried out.
    fn turn(&mut self) {
        let byte = self.random.byte();
        match self.random.below(14) {
            0 => self.reset(),
            1 => self.read_half_then_reset(),
            2 => self.write(byte),
            3 => self.read(),
            4..=6 => self.instruct(0x10 | byte & 7),
            7 | 8 => self.instruct(1 + byte % 3),
            9 => self.instruct(0x04 | byte & 3),
            10 => self.instruct(0x08 | byte & 7),
            11 => self.change_width(),
            12 => self.instruct(0x40 | byte & 0x3F),
            _ => self.instruct(0x80 | byte),
        }
    }

    /// A reset in the midst of a read, where the width is 4.
    fn read_half_then_reset(&mut self) {
        if self.panel.sheet.width == Width::Four {
            self.settle();
            let time = self.time();
            self.send(time, true, true, 0xFF);
        }
        self.reset();
    }

    pub(super) fn leave_alone(&mut self) {
        let byte = self.random.byte();
        match self.random.below(10) {
            0..=2 => self.instruct(0x18 | byte & 7),
            3 => self.status(),
            4 => self.instruct(0x00),
            5 => self.fault(),
            6 if self.panel.sheet.width == Width::Four => self.tear(byte),
            _ => self.while_busy(byte),
        }
    }

    /// A pair whose halves do not match, begun while free or while busy.
    fn tear(&mut self, data: u8) {
        self.settle();
        let (rs, rw) = self.random.pick(&[(true, true), (true, true), (true, false), (false, true), (false, false)]);
        let time = if self.random.flag() { self.time() } else { self.busy_time() };
        self.torn_pair(time, rs, rw, data);
    }

    /// A transfer that the chip ignores, where it is busy.
    fn while_busy(&mut self, byte: u8) {
        self.settle();
        let time = self.busy_time();
        match self.random.below(5) {
            0 => self.transfer_at(time, true, true, byte, 0),
            1 => self.transfer_at(time, true, false, byte, 0),
            2 => self.transfer_at(time, false, false, 0x10 | byte & 7, 0),
            3 => self.transfer_at(time, false, false, 1 + byte % 0x3F, 0),
            _ => self.transfer_at(time, false, false, 0x40 | byte, 0),
        }
    }

    /// A time before the busy end, where that is still to come.
    pub(super) fn busy_time(&mut self) -> u64 {
        let last = self.panel.last;
        let latest = self.panel.busy_end.saturating_sub(1).clamp(last, TIME_LIMIT - 1);
        let any = last + self.random.below(latest - last + 1);
        self.random.pick(&[last, latest, any])
    }

    /// A half at this time, and one behind it that differs from it.
    pub(super) fn torn_pair(&mut self, time: u64, rs: bool, rw: bool, data: u8) {
        self.send(time, rs, rw, data);
        let way = self.random.below(3);
        let (rs, rw) = torn(rs, rw, way);
        let time = self.panel.last + self.random.below(50);
        self.send(time, rs, rw, data);
    }

    /// A transfer that begins at this time, whole or in two halves as the chip's
    /// width is; whether it is busy is seen at the beginning alone. Between the
    /// halves there is a fault by this chance of a hundred.
    pub(super) fn transfer_at(&mut self, time: u64, rs: bool, rw: bool, byte: u8, fault: u64) {
        if self.panel.sheet.width == Width::Eight {
            return self.send(time, rs, rw, byte);
        }
        let junk = self.random.byte();
        self.send(time, rs, rw, byte & 0xF0 | junk & 0x0F);
        if self.random.chance(fault) {
            self.fault();
        }
        let time = self.second_time().clamp(self.panel.last, TIME_LIMIT - 1);
        self.send(time, rs, rw, byte << 4 | junk >> 4);
    }
}
