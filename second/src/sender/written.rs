//! Writes that show in the bits of the written places: spaces over bytes and bytes
//! over spaces, around the ends of memory and of a line, and what leaves the bits
//! alone though it has to do with a place.

use super::{Habits, Sender};
use crate::chip::Width;
use crate::log::{self, TIME_LIMIT};
use crate::panel::{Half, Panel};
use crate::random::Random;
use crate::written::SPACE;

pub(super) const PATIENT: Habits = Habits { patient: 100, tearing: 0, faulty: 0, stubborn: false };

/// One byte at one place, I/D being up or down, sent to this panel.
pub fn send_write(random: &mut Random, panel: Panel, place: u8, byte: u8, up: bool) -> Vec<u8> {
    let mut sender = Sender::new(random, panel, PATIENT);
    sender.soon(false, false, if up { 0x06 } else { 0x04 });
    sender.lay(place, byte);
    sender.log
}

/// These bytes from address 0 on.
pub fn send_bytes(random: &mut Random, panel: Panel, bytes: &[u8]) -> Vec<u8> {
    let mut sender = Sender::new(random, panel, PATIENT);
    sender.soon(false, false, 0x80);
    for &byte in bytes {
        sender.soon(true, false, byte);
    }
    sender.log
}

/// Bytes and spaces, over bytes and over spaces, in the midst of memory, at its ends
/// and at those of a line, up and down, with S and without: the log after each. In the
/// end each of the four is the last at a place of its own.
pub fn send_around_the_ends(random: &mut Random, panel: Panel) -> Vec<Vec<u8>> {
    let (mut sender, mut logs) = (Sender::new(random, panel, PATIENT), Vec::new());
    let last = sender.panel.sheet.chip.places() as u8 - 1;
    let (up, down) = ([9, 15, last], [9, 16 & last, 0]);
    for (entry, places) in [(0x06, up), (0x04, down), (0x07, up), (0x05, down)] {
        sender.soon(false, false, entry);
        for place in places {
            for byte in [0x57, 0x41, SPACE, SPACE, 0x00] {
                sender.lay(place, byte);
                logs.push(sender.log.clone());
            }
        }
    }
    for (place, byte, then) in [(2, 0x57, SPACE), (3, SPACE, SPACE), (4, SPACE, 0x57), (5, 0x57, 0x41)] {
        sender.lay(place, byte);
        sender.lay(place, then);
    }
    logs.push(sender.log.clone());
    logs
}

/// Clear and a reset, in display memory and in pattern memory, of what is written and
/// of nothing: the log after each.
pub fn send_clears(random: &mut Random, panel: Panel) -> Vec<Vec<u8>> {
    let (mut sender, mut logs) = (Sender::new(random, panel, PATIENT), Vec::new());
    let width = sender.panel.sheet.width;
    for (address, is_reset) in [(0x85, false), (0x45, false), (0x85, true), (0x45, true)] {
        for byte in [0x57, SPACE] {
            sender.widen_or_narrow(width);
            sender.lay(6, byte);
            sender.soon(false, false, address);
            if is_reset {
                sender.reset();
            } else {
                sender.soon(false, false, 0x01);
            }
            logs.push(sender.log.clone());
        }
    }
    logs
}

/// What must leave the bits alone, at a place that is written and at one that is not:
/// the log after each.
pub fn send_what_leaves_the_bits(random: &mut Random, panel: Panel) -> Vec<Vec<u8>> {
    let (mut sender, mut logs) = (Sender::new(random, panel, PATIENT), Vec::new());
    let width = sender.panel.sheet.width;
    for (place, byte) in [(6, 0x57), (11, SPACE)] {
        sender.lay(place, byte);
        // What would turn the bit over, if it were carried out there.
        let other = if byte == SPACE { 0x57 } else { SPACE };
        for way in 0..LEAVING {
            sender.widen_or_narrow(width);
            sender.soon(false, false, 0x80 | place);
            let length = sender.log.len();
            sender.leave_place(way, place, other);
            if sender.log.len() > length {
                logs.push(sender.log.clone());
            }
            sender.drop_half();
        }
    }
    logs
}

/// In how many ways the bits are left alone.
const LEAVING: u64 = 37;

impl Sender<'_> {
    /// A byte at this place, whatever the entry bits are.
    fn lay(&mut self, place: u8, byte: u8) {
        self.soon(false, false, 0x80 | place);
        self.soon(true, false, byte);
    }

    /// A transfer as soon as the chip is free, in halves that match where the width is
    /// 4: nothing is left to chance.
    pub(super) fn soon(&mut self, rs: bool, rw: bool, byte: u8) {
        let time = self.panel.busy_end.max(self.panel.last);
        self.transfer_at(time, rs, rw, byte, 0);
    }

    fn read_soon(&mut self) {
        self.soon(true, true, 0xFF);
    }

    fn widen_or_narrow(&mut self, width: Width) {
        if self.panel.sheet.width != width {
            self.soon(false, false, if width == Width::Eight { 0x30 } else { 0x20 });
        }
    }

    /// Tears a pair that was left open, so that nothing is carried out.
    fn drop_half(&mut self) {
        if let Some(Half { rs, rw, .. }) = self.panel.half {
            self.send(self.panel.last, !rs, !rw, 0);
        }
    }

    /// The address is at this place, and `other` would turn its bit over.
    fn leave_place(&mut self, way: u64, place: u8, other: u8) {
        const CODES: [u8; 16] =
            [0x14, 0x10, 0x18, 0x1C, 0x08, 0x0F, 0x05, 0x06, 0x02, 0x03, 0x20, 0x30, 0x2F, 0x3F, 0x00, 0x80];
        match way {
            0..=15 => self.soon(false, false, CODES[way as usize]),
            16..=21 => self.leave_place_by_data(way, place, other),
            22..=29 => self.leave_place_while_busy(way, place, other),
            30 => self.emit(log::write_transfer(self.panel.last.saturating_sub(1), 1, other)),
            31 => self.emit(log::write_transfer(self.panel.last.saturating_sub(1), 0, 0x01)),
            32 => self.emit(log::write_reset(self.panel.last.saturating_sub(1))),
            33 => self.emit(log::write_transfer(self.panel.last, 5, other)),
            34 => self.emit(log::write_transfer(TIME_LIMIT, 1, other)),
            35 => self.tear_a_write(other, true),
            _ => self.tear_a_write(other, false),
        }
    }

    /// Reads, and writes into pattern memory at the place's number.
    fn leave_place_by_data(&mut self, way: u64, place: u8, other: u8) {
        match way {
            16 => self.read_soon(),
            17 => {
                self.soon(false, false, 0x0C);
                self.read_soon();
            }
            18 => self.soon(false, true, 0xFF),
            _ => self.soon(false, false, 0x40 | place),
        }
        match way {
            19 => self.soon(true, false, other),
            20 => self.read_soon(),
            21 => {
                self.soon(false, false, 0x14);
                self.soon(false, false, 0x10);
                self.read_soon();
            }
            _ => {}
        }
    }

    /// The address set has just made the chip busy.
    fn leave_place_while_busy(&mut self, way: u64, place: u8, other: u8) {
        if way == 23 {
            self.soon(false, false, 0x40 | place);
        }
        let time = self.busy_time();
        match way {
            22 | 23 => self.transfer_at(time, true, false, other, 0),
            24 => self.transfer_at(time, false, false, 0x01, 0),
            25 => self.transfer_at(time, true, true, other, 0),
            26 => self.transfer_at(time, false, false, 0x14, 0),
            27 => self.transfer_at(time, false, false, 0xC0 | place, 0),
            28 => self.transfer_at(time, false, false, 0x0F, 0),
            // Begun while busy, and torn.
            _ if self.panel.sheet.width == Width::Four => {
                self.send(time, true, false, other);
                self.send(self.panel.last, false, false, other << 4);
            }
            _ => {}
        }
    }

    /// A data write that is the first half of a torn pair or the second; alone, a half
    /// that waits.
    fn tear_a_write(&mut self, byte: u8, first: bool) {
        if self.panel.sheet.width == Width::Eight {
            return;
        }
        let time = self.time();
        self.send(time, first, false, byte);
        let time = self.second_time().max(self.panel.last);
        self.send(time, !first, false, byte << 4);
        let time = self.time();
        self.send(time, true, false, byte);
    }

    /// A place or two written over, up or down, with S or without, and then something
    /// that leaves the bits alone.
    pub(super) fn writes_that_show(&mut self) {
        let patient = std::mem::replace(&mut self.habits.patient, 100);
        if self.random.flag() {
            let code = 0x04 | self.random.byte() & 3;
            self.instruct(code);
        }
        let any = self.random.byte() & 0x1F;
        let place = self.random.pick(&[0x00, 0x0F, 0x10, 0x1F, any, any, any]);
        self.instruct(0x80 | place);
        for _ in 0..1 + self.random.below(4) {
            let byte = self.random.byte();
            let byte = self.random.pick(&[SPACE, SPACE, SPACE, 0x00, 0x02, 0x57, byte]);
            self.write(byte);
        }
        if self.random.flag() {
            let (way, place) = (self.random.below(LEAVING), self.random.byte() & 0x1F);
            let other = self.random.pick(&[SPACE, 0x57]);
            self.settle();
            self.instruct(0x80 | place);
            self.leave_place(way, place, other);
        }
        if self.random.chance(30) {
            self.leave_alone();
        }
        self.habits.patient = patient;
    }
}

#[cfg(test)]
mod tests;
