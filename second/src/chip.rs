//! The sheet's machine: two memories, which places of one are written, the address,
//! the shift and the settings. It has no clock and knows no half transfers. How far
//! display memory reaches goes by the chip's lines; everything else is the same.

use crate::chips::{Chip, DISPLAY_SIZE, LINE};
use crate::written::{Written, SPACE};

/// A place in display memory, 0 to 15 on one line and 0 to 31 on two.
#[derive(Clone, Copy, Debug, PartialEq)]
pub struct DisplayAddress(pub u8);

/// A place in pattern memory, 0 to 31.
#[derive(Clone, Copy, Debug, PartialEq)]
pub struct PatternAddress(pub u8);

/// The address counter points into one of the two memories.
#[derive(Clone, Copy, Debug, PartialEq)]
pub enum Counter {
    Display(DisplayAddress),
    Pattern(PatternAddress),
}

impl Counter {
    /// The bare number, for the status byte and the prints.
    pub fn number(self) -> u8 {
        match self {
            Counter::Display(DisplayAddress(number)) => number,
            Counter::Pattern(PatternAddress(number)) => number,
        }
    }

    /// One step within its memory; display memory is one ring over all lines.
    fn moved(self, up: bool, chip: Chip) -> Counter {
        match self {
            Counter::Display(DisplayAddress(at)) => {
                Counter::Display(DisplayAddress(around(at, up, chip.places() as u8)))
            }
            Counter::Pattern(PatternAddress(at)) => {
                Counter::Pattern(PatternAddress(around(at, up, 32)))
            }
        }
    }
}

/// One step along a ring of `size` places.
fn around(at: u8, up: bool, size: u8) -> u8 {
    let step = if up { 1 } else { size - 1 };
    (at + step) % size
}

#[derive(Clone, Copy, Debug, PartialEq)]
pub enum Width {
    Eight,
    Four,
}

impl Width {
    pub fn bits(self) -> u8 {
        match self {
            Width::Eight => 8,
            Width::Four => 4,
        }
    }
}

/// Everything that the sheet describes.
#[derive(Clone, Debug, PartialEq)]
pub struct Sheet {
    pub chip: Chip,
    /// Bytes past the chip's own are 20h.
    pub display: [u8; DISPLAY_SIZE],
    /// The places of display memory that hold no space.
    pub written: Written,
    pub pattern: [u8; 32],
    pub counter: Counter,
    /// One for all lines: each shifts within itself.
    pub shift: u8,
    /// Entry bit I/D: true means up.
    pub i_d: bool,
    /// Entry bit S: display-memory writes also shift.
    pub s: bool,
    /// Display bits D (on), C (cursor) and B (blink).
    pub d: bool,
    pub c: bool,
    pub b: bool,
    pub width: Width,
    /// The low four Function Set bits, kept as written. Bit 0 says where the dots of
    /// the picture land, and no step looks at any of them.
    pub function: u8,
    /// Whether the next data read is good.
    pub good: bool,
}

/// Something that the machine carries out, always whole.
#[derive(Clone, Copy, Debug, PartialEq)]
pub enum Entry {
    Reset,
    Instruction(u8),
    Write(u8),
    Read,
}

impl Sheet {
    pub fn fresh(chip: Chip) -> Sheet {
        Sheet {
            chip,
            display: [SPACE; DISPLAY_SIZE],
            written: Written::NOWHERE,
            pattern: [0; 32],
            counter: Counter::Display(DisplayAddress(0)),
            shift: 0,
            i_d: true,
            s: false,
            d: false,
            c: false,
            b: false,
            width: Width::Eight,
            function: 0,
            good: false,
        }
    }

    pub fn carry_out(&mut self, entry: Entry) {
        let good = self.good_after(entry);
        match entry {
            // It is the same chip afterwards.
            Entry::Reset => *self = Sheet::fresh(self.chip),
            Entry::Instruction(code) => self.instruct(code),
            Entry::Write(byte) => self.write(byte),
            // A read never shifts the display, whatever S is.
            Entry::Read => self.move_counter(self.i_d),
        }
        self.good = good;
    }

    /// Whether the next data read is good once this is carried out: it is after
    /// an address set, a cursor shift in display memory, or another read.
    fn good_after(&self, entry: Entry) -> bool {
        match entry {
            // A doubtful read makes the next one good too.
            Entry::Read => true,
            Entry::Reset | Entry::Write(_) => false,
            Entry::Instruction(0x40..=0xFF) => true,
            Entry::Instruction(0x10..=0x17) => self.is_in_display(),
            // Nothing at all, and a display shift, leave it alone.
            Entry::Instruction(0x00 | 0x18..=0x1F) => self.good,
            Entry::Instruction(_) => false,
        }
    }

    /// Whether the address points into display memory.
    pub fn is_in_display(&self) -> bool {
        matches!(self.counter, Counter::Display(_))
    }

    /// The byte that a good data read gives.
    pub fn byte_at_address(&self) -> u8 {
        match self.counter {
            Counter::Display(DisplayAddress(at)) => self.display[usize::from(at)],
            Counter::Pattern(PatternAddress(at)) => self.pattern[usize::from(at)],
        }
    }

    fn instruct(&mut self, code: u8) {
        let bit = |n: u8| code >> n & 1 != 0;
        match code {
            0x00 => {}
            0x01 => self.clear(),
            0x02..=0x03 => self.home(),
            0x04..=0x07 => (self.i_d, self.s) = (bit(1), bit(0)),
            0x08..=0x0F => (self.d, self.c, self.b) = (bit(2), bit(1), bit(0)),
            0x10..=0x17 => self.move_counter(bit(2)),
            0x18..=0x1F => self.shift_display(!bit(2)),
            0x20..=0x3F => {
                self.width = if bit(4) { Width::Eight } else { Width::Four };
                self.function = code & 0x0F;
            }
            0x40..=0x7F => self.counter = Counter::Pattern(PatternAddress(code & 0x1F)),
            // The low four bits on one line, the low five on two.
            0x80..=0xFF => self.counter = Counter::Display(DisplayAddress(code % self.chip.places() as u8)),
        }
    }

    fn move_counter(&mut self, up: bool) {
        self.counter = self.counter.moved(up, self.chip);
    }

    /// S stays as it is; only I/D is set.
    fn clear(&mut self) {
        self.display = [SPACE; DISPLAY_SIZE];
        self.written = Written::NOWHERE;
        self.home();
        self.i_d = true;
    }

    fn home(&mut self) {
        self.counter = Counter::Display(DisplayAddress(0));
        self.shift = 0;
    }

    fn shift_display(&mut self, left: bool) {
        self.shift = around(self.shift, left, LINE as u8);
    }

    /// Puts a byte into display memory, and keeps its place's bit with it.
    pub fn store(&mut self, place: usize, byte: u8) {
        self.display[place] = byte;
        self.written.store(place, byte);
    }

    fn write(&mut self, byte: u8) {
        match self.counter {
            Counter::Display(DisplayAddress(at)) => {
                self.store(usize::from(at), byte);
                if self.s {
                    self.shift_display(self.i_d);
                }
            }
            Counter::Pattern(PatternAddress(at)) => {
                self.pattern[usize::from(at)] = byte & 0x1F;
            }
        }
        self.move_counter(self.i_d);
    }
}

#[cfg(test)]
mod good;
#[cfg(test)]
mod tests;
#[cfg(test)]
mod two_lines;
#[cfg(test)]
mod written;
