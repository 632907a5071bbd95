//! Logs of several reads, for `live`: in each read something is done to the glass, or
//! seems to be, and quiet records fill the rest of it.

use super::written::PATIENT;
use super::{Scene, Sender};
use crate::chip::Counter;
use crate::chips::LINE;
use crate::log;
use crate::panel::Panel;
use crate::random::Random;
use crate::wall::live::READ;

/// What is done in a read; the address is afterwards where it was.
#[derive(Clone, Copy, Debug)]
pub enum Deed {
    Nothing,
    Scene(Scene),
    Screen(u8),
    /// The address alone is moved, to the one beside it: done twice, it is back.
    Move,
    /// A row of a pattern that a code in memory shows, or of one that none does.
    Pattern { shown: bool },
    /// Bit 0 of the Function Set bits is turned over.
    Turn,
    /// Another byte at the first position.
    Write,
    /// Another byte there, and then the old one.
    WriteAndBack,
    /// All is cleared and written as it was.
    WriteAgain,
    /// All codes go one place on, and so do the cursor and the shift: the lines show
    /// what they did.
    Round,
    Reset,
}

/// One read for each deed; the last one is short. The deed begins somewhere in its
/// read, and in `late` of a hundred where it runs over into the next.
pub fn send_deeds(random: &mut Random, panel: Panel, narrow: bool, late: u64, deeds: &[Deed]) -> Vec<u8> {
    let mut sender = Sender::new(random, panel, PATIENT);
    // Not at time 0, at which no record can be back.
    sender.emit(log::write_transfer(11_520_000_000, 2, 0));
    if narrow {
        sender.instruct(0x20);
    }
    for (number, &deed) in deeds.iter().enumerate() {
        let early = sender.random.below(READ as u64 * 3 / 4) as usize;
        let first = if sender.random.chance(late) { READ - 100 } else { early };
        sender.fill(READ * number + first);
        sender.deed(deed);
        sender.fill(if number + 1 < deeds.len() { READ * (number + 1) } else { 0 });
    }
    for _ in 0..sender.random.below(4) {
        sender.quiet();
    }
    sender.log
}

impl Sender<'_> {
    /// Quiet records until the log has so many bytes.
    fn fill(&mut self, size: usize) {
        while self.log.len() < size {
            self.quiet();
        }
    }

    /// What leaves the glass as it is; most are long, so that a read has fewer.
    fn quiet(&mut self) {
        match self.random.below(8) {
            0 | 1 => self.status(),
            2 => self.instruct(0x00),
            3 => self.fault(),
            _ => {
                let body = self.random.bytes(62);
                self.emit(log::write_record(9, &body));
            }
        }
    }

    fn deed(&mut self, deed: Deed) {
        let counter = self.panel.sheet.counter;
        match deed {
            Deed::Nothing => {}
            Deed::Scene(scene) => self.scene(scene),
            Deed::Screen(bits) => self.instruct(0x08 | bits),
            Deed::Move => self.point_at(counter, counter.number() ^ 1),
            Deed::Pattern { shown } => self.change_pattern(shown),
            Deed::Turn => self.set_function(self.panel.sheet.function ^ 1),
            Deed::Write => self.write_first(),
            Deed::WriteAndBack => {
                self.write_first();
                self.write_first();
            }
            Deed::WriteAgain => self.write_again(),
            Deed::Round => self.go_round(),
            Deed::Reset => self.reset(),
        }
    }

    /// An address in the memory into which this counter points.
    fn point_at(&mut self, memory: Counter, address: u8) {
        self.instruct(if matches!(memory, Counter::Display(_)) { 0x80 } else { 0x40 } | address);
    }

    fn change_pattern(&mut self, shown: bool) {
        let sheet = &self.panel.sheet;
        let is_shown = |pattern: &u8| sheet.display.iter().any(|&code| code < 0x10 && code & 3 == *pattern);
        let Some(pattern) = (0..4).find(|pattern| is_shown(pattern) == shown) else { return };
        let (counter, entry) = (sheet.counter, 8 * pattern + 2);
        let row = sheet.pattern[usize::from(entry)];
        self.instruct(0x40 | entry);
        self.write(row ^ 0x15);
        self.point_at(counter, counter.number());
    }

    /// The lowest bit of the code at the first position is turned over.
    fn write_first(&mut self) {
        let sheet = &self.panel.sheet;
        let (counter, place) = (sheet.counter, sheet.shift);
        let code = sheet.display[usize::from(place)];
        self.instruct(0x06);
        self.instruct(0x80 | place);
        self.write(code ^ 1);
        self.point_at(counter, counter.number());
    }

    fn write_again(&mut self) {
        let sheet = self.panel.sheet.clone();
        self.instruct(0x01);
        self.instruct(0x06);
        for &code in &sheet.display[..sheet.chip.places()] {
            self.write(code);
        }
        for _ in 0..sheet.shift {
            self.instruct(0x18);
        }
        self.point_at(sheet.counter, sheet.counter.number());
    }

    fn go_round(&mut self) {
        let sheet = self.panel.sheet.clone();
        self.instruct(0x06);
        self.instruct(0x80);
        for line in sheet.display[..sheet.chip.places()].chunks(LINE) {
            for place in 0..LINE {
                self.write(line[(place + LINE - 1) % LINE]);
            }
        }
        self.instruct(0x18);
        let address = sheet.counter.number();
        self.point_at(sheet.counter, address & 0x10 | (address + 1) & 0x0F);
    }
}
