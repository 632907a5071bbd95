//! Function Set at the width that the chip has, so that only its bits change: bit 0
//! turns the glass, alone and among others, and no other bit does.

use super::written::PATIENT;
use super::Sender;
use crate::chip::Width;
use crate::log;
use crate::panel::Panel;
use crate::random::Random;

/// A picture with cursor, blink and pattern, and then what turns the glass and what
/// would, if it were carried out: the log after each. The last is a reset with the
/// picture sent anew.
pub fn send_turns(random: &mut Random, panel: Panel) -> Vec<Vec<u8>> {
    let (mut sender, mut logs) = (Sender::new(random, panel, PATIENT), Vec::new());
    sender.fill_glass();
    for way in 0..TURNS {
        let length = sender.log.len();
        sender.turn_or_not(way);
        if sender.log.len() > length {
            logs.push(sender.log.clone());
        }
    }
    logs
}

/// In how many ways the glass is turned, or not.
const TURNS: u64 = 14;

impl Sender<'_> {
    /// Function Set with bit 0 alone, another bit alone, none, or any.
    pub(super) fn turn_glass(&mut self) {
        let any = self.random.byte() & 0x0F;
        let bits = self.random.pick(&[0x00, 0x01, 0x01, 0x02, any, any]);
        self.set_function(bits);
    }

    pub(super) fn set_function(&mut self, bits: u8) {
        let code = self.function_set(bits);
        self.instruct(code);
    }

    /// The instruction with these bits that leaves the width alone.
    fn function_set(&self, bits: u8) -> u8 {
        bits | if self.panel.sheet.width == Width::Eight { 0x30 } else { 0x20 }
    }

    fn set_function_soon(&mut self, bits: u8) {
        self.soon(false, false, self.function_set(bits));
    }

    /// Codes on every line, one of them a pattern's, shifted, with cursor and blink.
    fn fill_glass(&mut self) {
        self.soon(false, false, 0x48);
        for row in [0x10, 0x18, 0x14, 0x12, 0x11, 0x10, 0x00, 0x01] {
            self.soon(true, false, row);
        }
        for (address, codes) in [(0x80, [0x41, 0x01, 0x4C]), (0x99, [0x05, 0x46, 0x52])] {
            self.soon(false, false, address);
            for code in codes {
                self.soon(true, false, code);
            }
        }
        for code in [0x18, 0x82, 0x0F] {
            self.soon(false, false, code);
        }
    }

    /// The glass is turned first, and turned back in the eighth way.
    fn turn_or_not(&mut self, way: u64) {
        match way {
            0 => self.set_function_soon(0x1),
            1 => self.set_function_while_busy(0x0),
            2 => self.set_function_back_in_time(0x0),
            3 => self.tear_function_set(0x0),
            4 => self.set_function_soon(0xB),
            5 => self.soon(false, false, 0x0B),
            6 => self.soon(false, false, 0x0E),
            7 => self.set_function_soon(0x2),
            8 => self.set_function_while_busy(0x1),
            9 => self.set_function_back_in_time(0x1),
            10 => self.tear_function_set(0x1),
            11 => self.set_function_soon(0xF),
            12 => self.soon(false, false, 0x01),
            _ => {
                self.reset();
                self.fill_glass();
            }
        }
    }

    /// Ignored, since what came before it has just made the chip busy.
    fn set_function_while_busy(&mut self, bits: u8) {
        self.soon(false, false, 0x0F);
        let time = self.busy_time();
        self.transfer_at(time, false, false, self.function_set(bits), 0);
    }

    fn set_function_back_in_time(&mut self, bits: u8) {
        let code = self.function_set(bits);
        self.emit(log::write_transfer(self.panel.last.saturating_sub(1), 0, code));
    }

    /// Halves that would make one, if they matched; at width 8 there are none.
    fn tear_function_set(&mut self, bits: u8) {
        if self.panel.sheet.width == Width::Four {
            let time = self.panel.busy_end.max(self.panel.last);
            self.send(time, false, false, 0x20);
            self.send(time, true, false, bits << 4);
        }
    }
}

#[cfg(test)]
mod tests {
    use super::*;
    use crate::chips::Chip;
    use crate::panel::{self, Times};
    use crate::picture::Mode;

    /// With the display on, in either mode at least every sixth.
    #[test]
    fn many_logs_end_on_mirrored_glass() {
        for chip in Chip::KNOWN {
            let mut counts = [0, 0];
            for turn in 0..300 {
                let mut panel = Panel::fresh(chip, Times::USUAL);
                let log = crate::sender::send_log(&mut Random::new(3, turn), panel.clone(), 60);
                panel::run(&mut panel, &log);
                counts[usize::from(Mode::of(&panel.sheet) == Mode::B)] += u64::from(panel.sheet.d);
            }
            assert!(counts.iter().all(|&count| count > 50), "{counts:?}");
        }
    }

    /// At width 8 without the two that are torn.
    #[test]
    fn the_glass_is_turned_by_what_is_carried_out() {
        use Mode::{A, B};
        for (chip, width) in [(Chip::ONE_LINE, Width::Eight), (Chip::TWO_LINES, Width::Four)] {
            let mut panel = Panel::fresh(chip, Times::USUAL);
            panel.sheet.width = width;
            let logs = send_turns(&mut Random::new(3, 3), panel.clone());
            let modes: Vec<Mode> = logs
                .iter()
                .map(|log| {
                    let mut panel = panel.clone();
                    panel::run(&mut panel, log);
                    Mode::of(&panel.sheet)
                })
                .collect();
            match width {
                Width::Eight => assert_eq!(modes, [B, B, B, B, B, B, A, A, A, B, B, A]),
                Width::Four => assert_eq!(modes, [B, B, B, B, B, B, B, A, A, A, A, B, B, A]),
            }
        }
    }
}
