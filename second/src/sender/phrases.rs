//! What a box sends, a phrase at a time: lines of text, patterns, reads, moves and
//! settings, and things that nobody should send.

use super::Sender;

/// Where the ranges of codes that mean the same begin and end.
const RANGE_ENDS: [u8; 18] = [
    0x00, 0x01, 0x02, 0x03, 0x04, 0x07, 0x08, 0x0F, 0x10, 0x17, 0x18, 0x1F, 0x20, 0x3F, 0x40, 0x7F, 0x80, 0xFF,
];

impl Sender<'_> {
    pub(super) fn phrase(&mut self) {
        match self.random.below(28) {
            0 => self.start_up(),
            1 | 2 => self.text_line(),
            3 | 4 => self.text_after_polling(),
            5 => self.define_pattern(),
            6 => self.read_back(),
            7 => self.move_about(),
            8 => self.change_entry(),
            9 => self.change_screen(),
            10 => self.change_width(),
            11 => self.write_again_while_clearing(),
            12 => self.reset(),
            13 => self.fault(),
            14 => self.half_then_reset(),
            15 => self.nothing(),
            16 => self.codes_while_clearing(),
            17 => self.at_the_ends_of_lines(),
            18..=20 => self.read_that_shows(),
            21..=23 => self.writes_that_show(),
            24 => self.turn_glass(),
            _ => self.any_transfers(),
        }
    }

    pub(super) fn start_up(&mut self) {
        if self.random.flag() {
            self.reset();
        }
        let width = self.random.pick(&[0x20, 0x20, 0x30]);
        let screen = self.random.pick(&[0x08, 0x0C, 0x0D, 0x0E, 0x0F]);
        let bits = self.random.pick(&[0x08, 0x08, 0x09, 0x09, 0x01, 0x0A]);
        for code in [0x30, width, width | bits, screen, 0x01, 0x06] {
            self.instruct(code);
        }
    }

    fn text_line(&mut self) {
        if self.random.chance(60) {
            let first = self.random.pick(&[0x01, 0x02, 0x03, 0x80, 0x90]);
            self.instruct(first);
        }
        for _ in 0..1 + self.random.below(18) {
            let code = self.character();
            self.write(code);
        }
    }

    /// Writes, reads and moves from one line to the other, whatever the chip;
    /// C0h is where the second line of another maker's chip begins.
    fn at_the_ends_of_lines(&mut self) {
        if self.random.flag() {
            let code = 0x04 | self.random.byte() & 3;
            self.instruct(code);
        }
        let place = self.random.pick(&[0x80, 0x8F, 0x90, 0x9F, 0x81, 0x8E, 0x91, 0x9E, 0xC0, 0xAF, 0xD0]);
        self.instruct(place);
        let sort = self.random.below(5);
        for _ in 0..1 + self.random.below(4) {
            let code = self.character();
            match sort {
                0 => self.read(),
                1 => self.instruct(0x10),
                2 => self.instruct(0x14),
                _ => self.write(code),
            }
        }
        if self.random.chance(30) {
            self.status();
        }
    }

    /// The box of the night in question: it writes its line while the chip is
    /// still clearing, and then writes it again.
    fn write_again_while_clearing(&mut self) {
        let line: Vec<u8> = (0..1 + self.random.below(5)).map(|_| self.character()).collect();
        self.instruct(0x01);
        let patient = std::mem::replace(&mut self.habits.patient, 0);
        for &code in &line {
            self.write(code);
        }
        self.habits.patient = 100;
        for &code in &line {
            self.write(code);
        }
        self.habits.patient = patient;
    }

    fn text_after_polling(&mut self) {
        for _ in 0..1 + self.random.below(4) {
            for _ in 0..1 + self.random.below(3) {
                self.status();
            }
            let code = self.character();
            self.write(code);
        }
    }

    fn define_pattern(&mut self) {
        let place = self.random.byte() & 0x3F;
        self.instruct(0x40 | place);
        for _ in 0..1 + self.random.below(9) {
            let row = self.random.byte();
            self.write(row);
        }
        if self.random.chance(70) {
            let place = self.random.byte();
            self.instruct(0x80 | place);
            let code = self.random.byte() & 0x0F;
            self.write(code);
        }
    }

    fn read_back(&mut self) {
        let memory = self.random.pick(&[0x40, 0x80]);
        let place = self.random.pick(&[0x00, 0x0F, 0x10, 0x1E, 0x1F]);
        self.instruct(memory | place);
        for _ in 0..1 + self.random.below(6) {
            self.read();
        }
    }

    fn move_about(&mut self) {
        for _ in 0..1 + self.random.below(10) {
            let code = 0x10 | self.random.byte() & 0x0F;
            self.instruct(code);
        }
    }

    fn change_entry(&mut self) {
        let code = 0x04 | self.random.byte() & 3;
        self.instruct(code);
        let then = self.random.below(4);
        for _ in 0..1 + self.random.below(4) {
            let code = self.character();
            match then {
                0 => self.read(),
                _ => self.write(code),
            }
        }
    }

    fn change_screen(&mut self) {
        let code = 0x08 | self.random.pick(&[0, 4, 5, 6, 7, 7]);
        self.instruct(code);
    }

    pub(super) fn change_width(&mut self) {
        let width = self.random.pick(&[0x20, 0x20, 0x30]);
        let bits = self.random.byte() & 0x0F;
        self.instruct(width | bits);
    }

    fn codes_while_clearing(&mut self) {
        self.instruct(0x01);
        let patient = std::mem::replace(&mut self.habits.patient, 0);
        for _ in 0..4 + self.random.below(24) {
            let any = self.random.byte();
            let code = if self.random.chance(25) { self.random.pick(&RANGE_ENDS) } else { any };
            self.instruct(code);
        }
        self.habits.patient = patient;
    }

    /// Most of what is sent is seen only with the display on, in either mode.
    pub(super) fn light_up(&mut self) {
        self.habits.patient = 100;
        if self.random.flag() {
            self.turn_glass();
        }
        let screen = self.random.pick(&[0x0C, 0x0D, 0x0E, 0x0F]);
        self.instruct(screen);
        for _ in 0..self.random.below(4) {
            let code = self.random.pick(&[0x18, 0x1C, 0x10, 0x14, 0x4F, 0x53, 0x5E, 0x83, 0x93]);
            self.instruct(code);
        }
    }

    fn any_transfers(&mut self) {
        for _ in 0..1 + self.random.below(8) {
            let byte = self.random.byte();
            match self.random.below(8) {
                0 => self.write(byte),
                1 => self.read(),
                2 => self.status(),
                _ => self.instruct(byte),
            }
        }
    }

    /// 00h, often with a transfer at the same time, which must be free.
    fn nothing(&mut self) {
        self.instruct(0x00);
        let byte = self.character();
        self.write(byte);
    }

    fn character(&mut self) -> u8 {
        match self.random.below(4) {
            0 => self.random.byte(),
            1 => self.random.byte() & 0x1F,
            _ => 0x20 + self.random.byte() % 0x60,
        }
    }
}
