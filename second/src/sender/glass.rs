//! Scenes on the glass, for `wall`: a box that sets screen, shift, codes and
//! cursor on purpose, with whatever a box sends between one scene and the next.

use super::{Habits, Sender};
use crate::log::{self, TIME_LIMIT};
use crate::panel::Panel;
use crate::random::Random;

/// What a scene sets, so that none is left to chance.
#[derive(Clone, Copy, Debug)]
pub struct Scene {
    /// 0 to 15.
    pub shift: u8,
    /// D, C and B as bits 2, 1 and 0.
    pub screen: u8,
    /// The codes from here on are written, sixteen a line.
    pub first_code: u8,
    /// The cursor's address instruction, into either memory.
    pub cursor: u8,
    /// The Function Set bits; bit 0 turns the glass.
    pub function: u8,
}

/// A log of at least `target` records, sent to this fresh panel; the last scene
/// is the one given.
pub fn send_glass(random: &mut Random, panel: Panel, target: usize, last: Scene) -> Vec<u8> {
    let habits = Habits { patient: 100, tearing: 0, faulty: random.pick(&[0, 3, 15]), stubborn: false };
    let mut sender = Sender::new(random, panel, habits);
    sender.begin_somewhere(target);
    while sender.sent < target {
        sender.phrase();
        if sender.random.chance(30) {
            let scene = any_scene(sender.random);
            sender.scene(scene);
        }
    }
    sender.scene(last);
    if sender.random.chance(30) {
        sender.fault();
    }
    sender.log
}

pub fn any_scene(random: &mut Random) -> Scene {
    Scene {
        shift: random.byte() & 15,
        screen: random.pick(&[2, 3, 4, 5, 5, 6, 6, 7, 7]),
        first_code: random.byte(),
        cursor: 0x40 | random.byte() & 0xBF,
        function: random.byte() & 0x0F,
    }
}

impl Sender<'_> {
    /// Often not at time 0, and at times near the last there is, where a long
    /// log has no room.
    fn begin_somewhere(&mut self, target: usize) {
        let time = match self.random.below(8) {
            0 if target < 1_000 => TIME_LIMIT - 1_000_000,
            1 => self.random.below(TIME_LIMIT >> 1),
            2..=4 => 11_520_000_000,
            _ => 0,
        };
        if time > 0 {
            self.emit(log::write_reset(time));
        }
    }

    pub(super) fn scene(&mut self, scene: Scene) {
        let patient = std::mem::replace(&mut self.habits.patient, 100);
        if self.random.chance(20) {
            self.pattern();
        }
        self.instruct(0x06);
        self.instruct(0x02);
        for n in 0..self.panel.sheet.chip.places() {
            self.write(scene.first_code.wrapping_add(n as u8));
        }
        self.shift_by(scene.shift);
        self.set_function(scene.function);
        self.instruct(scene.cursor);
        self.instruct(0x08 | scene.screen);
        self.habits.patient = patient;
    }

    /// Eight rows of one of the four patterns.
    fn pattern(&mut self) {
        let first = self.random.byte() & 0x18;
        self.instruct(0x06);
        self.instruct(0x40 | first);
        for _ in 0..8 {
            let row = self.random.byte();
            self.write(row);
        }
    }

    /// From shift 0, address 0 and I/D up: by instructions either way, or by
    /// writing with S on, up or down, what stands there already.
    fn shift_by(&mut self, shift: u8) {
        let (left, right) = (shift, (16 - shift) % 16);
        let (count, code) = match self.random.below(4) {
            0 => (left, 0x18),
            1 => (right, 0x1C),
            2 => (left, 0x07),
            _ => (right, 0x05),
        };
        if code < 0x08 {
            self.instruct(code);
        }
        for _ in 0..count {
            if code < 0x08 {
                self.write(self.panel.sheet.byte_at_address());
            } else {
                self.instruct(code);
            }
        }
    }
}
