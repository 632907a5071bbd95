//! How far the trials reach: every class that is wanted must be reached, of each
//! chip by itself. A class that no trial reaches is a failure.

use crate::chips::Chip;
use crate::classes::{self, WALL};
use std::collections::BTreeMap;

pub struct Reach {
    classes: BTreeMap<String, u64>,
    /// The chip of the question at hand.
    chip: Chip,
    /// What was seen of each known chip.
    codes: [Codes; 2],
}

#[derive(Clone, Copy)]
struct Codes {
    /// Instruction codes, by width and by free or busy.
    sent: [[bool; 256]; 4],
    /// Instruction codes with a read right behind them, by the width that they
    /// were sent at and by whether the panel was good before them.
    read: [[bool; 256]; 4],
    /// Codes that `wall` showed with the display on.
    shown: [bool; 256],
    /// Bytes whose write turned over a bit that was printed, by width.
    laid: [[bool; 256]; 2],
    /// Bytes in display memory of sound panels that were handed in.
    handed_in: [bool; 256],
}

impl Codes {
    const NONE: Codes = Codes {
        sent: [[false; 256]; 4],
        read: [[false; 256]; 4],
        shown: [false; 256],
        laid: [[false; 256]; 2],
        handed_in: [false; 256],
    };

    /// All that is there to be seen, list by list.
    fn lists(&mut self) -> impl Iterator<Item = &mut [bool; 256]> {
        let Codes { sent, read, shown, laid, handed_in } = self;
        sent.iter_mut().chain(read).chain([shown]).chain(laid).chain([handed_in])
    }
}

impl Default for Reach {
    fn default() -> Reach {
        Reach::new()
    }
}

impl Reach {
    pub fn new() -> Reach {
        let classes = wanted().into_iter().map(|class| (class, 0)).collect();
        Reach { classes, chip: Chip::ONE_LINE, codes: [Codes::NONE; 2] }
    }

    /// What is noted from here on is of this chip.
    pub fn turn_to(&mut self, chip: Chip) {
        self.chip = chip;
    }

    /// Notes a class of the chip at hand. Of no known chip nothing is wanted but
    /// what is noted by itself.
    pub fn note(&mut self, class: &str) {
        if self.chip.is_known() {
            self.count(&of(class, self.chip));
        }
    }

    pub fn note_if(&mut self, reached: bool, class: &str) {
        if reached {
            self.note(class);
        }
    }

    /// Notes a class that has no chip.
    pub fn note_by_itself(&mut self, class: &str) {
        self.count(class);
    }

    /// Every class noted is one of the list, so that a slip of the pen shows.
    fn count(&mut self, class: &str) {
        *self.classes.get_mut(class).unwrap_or_else(|| panic!("no such class: {class}")) += 1;
    }

    fn codes(&mut self) -> Option<&mut Codes> {
        let at = Chip::KNOWN.iter().position(|&chip| chip == self.chip)?;
        Some(&mut self.codes[at])
    }

    pub fn note_code(&mut self, wide: bool, free: bool, code: u8) {
        if let Some(codes) = self.codes() {
            codes.sent[usize::from(wide) * 2 + usize::from(free)][usize::from(code)] = true;
        }
    }

    pub fn note_code_read(&mut self, wide: bool, was_good: bool, code: u8) {
        if let Some(codes) = self.codes() {
            codes.read[usize::from(wide) * 2 + usize::from(was_good)][usize::from(code)] = true;
        }
    }

    pub fn note_shown(&mut self, code: u8) {
        if let Some(codes) = self.codes() {
            codes.shown[usize::from(code)] = true;
        }
    }

    pub fn note_byte_laid(&mut self, wide: bool, byte: u8) {
        if let Some(codes) = self.codes() {
            codes.laid[usize::from(wide)][usize::from(byte)] = true;
        }
    }

    pub fn note_byte_handed_in(&mut self, byte: u8) {
        if let Some(codes) = self.codes() {
            codes.handed_in[usize::from(byte)] = true;
        }
    }

    pub fn merge(&mut self, other: &Reach) {
        for (class, count) in &other.classes {
            *self.classes.get_mut(class).expect("the same list") += count;
        }
        for (mine, mut theirs) in self.codes.iter_mut().zip(other.codes) {
            for (mine, theirs) in mine.lists().flatten().zip(theirs.lists().flatten()) {
                *mine |= *theirs;
            }
        }
    }

    /// All classes with how often each was reached.
    pub fn table(&self) -> Vec<(String, u64)> {
        let mut table: Vec<(String, u64)> =
            wanted().into_iter().map(|class| (class.clone(), self.classes[&class])).collect();
        for (chip, codes) in Chip::KNOWN.into_iter().zip(&self.codes) {
            for (at, (sent, read)) in codes.sent.iter().zip(&codes.read).enumerate() {
                let width = if at & 2 != 0 { 8 } else { 4 };
                let (state, was) = if at & 1 != 0 { ("free", "good") } else { ("busy", "not good") };
                table.push((of(&format!("all 256 codes, width {width}, {state}"), chip), all(sent)));
                table.push((of(&format!("all 256 codes before a read, width {width}, {was}"), chip), all(read)));
            }
            table.push((of(&format!("{WALL}all 256 codes"), chip), all(&codes.shown)));
            for (width, laid) in [4, 8].into_iter().zip(&codes.laid) {
                table.push((of(&format!("all 256 bytes turn a bit over, width {width}"), chip), all(laid)));
            }
            table.push((of("all 256 bytes handed in", chip), all(&codes.handed_in)));
        }
        table
    }
}

fn all(seen: &[bool; 256]) -> u64 {
    u64::from(seen.iter().all(|&seen| seen))
}

/// The class of a chip.
fn of(class: &str, chip: Chip) -> String {
    format!("{class} [{}]", chip.name())
}

fn wanted() -> Vec<String> {
    let of_chip = |chip| classes::of_chip(chip).into_iter().map(move |class| of(&class, chip));
    Chip::KNOWN.into_iter().flat_map(of_chip).chain(classes::of_no_chip()).collect()
}

#[cfg(test)]
mod tests {
    use super::*;

    #[test]
    fn no_class_stands_twice() {
        let mut all = wanted();
        let count = all.len();
        all.sort();
        all.dedup();
        assert_eq!(all.len(), count);
    }

    #[test]
    fn a_class_is_reached_of_each_chip_by_itself() {
        let mut reach = Reach::new();
        reach.turn_to(Chip::TWO_LINES);
        reach.note("answer 0");
        reach.turn_to(Chip(34));
        reach.note("answer 0");
        let count = |class: &str| reach.table().into_iter().find(|(other, _)| other == class).map(|(_, count)| count);
        assert_eq!((count("answer 0 [6631]"), count("answer 0 [6635]")), (Some(0), Some(1)));
    }
}
