//! Panels for mirrored glass: a picture that no turn leaves alike, with any Function
//! Set bits, and such panels that are unsound.

use crate::chip::{Counter, DisplayAddress, Sheet};
use crate::chips::Chip;
use crate::panel::{Panel, Times};

/// Codes of the font and of a pattern on every line, shifted, with cursor and blink.
pub fn telling(chip: Chip, function: u8) -> Panel {
    let mut panel = Panel::fresh(chip, Times::USUAL);
    let pattern = std::array::from_fn(|entry| 0x10 >> (entry % 5) | entry as u8 & 1);
    let counter = Counter::Display(DisplayAddress(chip.places() as u8 - 12));
    panel.sheet = Sheet { d: true, c: true, b: true, shift: 3, pattern, counter, function, ..panel.sheet };
    for (place, code) in [(0, 0x4C), (1, 0x02), (7, 0x46), (14, 0x09), (16, 0x52), (18, 0x01), (29, 0x50)] {
        if place < chip.places() {
            panel.sheet.store(place, code);
        }
    }
    panel
}

/// Bit 0 is set in all of them: above the four bits, and beside another fault.
pub fn unsound(chip: Chip) -> [Panel; 3] {
    let mut elsewhere = telling(chip, 1);
    elsewhere.sheet.shift = 16;
    [telling(chip, 0x11), telling(chip, 0xFF), elsewhere]
}

#[cfg(test)]
mod tests {
    use super::*;
    use crate::panel;
    use crate::picture;
    use crate::turned::{misread, turned};

    #[test]
    fn no_other_reading_paints_the_same() {
        for chip in Chip::KNOWN {
            for dark in [false, true] {
                let mut frame = vec![0; chip.frame_size()];
                picture::paint(&telling(chip, 0), &picture::trial_font(), dark, &mut frame);
                assert!(misread::all(chip).iter().all(|other| other.frame(&frame) != turned(&frame)));
            }
        }
    }

    #[test]
    fn sound_and_not() {
        for chip in Chip::KNOWN {
            assert!((0..16).all(|function| telling(chip, function).is_sound()));
            let faults = unsound(chip).map(|panel| panel::faults(&panel));
            assert_eq!(faults, [["Function Set bits"], ["Function Set bits"], ["shift"]]);
        }
    }
}
