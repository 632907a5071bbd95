//! Tests that the logs about the written places do what they are for.

use super::*;
use crate::chips::Chip;
use crate::lend::written::{self, Memory};
use crate::panel;

/// A panel of each chip at each width, with each sort of memory.
fn panels() -> Vec<Panel> {
    let mut panels = Vec::new();
    for (chip, memory) in Chip::KNOWN.into_iter().flat_map(|chip| Memory::ALL.map(|memory| (chip, memory))) {
        let bytes = written::bytes(&mut Random::new(5, 5), chip, memory);
        panels.extend([Width::Eight, Width::Four].map(|width| written::sound(chip, width, bytes)));
    }
    panels
}

/// The bits of this panel after a log.
fn bits(panel: &Panel, log: &[u8]) -> u32 {
    let mut panel = panel.clone();
    assert!(!panel::run(&mut panel, log).refused);
    panel.sheet.written.number()
}

#[test]
fn the_bits_are_left_at_the_place_and_everywhere_else() {
    for panel in panels() {
        let before = panel.sheet.written.number();
        let logs = send_what_leaves_the_bits(&mut Random::new(3, 3), panel.clone());
        let half = logs.len() / 2;
        assert!(logs[..half].iter().all(|log| bits(&panel, log) == before | 1 << 6));
        assert!(logs[half..].iter().all(|log| bits(&panel, log) == (before | 1 << 6) & !(1 << 11)));
    }
}

#[test]
fn nothing_is_left_after_clears() {
    for panel in panels() {
        let logs = send_clears(&mut Random::new(3, 3), panel.clone());
        assert!(logs.iter().all(|log| bits(&panel, log) == 0));
    }
}

/// 57h and 41h set the bit of the place, two spaces clear it, 00h sets it again.
#[test]
fn around_the_ends_one_bit_at_a_time() {
    for panel in panels() {
        let logs = send_around_the_ends(&mut Random::new(3, 3), panel.clone());
        let last = panel.sheet.chip.places() - 1;
        let places = [9, 15, last, 9, 16 & last, 0, 9, 15, last, 9, 16 & last, 0];
        let mut expected = panel.sheet.written.number();
        for (log, number) in logs[..60].iter().zip(0..) {
            let bit = 1 << places[number / 5];
            expected = if matches!(number % 5, 2 | 3) { expected & !bit } else { expected | bit };
            assert_eq!(bits(&panel, log), expected, "step {number}");
        }
        assert_eq!(bits(&panel, &logs[60]), expected & !0x3C | 0x30);
    }
}
