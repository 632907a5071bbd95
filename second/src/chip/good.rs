//! Tests of whether the next read is good, on the sheet's machine: every entry,
//! from a sheet that is good and from one that is not, in both memories.

use super::*;
use Counter::{Display, Pattern};

/// A sheet whose address points into display memory, or into pattern memory.
fn sheet(chip: Chip, in_display: bool, good: bool) -> Sheet {
    let counter = if in_display { Display(DisplayAddress(7)) } else { Pattern(PatternAddress(7)) };
    Sheet { counter, good, ..Sheet::fresh(chip) }
}

/// Whether it is good after an entry, of both chips and from both memories: what
/// is expected may go by whether it is display memory, and by what it was.
fn check(entry: Entry, expected: fn(bool, bool) -> bool) {
    for chip in Chip::KNOWN {
        for (in_display, good) in [(false, false), (false, true), (true, false), (true, true)] {
            let mut sheet = sheet(chip, in_display, good);
            sheet.carry_out(entry);
            assert_eq!(sheet.good, expected(in_display, good), "{entry:?}, display {in_display}, good {good}");
        }
    }
}

#[test]
fn a_fresh_sheet_is_not_good() {
    for chip in [0, 31, 35, 255] {
        assert!(!Sheet::fresh(Chip(chip)).good);
    }
    check(Entry::Reset, |_, _| false);
}

#[test]
fn an_address_set_makes_it_good() {
    for code in 0x40..=0xFF {
        check(Entry::Instruction(code), |_, _| true);
    }
}

#[test]
fn a_cursor_shift_makes_it_good_in_display_memory_alone() {
    for code in 0x10..=0x17 {
        check(Entry::Instruction(code), |in_display, _| in_display);
    }
}

#[test]
fn a_display_shift_and_nothing_leave_it_alone() {
    for code in (0x18..=0x1F).chain([0x00]) {
        check(Entry::Instruction(code), |_, good| good);
    }
}

#[test]
fn every_other_instruction_makes_it_not_good() {
    for code in (0x01..=0x0F).chain(0x20..=0x3F) {
        check(Entry::Instruction(code), |_, _| false);
    }
}

#[test]
fn a_write_makes_it_not_good_and_a_read_good() {
    for byte in [0x00, 0x18, 0x20, 0x80, 0xFF] {
        check(Entry::Write(byte), |_, _| false);
    }
    check(Entry::Read, |_, _| true);
}

/// What is decided by the memory is decided by that of the address as it is: no
/// cursor shift leads out of its memory.
#[test]
fn a_cursor_shift_around_an_end() {
    for chip in Chip::KNOWN {
        for (at, code) in [(0, 0x10), (chip.places() as u8 - 1, 0x14)] {
            let mut sheet = Sheet { counter: Display(DisplayAddress(at)), ..Sheet::fresh(chip) };
            sheet.carry_out(Entry::Instruction(code));
            assert!(sheet.good && sheet.is_in_display());
        }
        for (at, code) in [(0, 0x10), (31, 0x14)] {
            let mut sheet = Sheet { counter: Pattern(PatternAddress(at)), good: true, ..Sheet::fresh(chip) };
            sheet.carry_out(Entry::Instruction(code));
            assert!(!sheet.good && !sheet.is_in_display());
        }
    }
}
