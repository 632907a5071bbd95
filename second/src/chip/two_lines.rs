//! Tests of the sheet's machine with two lines: addresses run on over both, an
//! address set keeps five bits, and the one shift stays within sixteen.

use super::*;
use Counter::{Display, Pattern};

/// A sheet of two lines that is nowhere fresh: C0h to DFh by address.
fn used() -> Sheet {
    Sheet {
        chip: Chip::TWO_LINES,
        display: std::array::from_fn(|at| 0xC0 + at as u8),
        written: Written::from_bytes([0xFF; 4]),
        pattern: std::array::from_fn(|at| at as u8),
        counter: Display(DisplayAddress(0x1D)),
        shift: 9,
        i_d: false,
        s: true,
        d: true,
        c: true,
        b: true,
        width: Width::Four,
        function: 0b1010,
        good: true,
    }
}

fn at(address: u8) -> Sheet {
    Sheet { counter: Display(DisplayAddress(address)), ..used() }
}

fn after(mut sheet: Sheet, entry: Entry) -> Sheet {
    sheet.carry_out(entry);
    sheet
}

fn instructed(code: u8) -> Sheet {
    after(used(), Entry::Instruction(code))
}

/// Where the second line begins and ends, up and down.
const TURNS: [(u8, bool, u8); 6] = [
    (0x0F, true, 0x10), (0x1F, true, 0x00), (0x10, false, 0x0F), (0x00, false, 0x1F), (0x11, true, 0x12),
    (0x1E, false, 0x1D),
];

#[test]
fn addresses_run_on_over_both_lines() {
    for (from, up, to) in TURNS {
        let code = if up { 0x14 } else { 0x10 };
        assert_eq!(after(at(from), Entry::Instruction(code)), at(to), "a move from {from:02X}h");
        let start = Sheet { i_d: up, ..at(from) };
        assert_eq!(after(start.clone(), Entry::Read), Sheet { i_d: up, ..at(to) }, "a read at {from:02X}h");
        let mut written = Sheet { i_d: up, s: false, good: false, ..at(to) };
        written.display[usize::from(from)] = 0x57;
        assert_eq!(after(Sheet { s: false, ..start }, Entry::Write(0x57)), written, "a write at {from:02X}h");
    }
}

#[test]
fn an_address_set_keeps_five_bits() {
    for (code, address) in [
        (0x80, 0x00), (0x8F, 0x0F), (0x90, 0x10), (0x9F, 0x1F), (0xA0, 0x00), (0xA5, 0x05), (0xB5, 0x15), (0xC0, 0x00),
        (0xCF, 0x0F), (0xD0, 0x10), (0xE7, 0x07), (0xF8, 0x18), (0xFF, 0x1F),
    ] {
        assert_eq!(instructed(code), at(address), "{code:02X}h");
    }
    for (code, address) in [(0x40, 0), (0x50, 0x10), (0x53, 0x13), (0x5F, 0x1F), (0x60, 0), (0x7F, 0x1F)] {
        assert_eq!(instructed(code), Sheet { counter: Pattern(PatternAddress(address)), ..used() }, "{code:02X}h");
    }
}

#[test]
fn a_read_finds_its_byte_on_either_line() {
    let bytes = [0x00, 0x0F, 0x10, 0x1F].map(|address| at(address).byte_at_address());
    assert_eq!(bytes, [0xC0, 0xCF, 0xD0, 0xDF]);
}

#[test]
fn writes_with_s_on_the_second_line() {
    for (from, i_d, shift, to, shifted) in [
        (0x10, true, 0, 0x11, 1), (0x10, false, 0, 0x0F, 15), (0x1F, true, 15, 0x00, 0), (0x1A, false, 1, 0x19, 0),
        (0x0F, true, 7, 0x10, 8), (0x00, false, 7, 0x1F, 6),
    ] {
        let mut written = Sheet { i_d, shift: shifted, good: false, ..at(to) };
        written.display[usize::from(from)] = 0x01;
        assert_eq!(after(Sheet { i_d, shift, ..at(from) }, Entry::Write(0x01)), written, "at {from:02X}h");
    }
}

#[test]
fn the_shift_stays_within_a_line() {
    for (from, code, to) in [(15, 0x18, 0), (0, 0x1C, 15), (9, 0x18, 10), (9, 0x1F, 8)] {
        let start = Sheet { shift: from, ..used() };
        assert_eq!(after(start, Entry::Instruction(code)), Sheet { shift: to, ..used() });
    }
}

#[test]
fn clear_and_home() {
    let home = Sheet { shift: 0, good: false, ..at(0) };
    let cleared = Sheet { display: [0x20; 32], written: Written::NOWHERE, i_d: true, ..home.clone() };
    assert_eq!(instructed(0x01), cleared);
    assert_eq!(instructed(0x02), home);
    // Double height stays unused: 03h is Home.
    assert_eq!(instructed(0x03), home);
}

#[test]
fn function_set_changes_its_bits_and_the_width() {
    for code in 0x20..=0x3F {
        let width = if code < 0x30 { Width::Four } else { Width::Eight };
        assert_eq!(instructed(code), Sheet { width, function: code & 15, good: false, ..used() }, "{code:02X}h");
    }
}

#[test]
fn patterns_are_as_on_one_line() {
    let pattern = |at| Sheet { counter: Pattern(PatternAddress(at)), ..used() };
    for (from, code, to) in [(31, 0x14, 0), (0, 0x10, 31), (15, 0x14, 16), (16, 0x10, 15)] {
        assert_eq!(after(pattern(from), Entry::Instruction(code)), Sheet { good: false, ..pattern(to) });
    }
    let mut written = Sheet { good: false, ..pattern(15) };
    written.pattern[16] = 0x1F;
    assert_eq!(after(pattern(16), Entry::Write(0xFF)), written, "and nothing shifts");
}

#[test]
fn a_reset_keeps_the_chip() {
    let fresh = after(used(), Entry::Reset);
    assert_eq!((fresh.chip, fresh.display, fresh.pattern), (Chip(35), [0x20; 32], [0; 32]));
    assert_eq!(fresh.written, Written::NOWHERE);
    assert_eq!((fresh.counter, fresh.shift), (Display(DisplayAddress(0)), 0));
    assert_eq!(fresh, Sheet::fresh(Chip::TWO_LINES));
}

#[test]
fn an_unknown_chip_counts_as_one_line() {
    for number in [0, 30, 32, 34, 36, 255] {
        let mut sheet = Sheet::fresh(Chip(number));
        for entry in [Entry::Instruction(0x9F), Entry::Write(0x41)] {
            sheet.carry_out(entry);
        }
        assert_eq!((sheet.display[15], sheet.counter), (0x41, Display(DisplayAddress(0))), "{number}");
        sheet.carry_out(Entry::Reset);
        assert_eq!(sheet, Sheet::fresh(Chip(number)));
    }
}
