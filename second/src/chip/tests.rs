//! Tests of the sheet's machine with one line, and of what both chips share.

use super::*;
use Counter::{Display, Pattern};

/// A sheet of one line that is nowhere fresh.
fn used() -> Sheet {
    Sheet {
        chip: Chip::ONE_LINE,
        display: std::array::from_fn(|at| if at < 16 { 0xC0 + at as u8 } else { 0x20 }),
        written: Written::from_bytes([0xFF, 0xFF, 0, 0]),
        pattern: std::array::from_fn(|at| at as u8),
        counter: Display(DisplayAddress(9)),
        shift: 6,
        i_d: false,
        s: true,
        d: true,
        c: true,
        b: true,
        width: Width::Four,
        function: 0b1010,
        good: true,
    }
}

/// The sheet after an entry, from one that is nowhere fresh.
fn after(entry: Entry) -> Sheet {
    let mut sheet = used();
    sheet.carry_out(entry);
    sheet
}

fn instructed(code: u8) -> Sheet {
    after(Entry::Instruction(code))
}

fn in_pattern(at: u8) -> Sheet {
    Sheet { counter: Pattern(PatternAddress(at)), ..used() }
}

#[test]
fn clear_leaves_s_and_everything_it_does_not_name() {
    let counter = Display(DisplayAddress(0));
    let (display, written) = ([0x20; 32], Written::NOWHERE);
    let cleared = Sheet { display, written, counter, shift: 0, i_d: true, good: false, ..used() };
    assert_eq!(instructed(0x01), cleared);
    let mut sheet = Sheet { s: false, ..in_pattern(20) };
    sheet.carry_out(Entry::Instruction(0x01));
    assert_eq!(sheet, Sheet { s: false, ..cleared });
}

#[test]
fn home_is_02h_and_03h() {
    for code in [0x02, 0x03] {
        let home = Sheet { counter: Display(DisplayAddress(0)), shift: 0, good: false, ..used() };
        assert_eq!(instructed(code), home);
        let mut sheet = in_pattern(31);
        sheet.carry_out(Entry::Instruction(code));
        assert_eq!(sheet, home);
    }
}

#[test]
fn entry_bits() {
    for (code, i_d, s) in [(0x04, false, false), (0x05, false, true), (0x06, true, false), (0x07, true, true)] {
        assert_eq!(instructed(code), Sheet { i_d, s, good: false, ..used() });
    }
}

#[test]
fn display_bits() {
    for (code, d, c, b) in [
        (0x08, false, false, false), (0x09, false, false, true), (0x0A, false, true, false),
        (0x0C, true, false, false), (0x0D, true, false, true), (0x0E, true, true, false), (0x0F, true, true, true),
    ] {
        assert_eq!(instructed(code), Sheet { d, c, b, good: false, ..used() });
    }
}

#[test]
fn moves_and_shifts() {
    for low in 0..4 {
        assert_eq!(instructed(0x10 | low), Sheet { counter: Display(DisplayAddress(8)), ..used() });
        assert_eq!(instructed(0x14 | low), Sheet { counter: Display(DisplayAddress(10)), ..used() });
        assert_eq!(instructed(0x18 | low), Sheet { shift: 7, ..used() });
        assert_eq!(instructed(0x1C | low), Sheet { shift: 5, ..used() });
    }
    for (from, code, to) in [(0, 0x10, 31), (31, 0x14, 0), (15, 0x14, 16), (16, 0x10, 15)] {
        let mut sheet = in_pattern(from);
        sheet.carry_out(Entry::Instruction(code));
        assert_eq!(sheet, Sheet { good: false, ..in_pattern(to) });
    }
    for (from, code, to) in [(15, 0x18, 0), (0, 0x1C, 15)] {
        let mut sheet = Sheet { shift: from, ..used() };
        sheet.carry_out(Entry::Instruction(code));
        assert_eq!(sheet.shift, to);
    }
}

#[test]
fn function_set() {
    let set = |width, function| Sheet { width, function, good: false, ..used() };
    assert_eq!(instructed(0x20), set(Width::Four, 0));
    assert_eq!(instructed(0x2F), set(Width::Four, 15));
    assert_eq!(instructed(0x35), set(Width::Eight, 5));
}

#[test]
fn addresses() {
    for (code, at) in [(0x40, 0), (0x5F, 31), (0x60, 0), (0x71, 17), (0x7F, 31)] {
        assert_eq!(instructed(code), in_pattern(at));
    }
    for (code, at) in [(0x80, 0), (0x8F, 15), (0x90, 0), (0xC5, 5), (0xFF, 15)] {
        assert_eq!(instructed(code), Sheet { counter: Display(DisplayAddress(at)), ..used() });
    }
}

#[test]
fn a_display_write_shifts_with_s() {
    // I/D is 0: the address goes down, the display right.
    let mut written = Sheet { counter: Display(DisplayAddress(8)), shift: 5, good: false, ..used() };
    written.display[9] = 0xFF;
    assert_eq!(after(Entry::Write(0xFF)), written);
    let mut sheet = Sheet { i_d: true, shift: 15, counter: Display(DisplayAddress(15)), ..used() };
    sheet.carry_out(Entry::Write(0x01));
    assert_eq!((sheet.display[15], sheet.counter, sheet.shift), (0x01, Display(DisplayAddress(0)), 0));
    sheet.s = false;
    sheet.carry_out(Entry::Write(0x02));
    assert_eq!((sheet.display[0], sheet.counter, sheet.shift), (0x02, Display(DisplayAddress(1)), 0));
}

#[test]
fn a_pattern_write_keeps_five_bits_and_shifts_nothing() {
    let mut sheet = in_pattern(0);
    sheet.carry_out(Entry::Write(0xF5));
    let mut written = Sheet { good: false, ..in_pattern(31) };
    written.pattern[0] = 0x15;
    assert_eq!(sheet, written);
}

#[test]
fn a_read_moves_and_shifts_nothing() {
    assert_eq!(after(Entry::Read), Sheet { counter: Display(DisplayAddress(8)), ..used() });
    assert_eq!((used().byte_at_address(), in_pattern(29).byte_at_address()), (0xC9, 29));
    let mut sheet = in_pattern(0);
    sheet.carry_out(Entry::Read);
    assert_eq!(sheet, in_pattern(31));
}

#[test]
fn a_reset_gives_a_fresh_sheet_and_00h_none() {
    let fresh = after(Entry::Reset);
    assert_eq!((fresh.chip, fresh.display, fresh.pattern), (Chip(31), [0x20; 32], [0; 32]));
    assert_eq!(fresh.written, Written::NOWHERE);
    assert_eq!((fresh.counter, fresh.shift), (Display(DisplayAddress(0)), 0));
    assert_eq!((fresh.i_d, fresh.s, fresh.d, fresh.c, fresh.b), (true, false, false, false, false));
    assert_eq!((fresh.width, fresh.function, fresh.good), (Width::Eight, 0, false));
    assert_eq!(instructed(0x00), used());
}
