//! Tests of the written places on the sheet's machine: what changes the bits, what
//! leaves them alone, and bits that are not what memory holds.

use super::*;
use Counter::{Display, Pattern};

/// The bits after these entries, from a fresh sheet.
fn after(chip: Chip, entries: &[Entry]) -> u32 {
    let mut sheet = Sheet::fresh(chip);
    for &entry in entries {
        sheet.carry_out(entry);
    }
    assert_eq!(sheet.written, Written::walk(&sheet.display));
    sheet.written.number()
}

/// A sheet whose even places hold 57h, at this address of display memory.
fn used(chip: Chip, address: u8) -> Sheet {
    let mut sheet = Sheet { counter: Display(DisplayAddress(address)), good: true, ..Sheet::fresh(chip) };
    for place in (0..chip.places()).step_by(2) {
        sheet.store(place, 0x57);
    }
    sheet
}

/// The bits of such a sheet.
fn used_bits(chip: Chip) -> u32 {
    if chip == Chip::ONE_LINE { 0x0000_5555 } else { 0x5555_5555 }
}

#[test]
fn the_first_bytes() {
    use Entry::{Instruction, Reset, Write};
    for (entries, one, two) in [
        (&[][..], 0, 0),
        (&[Write(0x57)], 0x0000_0001, 0x0000_0001),
        (&[Write(0x00)], 0x0000_0001, 0x0000_0001),
        (&[Write(0x20)], 0, 0),
        (&[Write(0x57), Write(0x20), Write(0x57)], 0x0000_0005, 0x0000_0005),
        (&[Instruction(0x8F), Write(0x57)], 0x0000_8000, 0x0000_8000),
        (&[Instruction(0x8F), Write(0x57), Write(0x57)], 0x0000_8001, 0x0001_8000),
        (&[Instruction(0x9F), Write(0x57)], 0x0000_8000, 0x8000_0000),
        (&[Instruction(0x9F), Write(0x57), Instruction(0x9F), Write(0x20)], 0, 0),
        (&[Instruction(0x9F), Write(0x57), Write(0x57)], 0x0000_8001, 0x8000_0001),
        (&[Instruction(0x04), Write(0x57), Write(0x57)], 0x0000_8001, 0x8000_0001),
        (&[Instruction(0x90), Instruction(0x04), Write(0x57), Write(0x57)], 0x0000_8001, 0x0001_8000),
        (&[Instruction(0x40), Write(0x57)], 0, 0),
        (&[Instruction(0x83), Write(0x57), Instruction(0x01)], 0, 0),
        (&[Instruction(0x83), Write(0x57), Reset], 0, 0),
        (&[Instruction(0x83), Write(0x57), Instruction(0x02), Write(0x41)], 0x0000_0009, 0x0000_0009),
        (&[Instruction(0x07), Write(0x57), Write(0x57), Write(0x57)], 0x0000_0007, 0x0000_0007),
    ] {
        assert_eq!(after(Chip::ONE_LINE, entries), one, "{entries:02X?}");
        assert_eq!(after(Chip::TWO_LINES, entries), two, "{entries:02X?}");
    }
}

#[test]
fn every_byte_but_20h_makes_its_bit_1_at_every_place() {
    for chip in Chip::KNOWN {
        for place in 0..chip.places() as u8 {
            for (byte, i_d, s) in (0..=0xFF).flat_map(|byte| [(byte, true, false), (byte, false, true)]) {
                let mut sheet = Sheet { i_d, s, shift: 3, ..used(chip, place) };
                sheet.carry_out(Entry::Write(byte));
                let bit = 1 << place;
                let expected = if byte == 0x20 { used_bits(chip) & !bit } else { used_bits(chip) | bit };
                assert_eq!(sheet.written.number(), expected, "{byte:02X}h at {place}");
            }
        }
    }
}

#[test]
fn nothing_else_changes_a_bit() {
    for chip in Chip::KNOWN {
        let in_pattern = |at| Sheet { counter: Pattern(PatternAddress(at)), ..used(chip, 0) };
        let starts = [used(chip, 0), used(chip, 1), used(chip, chip.places() as u8 - 1), in_pattern(4), in_pattern(31)];
        for start in starts {
            let mut entries: Vec<Entry> =
                (0..=0xFF).filter(|&code| code != 0x01).map(Entry::Instruction).chain([Entry::Read]).collect();
            if !start.is_in_display() {
                entries.extend([0x00, 0x20, 0x57, 0xFF].map(Entry::Write));
            }
            for (entry, good) in entries.into_iter().flat_map(|entry| [(entry, false), (entry, true)]) {
                let mut sheet = Sheet { good, ..start.clone() };
                sheet.carry_out(entry);
                assert_eq!(sheet.written.number(), used_bits(chip), "{entry:02X?}");
            }
        }
    }
}

#[test]
fn clear_and_reset_make_all_0() {
    for chip in Chip::KNOWN {
        for entry in [Entry::Instruction(0x01), Entry::Reset] {
            let mut sheet = used(chip, 5);
            sheet.carry_out(entry);
            assert_eq!((sheet.written.number(), sheet.display), (0, [0x20; 32]));
        }
        assert_eq!(Sheet::fresh(chip).written.number(), 0);
    }
}

/// No panel holds such a sheet; the machine by itself keeps what it is not asked for.
#[test]
fn bits_that_disagree_with_memory() {
    for chip in Chip::KNOWN {
        for place in 0..chip.places() as u8 {
            for (byte, bit) in [(0x20, 0), (0x57, 1 << place)] {
                let mut sheet = used(chip, place);
                sheet.written = Written::from_bytes((!used_bits(chip)).to_le_bytes());
                sheet.carry_out(Entry::Write(byte));
                assert_eq!(sheet.written.number(), !used_bits(chip) & !(1 << place) | bit, "{byte:02X}h at {place}");
                sheet.carry_out(Entry::Instruction(0x01));
                assert_eq!(sheet.written.number(), 0);
            }
        }
    }
}
