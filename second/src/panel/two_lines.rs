//! Tests of the panel with two lines, and of panels of no known chip.

use super::*;

const INSTRUCTION: u8 = 0;
const DATA: u8 = 1;
const STATUS_READ: u8 = 2;

fn fresh(chip: u8) -> Panel {
    Panel::fresh(Chip(chip), Times { reset: 10_000, long: 1_640, short: 40 })
}

fn display(at: u8) -> Counter {
    Counter::Display(DisplayAddress(at))
}

/// A panel of this chip after records that come 40 apart, all of them taken.
fn after(chip: u8, transfers: &[(u8, u8)]) -> Panel {
    let mut panel = fresh(chip);
    for (&(control, data), time) in transfers.iter().zip((0..).step_by(40)) {
        assert_eq!(panel.answer(&log::write_transfer(time, control, data)).number, TAKEN, "{data:02X}h");
    }
    panel
}

#[test]
fn addresses_of_two_lines_and_of_one() {
    const WRITE: (u8, u8) = (DATA, 0x41);
    for (transfers, two, one) in [
        (&[(INSTRUCTION, 0x8F), WRITE][..], 0x10, 0x00),
        (&[(INSTRUCTION, 0x9F), WRITE], 0x00, 0x00),
        (&[(INSTRUCTION, 0x04), WRITE], 0x1F, 0x0F),
        (&[(INSTRUCTION, 0x04), (INSTRUCTION, 0x90), WRITE], 0x0F, 0x0F),
        (&[(INSTRUCTION, 0xA5)], 0x05, 0x05),
        (&[(INSTRUCTION, 0xB5)], 0x15, 0x05),
        (&[(INSTRUCTION, 0xC0)], 0x00, 0x00),
        (&[(INSTRUCTION, 0x8F), (INSTRUCTION, 0x14)], 0x10, 0x00),
        (&[(INSTRUCTION, 0x10)], 0x1F, 0x0F),
        (&[(INSTRUCTION, 0x9E), (DATA | STATUS_READ, 0), (DATA | STATUS_READ, 0)], 0x00, 0x00),
    ] {
        assert_eq!(after(35, transfers).sheet.counter, display(two), "{transfers:02X?}");
        assert_eq!(after(31, transfers).sheet.counter, display(one), "{transfers:02X?}");
    }
}

#[test]
fn a_write_with_s_at_the_second_line() {
    let sheet = after(35, &[(INSTRUCTION, 0x90), (INSTRUCTION, 0x07), (DATA, 0x41)]).sheet;
    assert_eq!((sheet.counter, sheet.shift, sheet.display[16], sheet.display[0]), (display(0x11), 1, 0x41, 0x20));
}

#[test]
fn a_reset_with_both_lines_written() {
    let mut panel = after(35, &[(DATA, 0x41), (INSTRUCTION, 0x90), (DATA, 0x42)]);
    assert_eq!((panel.sheet.display[0], panel.sheet.display[16]), (0x41, 0x42));
    assert_eq!(panel.answer(&log::write_reset(120)), Answer { number: TAKEN, byte: 0 });
    assert_eq!(panel, Panel { last: 120, busy_end: 10_120, ..fresh(35) });
}

#[test]
fn the_status_byte_shows_all_five_bits() {
    let mut panel = after(35, &[(INSTRUCTION, 0x9B)]);
    let status = |panel: &mut Panel, time| {
        let answer = panel.answer(&log::write_transfer(time, STATUS_READ, 0));
        (answer.number, answer.byte)
    };
    assert_eq!([39, 40].map(|time| status(&mut panel, time)), [(STATUS, 0x9B), (STATUS, 0x1B)]);
    assert_eq!(panel.answer(&log::write_transfer(40, INSTRUCTION, 0x20)).number, TAKEN);
    // Begun busy, and then free.
    assert_eq!([79, 80].map(|time| status(&mut panel, time)), [(HELD, 0x90), (STATUS, 0xB0)]);
    assert_eq!([81, 81].map(|time| status(&mut panel, time)), [(HELD, 0x10), (STATUS, 0xB0)]);
}

#[test]
fn halves_are_as_on_one_line() {
    let mut panel = after(35, &[(INSTRUCTION, 0x20)]);
    for (time, control, data, number) in [
        (40, INSTRUCTION, 0x90, HELD), (41, INSTRUCTION, 0xC0, TAKEN), (80, DATA, 0x50, IGNORED),
        (81, DATA, 0x70, IGNORED), (82, DATA, 0x50, HELD), (83, DATA, 0x70, TAKEN), (123, DATA, 0x50, HELD),
        (124, INSTRUCTION, 0x70, TORN),
    ] {
        assert_eq!(panel.answer(&log::write_transfer(time, control, data)).number, number, "at {time}");
    }
    assert_eq!((panel.sheet.display[0x1C], panel.sheet.counter, panel.half), (0x57, display(0x1D), None));
}

#[test]
fn addresses_and_shifts_that_are_sound() {
    for (chip, address, is_sound) in [
        (31, 15, true), (31, 16, false), (31, 31, false), (35, 15, true), (35, 16, true), (35, 31, true),
        (35, 32, false),
    ] {
        let mut panel = fresh(chip);
        panel.sheet.counter = display(address);
        assert_eq!(panel.is_sound(), is_sound, "chip {chip}, address {address}");
    }
    for chip in [31, 35] {
        for (address, is_sound) in [(16, true), (31, true), (32, false)] {
            let mut panel = fresh(chip);
            panel.sheet.counter = Counter::Pattern(PatternAddress(address));
            assert_eq!(panel.is_sound(), is_sound, "chip {chip}, pattern address {address}");
        }
        for (shift, is_sound) in [(15, true), (16, false), (31, false)] {
            let mut panel = fresh(chip);
            panel.sheet.shift = shift;
            assert_eq!(panel.is_sound(), is_sound, "chip {chip}, shift {shift}");
        }
    }
}

#[test]
fn bytes_past_the_chips_own() {
    for place in 0..32 {
        for (chip, is_sound) in [(31, place < 16), (35, true)] {
            for byte in [0x00, 0x21, 0xA0, 0xFF] {
                let mut panel = fresh(chip);
                panel.sheet.store(place, byte);
                assert_eq!(panel.is_sound(), is_sound, "chip {chip}, byte {place}");
            }
        }
    }
}

#[test]
fn an_unknown_chip_is_refused_by_every_call() {
    for chip in (0..=255).filter(|chip| ![31, 35].contains(chip)) {
        let mut panel = fresh(chip);
        assert!(!panel.is_sound());
        let transfer = log::write_transfer(0, DATA, 0x41);
        for bytes in [&[][..], &[12], &log::write_record(9, &[]), &log::write_reset(0), &transfer] {
            assert_eq!(panel.answer(bytes), Answer { number: UNSOUND, byte: 0 });
            assert_eq!(panel, fresh(chip));
        }
        let run = run(&mut panel, &[transfer, vec![12]].concat());
        assert!(run.refused && !run.cut && run.answers.is_empty());
        assert_eq!((run.counts, run.records), ([0; 9], 1));
    }
    assert!(fresh(31).is_sound() && fresh(35).is_sound());
}
