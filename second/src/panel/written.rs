//! Tests of the written places on the panel: records that are carried out and those
//! that are not, and panels whose bits disagree with their memory.

use super::*;

const INSTRUCTION: u8 = 0;
const DATA: u8 = 1;
const STATUS_READ: u8 = 2;
const DATA_READ: u8 = 3;

/// A panel at this width whose places hold these bytes by turns, its address at 4.
fn panel(chip: Chip, width: Width, bytes: [u8; 2]) -> Panel {
    let mut panel = Panel::fresh(chip, Times::USUAL);
    for place in 0..chip.places() {
        panel.sheet.store(place, bytes[place % 2]);
    }
    panel.sheet.counter = Counter::Display(DisplayAddress(4));
    panel.sheet.width = width;
    assert!(panel.is_sound());
    panel
}

/// Full, empty, and in between.
const MEMORIES: [[u8; 2]; 4] = [[0x57, 0x00], [0x20, 0x20], [0x57, 0x20], [0x20, 0x57]];

fn send(panel: &mut Panel, time: u64, control: u8, data: u8) -> u8 {
    panel.answer(&log::write_transfer(time, control, data)).number
}

/// Sends a byte, whole or as two halves.
fn send_byte(panel: &mut Panel, time: u64, control: u8, byte: u8) -> u8 {
    if panel.sheet.width == Width::Four {
        send(panel, time, control, byte & 0xF0);
        return send(panel, time, control, byte << 4);
    }
    send(panel, time, control, byte)
}

/// The bit of address 4, and whether all others are as they were.
fn fourth(panel: &Panel, before: u32) -> (u32, bool) {
    let number = panel.sheet.written.number();
    (number >> 4 & 1, (number ^ before) & !(1 << 4) == 0)
}

#[test]
fn a_write_changes_the_bit_of_its_address() {
    for (chip, width) in Chip::KNOWN.into_iter().flat_map(|chip| [(chip, Width::Eight), (chip, Width::Four)]) {
        for memory in MEMORIES {
            for (byte, bit) in [(0x20, 0), (0x57, 1), (0x02, 1), (0x00, 1), (0xA0, 1), (0x21, 1), (0x30, 1)] {
                let mut panel = panel(chip, width, memory);
                let before = panel.sheet.written.number();
                assert_eq!(send_byte(&mut panel, 0, DATA, byte), TAKEN);
                assert_eq!(fourth(&panel, before), (bit, true), "{byte:02X}h");
                assert!(panel.is_sound());
            }
        }
    }
}

#[test]
fn clear_and_reset_leave_no_bit() {
    for (chip, width) in Chip::KNOWN.into_iter().flat_map(|chip| [(chip, Width::Eight), (chip, Width::Four)]) {
        for memory in MEMORIES {
            let mut cleared = panel(chip, width, memory);
            assert_eq!(send_byte(&mut cleared, 0, INSTRUCTION, 0x01), TAKEN);
            let mut reset = panel(chip, width, memory);
            reset.busy_end = 50;
            reset.half = (width == Width::Four).then_some(Half { rs: true, rw: false, nibble: None });
            assert_eq!(reset.answer(&log::write_reset(7)).number, TAKEN);
            for panel in [cleared, reset] {
                assert!(panel.sheet.written.number() == 0 && panel.is_sound());
            }
        }
    }
}

/// Records that are not carried out, or not to the end, and would change the bit.
#[test]
fn what_is_not_carried_out_leaves_the_bits() {
    for (memory, byte) in [([0x57, 0x20], 0x20), ([0x20, 0x57], 0x57)] {
        let mut wide = panel(Chip::ONE_LINE, Width::Eight, memory);
        (wide.busy_end, wide.last) = (50, 40);
        let before = wide.sheet.clone();
        for (time, control, data, number) in [
            (40, DATA, byte, IGNORED), (49, INSTRUCTION, 0x01, IGNORED), (48, DATA, byte, BACK),
            (48, INSTRUCTION, 0x01, BACK), (60, DATA | 4, byte, BAD), (1 << 48, DATA, byte, BAD),
            (60, INSTRUCTION, 0x00, NONE), (60, STATUS_READ, byte, STATUS),
        ] {
            assert_eq!(send(&mut wide, time, control, data), number);
            assert_eq!(wide.sheet, before, "{data:02X}h at {time}");
        }
        assert_eq!(wide.answer(&log::write_reset(59)).number, BACK);
        assert_eq!(wide.sheet, before);
        let mut narrow = panel(Chip::TWO_LINES, Width::Four, memory);
        (narrow.busy_end, narrow.last) = (50, 40);
        let before = narrow.sheet.clone();
        for (time, control, data, number) in [
            (40, DATA, byte, IGNORED), (60, DATA, byte << 4, IGNORED), (60, DATA, byte, HELD),
            (61, INSTRUCTION, byte << 4, TORN), (62, INSTRUCTION, byte, HELD), (63, DATA, byte << 4, TORN),
            (64, DATA, byte, HELD),
        ] {
            assert_eq!(send(&mut narrow, time, control, data), number);
            assert_eq!(narrow.sheet, before, "{data:02X}h at {time}");
        }
    }
}

#[test]
fn reads_leave_the_bits() {
    for (memory, good) in MEMORIES.into_iter().flat_map(|memory| [(memory, false), (memory, true)]) {
        let mut panel = panel(Chip::TWO_LINES, Width::Eight, memory);
        panel.sheet.good = good;
        let before = panel.sheet.written;
        assert_eq!(send(&mut panel, 0, DATA_READ, 0x20), if good { TAKEN } else { DOUBTFUL });
        assert_eq!(panel.sheet.written, before);
    }
}

/// Each bit alone, both ways round, of either chip; every call is refused.
#[test]
fn a_disagreement_at_any_bit_is_unsound() {
    for (chip, memory) in Chip::KNOWN.into_iter().flat_map(|chip| MEMORIES.map(|memory| (chip, memory))) {
        for bit in 0..32 {
            let mut panel = panel(chip, Width::Eight, memory);
            let turned = panel.sheet.written.number() ^ 1 << bit;
            panel.sheet.written = Written::from_bytes(turned.to_le_bytes());
            assert_eq!(faults(&panel), ["written places"], "bit {bit}");
            let before = panel.clone();
            let mending = [log::write_reset(0), log::write_transfer(0, INSTRUCTION, 0x01), Vec::new()];
            for bytes in mending {
                assert_eq!(panel.answer(&bytes), Answer { number: UNSOUND, byte: 0 });
                assert_eq!(panel, before);
            }
            assert!(run(&mut panel, &log::write_reset(0)).refused);
            assert_eq!(panel, before, "the bits as they stand");
        }
    }
}

/// On one line the bytes past its own are spaces, so their bits are 0: a byte there
/// with its bit is unsound by the byte alone.
#[test]
fn bits_past_the_chips_own() {
    for place in 16..32 {
        let mut panel = panel(Chip::ONE_LINE, Width::Eight, [0x57, 0x20]);
        panel.sheet.store(place, 0x57);
        assert_eq!(faults(&panel), ["byte past the chip's own"]);
        panel.sheet.written.store(place, 0x20);
        assert_eq!(faults(&panel), ["byte past the chip's own", "written places"]);
    }
}

/// After every record of generated logs the bits are what a walk finds.
#[test]
fn the_bits_are_the_walk_after_every_record() {
    for (turn, chip) in (0..100).flat_map(|turn| Chip::KNOWN.map(|chip| (turn, chip))) {
        let mut panel = Panel::fresh(chip, Times::USUAL);
        for record in log::records(&crate::generator::trial(11, turn).log).0 {
            panel.answer(record);
            assert_eq!(panel.sheet.written, Written::walk(&panel.sheet.display), "turn {turn}");
        }
    }
}
