//! Tests of the picture in pin configuration mode B. All frames are worked out by
//! hand: on one line column x lands at 79 - x; on two lines the first line lands in
//! the rows 8 to 15 and the second in the rows 0 to 7.

use super::*;
use crate::chip::{Counter, DisplayAddress};
use crate::log;
use crate::panel::{self, Times};

const INSTRUCTION: u8 = 0;
const DATA: u8 = 1;

/// No two dots of it land alike, whatever is turned over.
const GLYPH: [u8; 8] = [0x10, 0x18, 0x14, 0x12, 0x11, 0x10, 0x00, 0x01];

/// Blank but for 57h.
fn font() -> Vec<u8> {
    let mut font = vec![0xE0; FONT_SIZE];
    font[8 * (0x57 - 16)..][..8].copy_from_slice(&GLYPH);
    font
}

/// The panel of a chip after this log.
fn after(chip: Chip, log: &[u8]) -> Panel {
    let mut panel = Panel::fresh(chip, Times::USUAL);
    assert!(!panel::run(&mut panel, log).refused);
    panel
}

/// The panel after these, RS and the byte, all of them taken.
fn sent(chip: Chip, transfers: &[(u8, u8)]) -> Panel {
    let times = (0..).step_by(2_000);
    let log: Vec<(u64, u8, u8)> = times.zip(transfers).map(|(time, &(rs, byte))| (time, rs, byte)).collect();
    after(chip, &log::write_transfers(&log))
}

fn painted(panel: &Panel, dark: bool) -> (Painting, Vec<u8>) {
    let mut frame = vec![0xA5; panel.sheet.chip.frame_size()];
    let painting = paint(panel, &font(), dark, &mut frame);
    (painting, frame)
}

/// The bytes of a painting that are not 0. As many dots as these have are lit.
fn lit_bytes(panel: &Panel, dark: bool) -> Vec<(usize, u8)> {
    let (painting, frame) = painted(panel, dark);
    let ones = frame.iter().map(|byte| byte.count_ones()).sum();
    assert_eq!((painting, frame.len()), (Painting::Lit(ones), panel.sheet.chip.frame_size()));
    frame.into_iter().enumerate().filter(|&(_, byte)| byte != 0).collect()
}

/// Sends this to both chips and looks at what is lit, with the blink light.
fn shows(instructions: &[u8], one: &[(usize, u8)], two: &[(usize, u8)]) {
    let transfers: Vec<(u8, u8)> = instructions.iter().map(|&code| (INSTRUCTION, code)).collect();
    assert_eq!(lit_bytes(&sent(Chip::ONE_LINE, &transfers), false), one, "{instructions:02X?} on one line");
    assert_eq!(lit_bytes(&sent(Chip::TWO_LINES, &transfers), false), two, "{instructions:02X?} on two lines");
}

#[test]
fn the_cursor() {
    shows(&[0x31, 0x0E], &[(79, 0x1F)], &[(159, 0x1F)]);
    shows(&[0x31, 0x0E, 0x90], &[(79, 0x1F)], &[(79, 0x1F)]);
    shows(&[0x31, 0x0E, 0x8F], &[(70, 0xF8)], &[(150, 0xF8)]);
    shows(&[0x31, 0x0E, 0x9F], &[(70, 0xF8)], &[(70, 0xF8)]);
    // Position 2 is the columns 10 to 14, which land at 69 to 65.
    shows(&[0x31, 0x0E, 0x85, 0x18, 0x18, 0x18], &[(78, 0x7C)], &[(158, 0x7C)]);
    shows(&[0x31, 0x0E, 0x95, 0x18, 0x18, 0x18], &[(78, 0x7C)], &[(78, 0x7C)]);
    // Position 3 of a pattern address: the columns 15 to 19 land at 64 to 60.
    shows(&[0x31, 0x0E, 0x53], &[(77, 0x0F), (78, 0x80)], &[(77, 0x0F), (78, 0x80)]);
    shows(&[0x31, 0x0E, 0x43], &[(77, 0x0F), (78, 0x80)], &[(157, 0x0F), (158, 0x80)]);
}

#[test]
fn mode_a_is_as_before() {
    for code in [0x30, 0x32, 0x34, 0x38, 0x3E] {
        shows(&[code, 0x0E], &[(70, 0xF8)], &[(70, 0xF8)]);
        shows(&[code, 0x0E, 0x90], &[(70, 0xF8)], &[(150, 0xF8)]);
    }
}

/// One dot at the top left, by a pattern: after every Function Set at width 8.
#[test]
fn bit_0_and_no_other() {
    for bits in 0..16 {
        let transfers = [
            (INSTRUCTION, 0x40), (DATA, 0x10), (INSTRUCTION, 0x80), (DATA, 0x00), (INSTRUCTION, 0x30 | bits),
            (INSTRUCTION, 0x0C),
        ];
        let turned = [1, 3, 5, 7, 9, 11, 13, 15].contains(&bits);
        let (one, two) = if turned { ((9, 0x01), (89, 0x01)) } else { ((0, 0x80), (0, 0x80)) };
        assert_eq!(lit_bytes(&sent(Chip::ONE_LINE, &transfers), true), [one], "{bits:X}h");
        assert_eq!(lit_bytes(&sent(Chip::TWO_LINES, &transfers), true), [two], "{bits:X}h");
    }
}

/// 57h at position 1: the columns 5 to 9 land at 74 to 70, so the leftmost dot of the
/// five is their rightmost; the rows are from the top as they were.
#[test]
fn a_glyph_dot_by_dot() {
    let rows = [
        [0x00, 0x20], [0x00, 0x60], [0x00, 0xA0], [0x01, 0x20], [0x02, 0x20], [0x00, 0x20], [0x00, 0x00], [0x02, 0x00],
    ];
    for (chip, address, first_row) in
        [(Chip::ONE_LINE, 0x81, 0), (Chip::TWO_LINES, 0x81, 8), (Chip::TWO_LINES, 0x91, 0)]
    {
        let shown = [(INSTRUCTION, address), (DATA, 0x57), (INSTRUCTION, 0x31), (INSTRUCTION, 0x0C)];
        let (painting, frame) = painted(&sent(chip, &shown), false);
        let mut expected = vec![0; chip.frame_size()];
        for (row, bytes) in rows.iter().enumerate() {
            expected[10 * (first_row + row) + 8..][..2].copy_from_slice(bytes);
        }
        assert_eq!((painting, frame), (Painting::Lit(11), expected), "{address:02X}h on {}", chip.name());
    }
}

/// The top row of 57h on the first line and its pattern's on the second, each at the
/// line's first position, and both shifted to its last, which lands first.
#[test]
fn the_lines_trade_places() {
    let mut panel = sent(Chip::TWO_LINES, &[
        (DATA, 0x57), (INSTRUCTION, 0x48), (DATA, 0x03), (INSTRUCTION, 0x90), (DATA, 0x01), (INSTRUCTION, 0x0C),
        (INSTRUCTION, 0x18), (INSTRUCTION, 0x31),
    ]);
    let glyph = [(80, 0x08), (90, 0x18), (100, 0x28), (110, 0x48), (120, 0x88), (130, 0x08), (150, 0x80)];
    // 03h is the last two of five dots, which land as the first two.
    let turned = [&[(0, 0xC0)], &glyph[..]].concat();
    assert_eq!(lit_bytes(&panel, false), turned);
    panel.sheet.function = 0;
    let glyph = [(9, 0x10), (19, 0x18), (29, 0x14), (39, 0x12), (49, 0x11), (59, 0x10), (79, 0x01)];
    assert_eq!(lit_bytes(&panel, false), [&glyph[..], &[(89, 0x03)]].concat());
}

#[test]
fn the_blink() {
    let column = |rows: std::ops::Range<usize>| rows.map(|row| (10 * row + 9, 0x1F)).collect::<Vec<_>>();
    for (chip, address, rows) in
        [(Chip::ONE_LINE, 0x80, 0..8), (Chip::TWO_LINES, 0x80, 8..16), (Chip::TWO_LINES, 0x90, 0..8)]
    {
        for (screen, light) in [(0x0D, vec![]), (0x0F, column(rows.end - 1..rows.end))] {
            let panel = sent(chip, &[(INSTRUCTION, 0x31), (INSTRUCTION, screen), (INSTRUCTION, address)]);
            assert_eq!(lit_bytes(&panel, false), light, "{screen:02X}h on {}", chip.name());
            assert_eq!(lit_bytes(&panel, true), column(rows.clone()), "{screen:02X}h on {}, dark", chip.name());
        }
    }
}

#[test]
fn with_d_off_no_dot_is_lit() {
    for chip in Chip::KNOWN {
        let panel = sent(chip, &[(DATA, 0x57), (INSTRUCTION, 0x3F), (INSTRUCTION, 0x0B)]);
        assert_eq!([false, true].map(|dark| lit_bytes(&panel, dark)), [[], []]);
    }
}

#[test]
fn a_reset_returns_to_mode_a() {
    let sent = log::write_transfers(&[(0, INSTRUCTION, 0x3F), (40, INSTRUCTION, 0x0E)]);
    let log = [sent, log::write_reset(80), log::write_transfer(10_080, INSTRUCTION, 0x0E)].concat();
    for chip in Chip::KNOWN {
        assert_eq!(lit_bytes(&after(chip, &log), false), [(70, 0xF8)]);
    }
}

/// 20h, and then a Function Set and 0Eh as halves; the second half decides.
#[test]
fn a_function_set_as_halves() {
    for (control, low, one, two) in [
        (INSTRUCTION, 0x10, (79, 0x1F), (159, 0x1F)), (INSTRUCTION, 0xF0, (79, 0x1F), (159, 0x1F)),
        (INSTRUCTION, 0x20, (70, 0xF8), (70, 0xF8)), (DATA, 0x10, (70, 0xF8), (70, 0xF8)),
    ] {
        let log = log::write_transfers(&[
            (0, INSTRUCTION, 0x20), (40, INSTRUCTION, 0x21), (41, control, low), (81, INSTRUCTION, 0x01),
            (82, INSTRUCTION, 0xE1),
        ]);
        assert_eq!(lit_bytes(&after(Chip::ONE_LINE, &log), false), [one], "{control} {low:02X}h");
        assert_eq!(lit_bytes(&after(Chip::TWO_LINES, &log), false), [two], "{control} {low:02X}h");
    }
}

/// One that comes too early is none.
#[test]
fn the_last_function_set_decides() {
    for (sent, one, two) in [
        (&[(0, 0x31), (40, 0x30)][..], (70, 0xF8), (70, 0xF8)),
        (&[(0, 0x30), (40, 0x31)], (79, 0x1F), (159, 0x1F)),
        (&[(0, 0x31), (39, 0x30)], (79, 0x1F), (159, 0x1F)),
        (&[(0, 0x30), (39, 0x31)], (70, 0xF8), (70, 0xF8)),
        (&[(0, 0x31), (40, 0x01), (1_679, 0x30)], (79, 0x1F), (159, 0x1F)),
        (&[(0, 0x33), (40, 0x02), (1_680, 0x32)], (70, 0xF8), (70, 0xF8)),
    ] {
        let mut log: Vec<(u64, u8, u8)> = sent.iter().map(|&(time, code)| (time, INSTRUCTION, code)).collect();
        log.push((4_000, INSTRUCTION, 0x0E));
        let log = log::write_transfers(&log);
        assert_eq!(lit_bytes(&after(Chip::ONE_LINE, &log), false), [one], "{sent:X?}");
        assert_eq!(lit_bytes(&after(Chip::TWO_LINES, &log), false), [two], "{sent:X?}");
    }
}

/// A full memory in the trial font, with cursor and blink.
#[test]
fn as_many_dots_are_lit_in_both_modes() {
    for chip in Chip::KNOWN {
        let mut panel = sent(chip, &[(INSTRUCTION, 0x0F), (INSTRUCTION, 0x86)]);
        (0..chip.places()).for_each(|place| panel.sheet.store(place, 7 * place as u8));
        panel.sheet.pattern = std::array::from_fn(|entry| 5 * entry as u8 & 31);
        for dark in [false, true] {
            let mut counts = Vec::new();
            for function in [0, 1] {
                panel.sheet.function = function;
                let mut frame = vec![0xA5; chip.frame_size()];
                let painting = paint(&panel, &trial_font(), dark, &mut frame);
                assert_eq!(painting, Painting::Lit(frame.iter().map(|byte| byte.count_ones()).sum()));
                counts.push(painting);
            }
            assert_eq!(counts[0], counts[1]);
        }
    }
}

#[test]
fn refusals_know_no_mode() {
    for chip in Chip::KNOWN {
        let sound = sent(chip, &[(INSTRUCTION, 0x31), (INSTRUCTION, 0x0E)]);
        let [mut above, mut elsewhere] = [sound.clone(), sound.clone()];
        above.sheet.function = 17;
        elsewhere.sheet.counter = Counter::Display(DisplayAddress(32));
        let size = chip.frame_size();
        for (panel, font, size, number) in [
            (&sound, 1_920, 240 - size, SIZE), (&sound, 1_920, size - 1, SIZE), (&sound, 1_919, size, SIZE),
            (&above, 1_920, size, UNSOUND), (&elsewhere, 1_920, size, UNSOUND), (&above, 0, 0, UNSOUND),
        ] {
            let mut frame = vec![0xA5; size];
            assert_eq!(paint(panel, &vec![0xFF; font], true, &mut frame), Painting::Refused(number));
            assert_eq!(frame, vec![0xA5; size]);
        }
    }
}

/// By rows of the frame and from the left, as the frames lie.
#[test]
fn a_comparison_knows_no_mode() {
    for (chip, address, row, column) in [
        (Chip::ONE_LINE, 0x80, 7, 0), (Chip::TWO_LINES, 0x80, 7, 0), (Chip::TWO_LINES, 0x90, 7, 75),
        (Chip::ONE_LINE, 0x8E, 7, 5),
    ] {
        let [a, b] = [0x30, 0x31]
            .map(|code| sent(chip, &[(INSTRUCTION, code), (INSTRUCTION, 0x0E), (INSTRUCTION, address)]))
            .map(|panel| painted(&panel, false).1);
        assert_eq!(compare(chip, &a, &b), Comparison::At { row, column });
        assert_eq!(compare(chip, &b, &a), Comparison::At { row, column });
        assert_eq!(compare(chip, &b, &b.clone()), Comparison::Same);
    }
    // The blink of the first line, light and dark, first differs where it begins.
    let panel = sent(Chip::TWO_LINES, &[(INSTRUCTION, 0x31), (INSTRUCTION, 0x0D)]);
    let [light, dark] = [false, true].map(|dark| painted(&panel, dark).1);
    assert_eq!(compare(Chip::TWO_LINES, &light, &dark), Comparison::At { row: 8, column: 75 });
}
