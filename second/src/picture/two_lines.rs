//! Tests of the picture with two lines, and of comparisons that are told a chip.

use super::*;
use crate::chip::{Counter, DisplayAddress, PatternAddress};
use crate::panel::Times;

const GLYPH: [u8; 8] = [0x10, 0x18, 0x14, 0x12, 0x11, 0x10, 0x00, 0x01];

/// The display on, all blank but for one code, whose font is the glyph.
fn showing(address: usize, shift: u8) -> Panel {
    let mut panel = Panel::fresh(Chip::TWO_LINES, Times::USUAL);
    panel.sheet.d = true;
    panel.sheet.store(address, 0x57);
    panel.sheet.shift = shift;
    panel
}

fn font() -> Vec<u8> {
    let mut font = vec![0xE0; FONT_SIZE];
    font[8 * (0x57 - 16)..][..8].copy_from_slice(&GLYPH);
    font
}

/// All lit dots, by row and column.
fn lit(panel: &Panel, font: &[u8], dark: bool) -> Vec<(usize, usize)> {
    let mut frame = [0xA5; 160];
    let painting = paint(panel, font, dark, &mut frame);
    let places = (0..16 * 80).map(|at| (at / 80, at % 80));
    let all: Vec<_> = places.filter(|&(row, column)| dot(&frame, row, column)).collect();
    assert_eq!(painting, Painting::Lit(all.len() as u32));
    all
}

/// The glyph's dots where its line begins in this row, at a position.
fn glyph_at(first_row: usize, position: usize) -> Vec<(usize, usize)> {
    let dots = [(0, 0), (1, 0), (1, 1), (2, 0), (2, 2), (3, 0), (3, 3), (4, 0), (4, 4), (5, 0), (7, 4)];
    dots.map(|(row, column)| (first_row + row, 5 * position + column)).to_vec()
}

#[test]
fn each_line_shifts_within_itself() {
    for (address, shift, first_row, position) in [
        (0, 0, 0, 0), (15, 0, 0, 15), (16, 0, 8, 0), (31, 0, 8, 15), (0, 1, 0, 15), (16, 1, 8, 15), (31, 15, 8, 0),
        (15, 15, 0, 0), (0x12, 9, 8, 9), (0x02, 9, 0, 9), (0x1D, 3, 8, 10),
    ] {
        assert_eq!(lit(&showing(address, shift), &font(), true), glyph_at(first_row, position), "{address} {shift}");
    }
}

#[test]
fn where_a_dot_of_the_second_line_lies() {
    // Position 1: columns 5 to 9, bits 2 to 0 of a row's byte 0 and 7 and 6 of its byte 1.
    let mut frame = [0; 160];
    paint(&showing(0x11, 0), &font(), false, &mut frame);
    assert_eq!(frame[..80], [0; 80]);
    let rows: Vec<[u8; 2]> = (8..16).map(|row| [frame[10 * row], frame[10 * row + 1]]).collect();
    let expected = [
        [0x04, 0x00], [0x06, 0x00], [0x05, 0x00], [0x04, 0x80], [0x04, 0x40], [0x04, 0x00], [0x00, 0x00], [0x00, 0x40],
    ];
    assert_eq!(rows, expected);
}

#[test]
fn patterns_show_on_both_lines() {
    let mut panel = showing(3, 0);
    panel.sheet.store(3, 0x0E);
    panel.sheet.store(0x1C, 0x02);
    panel.sheet.pattern[16..24].copy_from_slice(&GLYPH);
    assert_eq!(lit(&panel, &font(), false), [glyph_at(0, 3), glyph_at(8, 12)].concat());
}

/// The cursor's row, or the whole position.
fn filled(first_row: usize, position: usize, whole: bool) -> Vec<(usize, usize)> {
    let rows = if whole { first_row..first_row + 8 } else { first_row + 7..first_row + 8 };
    rows.flat_map(|row| (5 * position..5 * position + 5).map(move |column| (row, column))).collect()
}

#[test]
fn cursor_and_blink_stand_on_one_line() {
    let display = |at| Counter::Display(DisplayAddress(at));
    let pattern = |at| Counter::Pattern(PatternAddress(at));
    for (counter, shift, first_row, position) in [
        (display(0x00), 0, 0, 0), (display(0x0F), 0, 0, 15), (display(0x10), 0, 8, 0), (display(0x1F), 0, 8, 15),
        (display(0x12), 5, 8, 13), (display(0x02), 5, 0, 13), (display(0x10), 15, 8, 1), (pattern(0x03), 0, 0, 3),
        (pattern(0x13), 0, 8, 3), (pattern(0x1F), 4, 8, 11), (pattern(0x10), 1, 8, 15), (pattern(0x0F), 15, 0, 0),
    ] {
        let mut panel = Panel::fresh(Chip::TWO_LINES, Times::USUAL);
        (panel.sheet.d, panel.sheet.counter, panel.sheet.shift) = (true, counter, shift);
        for (c, b, dark, whole) in [
            (true, false, true, false), (true, true, false, false), (true, true, true, true), (false, true, true, true),
        ] {
            (panel.sheet.c, panel.sheet.b) = (c, b);
            let expected = filled(first_row, position, whole);
            assert_eq!(lit(&panel, &font(), dark), expected, "{counter:?} {shift} C {c} B {b} dark {dark}");
        }
        (panel.sheet.c, panel.sheet.b) = (false, true);
        assert_eq!(lit(&panel, &font(), false), []);
        (panel.sheet.d, panel.sheet.c) = (false, true);
        assert_eq!(lit(&panel, &font(), true), []);
    }
}

#[test]
fn a_pattern_address_on_one_line_counts_modulo_16() {
    for (at, shift, byte, dots) in
        [(0x13, 0, 71, [0x01, 0xF0]), (0x03, 0, 71, [0x01, 0xF0]), (0x1F, 15, 70, [0xF8, 0x00])]
    {
        let mut panel = Panel::fresh(Chip::ONE_LINE, Times::USUAL);
        (panel.sheet.d, panel.sheet.c, panel.sheet.shift) = (true, true, shift);
        panel.sheet.counter = Counter::Pattern(PatternAddress(at));
        let mut frame = [0; 80];
        assert_eq!(paint(&panel, &font(), false, &mut frame), Painting::Lit(5));
        assert_eq!(frame[byte..byte + 2], dots);
    }
}

#[test]
fn a_frame_of_another_size_is_refused() {
    let two = showing(0, 0);
    let mut one = two.clone();
    one.sheet.chip = Chip::ONE_LINE;
    let mut unknown = one.clone();
    unknown.sheet.chip = Chip(34);
    for (panel, sizes, number) in [
        (&two, [0, 79, 80, 81, 159, 161], SIZE), (&one, [0, 79, 81, 159, 160, 161], SIZE),
        (&unknown, [0, 80, 160, 79, 161, 1], UNSOUND),
    ] {
        for size in sizes {
            let mut frame = vec![0xA5; size];
            assert_eq!(paint(panel, &font(), true, &mut frame), Painting::Refused(number), "{size}");
            assert_eq!(frame, vec![0xA5; size]);
        }
    }
    let mut frame = [0xA5; 160];
    assert_eq!(paint(&two, &[0; 1_919], true, &mut frame), Painting::Refused(SIZE));
}

#[test]
fn the_first_dot_that_differs_in_sixteen_rows() {
    let one = [0x5A; 160];
    assert_eq!(compare(Chip::TWO_LINES, &one, &one), Comparison::Same);
    for (byte, bit, row, column) in [(0, 7, 0, 0), (79, 0, 7, 79), (80, 7, 8, 0), (114, 4, 11, 35), (159, 0, 15, 79)] {
        let mut other = one;
        other[byte] ^= 1 << bit;
        assert_eq!(compare(Chip::TWO_LINES, &one, &other), Comparison::At { row, column });
        assert_eq!(compare(Chip::TWO_LINES, &other, &one), Comparison::At { row, column });
    }
}

#[test]
fn a_comparison_is_told_the_chip() {
    for (chip, one, other, expected) in [
        (31, 80, 80, Comparison::Same), (31, 160, 160, Comparison::Refused(9)), (31, 80, 160, Comparison::Refused(9)),
        (35, 160, 160, Comparison::Same), (35, 80, 80, Comparison::Refused(9)), (35, 160, 80, Comparison::Refused(9)),
        (35, 159, 160, Comparison::Refused(9)), (35, 160, 161, Comparison::Refused(9)),
        (35, 0, 0, Comparison::Refused(9)),
        (0, 80, 80, Comparison::Refused(10)), (34, 160, 160, Comparison::Refused(10)),
        (255, 80, 160, Comparison::Refused(10)), (36, 0, 200, Comparison::Refused(10)),
    ] {
        assert_eq!(compare(Chip(chip), &vec![7; one], &vec![7; other]), expected, "chip {chip}, {one} and {other}");
    }
}
