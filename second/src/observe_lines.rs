//! Watches what goes by the number of lines: addresses and shifts on either
//! line, the status byte, what is handed in, the cursor's line, frames.

use crate::chip::{Counter, DisplayAddress, PatternAddress, Sheet};
use crate::chips::{Chip, LINE};
use crate::generator::Trial;
use crate::panel::Panel;
use crate::picture::{self, Comparison, Mode};
use crate::reach::Reach;

fn is_written(line: &[u8]) -> bool {
    line.iter().any(|&byte| byte != 0x20)
}

/// Whether there are two lines, with something on each.
fn both_written(sheet: &Sheet) -> bool {
    let (above, below) = sheet.display.split_at(LINE);
    sheet.chip.lines() == 2 && is_written(above) && is_written(below)
}

/// The line of a display address, where there are two.
fn line_of(sheet: &Sheet) -> Option<usize> {
    match sheet.counter {
        Counter::Display(DisplayAddress(at)) if sheet.chip.lines() == 2 => Some(usize::from(at) / LINE),
        _ => None,
    }
}

/// Notes what an instruction or data transfer that was taken did; the sheet is
/// the one before it.
pub fn step(reach: &mut Reach, old: &Sheet, name: &str, code: u8) {
    let both = both_written(old);
    let elsewhere = old.counter != Counter::Display(DisplayAddress(0)) && old.shift != 0;
    match name {
        "display address" => {
            for bit in [4, 5, 6] {
                reach.note_if(code >> bit & 1 != 0, &format!("display address with bit {bit}"));
            }
            reach.note_if(code == 0xC0, "display address C0h");
        }
        "Home 03h" => {
            reach.note_if(elsewhere, "Home 03h from another address and shift");
            reach.note_if(line_of(old) == Some(1), "Home 03h from the second line");
        }
        "to width 4" | "to width 8" => {
            let all_bits = code & 0x0F == 0x0F;
            reach.note_if(all_bits && elsewhere, "Function Set with all bits, at another address and shift");
        }
        "shift left" | "shift right" => reach.note_if(both, &format!("{name} with both lines written")),
        "Clear" => reach.note_if(both, "Clear with both lines written"),
        "display write" if old.s => write_with_s(reach, old),
        _ => {}
    }
}

fn write_with_s(reach: &mut Reach, old: &Sheet) {
    let way = if old.i_d { "up" } else { "down" };
    let at_the_end = old.counter.number() % 16 == if old.i_d { 15 } else { 0 };
    let Some(line) = line_of(old) else { return };
    reach.note_if(line == 1, &format!("display write with S on the second line, {way}"));
    reach.note_if(at_the_end, &format!("display write with S from line to line, {way}"));
}

pub fn reset(reach: &mut Reach, old: &Sheet) {
    reach.note_if(is_written(&old.display), "reset of a written display memory");
    reach.note_if(both_written(old), "reset with both lines written");
}

/// A status byte whose fifth bit is set.
pub fn status(reach: &mut Reach, sheet: &Sheet, width: u8) {
    if let Counter::Pattern(PatternAddress(16..)) = sheet.counter {
        reach.note(&format!("status read of a pattern address above 15, width {width}"));
    }
    reach.note_if(line_of(sheet) == Some(1), &format!("status read on the second line, width {width}"));
}

/// A panel that came with a file.
pub fn handed_in(reach: &mut Reach, trial: &Trial, panel: &Panel) {
    let sheet = &panel.sheet;
    if let Some(named) = trial.chip_named() {
        reach.note("panel and chip");
        reach.note_if(named != sheet.chip, "panel and another chip");
    }
    reach.note_if(sheet.shift == 16, "unsound: shift 16");
    if let Counter::Display(DisplayAddress(at @ 16..=31)) = sheet.counter {
        reach.note_if(matches!(at, 16 | 31), &format!("handed in: display address {at}"));
        reach.note_if(sheet.chip == Chip::ONE_LINE, &format!("unsound: display address {at}"));
        let at_an_end = matches!(at, 16 | 31) && panel.is_sound();
        reach.note_if(at_an_end, &format!("panel sound: display address {at}"));
    }
    for (place, &byte) in sheet.display.iter().enumerate().skip(sheet.chip.places()) {
        reach.note_if(byte != 0x20, &format!("unsound: byte {place} past the chip's own"));
    }
}

/// Where cursor and blink are, with the display on.
pub fn cursor(reach: &mut Reach, sheet: &Sheet) {
    for (is_on, what) in [(sheet.c, "cursor"), (sheet.b, "blink")] {
        if is_on {
            in_pattern_memory(reach, sheet, what);
            on_two_lines(reach, sheet, what);
        }
    }
    let in_display = sheet.c && line_of(sheet) == Some(1);
    reach.note_if(in_display, "cursor of a display address on the second line");
}

fn in_pattern_memory(reach: &mut Reach, sheet: &Sheet, what: &str) {
    let Counter::Pattern(PatternAddress(at)) = sheet.counter else { return };
    reach.note_if(what == "cursor", "cursor in pattern memory");
    reach.note_if(at > 15, &format!("{what} above 15 in pattern memory"));
    reach.note_if(at > 15 && sheet.shift != 0, &format!("{what} above 15 in pattern memory, at a shift"));
}

fn on_two_lines(reach: &mut Reach, sheet: &Sheet, what: &str) {
    if sheet.chip.lines() < 2 {
        return;
    }
    let is_shifted = sheet.shift != 0;
    match (picture::cursor(sheet).line, what) {
        (0, "cursor") => reach.note_if(is_shifted, "cursor on the first line, at a shift"),
        (0, _) => reach.note("blink on the first line"),
        _ => {
            reach.note(&format!("{what} on the second line"));
            reach.note_if(is_shifted, &format!("{what} on the second line, at a shift"));
        }
    }
}

/// What was painted with the display on.
pub fn painted(reach: &mut Reach, sheet: &Sheet, light: &[u8], dark: &[u8]) {
    if both_written(sheet) {
        reach.note("painted with both lines written");
        reach.note_if(sheet.shift != 0, "painted at a shift with both lines written");
    }
    // In mode B the second line has the upper rows.
    let second_line = if Mode::of(sheet) == Mode::A { 8..16 } else { 0..8 };
    if let Comparison::At { row, .. } = picture::compare(sheet.chip, light, dark) {
        let is_second = sheet.chip.lines() == 2 && second_line.contains(&row);
        reach.note_if(is_second, "dark and light first differ on the second line");
    }
}

/// Frames that were lent to the comparison.
pub fn frames(reach: &mut Reach, chip: Chip, (one, other): (&[u8], &[u8]), comparison: Comparison) {
    let is_other = |frame: &[u8]| frame.len() != chip.frame_size() && matches!(frame.len(), 80 | 160);
    match (is_other(one), is_other(other)) {
        (true, true) => {
            reach.note("frames: both of the other chip's size");
            reach.note_if(one == other, "frames: both of the other chip's size, the same");
        }
        (true, false) => reach.note("frames: first of the other chip's size"),
        (false, true) => reach.note("frames: second of the other chip's size"),
        (false, false) => {}
    }
    if let (2, Comparison::At { row, column }) = (chip.lines(), comparison) {
        reach.note_if((row, column) == (7, 79), "frames: last dot of the first line");
        reach.note_if((row, column) == (8, 0), "frames: first dot of the second line");
        reach.note_if(row > 7, "frames: second line alone");
    }
}
