//! Watches the picture on mirrored glass: in which mode it is painted, what turned
//! the glass, and whether another reading of the mode would show.

use crate::arguments::Lent;
use crate::chip::{Sheet, Width};
use crate::classes::{HANDED_IN, IN_PIECES};
use crate::log::{Message, Transfer};
use crate::observe::Step;
use crate::panel::number::{is_carried_out, BACK, IGNORED, TORN};
use crate::panel::{Half, Panel};
use crate::picture::{self, Comparison, Mode};
use crate::reach::Reach;
use crate::turned::{misread, turned};
use std::collections::BTreeSet;

fn note(reach: &mut Reach, sheet: &Sheet, class: &str) {
    reach.note(&format!("{}: {class}", Mode::of(sheet).name()));
}

fn note_if(reach: &mut Reach, sheet: &Sheet, reached: bool, class: &str) {
    if reached {
        note(reach, sheet, class);
    }
}

/// How the glass came to be in its mode.
pub struct Turns {
    /// What turned it or kept it last, and what would have turned it since.
    since: BTreeSet<String>,
    /// The data byte of the first half that waits.
    first: u8,
    /// How the run is made, in the words of the classes.
    ways: Vec<&'static str>,
}

impl Turns {
    pub fn new(is_handed_in: bool, ways: Vec<&'static str>) -> Turns {
        let since = is_handed_in.then(|| HANDED_IN.to_string()).into_iter().collect();
        // The picture is painted once all is read, in whatever pieces it came.
        let ways = ways.into_iter().filter(|&way| way != IN_PIECES).collect();
        Turns { since, first: 0, ways }
    }

    pub fn record(&mut self, step: &Step, message: Option<Message>) {
        match message {
            Some(Message::Reset { .. }) if step.answer.number != BACK => self.reset(&step.before.sheet),
            Some(Message::Transfer(transfer)) => self.transfer(step, transfer),
            _ => {}
        }
    }

    fn reset(&mut self, old: &Sheet) {
        self.since.clear();
        if Mode::of(old) == Mode::B {
            self.since.insert("turned by a reset".to_string());
        }
    }

    fn transfer(&mut self, step: &Step, transfer: Transfer) {
        let (before, answer) = (step.before, step.answer.number);
        let sheet = &before.sheet;
        let is_whole = sheet.width == Width::Eight;
        if !is_whole && before.half.is_none() {
            if answer != BACK {
                self.first = transfer.data;
            }
            return;
        }
        let code = if is_whole { transfer.data } else { self.first & 0xF0 | transfer.data >> 4 };
        let is_instruction = match before.half {
            Some(Half { rs, rw, .. }) => !rs && !rw,
            None => !transfer.rs && !transfer.rw,
        };
        if is_instruction && (0x20..=0x3F).contains(&code) {
            self.function_set(sheet, code, answer, is_whole);
        }
    }

    /// A Function Set as it is completed, or as it would be.
    fn function_set(&mut self, sheet: &Sheet, code: u8, answer: u8, is_whole: bool) {
        let width = sheet.width.bits();
        let would_turn = code & 1 != sheet.function & 1;
        if is_carried_out(answer) {
            let what = if would_turn { "turned" } else { "kept" };
            self.since = BTreeSet::from([format!("{what} by Function Set, width {width}")]);
        } else if would_turn {
            let class = match answer {
                IGNORED => format!("left by an ignored Function Set, width {width}"),
                TORN => "left by a torn Function Set".to_string(),
                BACK if is_whole => "left by a Function Set that is back".to_string(),
                _ => return,
            };
            self.since.insert(class);
        }
    }

    /// The picture in the end has dots lit.
    fn end(&self, reach: &mut Reach, sheet: &Sheet) {
        for class in self.since.iter().map(String::as_str).chain(self.ways.iter().copied()) {
            note(reach, sheet, class);
        }
    }
}

/// A painting of this panel that is refused with 9.
pub fn refused(reach: &mut Reach, sheet: &Sheet, class: &str) {
    note(reach, sheet, class);
}

/// A panel that is not sound; the faults are all that it has.
pub fn unsound(reach: &mut Reach, sheet: &Sheet, faults: &[&str]) {
    note(reach, sheet, "10 for a painting");
    note_if(reach, sheet, faults.contains(&"Function Set bits"), "10 for Function Set bits");
}

/// What was painted of a sound panel, light and dark, in frames of its chip's size.
pub fn painted(reach: &mut Reach, turns: &Turns, lent: &Lent, panel: &Panel) {
    let sheet = &panel.sheet;
    let [light, dark] = [false, true].map(|dark| frame_of(panel, &lent.font, dark));
    note_if(reach, sheet, !sheet.d, "D off");
    if light.iter().all(|&byte| byte == 0) {
        return;
    }
    note(reach, sheet, "dots lit");
    reach.note(&format!("Function Set bits {}, dots lit", sheet.function));
    note(reach, sheet, &format!("width {}", sheet.width.bits()));
    turns.end(reach, sheet);
    note_if(reach, sheet, sheet.shift != 0, "at a shift");
    note_if(reach, sheet, shows_a_pattern(sheet), "a pattern");
    cursor(reach, sheet);
    note_if(reach, sheet, light != dark, "blink, dark");
    if lent.frames.is_none() {
        compared(reach, sheet, "painted frames", &light, &dark);
    }
    if sheet.chip.lines() == 2 {
        halves(reach, sheet, &light, &dark);
    }
    other_readings(reach, sheet, &light);
}

fn frame_of(panel: &Panel, font: &[u8], dark: bool) -> Vec<u8> {
    let mut frame = vec![0; panel.sheet.chip.frame_size()];
    picture::paint(panel, font, dark, &mut frame);
    frame
}

/// Whether one of the four patterns is shown, and is not blank.
pub fn shows_a_pattern(sheet: &Sheet) -> bool {
    let own = &sheet.display[..sheet.chip.places()];
    own.iter().filter(|&&code| code < 0x10).any(|&code| {
        let first = 8 * usize::from(code & 3);
        sheet.pattern[first..first + 8] != [0; 8]
    })
}

fn cursor(reach: &mut Reach, sheet: &Sheet) {
    if sheet.c {
        note(reach, sheet, "cursor");
        note_if(reach, sheet, sheet.shift != 0, "cursor at a shift");
        note_if(reach, sheet, !sheet.is_in_display(), "cursor in pattern memory");
        if sheet.chip.lines() == 2 {
            let line = ["first", "second"][picture::cursor(sheet).line];
            note(reach, sheet, &format!("cursor on the {line} line"));
        }
    }
}

/// Two frames that are compared in the panel's mode.
fn compared(reach: &mut Reach, sheet: &Sheet, which: &str, one: &[u8], other: &[u8]) {
    let as_they_lie = picture::compare(sheet.chip, one, other);
    match as_they_lie {
        Comparison::Refused(_) => return note(reach, sheet, &format!("9 for {which}")),
        Comparison::Same => return note(reach, sheet, &format!("{which} same")),
        Comparison::At { .. } => note(reach, sheet, &format!("{which} differ")),
    }
    let if_turned = picture::compare(sheet.chip, &turned(one), &turned(other));
    let is_another = if_turned != as_they_lie && !is_the_same_dot(sheet, as_they_lie, if_turned);
    let class = format!("{which}, another dot first if turned");
    note_if(reach, sheet, Mode::of(sheet) == Mode::B && is_another, &class);
}

/// Whether the second is the first, turned: then both name one dot of the panel.
fn is_the_same_dot(sheet: &Sheet, one: Comparison, other: Comparison) -> bool {
    match (one, other) {
        (Comparison::At { row, column }, Comparison::At { row: turned_row, column: turned_column }) => {
            (row + 8) % sheet.chip.rows() == turned_row && 79 - column == turned_column
        }
        _ => false,
    }
}

/// Frames that were lent to the comparison; of a panel that is sound or not.
pub fn lent_frames(reach: &mut Reach, lent: &Lent, sheet: &Sheet) {
    if let (Some((one, other)), true) = (&lent.frames, sheet.chip.is_known()) {
        compared(reach, sheet, "lent frames", one, other);
    }
}

fn halves(reach: &mut Reach, sheet: &Sheet, light: &[u8], dark: &[u8]) {
    let is_lit = |half: &[u8]| half.iter().any(|&byte| byte != 0);
    let class = match light.split_at(80) {
        (above, below) if is_lit(above) && is_lit(below) => "dots lit in both halves",
        (above, _) if is_lit(above) => "dots lit in the upper half alone",
        _ => "dots lit in the lower half alone",
    };
    note(reach, sheet, class);
    if let Comparison::At { row, .. } = picture::compare(sheet.chip, light, dark) {
        let half = if row < 8 { "upper" } else { "lower" };
        note(reach, sheet, &format!("dark and light first differ in the {half} half"));
    }
}

/// Whether the picture would be another if the mode were read in another way.
fn other_readings(reach: &mut Reach, sheet: &Sheet, light: &[u8]) {
    let other = turned(light);
    if Mode::of(sheet) == Mode::A {
        let by_bit_1 = sheet.function & 2 != 0 && other != light;
        return note_if(reach, sheet, by_bit_1, "another picture if bit 1 were the mode");
    }
    for reading in misread::all(sheet.chip) {
        let differs = reading.frame(&other) != light;
        note_if(reach, sheet, differs, &format!("another picture if {}", reading.name));
    }
}

#[cfg(test)]
mod tests;
