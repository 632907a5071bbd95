//! Watches what a run of `trace` is lent and how it is fed: panels, sizes,
//! times, frames, the word `records`, and the picture that is painted in the end.

use crate::arguments::Lent;
use crate::chip::{Counter, DisplayAddress, PatternAddress};
use crate::generator::Trial;
use crate::log::{self, TIME_LIMIT};
use crate::observe_bits;
use crate::observe_lines;
use crate::observe_mirrored::{self, Turns};
use crate::observe_unknown;
use crate::observe_words;
use crate::panel::{self, Panel, BUSY_END_LIMIT};
use crate::picture::{self, Comparison, FONT_SIZE};
use crate::questions::Question;
use crate::reach::Reach;
use crate::start::{Feed, BLOCK};

/// Notes what is lent, and why it is refused where it is.
pub fn lent(reach: &mut Reach, trial: &Trial, lent: &Lent) {
    let faults = panel::faults(&lent.panel);
    sizes_and_times(reach, lent);
    frames(reach, lent);
    if trial.gives("panel") {
        reach.note_if(trial.gives("times"), "panel and times");
        panel_at_its_limits(reach, &lent.panel);
        observe_lines::handed_in(reach, trial, &lent.panel);
        observe_bits::handed_in(reach, trial, lent, &faults);
    } else {
        observe_words::given(reach, "", trial);
    }
    if !lent.panel.sheet.chip.is_known() {
        return observe_unknown::lent(reach, trial, lent, &faults);
    }
    for fault in &faults {
        reach.note(&format!("unsound: {fault}"));
    }
    reach.note_if(faults.len() > 1, "unsound in two ways");
    if !faults.is_empty() {
        refusals(reach, lent, &trial.log);
        observe_mirrored::unsound(reach, &lent.panel.sheet, &faults);
        observe_mirrored::lent_frames(reach, lent, &lent.panel.sheet);
    }
}

/// Every record by a call of its own: what the reading in blocks and the
/// counting of used bytes could get wrong.
pub fn by_records(reach: &mut Reach, question: &Question, lent: &Lent) {
    let log = &question.trial.log;
    let (records, cut) = log::records(log);
    let mut note_if = |reached: bool, class: &str| reach.note_if(reached, &format!("records: {class}"));
    note_if(log.is_empty(), "empty log");
    note_if(log.len() > BLOCK, "log longer than a block");
    note_if(log.len() > BLOCK && cut, "cut log longer than a block");
    note_if(cut, "cut log");
    note_if(records.iter().any(|record| record.len() == 4), "record of length 2");
    note_if(records.iter().any(|record| record.len() == 66), "record of length 64");
    note_if(question.trial.gives("panel") && lent.panel.is_sound(), "panel handed in");
    note_if(lent.panel.half.is_some() && lent.panel.is_sound(), "half handed in");
    if matches!(question.feed, Feed::Pieces(_)) {
        note_if(true, "fed in pieces");
        note_if(log.len() > BLOCK, "log longer than a block, in pieces");
        note_if(cut, "cut log, in pieces");
    }
    if !lent.panel.is_sound() {
        note_if(!records.is_empty(), "10 over records");
        note_if(cut, "10 with a cut log");
        note_if(log.is_empty(), "10 on an empty log");
        note_if(lent.panel.half.is_some(), "10 of a panel with a half");
    }
}

/// Whether the frame lent is as large as the chip's frame.
fn has_its_size(lent: &Lent) -> bool {
    lent.frame_size == lent.panel.sheet.chip.frame_size()
}

fn refusals(reach: &mut Reach, lent: &Lent, log: &[u8]) {
    for class in ["answer 10", "10 for a run", "10 for a painting"] {
        reach.note(class);
    }
    reach.note_if(lent.font.len() != FONT_SIZE, "10 before 9 for the font");
    reach.note_if(!has_its_size(lent), "10 before 9 for the frame");
    let (records, cut) = log::records(log);
    reach.note_if(cut, "10 with a cut log");
    reach.note_if(cut && records.is_empty(), "10 with a log cut before any record");
    reach.note_if(log.is_empty(), "10 on an empty log");
    reach.note_if(!records.is_empty(), "10 over records, counts 0");
    reach.note(if lent.panel.sheet.good { "10 of a panel that is good" } else { "10 of a panel that is not good" });
}

/// Notes the picture of the panel that a sound run ends with.
pub fn painting(reach: &mut Reach, lent: &Lent, panel: &Panel, turns: &Turns) {
    let sheet = &panel.sheet;
    let (size, fits) = (lent.frame_size, has_its_size(lent));
    observe_mirrored::lent_frames(reach, lent, sheet);
    for (is_refused, class) in [
        (!fits, "9 for the frame"), (!fits && matches!(size, 80 | 160), "9 for a frame of the other chip's size"),
        (lent.font.len() != FONT_SIZE, "9 for the font"),
    ] {
        if is_refused {
            reach.note(class);
            observe_mirrored::refused(reach, sheet, class);
        }
    }
    if !fits || lent.font.len() != FONT_SIZE {
        return reach.note("answer 9");
    }
    observe_mirrored::painted(reach, turns, lent, panel);
    if !sheet.d {
        return reach.note("painted with D off");
    }
    reach.note("painted with D on");
    reach.note_if(lent.font != picture::trial_font(), "lent font painted");
    reach.note_if(sheet.c && sheet.shift != 0, "cursor at a shift");
    reach.note_if(sheet.b && sheet.shift != 0, "blink at a shift");
    codes(reach, &sheet.display[..sheet.chip.places()]);
    observe_lines::cursor(reach, sheet);
    let [mut light, mut dark] = [false, true].map(|_| vec![0; size]);
    picture::paint(panel, &lent.font, false, &mut light);
    picture::paint(panel, &lent.font, true, &mut dark);
    reach.note(if light == dark { "comparison: painted frames same" } else { "dark and light differ" });
    observe_lines::painted(reach, sheet, &light, &dark);
}

fn codes(reach: &mut Reach, codes: &[u8]) {
    for code in codes {
        match code {
            0x00..=0x03 => reach.note("pattern code 00h to 03h"),
            0x04..=0x0F => reach.note("pattern code 04h to 0Fh"),
            0x10 => reach.note("font code 10h"),
            0xFF => reach.note("font code FFh"),
            _ => {}
        }
    }
}

fn sizes_and_times(reach: &mut Reach, lent: &Lent) {
    match lent.font.len() {
        0 => reach.note("font of 0"),
        1_919 => reach.note("font of 1919"),
        1_921 => reach.note("font of 1921"),
        _ => {}
    }
    let size = lent.frame_size;
    reach.note_if(matches!(size, 0 | 79..=81 | 159..=161 | 200), &format!("frame of {size}"));
    let times = [lent.panel.times.reset, lent.panel.times.long, lent.panel.times.short];
    reach.note_if(times.contains(&0), "time of 0");
    reach.note_if(times.contains(&65_535), "time of 65535");
}

fn panel_at_its_limits(reach: &mut Reach, panel: &Panel) {
    if !panel.is_sound() {
        return;
    }
    let sheet = &panel.sheet;
    reach.note("panel sound");
    reach.note_if(panel.last == TIME_LIMIT - 1, "panel sound: last time 2^48 - 1");
    reach.note_if(panel.busy_end == BUSY_END_LIMIT - 1, "panel sound: busy end 2^48 + 65535");
    match sheet.counter {
        Counter::Display(DisplayAddress(15)) => reach.note("panel sound: display address 15"),
        Counter::Pattern(PatternAddress(31)) => reach.note("panel sound: pattern address 31"),
        _ => {}
    }
    reach.note_if(sheet.shift == 15, "panel sound: shift 15");
    reach.note_if(sheet.function == 15, "panel sound: Function Set bits 15");
    reach.note_if(sheet.pattern.contains(&31), "panel sound: pattern entry 31");
}

fn frames(reach: &mut Reach, lent: &Lent) {
    let Some((one, other)) = &lent.frames else { return };
    let chip = lent.panel.sheet.chip;
    let size = chip.frame_size();
    let differing: u32 = one.iter().zip(other).map(|(a, b)| (a ^ b).count_ones()).sum();
    match (one.len() == size, other.len() == size) {
        (false, false) => reach.note("frames: both of wrong size"),
        (false, true) => reach.note("frames: first of wrong size"),
        (true, false) => reach.note("frames: second of wrong size"),
        (true, true) if differing == 0 => reach.note("frames: none differs"),
        (true, true) if differing == 1 => reach.note("frames: one dot"),
        (true, true) => reach.note("frames: several dots"),
    }
    let last = chip.rows() - 1;
    let comparison = picture::compare(chip, one, other);
    match comparison {
        Comparison::Refused(_) => reach.note("9 for frames"),
        Comparison::At { row: 0, column: 0 } => reach.note("frames: first dot of all"),
        Comparison::At { row, column: 79 } if row == last => reach.note("frames: last dot of all"),
        _ => {}
    }
    observe_lines::frames(reach, chip, (one, other), comparison);
}
