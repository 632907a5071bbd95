//! Watches what `wall` shows of mirrored glass, with `upright` and without.

use crate::chip::Sheet;
use crate::chips::LINE;
use crate::classes::{UPRIGHT_TWICE, WALL};
use crate::generator::Trial;
use crate::lend::Word;
use crate::observe_mirrored::shows_a_pattern;
use crate::picture::{self, Mode, Place};
use crate::reach::Reach;
use crate::wall::{self, Asked, Form, Shown};

/// Notes what is drawn, and what a slip would draw otherwise.
pub fn drawn(reach: &mut Reach, asked: &Asked, shown: &Shown, log: &[u8]) {
    let (Some(font), sheet) = (&asked.font, &shown.panel.sheet) else { return };
    let mode = Mode::of(sheet);
    let how = if asked.upright { format!("{}, upright", mode.name()) } else { mode.name().to_string() };
    let mut note_if = |reached: bool, class: &str| reach.note_if(reached, &format!("{WALL}{how}: {class}"));
    note_if(!sheet.d, "D off");
    let frame = wall::frame(asked, font, &shown.panel);
    if frame.iter().all(|&byte| byte == 0) {
        return;
    }
    note_if(true, if asked.form == Form::Bitmap { "bitmap" } else { "ascii" });
    note_if(true, if asked.at.is_some() { "at a time" } else { "no time" });
    note_if(sheet.c, "cursor");
    note_if(sheet.b && asked.dark, "blink, dark");
    note_if(shows_a_pattern(sheet), "a pattern");
    if mode == Mode::B && asked.form == Form::Ascii {
        note_if(texts(sheet).iter().any(|text| is_another_turned(text)), "another text if it were turned");
        let [first, last] = [texts(sheet).first().cloned(), texts(sheet).last().cloned()];
        note_if(first != last, "another text if lines traded places");
    }
    let other = wall::frame(&Asked { upright: !asked.upright, ..asked.clone() }, font, &shown.panel);
    reach.note_if(other != frame && asked.upright, &format!("{WALL}mode B: another picture if upright were not heard"));
    mode_at_end(reach, asked, mode, log);
}

/// The codes of each line, by position.
fn texts(sheet: &Sheet) -> Vec<Vec<u8>> {
    let codes = |line| (0..LINE).map(|position| picture::code_at(sheet, Place { line, position })).collect();
    (0..sheet.chip.lines()).map(codes).collect()
}

fn is_another_turned(text: &[u8]) -> bool {
    !text.iter().eq(text.iter().rev())
}

/// The mode is that of the time that was asked for.
fn mode_at_end(reach: &mut Reach, asked: &Asked, mode: Mode, log: &[u8]) {
    let at_end = Mode::of(&wall::shown(&asked.start, log, None).panel.sheet);
    let class = format!("{WALL}{}: {} at the end of the log", mode.name(), at_end.name());
    reach.note_if(at_end != mode && !asked.upright, &class);
}

/// Words that are refused.
pub fn refused(reach: &mut Reach, trial: &Trial, reason: &str) {
    let is_upright = |word: &&Word| **word == Word::Text("upright".to_string());
    let count = trial.groups.iter().flatten().filter(is_upright).count();
    if count > 1 && reason == "group given twice" {
        reach.note_by_itself(&format!("{WALL}{UPRIGHT_TWICE}"));
    }
}
