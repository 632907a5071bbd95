//! Watches cells apart and the drawing for browsers: which glass was drawn so, and what
//! stood in it that only some drawings have.

use crate::arguments::{self, together};
use crate::chips::Chip;
use crate::classes::WALL;
use crate::generator::Trial;
use crate::picture::Mode;
use crate::reach::Reach;
use crate::wall::{self, Asked, Form, Shown};

/// Notes which glass is drawn with its cells apart.
pub fn drawn(reach: &mut Reach, asked: &Asked, shown: &Shown) {
    let Some(font) = &asked.font else { return };
    let form = match asked.form {
        Form::Svg => "svg",
        _ if asked.live => "live",
        Form::Ascii if asked.apart => "apart",
        _ => return,
    };
    let sheet = &shown.panel.sheet;
    let frame = wall::frame(asked, font, &shown.panel);
    let lit = frame.iter().map(|byte| byte.count_ones() as usize).sum::<usize>();
    let upright = if asked.upright { ", upright" } else { "" };
    let mut note_if = |reached, class: &str| reach.note_if(reached, &format!("{WALL}{form}: {class}"));
    note_if(lit > 0, &format!("{}{upright}", Mode::of(sheet).name()));
    note_if(lit > 0 && sheet.b && asked.dark, "blink, dark");
    if form != "live" {
        note_if(lit > 0 && asked.at.is_some(), "at a time");
        note_if(lit == 0, "no dot lit");
        note_if(lit == 8 * frame.len(), "every dot lit");
    }
    if form != "apart" {
        note_if(asked.apart, "apart beside it");
    }
    if form == "svg" {
        let texts = wall::texts(sheet).concat();
        for escaped in ['<', '>', '&', '.'] {
            note_if(texts.contains(escaped), &format!("{escaped} in the text"));
        }
        note_if(!sheet.d && !texts.trim().is_empty(), "text with D off");
    }
}

/// Notes how words that do not stand together were refused, and beside what.
pub fn refused(reach: &mut Reach, trial: &Trial, words: &[String], reason: &str) {
    let wrong = arguments::wrong_together(words);
    let names_no_chip = words.windows(2).any(|two| two[0] == "chip" && Chip::named(&two[1]).is_none());
    for later in wrong.iter().skip(1) {
        reach.note_by_itself(&format!("{WALL}refused: {reason}, before: {later}"));
    }
    if names_no_chip && together::LINES.contains(&reason) {
        reach.note_by_itself(&format!("{WALL}refused: {reason}, before the chip's name"));
    }
    let is_of_words = ["unknown word", "group given twice", "number missing"].contains(&reason);
    if is_of_words && trial.gives("ascii") && trial.gives("pbm") {
        reach.note_by_itself(&format!("{WALL}refused: {reason}, before words together"));
    }
}
