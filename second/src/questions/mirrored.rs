//! What the programs are asked about mirrored glass: all Function Set bits, what
//! turns the glass and what does not, and refusals and comparisons in mode B.

use super::{handed_in, words, Question, Which};
use crate::chip::Width;
use crate::chips::Chip;
use crate::generator;
use crate::lend::mirrored::{telling, unsound};
use crate::lend::{files, text, Group};
use crate::panel::{Panel, Times};
use crate::panel_file;
use crate::random::Random;
use crate::sender;

pub fn all(seed: u64) -> Vec<Question> {
    let mut questions = no_word_of_others();
    for chip in Chip::KNOWN {
        questions.extend((0..16).map(|bits| sent_to(&telling(chip, bits), in_turn(bits), &[])));
        questions.extend(refused(chip));
        questions.extend(compared(chip));
        let mut random = Random::new(seed ^ 0x3125_5000, u64::from(chip.0));
        for width in [Width::Eight, Width::Four] {
            questions.extend(turns(&mut random, chip, width));
        }
    }
    questions
}

fn sent_to(panel: &Panel, groups: Vec<Group>, log: &[u8]) -> Question {
    handed_in(panel_file::write(panel), groups, log)
}

/// Every third by a call for each record.
fn in_turn(number: u8) -> Vec<Group> {
    if number % 3 == 1 { vec![text("records")] } else { Vec::new() }
}

/// It is a word of the wall alone.
fn no_word_of_others() -> Vec<Question> {
    [Which::Glazomir, Which::Trace, Which::Report].map(|which| words(which, "upright", generator::short_night())).into()
}

/// Frames and fonts of another size, and panels that are not sound.
fn refused(chip: Chip) -> Vec<Question> {
    let panel = telling(chip, 1);
    let sizes = [0, 240 - chip.frame_size(), chip.frame_size() + 1];
    let mut questions: Vec<Question> =
        sizes.map(|size| sent_to(&panel, vec![text(&format!("frame {size}"))], &[])).into();
    questions.push(sent_to(&panel, vec![files("font", vec![vec![0xFF; 1_919]])], &[]));
    questions.extend(unsound(chip).iter().map(|panel| sent_to(panel, Vec::new(), &generator::short_night())));
    questions
}

/// Two frames in mode B whose first differing dot by rows would be the last, were the
/// rows run through from the right or the lower half first.
fn compared(chip: Chip) -> Vec<Question> {
    let one = vec![0x5A; chip.frame_size()];
    let [mut aside, mut apart] = [one.clone(), one.clone()];
    (aside[31], aside[38]) = (0x5B, 0xDA);
    let last = chip.frame_size() - 40;
    (apart[25], apart[last]) = (0x7A, 0x52);
    let panel = telling(chip, 0xD);
    let other_size = vec![0x5A; 240 - chip.frame_size()];
    [aside, apart, one.clone(), other_size]
        .map(|other| sent_to(&panel, vec![files("frames", vec![one.clone(), other])], &[]))
        .into()
}

fn turns(random: &mut Random, chip: Chip, width: Width) -> Vec<Question> {
    let mut panel = Panel::fresh(chip, Times::USUAL);
    panel.sheet.width = width;
    let logs = sender::send_turns(random, panel.clone());
    (0..).zip(&logs).map(|(number, log)| sent_to(&panel, in_turn(number), log)).collect()
}
