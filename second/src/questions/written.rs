//! What `trace` is asked about the written places: panels whose bits disagree with
//! their memory, and panels that are sound and then written to.

use super::{handed_in, plain, Which};
use crate::chip::Width;
use crate::chips::{Chip, DISPLAY_SIZE};
use crate::lend::written::{self, Memory};
use crate::lend::{files, text, Group};
use crate::log::{self, TIME_LIMIT};
use crate::panel::{Panel, Times};
use crate::panel_file;
use crate::questions::Question;
use crate::random::Random;
use crate::sender;
use crate::start::Feed;
use crate::written::SPACE;

const WIDTHS: [Width; 2] = [Width::Eight, Width::Four];

pub fn all(seed: u64) -> Vec<Question> {
    let mut questions = files_of_other_sizes();
    for chip in Chip::KNOWN {
        let mut random = Random::new(seed ^ 0x3B17_5000, u64::from(chip.0));
        questions.extend(refused(&mut random, chip));
        questions.extend(one_write(&mut random, chip));
        for width in WIDTHS {
            questions.push(reset_of_full(&mut random, chip, width));
            questions.extend(every_byte(&mut random, chip, width));
            questions.extend(tours(&mut random, chip, width));
        }
    }
    questions
}

/// A log for a panel; every third by a call for each record. Every other hangs on
/// mirrored glass, which is no matter to the places and shows more of the picture.
fn sent_to(panel: &Panel, number: usize, log: &[u8]) -> Question {
    let groups = if number % 3 == 1 { vec![text("records")] } else { Vec::new() };
    let mut panel = panel.clone();
    panel.sheet.function |= number as u8 & 1;
    handed_in(panel_file::write(&panel), groups, log)
}

/// Of before the bits, with some of them, and with more.
fn files_of_other_sizes() -> Vec<Question> {
    let fresh = panel_file::write(&Panel::fresh(Chip::TWO_LINES, Times::USUAL));
    let resized = |size| {
        let mut bytes = fresh.clone();
        bytes.resize(size, 0);
        bytes
    };
    [102, 103, 104, 105, 107, 110].map(|size| handed_in(resized(size), Vec::new(), &[])).into()
}

/// Bits that disagree, and other faults; some of the logs begin with what would mend
/// the bits.
fn refused(random: &mut Random, chip: Chip) -> Vec<Question> {
    let late = TIME_LIMIT - 1;
    let [clear, byte, space] = [(0, 0x01), (1, 0x57), (1, SPACE)].map(|(rs, byte)| log::write_transfer(late, rs, byte));
    let reset = log::write_reset(late);
    let logs = [reset, clear, byte, space.clone(), Vec::new(), [space, vec![12]].concat(), vec![12, 0]];
    let mut panels = written::one_bit_off(random, chip);
    panels.extend(written::misread_panels(chip));
    panels.extend(written::otherwise_unsound(chip));
    let numbered = panels.iter().enumerate();
    numbered.map(|(number, panel)| sent_to(panel, number, &logs[number % logs.len()])).collect()
}

/// At each place a space into a full memory, and a byte into an empty one; at some
/// also what leaves the bits as they were. Some with a font that shows nothing.
fn one_write(random: &mut Random, chip: Chip) -> Vec<Question> {
    let mut questions = Vec::new();
    for place in 0..chip.places() {
        let sorts = [(Memory::Full, SPACE), (Memory::Empty, 0x57), (Memory::Empty, SPACE), (Memory::Full, 0x57)];
        let asked = if place < 4 { 4 } else { 2 };
        for (number, (memory, byte)) in (place..).zip(sorts).take(asked) {
            let (width, up) = (WIDTHS[number % 2], number / 2 % 2 == 0);
            let panel = written::sound(chip, width, written::bytes(random, chip, memory));
            let log = sender::send_write(random, panel.clone(), place as u8, byte, up);
            let mut question = sent_to(&panel, number, &log);
            let blank: Option<Group> = (number % 5 == 0).then(|| files("font", vec![vec![0; 1_920]]));
            question.trial.groups.extend(blank);
            questions.push(question);
        }
    }
    questions
}

/// A reset at once, which chance alone seldom sends to a memory without a space.
fn reset_of_full(random: &mut Random, chip: Chip, width: Width) -> Question {
    let panel = written::sound(chip, width, written::bytes(random, chip, Memory::Full));
    sent_to(&panel, 0, &log::write_reset(0))
}

/// All 256 bytes: handed in, and written where each of them turns a bit over.
fn every_byte(random: &mut Random, chip: Chip, width: Width) -> Vec<Question> {
    let mut questions = Vec::new();
    let all: Vec<u8> = (0..=0xFF).collect();
    for (number, bytes) in all.chunks(chip.places()).enumerate() {
        let (mut held, mut other) = ([SPACE; DISPLAY_SIZE], [SPACE; DISPLAY_SIZE]);
        held[..bytes.len()].copy_from_slice(bytes);
        for (place, _) in bytes.iter().enumerate().filter(|(_, &byte)| byte == SPACE) {
            other[place] = 0x57;
        }
        questions.push(sent_to(&written::sound(chip, width, held), number, &[]));
        let panel = written::sound(chip, width, other);
        questions.push(sent_to(&panel, number, &sender::send_bytes(random, panel.clone(), bytes)));
    }
    questions
}

/// Step by step from a mixed memory; the first step and the whole from one that is
/// full and from one that is empty; the whole from a fresh panel.
fn tours(random: &mut Random, chip: Chip, width: Width) -> Vec<Question> {
    let mut questions = Vec::new();
    for send in [sender::send_around_the_ends, sender::send_what_leaves_the_bits, sender::send_clears] {
        for memory in [Memory::Mixed, Memory::Full, Memory::Empty] {
            let panel = written::sound(chip, width, written::bytes(random, chip, memory));
            let logs = send(random, panel.clone());
            let asked = if memory == Memory::Mixed { &logs[..] } else { &logs[..1] };
            let last = (memory != Memory::Mixed).then(|| &logs[logs.len() - 1]);
            let asked = (0..).zip(asked.iter().chain(last));
            questions.extend(asked.map(|(number, log)| sent_to(&panel, number, log)));
        }
        questions.extend(from_fresh(random, chip, width, send));
    }
    questions
}

/// Whole and in pieces.
fn from_fresh(
    random: &mut Random, chip: Chip, width: Width, send: fn(&mut Random, Panel) -> Vec<Vec<u8>>,
) -> [Question; 2] {
    let mut panel = Panel::fresh(chip, Times::USUAL);
    let mut log = log::write_transfer(0, 0, if width == Width::Four { 0x20 } else { 0x30 });
    panel.answer(&log);
    let logs = send(random, panel);
    log.extend(&logs[logs.len() - 1]);
    let question = plain(Which::Trace, chip, log);
    [Question { feed: Feed::Pieces(11), ..question.clone() }, question]
}
