//! Trials for `live`: logs of one read for the three last lines, logs of several for
//! which reads have a picture, and logs that end where a read does.

use super::{random_of, usual, words};
use crate::cases;
use crate::chips::Chip;
use crate::generator::Trial;
use crate::lend::{self, files, text};
use crate::log::{self, write_transfers as at_times, TIME_LIMIT};
use crate::picture;
use crate::random::Random;
use crate::sender::{self, Deed, Scene};
use crate::wall::live::READ;

fn asked(chip: Chip, words: &str, font: Vec<u8>, log: Vec<u8>) -> Trial {
    let mut groups = lend::chip_words(chip);
    groups.extend([text(words), files("font", vec![font])]);
    Trial { groups, log }
}

/// This log, as it comes.
pub fn whole_log(chip: Chip, log: Vec<u8>) -> Trial {
    asked(chip, "live ascii", cases::wall_font(), log)
}

/// One read each: what came last, and what moved the clock.
pub fn last_lines(chip: Chip) -> Vec<Trial> {
    let (instruction, data, status, read) = (0, 1, 2, 3);
    let bad = log::write_record(9, &[1, 2, 3]);
    let late = log::write_transfer(TIME_LIMIT, data, 0x57);
    let stray = log::write_transfer(90, 4 | data, 0x57);
    let two = at_times(&[(0, instruction, 0x0E), (40, data, 0x57)]);
    let then = |rest: &[u8]| [&two[..], rest].concat();
    let narrow = [(0, instruction, 0x0E), (40, instruction, 0x20), (80, data, 0x50), (90, instruction, 0x70)];
    let logs = [
        Vec::new(), bad.clone(), log::write_reset(5), [log::write_reset(7), late.clone()].concat(), vec![12],
        two.clone(), then(&at_times(&[(80, read, 0)])), then(&at_times(&[(80, status, 0)])),
        then(&at_times(&[(79, data, 0x57)])), then(&at_times(&[(80, instruction, 0x00)])),
        then(&at_times(&[(39, data, 0x57)])), then(&log::write_reset(60)), then(&log::write_reset(39)), then(&bad),
        then(&late), then(&stray), at_times(&narrow[..3]), at_times(&narrow),
        log::write_transfer(360_000_000_000, data, 0x57), then(&log::write_reset(359_999_999_999)),
    ];
    let wordings = ["live ascii", "ascii apart live", "dark ascii live", "upright live ascii"];
    let numbered = logs.into_iter().enumerate();
    numbered.map(|(number, log)| asked(chip, wordings[number % 4], cases::wall_font(), log)).collect()
}

/// Records that change nothing, of so many bytes together.
fn padding(mut size: usize) -> Vec<u8> {
    let mut records = Vec::new();
    while size > 0 {
        // The last two share what is left, so that neither is too short.
        let next = if size > 132 { 66 } else if size > 66 { size / 2 } else { size };
        records.extend(log::write_record(9, &vec![0; next - 4]));
        size -= next;
    }
    records
}

/// 57h at a time, in a record that ends where so many bytes have come.
fn ending_at(log: &mut Vec<u8>, size: usize, time: u64) {
    log.extend(padding(size - log.len() - 14));
    log.extend(log::write_transfer(time, 1, 0x57));
}

/// Writes whose records end at, before and behind the end of a read.
pub fn ends_of_reads(chip: Chip) -> Vec<Trial> {
    let mut logs = Vec::new();
    for ends in [&[READ - 1][..], &[READ], &[READ + 1], &[READ + 14], &[READ, 2 * READ], &[READ - 14, 2 * READ + 1]] {
        let mut log = Vec::new();
        for (&end, time) in ends.iter().zip((0..).step_by(40)) {
            ending_at(&mut log, end, time);
        }
        logs.push(log);
    }
    let mut cut = at_times(&[(0, 1, 0x57)]);
    cut.extend([1, 0]);
    ending_at(&mut cut, READ + 500, 40);
    let mut cut_late = logs[4][..READ + 300].to_vec();
    cut_late.extend(at_times(&[(40, 1, 0x57)]));
    logs.extend([cut, cut_late]);
    logs.into_iter().map(|log| whole_log(chip, log)).collect()
}

/// Codes of the font, and the patterns 0 and 1 at the end of the last line.
fn scene(chip: Chip, screen: u8) -> Deed {
    let first_code = (0x102 - chip.places()) as u8;
    Deed::Scene(Scene { shift: 5, screen, first_code, cursor: 0x83, function: 0 })
}

/// Every deed where the cursor is shown, where it is not, where it blinks, where D is
/// off, with mirrored glass made upright, and with a line of which little is written.
pub fn stories(seed: u64, chip: Chip) -> Vec<Trial> {
    use Deed::*;
    let [shown, hidden] = [true, false].map(|shown| Pattern { shown });
    let stories: [(&str, &[Deed]); 6] = [
        ("live ascii", &[scene(chip, 6), Move, Move, shown, hidden, Nothing, Turn, WriteAndBack, WriteAgain, Write]),
        ("ascii live", &[scene(chip, 4), Move, shown, Screen(6), Screen(4), Screen(0), Turn]),
        ("live ascii", &[scene(chip, 5), Move, Nothing, hidden, Move]),
        ("live ascii dark", &[scene(chip, 3), Move, shown, Turn, Write, Nothing, Screen(7)]),
        ("ascii upright live", &[scene(chip, 7), Turn, Nothing, Move]),
        ("live apart ascii", &[Nothing, Write, Round, Nothing, Screen(4), Round, Reset, Nothing]),
    ];
    let mut random = random_of(seed, 2_000_000 + u64::from(chip.0));
    // Whole transfers, for a pair may fall apart, and then something else is done.
    let told = |(wording, deeds): (&str, &[Deed])| {
        let log = sender::send_deeds(&mut random, usual(chip), false, 0, deeds);
        asked(chip, wording, picture::trial_font(), log)
    };
    stories.map(told).into()
}

/// By turns a log of one read, and one of several with any deeds.
pub fn trial(seed: u64, number: u64) -> Trial {
    let mut random = random_of(seed ^ 0x11FE_0000, number);
    let (mut groups, fresh) = lend::fresh(&mut random, 12);
    let log = if number % 2 == 0 {
        let target = random.pick(&[0, 20, 60]);
        let scene = sender::any_scene(&mut random);
        sender::send_glass(&mut random, fresh, target, scene)
    } else {
        let deeds: Vec<Deed> = (0..2 + random.below(4)).map(|place| any_deed(&mut random, place)).collect();
        let narrow = random.flag();
        sender::send_deeds(&mut random, fresh, narrow, 15, &deeds)
    };
    if random.chance(20) {
        groups.push(text("apart"));
    }
    groups.push(text("live"));
    Trial { groups: words(&mut random, groups, "ascii", None), log }
}

/// Mostly a scene first, so that there is something to see.
fn any_deed(random: &mut Random, place: u64) -> Deed {
    use Deed::*;
    let scene = Scene(sender::any_scene(random));
    if place == 0 && random.chance(80) {
        return scene;
    }
    let screen = Screen(random.byte() & 7);
    let pattern = Pattern { shown: random.flag() };
    random.pick(&[
        Nothing, scene, screen, Move, Move, pattern, pattern, Turn, Write, WriteAndBack, WriteAgain, Round, Round,
        Reset,
    ])
}
