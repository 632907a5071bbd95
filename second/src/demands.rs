//! Demand 3: replay of the entries that were carried out on the sheet's machine, and
//! striking of the records that did nothing. Both work from the log and its
//! answers alone, and know nothing of how the panel keeps halves.

use crate::chip::{Entry, Sheet, Width};
use crate::chips::Chip;
use crate::log::{self, Message, Transfer};
use crate::panel::number::*;
use crate::panel::{self, Answer, Panel, Run, Times};

/// Carries out the entries answered "taken" or "doubtful", a pair of halves as one.
pub fn replay(chip: Chip, log: &[u8], answers: &[Answer]) -> Sheet {
    let mut sheet = Sheet::fresh(chip);
    let mut high = 0;
    for (record, answer) in log::records(log).0.into_iter().zip(answers) {
        let Some(message) = log::message(record) else { continue };
        match (answer.number, message) {
            (HELD, Message::Transfer(first)) => high = first.data & 0xF0,
            (number, _) if !is_carried_out(number) => {}
            (_, Message::Reset { .. }) => sheet.carry_out(Entry::Reset),
            (_, Message::Transfer(Transfer { rs, rw, data, .. })) => {
                let byte = match sheet.width {
                    Width::Eight => data,
                    Width::Four => high | data >> 4,
                };
                sheet.carry_out(entry(rs, rw, byte));
            }
        }
    }
    sheet
}

fn entry(rs: bool, rw: bool, byte: u8) -> Entry {
    match (rs, rw) {
        (false, _) => Entry::Instruction(byte),
        (true, false) => Entry::Write(byte),
        (true, true) => Entry::Read,
    }
}

/// For each record, whether it stays when the log is struck.
///
/// A first half goes with its second. It is the latest record before the
/// second half that is neither back nor bad, for those leave a half waiting.
/// A half that a reset drops, or that is last in the log, is no half of a
/// struck pair and stays.
pub fn stays(answers: &[Answer]) -> Vec<bool> {
    let mut keep = vec![true; answers.len()];
    let mut held = None;
    for (at, answer) in answers.iter().enumerate() {
        let carried_out = is_carried_out(answer.number);
        keep[at] = carried_out || answer.number == HELD;
        match answer.number {
            BACK | BAD => {}
            HELD => held = Some(at),
            IGNORED => held = None,
            _ if carried_out => held = None,
            _ => {
                if let Some(first) = held.take() {
                    keep[first] = false;
                }
            }
        }
    }
    keep
}

/// The log that is left after striking; the unreadable tail is no part of it.
pub fn strike(log: &[u8], answers: &[Answer]) -> Vec<u8> {
    let mut left = Vec::new();
    for (record, stays) in log::records(log).0.into_iter().zip(stays(answers)) {
        if stays {
            left.extend(record);
        }
    }
    left
}

/// Checks demand 3, the sum of the counts and soundness from a fresh panel.
pub fn check(chip: Chip, times: Times, log: &[u8]) -> Result<(), &'static str> {
    let fresh = Panel::fresh(chip, times);
    let mut panel = fresh.clone();
    let run = panel::run(&mut panel, log);
    if run.counts.iter().sum::<u64>() != run.records {
        return Err("the nine counts do not add up to the records");
    }
    // The bits of the written places, kept step by step, are those of a walk.
    if !panel.is_sound() {
        return Err("the panel is not sound after the run");
    }
    if replay(chip, log, &run.answers) != panel.sheet {
        return Err("the replay ends with another sheet");
    }
    check_striking(fresh, log, &panel, &run)
}

fn check_striking(fresh: Panel, log: &[u8], panel: &Panel, run: &Run) -> Result<(), &'static str> {
    let struck = strike(log, &run.answers);
    let mut again = fresh;
    let rerun = panel::run(&mut again, &struck);
    let kept: Vec<Answer> = run
        .answers
        .iter()
        .zip(stays(&run.answers))
        .filter_map(|(&answer, stays)| stays.then_some(answer))
        .collect();
    if rerun.answers != kept || rerun.cut {
        return Err("a record that stays is answered otherwise after striking");
    }
    // The clock and the waiting half may differ; nothing else does.
    again.last = panel.last;
    again.half = panel.half;
    if again != *panel {
        return Err("the panel after striking is another");
    }
    if strike(&struck, &rerun.answers) != struck {
        return Err("striking twice is not striking once");
    }
    Ok(())
}

#[cfg(test)]
mod tests {
    use super::*;

    fn kept(numbers: &[u8]) -> Vec<usize> {
        let answers: Vec<Answer> = numbers.iter().map(|&number| Answer { number, byte: 0 }).collect();
        let stays = stays(&answers);
        (0..numbers.len()).filter(|&at| stays[at]).collect()
    }

    #[test]
    fn first_halves_go_with_their_seconds() {
        assert_eq!(kept(&[TAKEN, HELD, TAKEN]), [0, 1, 2]);
        assert_eq!(kept(&[TAKEN, HELD, BAD, BACK, TORN]), [0]);
        assert_eq!(kept(&[TAKEN, HELD, STATUS, HELD, NONE]), [0]);
        assert_eq!(kept(&[TAKEN, IGNORED, IGNORED, IGNORED, TORN]), [0]);
    }

    #[test]
    fn doubtful_counts_as_taken() {
        assert_eq!(kept(&[DOUBTFUL, IGNORED, DOUBTFUL, STATUS]), [0, 2]);
        assert_eq!(kept(&[TAKEN, HELD, BACK, DOUBTFUL, HELD, TORN]), [0, 1, 3]);
        assert_eq!(kept(&[TAKEN, HELD, DOUBTFUL, NONE]), [0, 1, 2], "its first half is its own");
    }

    /// 04h, a write and two reads down, the first of them doubtful, as whole
    /// transfers and as halves.
    #[test]
    fn the_replay_carries_doubtful_reads_out() {
        let wide = [(0, 0, 0x04), (40, 1, 0x57), (80, 3, 0), (120, 3, 0)];
        let narrow = [
            (0, 0, 0x20), (40, 0, 0x00), (41, 0, 0x40), (81, 1, 0x50), (82, 1, 0x70), (122, 3, 0), (123, 3, 0),
            (163, 3, 0), (164, 3, 0),
        ];
        for (sent, numbers) in [(&wide[..], &[0, 0, 11, 0][..]), (&narrow, &[0, 1, 0, 1, 0, 1, 11, 1, 0])] {
            let log = log::write_transfers(sent);
            let mut panel = Panel::fresh(Chip::ONE_LINE, Times::USUAL);
            let answers = panel::run(&mut panel, &log).answers;
            assert_eq!(answers.iter().map(|answer| answer.number).collect::<Vec<_>>(), numbers);
            let sheet = replay(Chip::ONE_LINE, &log, &answers);
            assert_eq!((sheet.counter.number(), sheet.good), (13, true));
            assert_eq!(sheet, panel.sheet);
        }
    }

    /// The next read is good or not after striking as before.
    #[test]
    fn what_is_good_ends_the_same() {
        for (last, good) in [((0, 0x80), true), ((1, 0x57), false), ((3, 0), true)] {
            let log =
                log::write_transfers(&[(0, 0, 0x80), (39, 1, 0x57), (40, last.0, last.1), (79, 0, 0x01), (80, 2, 0)]);
            let mut panel = Panel::fresh(Chip::TWO_LINES, Times::USUAL);
            let answers = panel::run(&mut panel, &log).answers;
            assert_eq!((panel.sheet.good, replay(Chip::TWO_LINES, &log, &answers).good), (good, good));
            assert_eq!(check(Chip::TWO_LINES, Times::USUAL, &log), Ok(()));
        }
    }

    /// The replay keeps the bits too: 57h, an ignored 57h, 8Fh, 57h, 80h, a space, and
    /// then the same behind a reset.
    #[test]
    fn the_written_places_end_the_same() {
        let sent = [(0, 1, 0x57), (39, 1, 0x57), (40, 0, 0x8F), (80, 1, 0x57), (120, 0, 0x80), (160, 1, 0x20)];
        let once = log::write_transfers(&sent);
        let again = [once.clone(), log::write_reset(200), log::write_transfer(10_200, 1, 0x57)].concat();
        for (log, number) in [(once, 0x0000_8000), (again, 0x0000_0001)] {
            let mut panel = Panel::fresh(Chip::ONE_LINE, Times::USUAL);
            let answers = panel::run(&mut panel, &log).answers;
            let replayed = replay(Chip::ONE_LINE, &log, &answers);
            assert_eq!((panel.sheet.written.number(), replayed.written.number()), (number, number));
            assert_eq!(check(Chip::ONE_LINE, Times::USUAL, &log), Ok(()));
        }
    }

    #[test]
    fn a_lone_half_stays() {
        // Dropped by a reset (taken), and last in the log.
        assert_eq!(kept(&[TAKEN, HELD, TAKEN, STATUS, HELD]), [0, 1, 2, 4]);
    }

    #[test]
    fn demand_three_on_generated_logs() {
        for turn in 0..200 {
            let log = crate::generator::trial(7, turn).log;
            for chip in Chip::KNOWN {
                assert_eq!(check(chip, Times::USUAL, &log), Ok(()), "turn {turn}, {}", chip.name());
            }
        }
    }
}
