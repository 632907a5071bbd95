//! Watches the report of a log and notes which of its classes it meets.

use crate::again::{self, DataWrite, Run};
use crate::classes::REPORT;
use crate::log::{self, Message, Transfer, TIME_LIMIT};
use crate::panel::number::*;
use crate::panel::Panel;
use crate::reach::Reach;
use crate::report::{self, Byte, Line, Report};

/// Notes what the report of one log reaches; `start` is the panel that the log
/// is sent to.
pub fn log(reach: &mut Reach, start: &Panel, log: &[u8]) {
    reach.turn_to(start.sheet.chip);
    let report = report::of(start, log);
    let (records, _) = log::records(log);
    for line in &report.lines {
        let dropped = report.dropped.contains(&line.record);
        let how = match (line.second, dropped) {
            (Some(_), _) => "pair",
            (None, true) => "half dropped by a reset",
            (None, false) => "whole",
        };
        settled(reach, &report, line, how);
        if line.answer == BAD {
            bad(reach, records[line.record as usize - 1], &line.meaning);
        }
    }
    if let Some(line) = &report.ending {
        settled(reach, &report, line, if report.cut { "half at a cut" } else { "half at the end" });
    }
    let overtaken = report.lines.windows(2).any(|two| two[0].record > two[1].record);
    note_if(reach, overtaken, "a line before that of an earlier record");
    let held = report.dropped.iter().any(|&record| report.answers[record as usize - 1] == HELD);
    note_if(reach, held, "a held half dropped by a reset has no line");
    runs(reach, &report, &records);
    doubtful(reach, &report);
}

/// Doubtful reads, which have a count and no line; a pair's first half is held.
fn doubtful(reach: &mut Reach, report: &Report) {
    let mut latest = None;
    for (number, &answer) in (1..).zip(&report.answers).filter(|(_, &answer)| !matches!(answer, BACK | BAD)) {
        let is_pair = latest == Some(HELD);
        latest = Some(answer);
        if answer == DOUBTFUL {
            note(reach, if is_pair { "doubtful data-read, pair" } else { "doubtful data-read, whole" });
            let has_line = report.lines.iter().any(|line| line.record == number + 1 && line.second.is_some());
            note_if(reach, is_pair && has_line, "a line of a pair right behind a doubtful pair");
        }
    }
}

fn note(reach: &mut Reach, class: &str) {
    reach.note(&format!("{REPORT}{class}"));
}

fn note_if(reach: &mut Reach, reached: bool, class: &str) {
    if reached {
        note(reach, class);
    }
}

fn settled(reach: &mut Reach, report: &Report, line: &Line, how: &str) {
    let what = line.what;
    match (line.answer, line.byte) {
        (IGNORED, _) => note(reach, &format!("ignored {what}, {how}")),
        (NONE, _) => note(reach, &format!("none {what}, {how}")),
        (BACK, Byte::Whole(_)) => note(reach, &format!("back {what}, whole")),
        (BACK, Byte::High(_)) => note(reach, &format!("back {what}, half")),
        (BACK, Byte::No) => note(reach, &format!("back {what}")),
        (TORN, _) => {
            let first = report.answers[line.record as usize - 1];
            let first = if first == HELD { "held" } else { "ignored" };
            note(reach, &format!("{first} {what} {}", line.meaning));
        }
        _ => {}
    }
    meaning(reach, line);
    time(reach, line.time);
}

/// The ends of the ranges that have a meaning of their own.
const CODE_ENDS: [u8; 18] = [
    0x00, 0x01, 0x02, 0x03, 0x04, 0x07, 0x08, 0x0F, 0x10, 0x17, 0x18, 0x1F, 0x20, 0x3F, 0x40, 0x7F, 0x80, 0xFF,
];
const DATA_ENDS: [u8; 7] = [0x00, 0x1F, 0x20, 0x21, 0x7E, 0x7F, 0xFF];

fn meaning(reach: &mut Reach, line: &Line) {
    let Byte::Whole(code) = line.byte else { return };
    let (sort, ends) = match line.what {
        "data-write" => ("data", &DATA_ENDS[..]),
        _ => ("code", &CODE_ENDS[..]),
    };
    note_if(reach, ends.contains(&code), &format!("{sort} {code:02X}h {}", line.meaning));
}

fn time(reach: &mut Reach, time: Option<u64>) {
    let hours = time.map(|time| time / 3_600_000_000);
    note_if(reach, time == Some(0), "time 0");
    note_if(reach, time == Some(TIME_LIMIT - 1), "time 2^48 - 1");
    note_if(reach, hours == Some(99), "99 hours");
    note_if(reach, hours == Some(100), "100 hours");
}

/// What is wrong with a bad record, and what else is wrong with it.
fn bad(reach: &mut Reach, record: &[u8], meaning: &str) {
    let (length, kind) = (record.len() - 2, u16::from_le_bytes([record[2], record[3]]));
    let late = record.get(10..12).is_some_and(|high| high != [0, 0]);
    let stray = kind == 1 && record.get(12).is_some_and(|&control| control > 3);
    match meaning.split('-').next() {
        Some("kind") => {
            note(reach, "bad: kind");
            note_if(reach, matches!(kind, 0 | 3 | 65_535), &format!("bad: kind {kind}"));
        }
        Some("length") => {
            note(reach, &format!("bad: length of kind {kind}"));
            note_if(reach, matches!(length, 2 | 64), &format!("bad: length {length}"));
            note_if(reach, late, "bad: length, late too");
        }
        Some("late") => {
            note(reach, &format!("bad: late-time of kind {kind}"));
            note_if(reach, stray, "bad: late-time, a stray bit too");
        }
        _ => note(reach, "bad: stray-control"),
    }
}

fn runs(reach: &mut Reach, report: &Report, records: &[&[u8]]) {
    let runs = again::runs(&report.writes);
    let count = runs.iter().filter(|run| run.again().is_some()).count();
    note_if(reach, count == 0 && !runs.is_empty(), "runs, and none written again");
    note_if(reach, count > 1, "several written again");
    for run in &runs {
        match run.again() {
            Some(m) => {
                written_again(reach, run, m);
                among(reach, report, records, run, m);
            }
            None if run.is_too_long() => too_long(reach, run),
            None => refused(reach, run),
        }
    }
    for two in runs.windows(2) {
        let again = two[1].again().is_some();
        note_if(reach, again && two[0].is_too_long(), "written again after a run too long");
        note_if(reach, again && two[0].again().is_none(), "written again after a run that was not");
    }
}

fn written_again(reach: &mut Reach, run: &Run, m: usize) {
    let length = run.ignored.len();
    match m {
        1 if length > 1 => note(reach, "written again, m 1 of more"),
        _ if m < length => note(reach, "written again, m less than the length"),
        _ => note(reach, "written again, m the length"),
    }
    note_if(reach, matches!(length, 1 | 2 | 255 | 256), &format!("written again, a run of {length}"));
    note_if(reach, (1..m).any(|m| run.repeats(m)), "written again, a shorter m does not divide");
    let narrow = |writes: &[DataWrite]| {
        let halves = writes.iter().filter(|write| write.second.is_some()).count();
        (halves > 0, halves < writes.len())
    };
    match (narrow(run.ignored), narrow(&run.after[..m])) {
        ((true, false), (true, false)) => note(reach, "written again at width 4"),
        ((false, true), (false, true)) => note(reach, "written again at width 8"),
        ((true, false), (false, true)) => note(reach, "ignored at width 4, taken at width 8"),
        ((false, true), (true, false)) => note(reach, "ignored at width 8, taken at width 4"),
        _ => note(reach, "written again, both widths in one line"),
    }
}

fn too_long(reach: &mut Reach, run: &Run) {
    let length = run.ignored.len();
    note(reach, if length == again::LONGEST + 1 { "too long by one" } else { "too long by more" });
    note_if(reach, (1..=length).any(|m| length % m == 0 && run.repeats(m)), "too long, and then its bytes");
    note_if(reach, run.after.is_empty(), "too long at the end of the log");
}

/// Why a run is not written again.
fn refused(reach: &mut Reach, run: &Run) {
    let length = run.ignored.len();
    let taken: Vec<u8> =
        run.after.iter().take(length).take_while(|write| write.taken).map(|write| write.byte).collect();
    let differs: Vec<usize> = (0..taken.len()).filter(|&at| run.ignored[at].byte != taken[at]).collect();
    if (1..=length).any(|m| run.repeats(m)) {
        return note(reach, "not again: m does not divide");
    }
    match differs[..] {
        [] if run.after.len() == taken.len() => note(reach, "not again: the log ends first"),
        [] => note(reach, "not again: an ignored write first"),
        [0] if taken.len() == length && length > 1 => note(reach, "not again: the first byte differs alone"),
        [at] if at + 1 == length && length > 1 => note(reach, "not again: the last byte differs alone"),
        _ => note(reach, "not again: bytes differ"),
    }
}

/// What stands among the data writes of a run that is written again.
fn among(reach: &mut Reach, report: &Report, records: &[&[u8]], run: &Run, m: usize) {
    let last = run.after[m - 1];
    let range = run.ignored[0].record..last.second.unwrap_or(last.record);
    for line in report.lines.iter().filter(|line| range.contains(&line.record)) {
        if let Some(class) = not_carried_out(line) {
            note(reach, &format!("among the writes: {class}"));
        }
    }
    for number in range {
        let at = number as usize - 1;
        let class = match (report.answers[at], log::message(records[at])) {
            (TAKEN, Some(Message::Reset { .. })) => "reset",
            (TAKEN, Some(Message::Transfer(Transfer { rs: false, .. }))) => "instruction taken",
            (TAKEN, Some(Message::Transfer(Transfer { rw: true, .. }))) => "data read taken",
            (DOUBTFUL, _) => "data read doubtful",
            (STATUS, _) => "status read",
            _ if report.dropped.contains(&number) => "a half that a reset drops",
            _ => continue,
        };
        note(reach, &format!("among the writes: {class}"));
    }
}

/// The data writes of the run itself are no class.
fn not_carried_out(line: &Line) -> Option<&'static str> {
    Some(match (line.answer, line.what) {
        (BAD, _) => "bad",
        (BACK, "data-write") => "data write back",
        (BACK, _) => "back",
        (TORN, "data-write") => "data write torn",
        (TORN, _) if line.meaning == "torn-by-data-write" => "torn by a data write",
        (TORN, _) => "torn",
        (NONE, _) => "none",
        (IGNORED, "instruction-write") => "instruction ignored",
        (IGNORED, "data-read") => "data read ignored",
        _ => return None,
    })
}
