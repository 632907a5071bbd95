//! Watches what `wall` is asked and shows, and notes which of its classes it
//! meets.

use crate::chip::{Counter, PatternAddress, Sheet};
use crate::chips::LINE;
use crate::classes::WALL;
use crate::glass::{self, Moment};
use crate::log::{self, Message, TIME_LIMIT};
use crate::observe_wall_apart;
use crate::observe_wall_live;
use crate::observe_wall_mirrored;
use crate::observe_wall_places;
use crate::observe_words;
use crate::panel::Panel;
use crate::picture::{self, Place};
use crate::questions::Question;
use crate::reach::Reach;
use crate::start::{Feed, BLOCK};
use crate::wall::{self, Asked, Form, Shown};

/// Notes what one question reaches; `asked` is the refusal of the words where there is
/// one.
pub fn question(reach: &mut Reach, question: &Question, words: &[String], asked: Result<Asked, &str>) {
    let log = &question.trial.log;
    let asked = match asked {
        Ok(asked) => asked,
        Err(reason) => {
            observe_wall_mirrored::refused(reach, &question.trial, reason);
            observe_wall_apart::refused(reach, &question.trial, words, reason);
            return reach.note_by_itself(&format!("{WALL}refused: {reason}"));
        }
    };
    reach.turn_to(asked.start.sheet.chip);
    observe_words::given(reach, WALL, &question.trial);
    let shown = wall::shown(&asked.start, log, asked.at);
    observe_wall_apart::drawn(reach, &asked, &shown);
    if asked.form == Form::Svg {
        // It has neither codes nor a line for the cursor or the written places.
        return;
    }
    if asked.live {
        observe_wall_live::pictures(reach, &asked, log);
    }
    screen(reach, &asked, &shown.panel.sheet);
    observe_wall_places::written(reach, &asked, &shown, log);
    observe_wall_mirrored::drawn(reach, &asked, &shown, log);
    ends(reach, &asked, &shown, log);
    if let Some(time) = asked.at {
        let moments = glass::moments(&asked.start, log);
        around(reach, &moments, time);
        passed_over(reach, &asked.start, &moments, &shown, log, time);
        blocks(reach, &moments, &shown, question.feed);
    }
    let in_pieces = matches!(question.feed, Feed::Pieces(_));
    note_if(reach, in_pieces, "fed in pieces");
    note_if(reach, in_pieces && asked.at.is_some(), "fed in pieces, and a time");
}

fn note(reach: &mut Reach, class: &str) {
    reach.note(&format!("{WALL}{class}"));
}

fn note_if(reach: &mut Reach, reached: bool, class: &str) {
    if reached {
        note(reach, class);
    }
}

/// Codes, text and the cursor's line are printed with `ascii` alone.
fn screen(reach: &mut Reach, asked: &Asked, sheet: &Sheet) {
    let blink = if asked.dark { "dark" } else { "light" };
    let is_shifted = sheet.shift != 0;
    let has_cursor = has_cursor(sheet);
    if asked.form == Form::Bitmap {
        note(reach, &format!("bitmap, {blink}"));
        let below = has_cursor && picture::cursor(sheet).line == 1;
        note_if(reach, below, "bitmap of the cursor on the second line");
        note_if(reach, is_shifted && has_cursor, "bitmap at a shift");
        return note_if(reach, is_shifted && sheet.d && sheet.b && asked.dark, "bitmap of the blink at a shift");
    }
    note(reach, &format!("ascii, {blink}"));
    match (sheet.d, sheet.c, sheet.b) {
        (false, ..) => {
            note_if(reach, sheet.c, "D off, C on");
            note_if(reach, sheet.b, "D off, B on");
        }
        (true, false, false) => note(reach, "D on alone"),
        (true, true, false) => note(reach, &format!("C alone, {blink}")),
        (true, false, true) => note(reach, &format!("B alone, {blink}")),
        (true, true, true) => note(reach, &format!("C and B, {blink}")),
    }
    if has_cursor {
        cursor(reach, sheet);
    }
    if sheet.d {
        codes(reach, sheet);
    }
}

fn cursor(reach: &mut Reach, sheet: &Sheet) {
    note(reach, &format!("the cursor at shift {}", sheet.shift));
    if sheet.chip.lines() == 2 {
        cursor_of_two_lines(reach, sheet);
    }
    if let Counter::Pattern(PatternAddress(at)) = sheet.counter {
        note(reach, "cursor in pattern memory");
        note_if(reach, sheet.shift != 0, "cursor in pattern memory, at a shift");
        note_if(reach, at > 15, "cursor above 15 in pattern memory");
    }
}

fn cursor_of_two_lines(reach: &mut Reach, sheet: &Sheet) {
    let line = picture::cursor(sheet).line;
    let which = ["first", "second"][line];
    note(reach, &format!("the cursor on the {which} line"));
    note_if(reach, sheet.shift != 0, &format!("the cursor on the {which} line, at a shift"));
    let in_pattern = matches!(sheet.counter, Counter::Pattern(_));
    note_if(reach, in_pattern && line == 1, "cursor in pattern memory, on the second line");
}

fn codes(reach: &mut Reach, sheet: &Sheet) {
    for line in 0..sheet.chip.lines() {
        for position in 0..LINE {
            let code = picture::code_at(sheet, Place { line, position });
            reach.note_shown(code);
            let first = 8 * usize::from(code & 3);
            let is_blank = sheet.pattern[first..first + 8] == [0; 8];
            note_if(reach, code < 0x10 && !is_blank, "a pattern that is not blank");
        }
    }
    let (above, below) = sheet.display.split_at(LINE);
    note_if(reach, sheet.chip.lines() == 2 && above != below, "the lines show other codes");
}

fn ends(reach: &mut Reach, asked: &Asked, shown: &Shown, log: &[u8]) {
    let cut = log::records(log).1;
    let after_all = shown.before.is_none();
    note_if(reach, cut, "a cut log");
    note_if(reach, log.is_empty(), "an empty log");
    let Some(time) = asked.at else {
        return note(reach, "no time");
    };
    note_if(reach, time == 0, "at 0");
    note_if(reach, time == TIME_LIMIT, "at 2^48");
    note_if(reach, time == TIME_LIMIT - 1, "at 2^48 - 1");
    note_if(reach, log.is_empty(), "an empty log, and a time");
    note_if(reach, cut && after_all, "a cut log, and a time after the cut");
    note_if(reach, cut && !after_all, "a cut log, and a time before the cut");
    let at_end = wall::shown(&asked.start, log, None).panel.sheet;
    note_if(reach, at_end != shown.panel.sheet, "another panel at the end of the log");
    let other_line = at_end.display[LINE..] != shown.panel.sheet.display[LINE..];
    note_if(reach, other_line, "another second line at the end of the log");
}

/// Where the time lies next to those of the records.
fn around(reach: &mut Reach, moments: &[Moment], time: u64) {
    let told: Vec<u64> = moments.iter().filter(|moment| moment.has_a_say).filter_map(|moment| moment.time).collect();
    let first = told.first().copied();
    let last = told.last().copied();
    note_if(reach, first.is_some_and(|first| time < first), "before the first record");
    note_if(reach, last.is_some_and(|last| time > last), "after the last record");
    note_if(reach, told.contains(&time), "at a record's time");
    note_if(reach, told.iter().filter(|&&other| other == time).count() > 1, "at the time of several records");
    note_if(reach, told.contains(&(time + 1)), "one before a record's time");
    note_if(reach, time > 0 && told.contains(&(time - 1)), "one after a record's time");
    note_if(reach, moments.iter().any(|moment| moment.busy_end == time), "at a busy end");
    note_if(reach, moments.iter().any(|moment| moment.busy_end == time + 1), "one before a busy end");
}

/// Records that have no say, and the one that has.
fn passed_over(reach: &mut Reach, from: &Panel, moments: &[Moment], shown: &Shown, log: &[u8], time: u64) {
    let records = log::records(log).0;
    let is_bad = |place: usize| log::message(records[place]).is_none();
    let end = shown.before.unwrap_or(records.len());
    let silent = |place: &usize| !moments[*place].has_a_say;
    for place in (0..records.len()).filter(silent).filter(|&place| moments[place].time == Some(time)) {
        note(reach, if is_bad(place) { "at a bad record's time" } else { "at a backward record's time" });
    }
    // A record that told a later time, and after it one that changed the glass.
    let later = (0..end).filter(silent).find(|&place| moments[place].time > Some(time));
    if let Some(place) = later {
        let start: usize = moments[place].offset;
        let changed = wall::shown(from, &log[..start], None).panel.sheet != shown.panel.sheet;
        note_if(reach, changed, "a bad record of a later time first");
        note_if(reach, changed && shown.before.is_none(), "records that tell a later time, all of them bad");
    }
    note_if(reach, shown.panel.half.is_some() && shown.before.is_some(), "between two halves");
    let reset = shown.before.is_some_and(|place| matches!(log::message(records[place]), Some(Message::Reset { .. })));
    note_if(reach, reset, "a reset is the first that is later");
    doubtful(reach, moments, shown);
}

/// A doubtful read moves the address, which the cursor shows.
fn doubtful(reach: &mut Reach, moments: &[Moment], shown: &Shown) {
    let sheet = &shown.panel.sheet;
    let stops = shown.before.is_some_and(|place| moments[place].is_doubtful);
    let class = format!("a doubtful read is the first that is later, width {}", sheet.width.bits());
    note_if(reach, stops && has_cursor(sheet), &class);
}

fn has_cursor(sheet: &Sheet) -> bool {
    sheet.d && (sheet.c || sheet.b)
}

/// In which block of the log the first later record begins.
fn blocks(reach: &mut Reach, moments: &[Moment], shown: &Shown, feed: Feed) {
    let Some(place) = shown.before else { return };
    let class = match moments[place].offset / BLOCK {
        0 => return,
        1 => "the time in the second block",
        _ => "the time in a later block",
    };
    note(reach, class);
    note_if(reach, matches!(feed, Feed::Pieces(_)), &format!("{class}, in pieces"));
}
