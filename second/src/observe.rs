//! Watches the model run for `trace` and notes which classes of the reach it
//! meets.

use crate::arguments::Lent;
use crate::classes::{BY_RECORDS, FRESH_START, FROM_FRESH, HANDED_IN, IN_PIECES};
use crate::chip::{Counter, Sheet, Width};
use crate::log::{self, Message, Transfer, TIME_LIMIT};
use crate::observe_lent;
use crate::observe_lines;
use crate::observe_mirrored::Turns;
use crate::observe_reads::{self, Trail};
use crate::observe_written::Places;
use crate::panel::number::*;
use crate::panel::{is_status, Answer, Half, Panel};
use crate::questions::Question;
use crate::reach::Reach;
use crate::start::Feed;

/// One record with the panel on either side of it.
pub struct Step<'a> {
    pub before: &'a Panel,
    pub record: &'a [u8],
    pub answer: Answer,
    pub after: &'a Panel,
}

/// What an observer remembers from one record to the next.
struct Memory {
    /// Data byte, time and freedom of the first half that waits.
    first: Option<(u8, u64, bool)>,
    /// The answer to the latest record that was neither back nor bad.
    latest: Option<u8>,
    /// Until when an ignored transfer would wait, had it been taken.
    wrong_wait: u64,
    /// What became of whether the next read is good.
    trail: Trail,
    /// What became of each place's bit.
    places: Places,
    /// What turned the glass.
    turns: Turns,
}

impl Memory {
    fn new(question: &Question, start: &Panel) -> Memory {
        let ways = ways(question, start);
        let is_handed_in = question.trial.gives("panel");
        Memory {
            first: None,
            latest: None,
            wrong_wait: 0,
            trail: Trail::new(if is_handed_in { HANDED_IN } else { FRESH_START }, ways.clone()),
            places: Places::new(is_handed_in, ways.clone()),
            turns: Turns::new(is_handed_in, ways),
        }
    }
}

/// Notes what a question to `trace` reaches; `lent` is the refusal where there
/// is one.
pub fn question(reach: &mut Reach, question: &Question, lent: Result<&Lent, &str>) {
    let log = &question.trial.log;
    let lent = match lent {
        Ok(lent) => lent,
        Err(reason) => return reach.note_by_itself(&format!("refused: {reason}")),
    };
    reach.turn_to(lent.panel.sheet.chip);
    observe_lent::lent(reach, &question.trial, lent);
    if question.trial.gives("records") {
        observe_lent::by_records(reach, question, lent);
    }
    if lent.panel.is_sound() {
        let mut memory = Memory::new(question, &lent.panel);
        let panel = run(reach, &lent.panel, log, &mut memory);
        memory.places.end(reach, lent, &panel);
        let is_untouched = lent.panel.is_fresh() && log.is_empty();
        reach.note_if(is_untouched && panel.sheet.written.number() == 0, "no place of a fresh panel is written");
        observe_lent::painting(reach, lent, &panel, &memory.turns);
        observe_reads::end(reach, &panel);
    }
}

/// How the run is made, in the words of the classes.
fn ways(question: &Question, start: &Panel) -> Vec<&'static str> {
    let mut ways = Vec::new();
    if start.is_fresh() {
        ways.push(FROM_FRESH);
    }
    if question.trial.gives("records") {
        ways.push(BY_RECORDS);
    }
    if matches!(question.feed, Feed::Pieces(_)) {
        ways.push(IN_PIECES);
    }
    ways
}

fn run(reach: &mut Reach, start: &Panel, log: &[u8], memory: &mut Memory) -> Panel {
    let (records, cut) = log::records(log);
    let mut panel = start.clone();
    for record in &records {
        let before = panel.clone();
        let answer = panel.answer(record);
        let step = Step { before: &before, record, answer, after: &panel };
        reach.note(&format!("answer {}", answer.number));
        memory.places.record(&step, log::message(record));
        memory.turns.record(&step, log::message(record));
        match log::message(record) {
            None => {
                bad(reach, &step);
                memory.trail.pass_over(&before, "bad record");
            }
            Some(message) => usable(reach, &step, memory, message),
        }
        if !matches!(answer.number, BACK | BAD) {
            memory.latest = Some(answer.number);
        }
    }
    let read: usize = records.iter().map(|record| record.len()).sum();
    end(reach, &log[read..], cut, read == 0);
    waiting_at_end(reach, &panel);
    panel
}

fn bad(reach: &mut Reach, step: &Step) {
    let record = step.record;
    let kind = u16::from_le_bytes([record[2], record[3]]);
    let waits = step.before.half.is_some();
    let time = record.get(4..12).map(|bytes| u64::from_le_bytes(bytes.try_into().expect("8 bytes")));
    reach.note_if(waits, "bad between halves");
    reach.note_if(record.len() == 4, "bad of length 2");
    reach.note_if(record.len() == 66, "bad of length 64");
    match (kind, record.len()) {
        (1, 14) if record[12] > 3 => {
            reach.note("bad control");
            reach.note_if(time < Some(step.before.last), "bad and back");
        }
        (1, 14) => reach.note("bad time of a transfer"),
        (2, 12) => reach.note("bad time of a reset"),
        (1, _) => reach.note("bad length of a transfer"),
        (2, _) => reach.note("bad length of a reset"),
        _ => {
            reach.note("bad kind");
            reach.note_if(matches!(kind & 0xFF, 1 | 2), "bad kind with a usable low byte");
        }
    }
    if matches!((kind, record.len()), (1, 14) | (2, 12)) {
        reach.note_if(time == Some(TIME_LIMIT), "time 2^48 refused");
        reach.note_if(time > Some(TIME_LIMIT), "time above 2^48 refused");
    }
}

fn usable(reach: &mut Reach, step: &Step, memory: &mut Memory, message: Message) {
    let Step { before, answer, after, .. } = *step;
    if answer.number == BACK {
        return back(reach, before, memory, message);
    }
    reach.note_if(message.time() == TIME_LIMIT - 1, "time 2^48 - 1 used");
    reach.note_if(after.busy_end >= TIME_LIMIT, "busy end of 2^48 or more");
    reach.note_if(message.time() == before.last, "at the last time");
    match message {
        Message::Reset { time } => {
            reset(reach, before, time);
            let half_is_own = memory.first.take().is_some();
            memory.trail.reset(reach, before, half_is_own);
        }
        Message::Transfer(transfer) => {
            clock(reach, before, transfer, memory, answer.number);
            memory.trail.begin(reach, step, transfer);
            carried(reach, step, memory, transfer);
        }
    }
}

fn back(reach: &mut Reach, before: &Panel, memory: &mut Memory, message: Message) {
    let is_reset = matches!(message, Message::Reset { .. });
    let waits = before.half.is_some();
    let one_back = message.time() + 1 == before.last;
    reach.note_if(one_back, "one back");
    reach.note_if(one_back && memory.trail.is_at_doubtful(before), "one back after a doubtful read");
    reach.note_if(message.time() == 0, "back to 0");
    reach.note_if(is_reset, "reset back");
    reach.note_if(waits, "back between halves");
    reach.note_if(is_reset && waits, "back reset between halves");
    memory.trail.pass_over(before, if is_reset { "back reset" } else { "back transfer" });
}

fn reset(reach: &mut Reach, before: &Panel, time: u64) {
    let state = if before.is_free(time) { "reset while free" } else { "reset while busy" };
    reach.note(state);
    reach.note_if(before.sheet.width == Width::Four, "reset at width 4");
    reach.note_if(before.sheet.pattern != [0; 32], "reset of a written pattern memory");
    observe_lines::reset(reach, &before.sheet);
    match before.half {
        None => {}
        Some(Half { nibble: None, .. }) => reach.note("reset with an ignored half"),
        Some(Half { rs: false, rw: true, .. }) => reach.note("reset with a status half"),
        Some(_) => reach.note("reset with a half held"),
    }
}

/// Where the beginning of a transfer lies next to the busy end.
fn clock(reach: &mut Reach, before: &Panel, transfer: Transfer, memory: &mut Memory, answer: u8) {
    let Transfer { time, rs, rw, .. } = transfer;
    if before.half.is_some() || is_status(rs, rw) {
        return;
    }
    let what = if before.sheet.width == Width::Eight { "whole" } else { "first half" };
    reach.note_if(time + 1 == before.busy_end, &format!("{what} one before the busy end"));
    reach.note_if(time == before.busy_end, &format!("{what} at the busy end"));
    reach.note_if(time == before.busy_end + 1, &format!("{what} one after the busy end"));
    if answer == IGNORED {
        memory.wrong_wait = time + u64::from(before.times.short);
    } else if time < memory.wrong_wait {
        reach.note("taken within the wait of an ignored transfer");
    }
}

/// Joins halves and notes what was carried out, ignored or read.
fn carried(reach: &mut Reach, step: &Step, memory: &mut Memory, transfer: Transfer) {
    let Step { before, answer, .. } = *step;
    let free = before.is_free(transfer.time);
    if before.sheet.width == Width::Eight {
        note_transfer(reach, &before.sheet, transfer, free);
        memory.trail.complete(reach, step, transfer);
        return steps(reach, step, transfer);
    }
    if before.half.is_none() {
        memory.first = Some((transfer.data, transfer.time, free));
        return first_half(reach, memory, transfer, answer);
    }
    second_half(reach, step, memory, transfer);
    if answer.number == TORN {
        memory.trail.tear(before);
    }
    if let (Some((high, first_time, free)), true) = (memory.first.take(), answer.number != TORN) {
        let whole = Transfer { data: high & 0xF0 | transfer.data >> 4, ..transfer };
        note_transfer(reach, &before.sheet, whole, free);
        memory.trail.complete(reach, step, whole);
        steps(reach, step, whole);
        reach.note_if(transfer.time == first_time, "second half at the first's time");
        reach.note_if(answer.number == NONE, "00h as two halves");
        let to_eight = step.after.sheet.width == Width::Eight;
        reach.note_if(to_eight, "width 8 by two halves");
    }
}

fn note_transfer(reach: &mut Reach, sheet: &Sheet, transfer: Transfer, free: bool) {
    let wide = sheet.width == Width::Eight;
    let name = transfer_name(sheet, transfer);
    let width = sheet.width.bits();
    let state = if free { "free" } else { "busy" };
    reach.note(&format!("{name}, width {width}, {state}"));
    if name == "status read" {
        observe_lines::status(reach, sheet, width);
    }
    if !transfer.rs && !transfer.rw {
        reach.note_code(wide, free, transfer.data);
    }
}

pub fn transfer_name(sheet: &Sheet, transfer: Transfer) -> &'static str {
    let in_display = matches!(sheet.counter, Counter::Display(_));
    match (transfer.rs, transfer.rw, in_display) {
        (false, true, _) => "status read",
        (true, false, true) => "display write",
        (true, false, false) => "pattern write",
        (true, true, true) => "display read",
        (true, true, false) => "pattern read",
        (false, false, _) => instruction_name(transfer.data),
    }
}

fn instruction_name(code: u8) -> &'static str {
    match code {
        0x00 => "none 00h",
        0x01 => "Clear",
        0x02 => "Home 02h",
        0x03 => "Home 03h",
        0x04..=0x07 => "entry bits",
        0x08..=0x0F => "display bits",
        0x10..=0x13 => "move down",
        0x14..=0x17 => "move up",
        0x18..=0x1B => "shift left",
        0x1C..=0x1F => "shift right",
        0x20..=0x2F => "to width 4",
        0x30..=0x3F => "to width 8",
        0x40..=0x7F => "pattern address",
        0x80..=0xFF => "display address",
    }
}

fn first_half(reach: &mut Reach, memory: &Memory, transfer: Transfer, answer: Answer) {
    if answer.number == HELD {
        reach.note(match (transfer.rs, transfer.rw) {
            (false, false) => "held instruction",
            (true, false) => "held data write",
            (true, true) => "held data read",
            (false, true) => "held status",
        });
        reach.note_if(memory.latest == Some(IGNORED), "pair begun after an ignored pair");
        reach.note_if(memory.latest == Some(TORN), "pair begun after a torn pair");
    }
}

fn second_half(reach: &mut Reach, step: &Step, memory: &mut Memory, transfer: Transfer) {
    let Step { before, answer, .. } = *step;
    let Some(Half { rs, rw, nibble }) = before.half else { return };
    let ignored = nibble.is_none();
    let what = if ignored { "ignored" } else { "held" };
    match (rs != transfer.rs, rw != transfer.rw) {
        (true, true) => reach.note(&format!("{what} half torn by both")),
        (true, false) => reach.note(&format!("{what} half torn by RS")),
        (false, true) => reach.note(&format!("{what} half torn by R/W")),
        (false, false) => {}
    }
    let Some((_, _, began_free)) = memory.first else {
        return handed_in(reach, step, memory);
    };
    let free = before.is_free(transfer.time);
    reach.note_if(ignored && free && answer.number == IGNORED, "ignored pair whose second half is free");
    if answer.number == STATUS {
        reach.note_if(began_free, "status half begun free");
        reach.note_if(!began_free && free, "status half begun busy, ended free");
    }
}

/// The half came with the panel file, not from this log.
fn handed_in(reach: &mut Reach, step: &Step, memory: &mut Memory) {
    let (before, answer) = (step.before, step.answer.number);
    memory.trail.finish(reach, step);
    match answer {
        TAKEN | DOUBTFUL | NONE => reach.note("taken half handed in"),
        STATUS => reach.note("status half handed in"),
        IGNORED => reach.note("ignored half handed in"),
        _ => reach.note("torn half handed in"),
    }
    if let (TAKEN, Some(Half { rs: true, rw: true, nibble })) = (answer, before.half) {
        let other = nibble != Some(before.sheet.byte_at_address() & 0x0F);
        reach.note_if(other, "data read of a half not at the address");
    }
}

/// Wraps, and the steps that a slip would get wrong.
fn steps(reach: &mut Reach, step: &Step, transfer: Transfer) {
    if !is_carried_out(step.answer.number) {
        return;
    }
    let (old, new) = (&step.before.sheet, &step.after.sheet);
    let name = transfer_name(old, transfer);
    wraps(reach, old, new, name);
    shifts(reach, old, new, name);
    observe_lines::step(reach, old, name, transfer.data);
    let in_pattern = matches!(old.counter, Counter::Pattern(_));
    let (code, data) = (transfer.data, transfer.data);
    match name {
        "display write" if old.s && old.i_d => reach.note("display write with S, up"),
        "display write" if old.s => reach.note("display write with S, down"),
        "pattern write" => {
            reach.note_if(old.s, "pattern write with S");
            reach.note_if(data > 0x1F, "pattern write above 1Fh");
        }
        "display read" => reach.note_if(old.s, "display read with S"),
        "pattern read" => reach.note_if(old.s, "pattern read with S"),
        "Clear" => {
            reach.note_if(old.s, "Clear with S");
            reach.note_if(!old.i_d, "Clear with I/D down");
            reach.note_if(in_pattern, "Clear in pattern memory");
        }
        "Home 02h" | "Home 03h" => {
            reach.note_if(in_pattern, "Home in pattern memory");
            reach.note_if(old.shift != 0, "Home with a shift");
        }
        "display address" => reach.note_if(code > 0x8F, "display address above 8Fh"),
        "pattern address" => reach.note_if(code > 0x5F, "pattern address above 5Fh"),
        _ => {}
    }
}

fn wraps(reach: &mut Reach, old: &Sheet, new: &Sheet, name: &str) {
    let how = match name {
        "display write" | "pattern write" => "write",
        "display read" | "pattern read" => "read",
        "move up" | "move down" => "move",
        _ => return,
    };
    let memory = match old.counter {
        Counter::Display(_) => "display",
        Counter::Pattern(_) => "pattern",
    };
    let (from, to) = (old.counter.number(), new.counter.number());
    let from_line_to_line = memory == "display" && from / 16 != to / 16;
    if from.abs_diff(to) != 1 || from_line_to_line {
        reach.note(&format!("{memory} {how} {from} to {to}"));
    }
}

fn shifts(reach: &mut Reach, old: &Sheet, new: &Sheet, name: &str) {
    let how = match name {
        "shift left" | "shift right" => "instruction",
        "display write" => "write",
        _ => return,
    };
    if old.shift.abs_diff(new.shift) == 15 {
        reach.note(&format!("shift {} to {} by {how}", old.shift, new.shift));
    }
}

/// What the reading stopped at.
fn end(reach: &mut Reach, tail: &[u8], cut: bool, no_record: bool) {
    reach.note_if(no_record && !cut, "empty log");
    if !cut {
        return;
    }
    reach.note("answer 8");
    reach.note_if(no_record, "cut before any record");
    let [low, high, rest @ ..] = tail else {
        return reach.note("cut: one byte left");
    };
    let length = usize::from(u16::from_le_bytes([*low, *high]));
    match length {
        0 => reach.note("cut: length 0"),
        1 => reach.note("cut: length 1"),
        65 => reach.note("cut: length 65"),
        65_535 if rest.len() < length => reach.note("cut: length 65535"),
        65_535 => reach.note("cut: length 65535, as many bytes"),
        66.. => reach.note("cut: length above 65"),
        _ if rest.is_empty() => reach.note("cut: nothing after the length"),
        _ if rest.len() + 1 == length => reach.note("cut: one byte short"),
        _ => reach.note("cut: several bytes short"),
    }
}

fn waiting_at_end(reach: &mut Reach, panel: &Panel) {
    match panel.half {
        None => {}
        Some(Half { nibble: None, .. }) => reach.note("ends with an ignored half"),
        Some(Half { rs, rw, .. }) => reach.note(match (rs, rw) {
            (false, false) => "ends with an instruction half",
            (true, false) => "ends with a data write half",
            (true, true) => "ends with a data read half",
            (false, true) => "ends with a status half",
        }),
    }
}
