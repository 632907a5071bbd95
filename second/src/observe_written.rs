//! Watches which places are written: what each bit that is printed in the end shows.
//! A step leaves something to show at its place, and the next one that stores there
//! puts its own in place of it.

use crate::arguments::Lent;
use crate::chip::{Counter, Sheet, Width};
use crate::chips::{DISPLAY_SIZE, LINE};
use crate::lend::written::Memory;
use crate::log::{Message, Transfer};
use crate::observe::{transfer_name, Step};
use crate::panel::number::*;
use crate::panel::{Half, Panel};
use crate::picture::{self, Place};
use crate::reach::Reach;
use crate::written::SPACE;
use std::collections::BTreeSet;

/// One place, and what its bit shows as it stands.
#[derive(Clone, Default)]
struct Shown {
    classes: BTreeSet<String>,
    /// The byte that turned the bit over, and whether it was sent whole.
    turned_by: Option<(u8, bool)>,
    /// As it was in the panel file.
    is_handed_in: bool,
}

/// What is remembered from one record to the next.
pub struct Places {
    places: Vec<Shown>,
    /// The data byte of the first half that waits.
    first: u8,
    /// Whether an address above 8Fh was set last.
    is_above: bool,
    /// How the run is made, in the words of the classes.
    ways: Vec<&'static str>,
}

/// The place of an address; one of pattern memory counts as if it were of display
/// memory, which is a slip that should show.
fn place_of(sheet: &Sheet, counter: Counter) -> usize {
    usize::from(counter.number()) % sheet.chip.places()
}

fn is_data_write(rs: bool, rw: bool) -> bool {
    rs && !rw
}

impl Places {
    pub fn new(is_handed_in: bool, ways: Vec<&'static str>) -> Places {
        let place = Shown { is_handed_in, ..Shown::default() };
        Places { places: vec![place; DISPLAY_SIZE], first: 0, is_above: false, ways }
    }

    pub fn record(&mut self, step: &Step, message: Option<Message>) {
        match (step.answer.number, message) {
            (BACK, Some(message)) => self.back(step.before, message),
            (_, Some(Message::Reset { time })) => self.reset(step.before, time),
            (_, Some(Message::Transfer(transfer))) => self.transfer(step, transfer),
            (_, None) => self.bad(step),
        }
    }

    /// Something that leaves the bit of this address alone; with a byte that it would
    /// store there, where that would turn the bit over.
    fn leave(&mut self, sheet: &Sheet, counter: Counter, what: &str, byte: Option<u8>) {
        let place = place_of(sheet, counter);
        let is_written = sheet.display[place] != SPACE;
        if byte.is_none_or(|byte| (byte != SPACE) != is_written) {
            let state = if is_written { "written place" } else { "space" };
            let class = format!("{what} left a {state} alone, width {}", sheet.width.bits());
            self.places[place].classes.insert(class);
        }
    }

    /// The same at the address as it is.
    fn leave_here(&mut self, sheet: &Sheet, what: &str, byte: Option<u8>) {
        self.leave(sheet, sheet.counter, what, byte);
    }

    /// A data write that is not carried out; a half of it is no byte.
    fn leave_unwritten(&mut self, before: &Panel, what: &str, data: u8) {
        if before.sheet.is_in_display() {
            self.leave_here(&before.sheet, what, (before.sheet.width == Width::Eight).then_some(data));
        }
    }

    fn back(&mut self, before: &Panel, message: Message) {
        let is_wide = before.sheet.width == Width::Eight;
        match message {
            Message::Reset { .. } => self.leave_here(&before.sheet, "back reset", Some(SPACE)),
            Message::Transfer(Transfer { rs, rw, data, .. }) => match (rs, rw, data) {
                (true, false, _) => self.leave_unwritten(before, "back data write", data),
                (false, false, 0x01) if is_wide => self.leave_here(&before.sheet, "back Clear", Some(SPACE)),
                _ => {}
            },
        }
    }

    /// A record that would be a data write but for its time or its control bits.
    fn bad(&mut self, step: &Step) {
        if let [12, 0, 1, 0, .., control, data] = *step.record {
            if is_data_write(control & 1 != 0, control & 2 != 0) {
                let what = if control > 3 { "data write of a bad control" } else { "data write of a bad time" };
                self.leave_unwritten(step.before, what, data);
            }
        }
    }

    fn reset(&mut self, before: &Panel, time: u64) {
        let mut sorts = Vec::new();
        if !before.is_free(time) {
            sorts.push("reset of a written place while busy");
        }
        if matches!(before.half, Some(Half { rs: true, rw: false, .. })) {
            sorts.push("reset of a written place with a data write waiting");
        }
        self.clear(&before.sheet, "reset", &sorts);
    }

    /// Every place becomes a space; the sheet is the one before.
    fn clear(&mut self, old: &Sheet, what: &str, sorts: &[&str]) {
        let mut classes: Vec<String> = sorts.iter().map(|sort| sort.to_string()).collect();
        classes.push(format!("{what} of a written place"));
        if Memory::of(old) == Memory::Full {
            classes.push(format!("{what} of a full memory"));
        }
        if !old.is_in_display() {
            classes.push(format!("{what} from pattern memory"));
        }
        for place in 0..DISPLAY_SIZE {
            let mut shown = Shown::default();
            if old.display[place] != SPACE {
                let handed_in = self.places[place].is_handed_in.then(|| format!("{what} of a place handed in"));
                let all = classes.iter().cloned().chain(handed_in);
                shown.classes = all.map(|class| format!("{class}, width {}", old.width.bits())).collect();
            }
            self.places[place] = shown;
        }
        self.is_above = false;
    }

    fn transfer(&mut self, step: &Step, transfer: Transfer) {
        let before = step.before;
        let Transfer { rs, rw, data, .. } = transfer;
        let high = match (before.sheet.width, before.half) {
            (Width::Eight, _) => return self.complete(step, transfer),
            (Width::Four, None) => {
                self.first = data;
                let is_held = step.answer.number == HELD && is_data_write(rs, rw);
                return if is_held { self.leave_unwritten(before, "held data write", data) };
            }
            (Width::Four, Some(Half { nibble, .. })) => nibble.map_or(self.first, |nibble| nibble << 4),
        };
        let joined = Transfer { data: high & 0xF0 | data >> 4, ..transfer };
        match step.answer.number {
            TORN => self.tear(before, joined),
            _ => self.complete(step, joined),
        }
    }

    fn tear(&mut self, before: &Panel, joined: Transfer) {
        let Some(Half { rs, rw, nibble }) = before.half else { return };
        let what = match (is_data_write(rs, rw), nibble) {
            (true, None) => "torn ignored data write",
            (true, Some(_)) => "torn data write",
            (false, _) if is_data_write(joined.rs, joined.rw) => "torn by a data write",
            (false, _) => return,
        };
        if before.sheet.is_in_display() {
            self.leave_here(&before.sheet, what, Some(joined.data));
        }
    }

    /// A transfer that is whole, or a complete pair, joined.
    fn complete(&mut self, step: &Step, transfer: Transfer) {
        let (old, new, byte) = (&step.before.sheet, &step.after.sheet, transfer.data);
        let name = transfer_name(old, transfer);
        match (step.answer.number, name) {
            (IGNORED, _) => return self.ignored(old, name, byte),
            (_, "display write") => self.write(old, byte),
            (_, "Clear") => self.clear(old, "Clear", &[]),
            (_, "pattern write") => self.leave_here(old, name, Some(byte)),
            (DOUBTFUL, _) => self.leave_here(old, &format!("doubtful {name}"), None),
            (_, "display read" | "pattern read") => self.leave_here(old, &format!("taken {name}"), None),
            _ => {
                self.leave_here(old, name, None);
                self.leave(old, new.counter, name, None);
            }
        }
        self.is_above = name == "display address" && byte > 0x8F;
    }

    fn ignored(&mut self, old: &Sheet, name: &str, byte: u8) {
        match name {
            "display write" | "pattern write" => self.leave_here(old, &format!("ignored {name}"), Some(byte)),
            "Clear" => self.leave_here(old, "ignored Clear", Some(SPACE)),
            "display read" | "pattern read" => self.leave_here(old, "ignored read", None),
            "display address" | "pattern address" => self.leave_here(old, "ignored address set", None),
            "move up" | "move down" => self.leave_here(old, "ignored cursor move", None),
            _ => self.leave_here(old, "ignored instruction", None),
        }
    }

    /// A byte that is stored in display memory; the sheet is the one before.
    fn write(&mut self, old: &Sheet, byte: u8) {
        let (place, last) = (place_of(old, old.counter), old.chip.places() - 1);
        let is_written = old.display[place] != SPACE;
        let over = match (byte, is_written) {
            (SPACE, true) => "20h over a written place",
            (SPACE, false) => "20h over a space",
            (_, false) => "another byte over a space",
            (_, true) => "another byte over a written place",
        };
        let (way, from) = if old.i_d { ("up", [last, LINE - 1]) } else { ("down", [0, LINE]) };
        let is_between_lines = old.chip.lines() == 2 && place == from[1];
        let mut classes = vec![format!("{over}, {way}")];
        for (is_so, class) in [
            (old.s, format!("{over}, with S, {way}")),
            (place == from[0], format!("{over} at an end of memory, {way}")),
            (is_between_lines, format!("{over} from line to line, {way}")),
            (self.is_above, format!("{over} right behind an address above 8Fh")),
            (self.places[place].is_handed_in, format!("{over}, handed in")),
        ] {
            classes.extend(is_so.then_some(class));
        }
        classes.extend(self.ways.iter().map(|way| format!("{over} {way}")));
        let classes = classes.into_iter().map(|class| format!("{class}, width {}", old.width.bits())).collect();
        let turned_by = ((byte != SPACE) != is_written).then_some((byte, old.width == Width::Eight));
        self.places[place] = Shown { classes, turned_by, is_handed_in: false };
    }

    /// Notes what the bits show that are printed in the end.
    pub fn end(&self, reach: &mut Reach, lent: &Lent, panel: &Panel) {
        for shown in &self.places {
            for class in &shown.classes {
                reach.note(class);
            }
            if let Some((byte, wide)) = shown.turned_by {
                reach.note_byte_laid(wide, byte);
            }
        }
        ends(reach, &panel.sheet);
        if panel.sheet.d {
            blanks(reach, lent, &panel.sheet);
        }
    }
}

/// Whether the places are others if positions of the screen are counted.
pub fn differs_by_position(sheet: &Sheet) -> bool {
    let own = (0..sheet.chip.places()).map(|place| Place { line: place / LINE, position: place % LINE });
    own.zip(sheet.display).any(|(place, byte)| (picture::code_at(sheet, place) != SPACE) != (byte != SPACE))
}

fn ends(reach: &mut Reach, sheet: &Sheet) {
    let (places, own) = (sheet.written.places(), sheet.chip.places());
    reach.note_if(places.is_empty(), "ends with no place written");
    reach.note_if(places.len() == own, "ends with all places written");
    reach.note_if(places == [0], "ends with the first place alone written");
    reach.note_if(places == [own - 1], "ends with the last place alone written");
    reach.note_if(differs_by_position(sheet), "ends with other bits by position");
    if !places.is_empty() {
        reach.note(&format!("ends with D {} and places written", if sheet.d { "on" } else { "off" }));
        reach.note_if(!sheet.is_in_display(), "ends in pattern memory and places written");
    }
}

/// Codes that show nothing, and are written all the same.
fn blanks(reach: &mut Reach, lent: &Lent, sheet: &Sheet) {
    for place in sheet.written.places() {
        let code = sheet.display[place];
        let pattern = 8 * usize::from(code & 3);
        let glyph = usize::from(code).checked_sub(0x10).and_then(|glyph| lent.font.get(8 * glyph..8 * glyph + 8));
        let no_dots = |rows: &[u8]| rows.iter().all(|row| row & 0x1F == 0);
        match glyph {
            Some(rows) => reach.note_if(no_dots(rows), "ends with a code that the font has blank and D on"),
            None if code < 0x10 => {
                let is_blank = no_dots(&sheet.pattern[pattern..pattern + 8]);
                reach.note_if(is_blank, "ends with the code of a blank pattern and D on");
            }
            None => {}
        }
    }
}

#[cfg(test)]
mod tests;
