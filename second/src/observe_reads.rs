//! Watches whether the next read is good: what made it so or not, what left that
//! alone, and the reads that show it.

use crate::chip::{Sheet, Width};
use crate::classes::FROM_FRESH;
use crate::log::Transfer;
use crate::observe::{transfer_name, Step};
use crate::panel::number::*;
use crate::panel::{is_status, Half, Panel};
use crate::reach::Reach;

/// An instruction that came last, before a read.
struct Code {
    code: u8,
    wide: bool,
    was_good: bool,
}

/// The clock as a doubtful read left it.
struct Wait {
    last: u64,
    busy_end: u64,
}

/// What is remembered from one record to the next.
pub struct Trail {
    /// What came last, where it turned the panel from good to not good or back; a
    /// read, and what the panel was at the start, in any case.
    turned: Option<String>,
    /// What came last, where it leaves alone whether the next read is good.
    left: Option<String>,
    code: Option<Code>,
    /// What came between the halves of the pair at hand.
    between: Vec<&'static str>,
    /// None from the next record on that is carried out.
    wait: Option<Wait>,
    /// How the run is made, in the words of the classes.
    ways: Vec<&'static str>,
}

fn memory(sheet: &Sheet) -> &'static str {
    if sheet.is_in_display() { "display memory" } else { "pattern memory" }
}

fn state(good: bool) -> &'static str {
    if good { "good" } else { "not good" }
}

/// The nibble of a data read's first half, where one is held.
fn read_nibble(panel: &Panel) -> Option<u8> {
    match panel.half {
        Some(Half { rs: true, rw: true, nibble }) => nibble,
        _ => None,
    }
}

/// Notes what becomes of a half that came with the panel file.
fn handed_in(reach: &mut Reach, before: &Panel, end: &str) {
    if let Some(nibble) = read_nibble(before) {
        let nibble = if nibble == 0 { "0" } else { "not 0" };
        reach.note(&format!("read half handed in, {}, nibble {nibble}, {end}", state(before.sheet.good)));
    }
}

/// Notes what the panel is that a run ends with. A read half that waits shows the
/// byte's low half where the panel is good, and where it is not, that it has none.
pub fn end(reach: &mut Reach, panel: &Panel) {
    let state = state(panel.sheet.good);
    reach.note(&format!("ends {state}"));
    let has_low_half = panel.sheet.byte_at_address() & 0x0F != 0;
    let waits = read_nibble(panel).is_some();
    reach.note_if(waits && has_low_half, &format!("ends {state}, with a read half of a byte with a low half"));
}

fn ignored(transfer: Transfer) -> &'static str {
    match (transfer.rs, transfer.rw, transfer.data) {
        (true, true, _) => "ignored data read",
        (true, false, _) => "ignored data write",
        (false, _, 0x40..=0xFF) => "ignored address set",
        (false, _, 0x10..=0x17) => "ignored cursor move",
        (false, ..) => "ignored instruction",
    }
}

impl Trail {
    pub fn new(start: &str, ways: Vec<&'static str>) -> Trail {
        let turned = Some(start.to_string());
        Trail { turned, left: None, code: None, between: Vec::new(), wait: None, ways }
    }

    /// Something was carried out; it is told where it turned the panel.
    fn turn(&mut self, turned: Option<String>) {
        (self.turned, self.left, self.code, self.wait) = (turned, None, None, None);
        self.between.clear();
    }

    fn leave(&mut self, what: &str) {
        self.left = Some(what.to_string());
        self.code = None;
        self.between.clear();
    }

    /// A record that is bad or back, by itself or between the halves of a pair.
    pub fn pass_over(&mut self, before: &Panel, what: &'static str) {
        match before.half {
            Some(_) => self.between.push(what),
            None => self.leave(what),
        }
    }

    /// Whether the clock still stands where a doubtful read left it.
    pub fn is_at_doubtful(&self, before: &Panel) -> bool {
        self.wait.as_ref().is_some_and(|wait| wait.last == before.last)
    }

    /// The half that waits, if one does, is of this log or came with the panel.
    pub fn reset(&mut self, reach: &mut Reach, before: &Panel, half_is_own: bool) {
        if !half_is_own {
            handed_in(reach, before, "dropped by a reset");
        }
        let good = before.sheet.good;
        self.turn(match read_nibble(before) {
            Some(_) => Some(format!("reset that drops a read half while {}", state(good))),
            None => good.then(|| "reset".to_string()),
        });
    }

    /// A second half whose first came with the panel file. Of what is not read the
    /// byte is not known.
    pub fn finish(&mut self, reach: &mut Reach, step: &Step) {
        let is_torn = step.answer.number == TORN;
        handed_in(reach, step.before, if is_torn { "torn" } else { "carried out" });
        match read_nibble(step.before) {
            _ if is_torn => {}
            Some(_) => self.read(reach, step),
            None => self.turn(None),
        }
    }

    /// A second half that differs from the first.
    pub fn tear(&mut self, before: &Panel) {
        let is_ignored = matches!(before.half, Some(Half { nibble: None, .. }));
        self.leave(match read_nibble(before) {
            Some(_) => "torn read half",
            None if is_ignored => "torn ignored half",
            None => "torn half",
        });
    }

    /// A transfer that begins, while nothing else is carried out after a doubtful
    /// read, which has a busy time of its own.
    pub fn begin(&self, reach: &mut Reach, step: &Step, transfer: Transfer) {
        let Some(Wait { last, busy_end }) = self.wait else { return };
        let Transfer { time, rs, rw, .. } = transfer;
        if step.before.half.is_some() || last == busy_end {
            return;
        }
        let width = step.before.sheet.width.bits();
        if is_status(rs, rw) {
            return reach.note_if(time < busy_end, &format!("status within the wait of a doubtful read, width {width}"));
        }
        let is_ignored = step.answer.number == IGNORED;
        reach.note_if(is_ignored, &format!("ignored within the wait of a doubtful read, width {width}"));
        let at_last = is_ignored && time + 1 == busy_end;
        reach.note_if(at_last, &format!("ignored at the last of the wait of a doubtful read, width {width}"));
        let at_end = !is_ignored && time == busy_end;
        reach.note_if(at_end, &format!("free at the end of the wait of a doubtful read, width {width}"));
    }

    /// A transfer that is whole, or a complete pair, joined.
    pub fn complete(&mut self, reach: &mut Reach, step: &Step, transfer: Transfer) {
        let (old, new) = (&step.before.sheet, &step.after.sheet);
        let name = transfer_name(old, transfer);
        let placed = || format!("{name} in {}", memory(old));
        let is_turned = old.good != new.good;
        match (step.answer.number, name) {
            (IGNORED, _) => return self.leave(ignored(transfer)),
            (STATUS, _) => return self.leave(name),
            (_, "display read" | "pattern read") => return self.read(reach, step),
            (NONE, _) => self.leave(name),
            (_, "shift left" | "shift right") => self.leave(&placed()),
            (_, "move up" | "move down") => self.turn(is_turned.then(placed)),
            _ => self.turn(is_turned.then(|| name.to_string())),
        }
        if !transfer.rs {
            self.code = Some(Code { code: transfer.data, wide: old.width == Width::Eight, was_good: old.good });
        }
    }

    /// A data read that is carried out, whole or at its second half.
    pub fn read(&mut self, reach: &mut Reach, step: &Step) {
        let old = &step.before.sheet;
        let (is_doubtful, width) = (step.answer.number == DOUBTFUL, old.width.bits());
        let answer = if is_doubtful { "doubtful" } else { "taken" };
        match (&self.left, &self.turned) {
            (Some(left), _) => reach.note(&format!("read after {left} left it {}, width {width}", state(old.good))),
            (None, Some(turned)) => reach.note(&format!("{answer} read after {turned}, width {width}")),
            (None, None) => {}
        }
        if let Some(Code { code, wide, was_good }) = self.code {
            reach.note_code_read(wide, was_good, code);
        }
        for what in &self.between {
            reach.note(&format!("{what} between the halves of a {answer} read"));
        }
        if is_doubtful {
            self.doubtful(reach, old);
        }
        self.turn(Some(format!("{answer} read in {}", memory(old))));
        let Panel { last, busy_end, .. } = *step.after;
        self.wait = is_doubtful.then_some(Wait { last, busy_end });
    }

    /// What a slip would get wrong of a doubtful read; the sheet is the one before.
    fn doubtful(&self, reach: &mut Reach, old: &Sheet) {
        let (width, byte) = (old.width.bits(), old.byte_at_address());
        let way = if old.i_d { "up" } else { "down" };
        reach.note(&format!("doubtful read in {}, {way}, width {width}", memory(old)));
        reach.note_if(byte & 0xF0 != 0, &format!("doubtful read of a byte with a high half, width {width}"));
        reach.note_if(byte & 0x0F != 0, &format!("doubtful read of a byte with a low half, width {width}"));
        reach.note_if(old.s && old.is_in_display(), &format!("doubtful read with S, width {width}"));
        for way in &self.ways {
            reach.note(&format!("doubtful read {way}, width {width}"));
        }
        // A display shift is carried out, and stays.
        let is_struck = self.left.as_ref().is_some_and(|left| !left.starts_with("shift"));
        let is_checked = self.ways.contains(&FROM_FRESH);
        reach.note_if(is_struck && is_checked, &format!("doubtful read kept behind a struck record, width {width}"));
    }
}

#[cfg(test)]
mod tests {
    use crate::arguments;
    use crate::chips::Chip;
    use crate::generator::Trial;
    use crate::log;
    use crate::observe;
    use crate::questions::{Question, Which};
    use crate::reach::Reach;
    use crate::start::Feed;

    const READ: (u64, u8, u8) = (0, 3, 0);

    /// The classes about reads that a log reaches from a fresh panel of one line;
    /// a transfer is sent so long after the one before it.
    fn reached(transfers: &[(u64, u8, u8)]) -> Vec<String> {
        let mut time = 0;
        let mut log = Vec::new();
        for &(later, control, data) in transfers {
            time += later;
            log.extend(log::write_transfer(time, control, data));
        }
        let trial = Trial::of_chip(Chip::ONE_LINE, log);
        let lent = arguments::trace(&[]).expect("no words");
        let mut reach = Reach::new();
        observe::question(&mut reach, &Question { which: Which::Trace, trial, feed: Feed::Whole }, Ok(&lent));
        let is_reached = |&(ref class, count): &(String, u64)| count > 0 && class.contains("read after");
        reach.table().into_iter().filter(is_reached).map(|(class, _)| class).collect()
    }

    #[test]
    fn what_turned_it() {
        assert_eq!(reached(&[READ]), ["doubtful read after fresh start, width 8 [6631]"]);
        let set = (0, 0, 0x80);
        assert_eq!(reached(&[set, (40, 3, 0)]), ["taken read after display address, width 8 [6631]"]);
        assert_eq!(
            reached(&[set, (40, 1, 0x41), (40, 3, 0), (40, 3, 0)]),
            [
                "taken read after doubtful read in display memory, width 8 [6631]",
                "doubtful read after display write, width 8 [6631]",
            ]
        );
        let narrow = [set, (40, 0, 0x20), (40, 3, 0), (0, 3, 0)];
        assert_eq!(reached(&narrow), ["doubtful read after to width 4, width 4 [6631]"]);
        let twice = [(0, 1, 0x41), (40, 1, 0x41), (40, 3, 0)];
        assert!(reached(&twice).is_empty(), "it was not good before");
    }

    #[test]
    fn what_left_it_alone() {
        let set = (0, 0, 0x40);
        for (left, class) in [
            ((39, 1, 0x41), "ignored data write"), ((39, 3, 0), "ignored data read"),
            ((39, 0, 0x80), "ignored address set"), ((40, 0, 0x1C), "shift right in pattern memory"),
            ((40, 2, 0), "status read"), ((40, 0, 0), "none 00h"), ((40, 5, 0x41), "bad record"),
        ] {
            let found = reached(&[set, left, (40, 3, 0)]);
            assert_eq!(found, [format!("read after {class} left it good, width 8 [6631]")]);
        }
    }
}
