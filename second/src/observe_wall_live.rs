//! Watches the pictures of `live`: what changed from read to read, what did not though
//! something was done, and what the three last lines had to say.

use crate::classes::WALL;
use crate::log::{self, Message};
use crate::panel::{count_of, Panel, COUNTED};
use crate::picture::Mode;
use crate::reach::Reach;
use crate::wall::live::{reads, Seen, READ};
use crate::wall::{Asked, Glass};

fn note(reach: &mut Reach, class: &str) {
    reach.note(&format!("{WALL}live: {class}"));
}

fn note_if(reach: &mut Reach, reached: bool, class: &str) {
    if reached {
        note(reach, class);
    }
}

/// Notes what one question with `live` reaches.
pub fn pictures(reach: &mut Reach, asked: &Asked, log: &[u8]) {
    let Some(font) = &asked.font else { return };
    let reads = reads(log);
    sizes(reach, log, &reads);
    let mut printed: Vec<Glass> = Vec::new();
    let mut before: Option<(Seen, usize)> = None;
    for read in reads {
        let seen = Seen::after(&asked.start, read);
        let glass = Glass::of(asked, font, &seen.panel);
        let changed = printed.last() != Some(&glass);
        if let (Some((old, size)), Some(last)) = (&before, printed.last()) {
            if changed {
                parts(reach, last, &glass);
            } else {
                unchanged(reach, &old.panel, &seen.panel, &log[*size..read.len()]);
            }
        }
        if changed {
            let again = printed.len() > 1 && printed[printed.len() - 2] == glass;
            note_if(reach, again, "the picture before the last one again");
            last_lines(reach, &seen, read);
            printed.push(glass);
        }
        let read_records: usize = log::records(read).0.iter().map(|record| record.len()).sum();
        before = Some((seen, read_records));
    }
}

fn sizes(reach: &mut Reach, log: &[u8], reads: &[&[u8]]) {
    note(reach, ["one read", "two reads", "more reads"][reads.len().min(3) - 1]);
    note_if(reach, log.is_empty(), "an empty log");
    note_if(reach, log.len() == READ, "one read and not a byte more");
    note_if(reach, log.len() == READ + 1, "one read and a byte");
    note_if(reach, log.len() == 2 * READ, "two reads and not a byte more");
    for read in &reads[..reads.len() - 1] {
        let whole: usize = log::records(read).0.iter().map(|record| record.len()).sum();
        let is_cut = log::records(log).1 && log::records(log).0.concat().len() == whole;
        let class = match (is_cut, whole == read.len()) {
            (true, _) => "a cut, and more reads",
            (false, true) => "a read that ends with a record",
            (false, false) => "a record in two reads",
        };
        note(reach, class);
    }
}

/// What differs from the last picture: the drawing, and which of the lines.
fn parts(reach: &mut Reach, last: &Glass, glass: &Glass) {
    let of = |glass: &Glass, name: &str| -> Vec<String> {
        glass.lines.lines().filter(|line| line.starts_with(name)).map(str::to_string).collect()
    };
    let mut differ = vec!["text", "codes", "cursor", "written"];
    differ.retain(|name| of(last, name) != of(glass, name));
    if last.frame != glass.frame {
        differ.push("drawing");
    }
    note(reach, "a read that changes something");
    if let [alone] = differ[..] {
        note(reach, &format!("{alone} alone"));
    }
}

/// Nothing is printed, though records have come, and perhaps something was done.
fn unchanged(reach: &mut Reach, old: &Panel, new: &Panel, bytes: &[u8]) {
    let (before, after) = (&old.sheet, &new.sheet);
    note(reach, "a read that changes nothing");
    note_if(reach, before.pattern != after.pattern, "nothing: another pattern");
    note_if(reach, Mode::of(before) != Mode::of(after), "nothing: another mode");
    note_if(reach, before.counter != after.counter, "nothing: another address");
    let mut panel = old.clone();
    let was_another = log::records(bytes).0.into_iter().any(|record| {
        panel.answer(record);
        panel.sheet.display != before.display && panel.sheet.display != after.display
    });
    note_if(reach, was_another, "nothing: another text in between");
}

/// What the last record and the last transfer before a picture were.
fn last_lines(reach: &mut Reach, seen: &Seen, read: &[u8]) {
    let name = seen.last_transfer.map_or("-", |number| COUNTED[count_of(number)].1);
    note(reach, &format!("last transfer {name}"));
    note_if(reach, seen.panel.last >= 360_000_000_000, "100 hours");
    let Some(last) = log::records(read).0.last().copied() else {
        return note(reach, "a picture of no record");
    };
    let behind = if seen.last_transfer.is_some() { "behind a transfer" } else { "and no transfer" };
    match log::message(last) {
        None => note(reach, &format!("a bad record last, {behind}")),
        Some(message) if message.time() < seen.panel.last => note(reach, "a backward record last"),
        Some(Message::Reset { .. }) => note(reach, &format!("a reset last, {behind}")),
        Some(Message::Transfer(_)) => {}
    }
}
