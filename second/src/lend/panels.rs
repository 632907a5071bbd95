//! Panels that are handed in as files: sound ones, ones that are unsound in each
//! of the ways that the rules name, and bytes that are no panel.

use super::some_times;
use super::written::{self, Memory};
use crate::chip::{Counter, DisplayAddress, PatternAddress, Sheet, Width};
use crate::chips::Chip;
use crate::classes::UNKNOWN_CHIPS;
use crate::log::TIME_LIMIT;
use crate::panel::{Half, Panel, Times, BUSY_END_LIMIT};
use crate::panel_file;
use crate::random::Random;
use crate::written::{Written, SPACE};

/// Panels sound and unsound, and bytes that are no panel.
pub fn some_bytes(random: &mut Random, turn: u64) -> Vec<u8> {
    let chip = random.pick(&Chip::KNOWN);
    let mut panel = sound_panel(random, chip);
    match turn % 6 {
        0 | 3 => {
            spoil(random, &mut panel, turn / 3);
            if random.chance(15) {
                let another = random.below(WAYS);
                spoil(random, &mut panel, another);
            }
            panel_file::write(&panel)
        }
        5 => no_panel(random, &panel, turn / 6),
        _ => panel_file::write(&panel),
    }
}

pub fn sound_panel(random: &mut Random, chip: Chip) -> Panel {
    let width = random.pick(&[Width::Eight, Width::Four, Width::Four]);
    let size = random.below(40);
    let last = match random.below(6) {
        0 => TIME_LIMIT - 1,
        1 => TIME_LIMIT - 1 - random.below(70_000),
        2 => 0,
        _ => random.below(TIME_LIMIT >> size),
    };
    let busy_end = match random.below(6) {
        0 => BUSY_END_LIMIT - 1,
        1 => random.below(last + 1),
        2 => last,
        _ => last + random.below(65_536),
    };
    Panel {
        sheet: sound_sheet(random, chip, width),
        times: some_times(random),
        busy_end,
        last,
        half: if width == Width::Four { sound_half(random) } else { None },
    }
}

fn sound_sheet(random: &mut Random, chip: Chip, width: Width) -> Sheet {
    let memory = random.pick(&[Memory::Full, Memory::Full, Memory::Empty, Memory::Mixed, Memory::Mixed]);
    let display = written::bytes(random, chip, memory);
    Sheet {
        chip,
        display,
        written: Written::walk(&display),
        pattern: std::array::from_fn(|_| random.byte() & 31),
        counter: if random.flag() {
            Counter::Display(DisplayAddress(some_place(random, chip.places() as u8 - 1)))
        } else {
            Counter::Pattern(PatternAddress(some_place(random, 31)))
        },
        shift: random.byte() & 15,
        i_d: random.flag(),
        s: random.flag(),
        d: random.chance(80),
        c: random.flag(),
        b: random.flag(),
        width,
        function: random.byte() & 15,
        good: random.flag(),
    }
}

/// An address up to `most`, the ends often, and those of a line.
fn some_place(random: &mut Random, most: u8) -> u8 {
    let any = random.byte() & most;
    random.pick(&[0, 15, 16 & most, most, any, any, any])
}

fn sound_half(random: &mut Random) -> Option<Half> {
    let (rs, rw) = (random.flag(), random.flag());
    match random.below(4) {
        0 => None,
        1 if rs || !rw => Some(Half { rs, rw, nibble: None }),
        _ => Some(Half { rs, rw, nibble: Some(random.byte() & 15) }),
    }
}

/// In how many ways a panel is made unsound.
const WAYS: u64 = 14;

/// Makes a panel unsound in one of the ways that the rules name.
fn spoil(random: &mut Random, panel: &mut Panel, way: u64) {
    let sheet = &mut panel.sheet;
    let (rs, rw) = (random.flag(), random.flag());
    let past = sheet.chip.places() as u8;
    match way % WAYS {
        0 => sheet.counter = Counter::Display(DisplayAddress(random.pick(&[past, 2 * past - 1, 255]))),
        1 => sheet.counter = Counter::Pattern(PatternAddress(random.pick(&[32, 255]))),
        2 => sheet.shift = random.pick(&[16, 255]),
        3 => sheet.function = random.pick(&[16, 17, 255]),
        4 => sheet.pattern[random.below(32) as usize] = random.pick(&[32, 255]),
        5 => {
            sheet.width = Width::Four;
            panel.half = Some(Half { rs, rw, nibble: Some(random.pick(&[16, 255])) });
        }
        6 => {
            sheet.width = Width::Eight;
            panel.half = Some(Half { rs, rw, nibble: Some(random.byte() & 15) });
        }
        7 => {
            sheet.width = Width::Eight;
            panel.half = Some(Half { rs: true, rw, nibble: None });
        }
        8 => {
            sheet.width = Width::Four;
            panel.half = Some(Half { rs: false, rw: true, nibble: None });
        }
        9 => panel.last = random.pick(&[TIME_LIMIT, u64::MAX]),
        10 => panel.busy_end = random.pick(&[BUSY_END_LIMIT, u64::MAX]),
        11 => sheet.chip = Chip(random.pick(&UNKNOWN_CHIPS)),
        12 => written::disagree(random, sheet),
        _ => write_past_one_line(random, sheet),
    }
}

/// A byte that one line does not have, with its bit or without. Where there were two
/// lines, it is the chip that is wrong for what the second holds.
fn write_past_one_line(random: &mut Random, sheet: &mut Sheet) {
    sheet.chip = Chip::ONE_LINE;
    let place = 16 + random.below(16) as usize;
    sheet.store(place, random.pick(&[0x00, 0x21, 0xA0, 0xFF]));
    if random.flag() {
        sheet.written.store(place, SPACE);
    }
}

/// Bytes that the panel's types cannot hold.
fn no_panel(random: &mut Random, panel: &Panel, way: u64) -> Vec<u8> {
    let mut bytes = panel_file::write(panel);
    let flag_places = [65, 68, 69, 70, 71, 72, 98, 99, 101];
    match way % 18 {
        0 => bytes.truncate(random.pick(&[0, 84])),
        // Without the bits it would be a panel of before.
        1 => bytes.truncate(random.pick(&[101, 102, 102, 105])),
        2 => bytes.push(0),
        sort @ 3..=11 => bytes[flag_places[sort as usize - 3]] = random.pick(&[2, 255]),
        12 => bytes[73] = random.pick(&[0, 5, 16, 255]),
        13 => bytes[97] = random.pick(&[3, 255]),
        14 => bytes[97..101].copy_from_slice(&[0, 1, 0, 0]),
        15 => bytes[97..101].copy_from_slice(&[0, 0, 1, 0]),
        16 => bytes[97..101].copy_from_slice(&[0, 0, 0, random.pick(&[1, 255])]),
        _ => bytes[97..101].copy_from_slice(&[1, 1, 0, random.pick(&[1, 255])]),
    }
    bytes
}

/// A sound panel with the display and the cursor on and a few codes on each line.
fn plain(chip: Chip) -> Panel {
    let mut panel = Panel::fresh(chip, Times::USUAL);
    (panel.sheet.d, panel.sheet.c, panel.sheet.shift) = (true, true, 3);
    for at in (0..chip.places()).step_by(15) {
        panel.sheet.store(at, 0x41 + at as u8);
    }
    panel
}

/// Every unknown number on a panel that is sound but for it: as one line and as
/// two.
pub fn of_unknown_chips() -> Vec<Vec<u8>> {
    let mut all = Vec::new();
    for base in Chip::KNOWN {
        for number in UNKNOWN_CHIPS {
            let mut panel = plain(base);
            panel.sheet.chip = Chip(number);
            all.push(panel_file::write(&panel));
        }
    }
    all
}

/// Where the two chips part: each byte that one line does not have, each display
/// address from 16 on, and a shift of 16 on both.
pub fn where_chips_part() -> Vec<Vec<u8>> {
    let mut panels = Vec::new();
    for place in 16..32 {
        let mut panel = plain(Chip::ONE_LINE);
        panel.sheet.store(place, [0x00, 0x21, 0x41, 0xFF][place % 4]);
        panels.push(panel);
        let mut panel = plain(Chip::ONE_LINE);
        panel.sheet.counter = Counter::Display(DisplayAddress(place as u8));
        panels.push(panel);
    }
    for address in [15, 16, 24, 31, 32] {
        let mut panel = plain(Chip::TWO_LINES);
        panel.sheet.counter = Counter::Display(DisplayAddress(address));
        panels.push(panel);
    }
    for chip in Chip::KNOWN {
        let mut panel = plain(chip);
        panel.sheet.shift = 16;
        panels.push(panel);
    }
    panels.iter().map(panel_file::write).collect()
}

/// Panels that are good and that are not: at both widths, and at width 4 with a
/// read half of either sort of nibble waiting too.
pub fn good_and_not() -> Vec<Panel> {
    let mut panels = Vec::new();
    for chip in Chip::KNOWN {
        for good in [true, false] {
            let display = Counter::Display(DisplayAddress(0));
            let pattern = Counter::Pattern(PatternAddress(9));
            for (width, nibble, counter) in [
                (Width::Eight, None, pattern), (Width::Four, None, display), (Width::Four, Some(0), display),
                (Width::Four, Some(0x0E), pattern),
            ] {
                let half = nibble.map(|nibble| Half { rs: true, rw: true, nibble: Some(nibble) });
                let mut panel = Panel { half, ..plain(chip) };
                panel.sheet = Sheet { width, good, counter, pattern: [0x1B; 32], ..panel.sheet };
                panels.push(panel);
            }
        }
    }
    panels
}

#[cfg(test)]
mod tests {
    use super::*;

    #[test]
    fn good_or_not_a_panel_is_sound_whatever_read_half_waits() {
        let panels = good_and_not();
        assert!(panels.iter().all(Panel::is_sound));
        let with_nibble = panels.iter().filter(|panel| {
            let not_zero = matches!(panel.half, Some(Half { rs: true, rw: true, nibble: Some(1..) }));
            not_zero && !panel.sheet.good
        });
        assert_eq!((panels.len(), with_nibble.count()), (16, 2));
    }

    #[test]
    fn bytes_that_are_no_panel() {
        let mut random = Random::new(1, 1);
        for way in 0..200 {
            let panel = sound_panel(&mut random, Chip::KNOWN[way as usize % 2]);
            assert!(panel_file::read(&no_panel(&mut random, &panel, way)).is_err(), "way {way}");
        }
    }
}
