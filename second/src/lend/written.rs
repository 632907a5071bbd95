//! Panels about the written places: display memory full, empty and in between, bits
//! that disagree with it at each bit, and bits that would be right if the wish were
//! read in another way.

use super::panels;
use crate::chip::{Sheet, Width};
use crate::chips::{Chip, DISPLAY_SIZE, LINE};
use crate::log::TIME_LIMIT;
use crate::panel::{Half, Panel, Times};
use crate::picture::{self, Place};
use crate::random::Random;
use crate::written::{Written, SPACE};

/// What display memory holds in the places that the chip has.
#[derive(Clone, Copy, Debug, PartialEq)]
pub enum Memory {
    /// No space anywhere.
    Full,
    Empty,
    Mixed,
}

impl Memory {
    pub const ALL: [Memory; 3] = [Memory::Full, Memory::Empty, Memory::Mixed];

    pub fn of(sheet: &Sheet) -> Memory {
        let own = &sheet.display[..sheet.chip.places()];
        match own.iter().filter(|&&byte| byte == SPACE).count() {
            0 => Memory::Full,
            spaces if spaces == own.len() => Memory::Empty,
            _ => Memory::Mixed,
        }
    }

    pub fn name(self) -> &'static str {
        match self {
            Memory::Full => "full",
            Memory::Empty => "empty",
            Memory::Mixed => "mixed",
        }
    }
}

/// Bytes of this sort for a chip's places, and spaces past them.
pub fn bytes(random: &mut Random, chip: Chip, memory: Memory) -> [u8; DISPLAY_SIZE] {
    let codes = [0x00, 0x03, 0x07, 0x0F, 0x10, 0x21, 0x41, 0xA0, 0xFF];
    let mut display = [SPACE; DISPLAY_SIZE];
    for (place, byte) in display[..chip.places()].iter_mut().enumerate() {
        let any = if random.flag() { random.byte() } else { random.pick(&codes) };
        let written = if any == SPACE { 0x02 } else { any };
        *byte = match (memory, place) {
            (Memory::Full, _) | (Memory::Mixed, 1) => written,
            (Memory::Empty, _) | (Memory::Mixed, 2) => SPACE,
            _ => random.pick(&[SPACE, written]),
        };
    }
    display
}

/// These bytes in display memory, with the bits that a walk finds.
pub fn fill(sheet: &mut Sheet, display: [u8; DISPLAY_SIZE]) {
    (sheet.display, sheet.written) = (display, Written::walk(&display));
}

/// A sound panel of the usual times, free at 0, with this in display memory.
pub fn sound(chip: Chip, width: Width, display: [u8; DISPLAY_SIZE]) -> Panel {
    let mut panel = Panel::fresh(chip, Times::USUAL);
    (panel.sheet.width, panel.sheet.d, panel.sheet.shift) = (width, true, 3);
    fill(&mut panel.sheet, display);
    panel
}

fn set_bits(sheet: &mut Sheet, number: u32) {
    sheet.written = Written::from_bytes(number.to_le_bytes());
}

/// Panels that are sound but for one bit: each of the 32, over each sort of memory.
pub fn one_bit_off(random: &mut Random, chip: Chip) -> Vec<Panel> {
    let mut panels = Vec::new();
    for (memory, bit) in Memory::ALL.into_iter().flat_map(|memory| (0..32).map(move |bit| (memory, bit))) {
        let mut panel = panels::sound_panel(random, chip);
        fill(&mut panel.sheet, bytes(random, chip, memory));
        let number = panel.sheet.written.number();
        set_bits(&mut panel.sheet, number ^ 1 << bit);
        panels.push(panel);
    }
    panels
}

/// Turns over one bit, or several, or all.
pub fn disagree(random: &mut Random, sheet: &mut Sheet) {
    let one = 1 << random.below(32);
    let several = one | random.next() as u32;
    let turned = random.pick(&[one, one, several, u32::MAX]);
    set_bits(sheet, sheet.written.number() ^ turned);
}

/// The bits where another rule says which places are written.
fn bits_where(sheet: &Sheet, is_written: impl Fn(usize, u8) -> bool) -> u32 {
    (0..).zip(sheet.display).fold(0, |number, (place, byte)| number | u32::from(is_written(place, byte)) << place)
}

fn by_positions(sheet: &Sheet) -> u32 {
    bits_where(sheet, |place, byte| match (place / LINE, place % LINE) {
        (line, position) if line < sheet.chip.lines() => picture::code_at(sheet, Place { line, position }) != SPACE,
        _ => byte != SPACE,
    })
}

/// Another reading of the wish, with the bits that it finds.
type Misread = (&'static str, fn(&Sheet) -> u32);

const MISREAD: [Misread; 13] = [
    ("of the screen's positions", by_positions),
    ("of no place", |_| 0),
    ("of all 32 places", |_| u32::MAX),
    ("1 for a space", |sheet| bits_where(sheet, |_, byte| byte == SPACE)),
    ("lowest for the last address", |sheet| bits_where(sheet, |place, _| sheet.display[31 - place] != SPACE)),
    ("in the other order of bytes", |sheet| bits_where(sheet, |place, _| sheet.display[place ^ 24] != SPACE)),
    ("one address up", |sheet| bits_where(sheet, |place, _| sheet.display[(place + 31) % 32] != SPACE)),
    ("one address down", |sheet| bits_where(sheet, |place, _| sheet.display[(place + 1) % 32] != SPACE)),
    ("without 00h", |sheet| bits_where(sheet, |_, byte| byte != SPACE && byte != 0)),
    ("without the patterns' codes", |sheet| bits_where(sheet, |_, byte| byte != SPACE && byte > 0x0F)),
    ("of text alone", |sheet| bits_where(sheet, |_, byte| (0x21..=0x7E).contains(&byte))),
    ("without the address", |sheet| {
        bits_where(sheet, |place, byte| byte != SPACE && place != usize::from(sheet.counter.number()))
    }),
    ("of the first line twice", |sheet| bits_where(sheet, |place, _| sheet.display[place % LINE] != SPACE)),
];

/// The other readings that this chip can tell from the right one.
pub fn misread(chip: Chip) -> Vec<Misread> {
    let mut all = MISREAD.to_vec();
    all.push(match chip.lines() {
        1 => ("of all places of the line", |sheet| bits_where(sheet, |place, _| place < LINE)),
        _ => ("of the first line alone", |sheet| bits_where(sheet, |place, byte| byte != SPACE && place < LINE)),
    });
    all
}

/// A memory by which every reading tells itself: each has other bits there.
fn telling(chip: Chip, width: Width) -> Panel {
    let mut display = [SPACE; DISPLAY_SIZE];
    for (place, byte) in [(0, 0x57), (2, 0x00), (3, 0x07), (5, 0x80), (9, 0x41), (10, 0x1F), (17, 0x42), (20, 0x00)] {
        if place < chip.places() {
            display[place] = byte;
        }
    }
    sound(chip, width, display)
}

/// Panels whose bits are right by another reading, and unsound for that.
pub fn misread_panels(chip: Chip) -> Vec<Panel> {
    let mut panels = Vec::new();
    for ((_, bits), width) in misread(chip).into_iter().zip([Width::Eight, Width::Four].into_iter().cycle()) {
        let mut panel = telling(chip, width);
        let number = bits(&panel.sheet);
        set_bits(&mut panel.sheet, number);
        panels.push(panel);
    }
    panels
}

/// Panels that are unsound in another way, with bits that agree and with bits that do
/// not; either way they stand as they are.
pub fn otherwise_unsound(chip: Chip) -> Vec<Panel> {
    let spoils: [fn(&mut Panel); 5] = [
        |panel| panel.sheet.shift = 16,
        |panel| panel.sheet.function = 16,
        |panel| panel.sheet.pattern[7] = 32,
        |panel| panel.half = Some(Half { rs: true, rw: false, nibble: Some(5) }),
        |panel| panel.last = TIME_LIMIT,
    ];
    let mut panels = Vec::new();
    for (spoil, off) in spoils.into_iter().flat_map(|spoil| [(spoil, 0), (spoil, 0x0000_0081)]) {
        let mut panel = telling(chip, Width::Eight);
        spoil(&mut panel);
        let number = panel.sheet.written.number();
        set_bits(&mut panel.sheet, number ^ off);
        panels.push(panel);
    }
    panels
}

#[cfg(test)]
mod tests {
    use super::*;
    use crate::panel;

    #[test]
    fn every_bit_is_off_over_every_sort_of_memory() {
        for chip in Chip::KNOWN {
            let panels = one_bit_off(&mut Random::new(1, 1), chip);
            assert_eq!(panels.len(), 96);
            for (number, panel) in panels.iter().enumerate() {
                let walk = Written::walk(&panel.sheet.display).number();
                assert_eq!(panel::faults(panel), ["written places"]);
                assert_eq!(walk ^ panel.sheet.written.number(), 1 << (number % 32));
                assert_eq!(Memory::of(&panel.sheet), Memory::ALL[number / 32]);
            }
        }
    }

    #[test]
    fn every_other_reading_has_other_bits() {
        for chip in Chip::KNOWN {
            let panels = misread_panels(chip);
            assert_eq!(panels.len(), misread(chip).len());
            for (panel, (name, _)) in panels.iter().zip(misread(chip)) {
                assert_eq!(panel::faults(panel), ["written places"], "{name}");
            }
            let mut numbers: Vec<u32> = panels.iter().map(|panel| panel.sheet.written.number()).collect();
            numbers.sort();
            numbers.dedup();
            assert_eq!(numbers.len(), panels.len(), "no two of them the same");
            assert!(telling(chip, Width::Four).is_sound());
        }
    }

    #[test]
    fn other_faults_with_bits_of_both_sorts() {
        for chip in Chip::KNOWN {
            let panels = otherwise_unsound(chip);
            let counts: Vec<usize> = panels.iter().map(|panel| panel::faults(panel).len()).collect();
            assert_eq!(counts, [1, 2, 1, 2, 1, 2, 1, 2, 1, 2]);
            assert!(panels.iter().step_by(2).all(|panel| panel::faults(panel) != ["written places"]));
        }
    }

    /// Of the telling memory of one line, by hand: places 0, 2, 3, 5, 9 and 10.
    #[test]
    fn bits_by_hand() {
        let sheet = Sheet { shift: 2, ..telling(Chip::ONE_LINE, Width::Eight).sheet };
        assert_eq!(sheet.written.number(), 0x0000_062D);
        let find = |name: &str| misread(Chip::ONE_LINE).into_iter().find(|other| other.0 == name).expect("a name").1;
        for (name, number) in [
            ("of the screen's positions", 0x0000_418B_u32), ("1 for a space", 0xFFFF_F9D2),
            ("lowest for the last address", 0xB460_0000), ("in the other order of bytes", 0x2D06_0000),
            ("one address up", 0x0000_0C5A), ("one address down", 0x8000_0316), ("without 00h", 0x0000_0629),
            ("without the patterns' codes", 0x0000_0621), ("of text alone", 0x0000_0201),
            ("without the address", 0x0000_062C), ("of the first line twice", 0x062D_062D),
        ] {
            assert_eq!(format!("{:08X}", find(name)(&sheet)), format!("{number:08X}"), "{name}");
        }
    }
}
