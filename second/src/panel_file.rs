//! A panel as a file of 106 bytes, so that a run can start from any panel.

use crate::chip::{Counter, DisplayAddress, PatternAddress, Sheet, Width};
use crate::chips::Chip;
use crate::panel::{Half, Panel, Times};
use crate::written::Written;

pub const SIZE: usize = 106;

/// Reads a panel, sound or not; the error says why the bytes are no panel.
pub fn read(bytes: &[u8]) -> Result<Panel, &'static str> {
    if bytes.len() != SIZE {
        return Err("size of the file");
    }
    let bit = |at: usize, what| match bytes[at] {
        0 => Ok(false),
        1 => Ok(true),
        _ => Err(what),
    };
    let in_pattern = bit(65, "memory of the counter")?;
    let sheet = Sheet {
        chip: Chip(bytes[0]),
        display: bytes[1..33].try_into().expect("32 bytes"),
        written: Written::from_bytes(bytes[102..106].try_into().expect("4 bytes")),
        pattern: bytes[33..65].try_into().expect("32 bytes"),
        counter: if in_pattern {
            Counter::Pattern(PatternAddress(bytes[66]))
        } else {
            Counter::Display(DisplayAddress(bytes[66]))
        },
        shift: bytes[67],
        i_d: bit(68, "I/D")?,
        s: bit(69, "S")?,
        d: bit(70, "D")?,
        c: bit(71, "C")?,
        b: bit(72, "B")?,
        width: match bytes[73] {
            8 => Width::Eight,
            4 => Width::Four,
            _ => return Err("width"),
        },
        function: bytes[74],
        good: bit(101, "good")?,
    };
    let half = read_half(bytes[97], bit(98, "RS of the half")?, bit(99, "R/W of the half")?, bytes[100])?;
    Ok(Panel { sheet, times: read_times(bytes), busy_end: long(bytes, 81), last: long(bytes, 89), half })
}

fn read_times(bytes: &[u8]) -> Times {
    let short = |at: usize| u16::from_le_bytes([bytes[at], bytes[at + 1]]);
    Times { reset: short(75), long: short(77), short: short(79) }
}

fn long(bytes: &[u8], at: usize) -> u64 {
    u64::from_le_bytes(bytes[at..at + 8].try_into().expect("8 bytes"))
}

fn read_half(sort: u8, rs: bool, rw: bool, nibble: u8) -> Result<Option<Half>, &'static str> {
    match (sort, rs, rw, nibble) {
        (0, false, false, 0) => Ok(None),
        (0, true, _, _) => Err("RS where none waits"),
        (0, _, true, _) => Err("R/W where none waits"),
        (0, ..) => Err("nibble where none waits"),
        (1, _, _, 0) => Ok(Some(Half { rs, rw, nibble: None })),
        (1, ..) => Err("nibble of an ignored half"),
        (2, ..) => Ok(Some(Half { rs, rw, nibble: Some(nibble) })),
        _ => Err("sort of the half"),
    }
}

pub fn write(panel: &Panel) -> Vec<u8> {
    let sheet = &panel.sheet;
    let mut bytes = Vec::with_capacity(SIZE);
    bytes.push(sheet.chip.0);
    bytes.extend(sheet.display);
    bytes.extend(sheet.pattern);
    bytes.push(u8::from(matches!(sheet.counter, Counter::Pattern(_))));
    bytes.push(sheet.counter.number());
    bytes.push(sheet.shift);
    bytes.extend([sheet.i_d, sheet.s, sheet.d, sheet.c, sheet.b].map(u8::from));
    bytes.push(sheet.width.bits());
    bytes.push(sheet.function);
    for time in [panel.times.reset, panel.times.long, panel.times.short] {
        bytes.extend(time.to_le_bytes());
    }
    bytes.extend(panel.busy_end.to_le_bytes());
    bytes.extend(panel.last.to_le_bytes());
    bytes.extend(match panel.half {
        None => [0; 4],
        Some(Half { rs, rw, nibble: None }) => [1, u8::from(rs), u8::from(rw), 0],
        Some(Half { rs, rw, nibble: Some(nibble) }) => [2, u8::from(rs), u8::from(rw), nibble],
    });
    bytes.push(u8::from(sheet.good));
    bytes.extend(sheet.written.bytes());
    bytes
}

#[cfg(test)]
mod tests {
    use super::*;

    #[test]
    fn what_is_written_is_read() {
        for (chip, good) in [(Chip::ONE_LINE, true), (Chip::TWO_LINES, false), (Chip(0), true), (Chip(255), false)] {
            let mut panel = Panel::fresh(chip, Times::USUAL);
            panel.sheet.good = good;
            panel.sheet.written = Written::from_bytes([0x12, 0x34, 0x56, 0x78]);
            panel.sheet.display = std::array::from_fn(|at| at as u8);
            panel.half = Some(Half { rs: true, rw: false, nibble: Some(255) });
            panel.sheet.counter = Counter::Pattern(PatternAddress(99));
            (panel.busy_end, panel.last) = (u64::MAX, 1 << 50);
            assert_eq!(read(&write(&panel)), Ok(panel));
        }
    }

    /// Every byte another, where it may be: each is read from its own place.
    #[test]
    fn each_byte_has_its_place() {
        let mut bytes: Vec<u8> = (0..106).collect();
        bytes[65..=74].copy_from_slice(&[1, 66, 67, 0, 1, 0, 1, 0, 4, 74]);
        bytes[97..102].copy_from_slice(&[2, 1, 0, 100, 1]);
        let panel = read(&bytes).expect("a panel");
        let sheet = &panel.sheet;
        assert_eq!((sheet.chip, sheet.counter, sheet.shift), (Chip(0), Counter::Pattern(PatternAddress(66)), 67));
        assert_eq!((sheet.display[0], sheet.display[15], sheet.display[16], sheet.display[31]), (1, 16, 17, 32));
        assert_eq!((sheet.pattern[0], sheet.pattern[31]), (33, 64));
        assert_eq!((sheet.i_d, sheet.s, sheet.d, sheet.c, sheet.b), (false, true, false, true, false));
        assert_eq!((sheet.width, sheet.function, sheet.good), (Width::Four, 74, true));
        let times = Times { reset: 75 + 256 * 76, long: 77 + 256 * 78, short: 79 + 256 * 80 };
        assert_eq!(panel.times, times);
        assert_eq!(panel.busy_end.to_le_bytes(), [81, 82, 83, 84, 85, 86, 87, 88]);
        assert_eq!(panel.last.to_le_bytes(), [89, 90, 91, 92, 93, 94, 95, 96]);
        assert_eq!(panel.half, Some(Half { rs: true, rw: false, nibble: Some(100) }));
        assert_eq!(sheet.written.number(), 102 + (103 << 8) + (104 << 16) + (105 << 24));
        assert_eq!(write(&panel), bytes);
        bytes[101] = 0;
        assert_eq!(read(&bytes).map(|panel| panel.sheet.good), Ok(false));
    }

    /// A disagreement makes a panel unsound, and a panel all the same.
    #[test]
    fn any_bits_are_a_panel() {
        let mut bytes = write(&Panel::fresh(Chip::ONE_LINE, Times::USUAL));
        for (last, number) in [([0; 4], 0), ([1, 0, 0, 0], 1), ([0, 0, 0, 1], 1 << 24), ([0xFF; 4], u32::MAX)] {
            bytes[102..].copy_from_slice(&last);
            let panel = read(&bytes).expect("a panel");
            assert_eq!((panel.sheet.written.number(), panel.is_sound()), (number, number == 0));
            assert_eq!(write(&panel), bytes);
        }
    }

    #[test]
    fn what_is_no_panel() {
        let good = write(&Panel::fresh(Chip::TWO_LINES, Times::USUAL));
        assert!(read(&good).is_ok());
        // Without the bits it would be a panel of before.
        for size in [0, 84, 101, 102, 103, 104, 105, 107, 110] {
            let mut bytes = good.clone();
            bytes.resize(size, 0);
            assert_eq!(read(&bytes), Err("size of the file"));
        }
        for place in [65, 68, 69, 70, 71, 72, 98, 99, 101] {
            for byte in [2, 255] {
                let mut bytes = good.clone();
                bytes[place] = byte;
                assert!(read(&bytes).is_err(), "byte {place}");
            }
        }
        assert_eq!(read(&[&good[..101], &[2, 0, 0, 0, 0]].concat()), Err("good"));
        for (place, byte) in [(73, 5), (97, 3), (98, 1), (99, 1), (100, 1)] {
            let mut bytes = good.clone();
            bytes[place] = byte;
            assert!(read(&bytes).is_err(), "byte {place}");
        }
    }
}
