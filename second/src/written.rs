//! Which places of display memory are written: a bit for each display address,
//! which is 1 exactly when the byte there is no space. The sheet keeps the bits as
//! bytes are stored; what they mean is a walk over display memory.

use crate::chips::DISPLAY_SIZE;

/// The one byte that leaves its place unwritten.
pub const SPACE: u8 = 0x20;

/// A flag for each place, that of address 0 first.
#[derive(Clone, Copy, Debug, PartialEq)]
pub struct Written([bool; DISPLAY_SIZE]);

impl Written {
    pub const NOWHERE: Written = Written([false; DISPLAY_SIZE]);

    /// The meaning: which bytes of display memory are no space.
    pub fn walk(display: &[u8; DISPLAY_SIZE]) -> Written {
        Written(display.map(|byte| byte != SPACE))
    }

    /// A byte is stored at this place; all others stay as they were, whether or not
    /// they are what memory holds.
    pub fn store(&mut self, place: usize, byte: u8) {
        self.0[place] = byte != SPACE;
    }

    pub fn at(&self, place: usize) -> bool {
        self.0[place]
    }

    /// The addresses whose bits are 1, lowest first.
    pub fn places(&self) -> Vec<usize> {
        (0..DISPLAY_SIZE).filter(|&place| self.0[place]).collect()
    }

    /// One number, whose lowest bit is that of address 0.
    pub fn number(&self) -> u32 {
        self.0.iter().rev().fold(0, |number, &bit| 2 * number + u32::from(bit))
    }

    /// As a panel file has them: the lowest bit of the first byte for address 0.
    pub fn from_bytes(bytes: [u8; 4]) -> Written {
        Written(std::array::from_fn(|place| bytes[place / 8] >> (place % 8) & 1 != 0))
    }

    pub fn bytes(&self) -> [u8; 4] {
        let mut bytes = [0; 4];
        for place in self.places() {
            bytes[place / 8] |= 1 << (place % 8);
        }
        bytes
    }
}

#[cfg(test)]
mod tests {
    use super::*;

    /// Display memory with these bytes, and spaces elsewhere.
    fn memory(bytes: &[(usize, u8)]) -> [u8; DISPLAY_SIZE] {
        let mut display = [0x20; DISPLAY_SIZE];
        for &(place, byte) in bytes {
            display[place] = byte;
        }
        display
    }

    /// Places, with the number and the file's bytes that they have by the pages.
    const WRITINGS: [(&[usize], u32, [u8; 4]); 8] = [
        (&[], 0x0000_0000, [0, 0, 0, 0]),
        (&[0], 0x0000_0001, [0x01, 0, 0, 0]),
        (&[7, 8], 0x0000_0180, [0x80, 0x01, 0, 0]),
        (&[15], 0x0000_8000, [0, 0x80, 0, 0]),
        (&[16], 0x0001_0000, [0, 0, 0x01, 0]),
        (&[31], 0x8000_0000, [0, 0, 0, 0x80]),
        (&[2, 9, 19, 29], 0x2008_0204, [0x04, 0x02, 0x08, 0x20]),
        (&[0, 1, 2, 3, 4, 5, 6, 7, 8, 9, 10, 11, 12, 13, 14, 15], 0x0000_FFFF, [0xFF, 0xFF, 0, 0]),
    ];

    #[test]
    fn the_walk_finds_every_byte_but_20h() {
        for byte in 0..=0xFF {
            for place in [0, 15, 16, 31] {
                let expected = if byte == 0x20 { vec![] } else { vec![place] };
                assert_eq!(Written::walk(&memory(&[(place, byte)])).places(), expected, "{byte:02X}h at {place}");
            }
        }
        assert_eq!(Written::walk(&[0; DISPLAY_SIZE]).number(), 0xFFFF_FFFF);
        assert_eq!(Written::walk(&[0x20; DISPLAY_SIZE]), Written::NOWHERE);
    }

    #[test]
    fn number_and_bytes_of_the_places() {
        for (places, number, bytes) in WRITINGS {
            let stored: Vec<(usize, u8)> = places.iter().map(|&place| (place, 0x57)).collect();
            let written = Written::walk(&memory(&stored));
            assert_eq!((written.places(), written.number(), written.bytes()), (places.to_vec(), number, bytes));
            assert_eq!(Written::from_bytes(bytes), written);
        }
    }

    #[test]
    fn a_byte_that_is_stored_has_one_bit() {
        for place in 0..DISPLAY_SIZE {
            for (before, byte, after) in
                [(0, 0x57, 1 << place), (0, 0x20, 0), (u32::MAX, 0x57, u32::MAX), (u32::MAX, 0x20, !(1 << place))]
            {
                let mut written = Written::from_bytes(before.to_le_bytes());
                written.store(place, byte);
                assert_eq!(written.number(), after, "{byte:02X}h at {place}");
                assert_eq!(written.at(place), byte == 0x57);
            }
        }
    }
}
