//! Records that the chip's mirror must not carry out: back in time, of a wrong
//! kind, length or time, or with a stray control bit.

use super::Sender;
use crate::log::{self, TIME_LIMIT};

impl Sender<'_> {
    pub(super) fn fault(&mut self) {
        let record = match self.random.below(6) {
            0 | 1 => self.back(),
            2 => self.bad_kind(),
            3 => self.bad_length(),
            4 => self.bad_time(),
            _ => self.bad_control(),
        };
        self.emit(record);
    }

    fn back(&mut self) -> Vec<u8> {
        let last = self.panel.last;
        let any = self.random.below(last + 1);
        let time = self.random.pick(&[last.saturating_sub(1), last.saturating_sub(1), 0, any]);
        if self.random.chance(30) {
            return log::write_reset(time);
        }
        log::write_transfer(time, self.random.byte() & 3, self.random.byte())
    }

    fn bad_kind(&mut self) -> Vec<u8> {
        let kind = self.random.pick(&[0, 3, 4, 0x0100, 0x0101, 0x0102, 0x0201, 0xFFFF]);
        let size = self.random.pick(&[10, 8, 0, 62]);
        let body = self.random.bytes(size);
        log::write_record(kind, &body)
    }

    fn bad_length(&mut self) -> Vec<u8> {
        let (kind, size) = self.random.pick(&[
            (1, 0), (1, 8), (1, 9), (1, 11), (1, 62), (2, 0), (2, 7), (2, 9), (2, 10), (2, 62),
        ]);
        let mut body = self.panel.last.to_le_bytes().to_vec();
        body.resize(size, 0);
        log::write_record(kind, &body)
    }

    fn bad_time(&mut self) -> Vec<u8> {
        let time = self.random.pick(&[TIME_LIMIT, TIME_LIMIT + 1, 1 << 63, u64::MAX]);
        if self.random.flag() {
            return log::write_reset(time);
        }
        log::write_transfer(time, self.random.byte() & 3, self.random.byte())
    }

    /// Some are back in time too: bad goes first.
    fn bad_control(&mut self) -> Vec<u8> {
        let last = self.panel.last;
        let time = self.random.pick(&[last, last + 1, last.saturating_sub(1), 0]);
        let control = self.random.pick(&[4, 5, 6, 7, 8, 0x10, 0x80, 0xFF]);
        log::write_transfer(time, control, self.random.byte())
    }
}
