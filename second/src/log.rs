//! The log: records one after another, read off their lengths.
//!
//! A record is a two-byte length that counts the bytes after it, a two-byte
//! kind, and a body. All numbers are little-endian.

/// Times lie below this.
pub const TIME_LIMIT: u64 = 1 << 48;

/// What stands at the front of some bytes of a log.
#[derive(Debug, PartialEq)]
pub enum Front<'a> {
    /// No byte is left.
    End,
    /// Bytes are left, but no record can be read off them.
    Cut,
    /// A whole record, its length included.
    Record(&'a [u8]),
}

/// One bus transfer.
#[derive(Clone, Copy, Debug, PartialEq)]
pub struct Transfer {
    pub time: u64,
    pub rs: bool,
    pub rw: bool,
    pub data: u8,
}

/// What a usable record says.
#[derive(Clone, Copy, Debug, PartialEq)]
pub enum Message {
    Transfer(Transfer),
    Reset { time: u64 },
}

impl Message {
    pub fn time(&self) -> u64 {
        match *self {
            Message::Transfer(transfer) => transfer.time,
            Message::Reset { time } => time,
        }
    }
}

pub fn front(bytes: &[u8]) -> Front<'_> {
    match bytes {
        [] => Front::End,
        [_] => Front::Cut,
        [low, high, rest @ ..] => {
            let length = usize::from(u16::from_le_bytes([*low, *high]));
            if !(2..=64).contains(&length) || rest.len() < length {
                Front::Cut
            } else {
                Front::Record(&bytes[..2 + length])
            }
        }
    }
}

/// All records up to the end or the cut, and whether there is a cut.
pub fn records(log: &[u8]) -> (Vec<&[u8]>, bool) {
    let mut found = Vec::new();
    let mut rest = log;
    loop {
        match front(rest) {
            Front::End => return (found, false),
            Front::Cut => return (found, true),
            Front::Record(record) => {
                found.push(record);
                rest = &rest[record.len()..];
            }
        }
    }
}

/// What a whole record says; `None` for one that is bad.
pub fn message(record: &[u8]) -> Option<Message> {
    let kind = u16::from_le_bytes([record[2], record[3]]);
    let body = &record[4..];
    let said = match (kind, body.len()) {
        (1, 10) if body[8] <= 3 => Message::Transfer(Transfer {
            time: time_of(body),
            rs: body[8] & 1 != 0,
            rw: body[8] & 2 != 0,
            data: body[9],
        }),
        (2, 8) => Message::Reset { time: time_of(body) },
        _ => return None,
    };
    (said.time() < TIME_LIMIT).then_some(said)
}

fn time_of(body: &[u8]) -> u64 {
    let mut bytes = [0; 8];
    bytes.copy_from_slice(&body[..8]);
    u64::from_le_bytes(bytes)
}

/// Writes a record of any kind and body, usable or not.
pub fn write_record(kind: u16, body: &[u8]) -> Vec<u8> {
    let length = u16::try_from(body.len() + 2).expect("a body is short");
    let mut record = length.to_le_bytes().to_vec();
    record.extend(kind.to_le_bytes());
    record.extend(body);
    record
}

pub fn write_transfer(time: u64, control: u8, data: u8) -> Vec<u8> {
    let mut body = time.to_le_bytes().to_vec();
    body.extend([control, data]);
    write_record(1, &body)
}

/// Transfers one after another: time, control and data of each.
pub fn write_transfers(transfers: &[(u64, u8, u8)]) -> Vec<u8> {
    transfers.iter().flat_map(|&(time, control, data)| write_transfer(time, control, data)).collect()
}

pub fn write_reset(time: u64) -> Vec<u8> {
    write_record(2, &time.to_le_bytes())
}

#[cfg(test)]
mod tests {
    use super::*;

    #[test]
    fn cuts() {
        assert_eq!(front(&[]), Front::End);
        for cut in [&[12][..], &[0, 0, 9], &[1, 0, 9], &[2, 0, 1], &[255, 255, 1]] {
            assert_eq!(front(cut), Front::Cut, "{cut:?}");
        }
        let mut long = [0; 80];
        long[0] = 65;
        assert_eq!(front(&long), Front::Cut);
        long[0] = 64;
        assert_eq!(front(&long), Front::Record(&long[..66]));
    }

    #[test]
    fn the_limits_of_time_and_control() {
        assert!(message(&write_transfer(TIME_LIMIT - 1, 3, 0)).is_some());
        assert_eq!(message(&write_transfer(TIME_LIMIT, 3, 0)), None);
        assert_eq!(message(&write_transfer(0, 4, 0)), None);
        assert_eq!(message(&write_reset(TIME_LIMIT)), None);
    }
}
