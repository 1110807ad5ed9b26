//! Changes and the log records that carry them.

use crate::store::bytes::{all_zero, put_u16, put_u32, seal, u16_at, u32_at};
use crate::store::geometry::RECORD_LEN;
use crate::store::image::{set_image_lsn, BODY, BODY_LEN};

pub const PAYLOAD_LEN: usize = 44;
const PAYLOAD_AT: usize = 16;

pub type Payload = [u8; PAYLOAD_LEN];

#[derive(Clone, Copy, Debug, PartialEq, Eq)]
pub enum Change {
    Format { fill: u8 },
    Put { offset: u16, length: u8 },
    Slide { offset: u16, length: u8 },
}

impl Change {
    /// Whether the change keeps its kind's rule.
    pub fn keeps_rule(self) -> bool {
        match self {
            Change::Format { .. } => true,
            Change::Put { offset, length } | Change::Slide { offset, length } => {
                (1..=PAYLOAD_LEN).contains(&usize::from(length))
                    && usize::from(offset) + usize::from(length) <= BODY_LEN
            }
        }
    }

    pub fn is_format(self) -> bool {
        matches!(self, Change::Format { .. })
    }

    /// Kind, length, offset and fill, as a record holds them.
    fn fields(self) -> (u8, u8, u16, u8) {
        match self {
            Change::Format { fill } => (1, 0, 0, fill),
            Change::Put { offset, length } => (2, length, offset, 0),
            Change::Slide { offset, length } => (3, length, offset, 0),
        }
    }

    fn from_fields(kind: u8, length: u8, offset: u16, fill: u8) -> Option<Change> {
        let change = match kind {
            1 => Change::Format { fill },
            2 => Change::Put { offset, length },
            3 => Change::Slide { offset, length },
            _ => return None,
        };
        (change.fields() == (kind, length, offset, fill) && change.keeps_rule()).then_some(change)
    }
}

#[derive(Clone, Copy, Debug, PartialEq, Eq)]
pub struct Record {
    pub number: u32,
    /// The page's record before this one; 0 if none.
    pub previous: u32,
    pub page: u16,
    pub change: Change,
    /// Bytes past the change's length count for nothing and are stored as zero.
    pub payload: Payload,
}

impl Record {
    /// The sealed record.
    pub fn encode(&self) -> [u8; RECORD_LEN] {
        let (kind, length, offset, fill) = self.change.fields();
        let used = usize::from(length);
        let mut bytes = [0; RECORD_LEN];
        put_u32(&mut bytes, 0, self.number);
        put_u32(&mut bytes, 4, self.previous);
        put_u16(&mut bytes, 8, self.page);
        bytes[10] = kind;
        bytes[11] = length;
        put_u16(&mut bytes, 12, offset);
        bytes[14] = fill;
        bytes[PAYLOAD_AT..PAYLOAD_AT + used].copy_from_slice(&self.payload[..used]);
        seal(&mut bytes);
        bytes
    }

    /// None if the bytes break the layout. The checksum is the caller's to look at.
    pub fn decode(bytes: &[u8]) -> Option<Record> {
        let change = Change::from_fields(bytes[10], bytes[11], u16_at(bytes, 12), bytes[14])?;
        let mut payload = [0; PAYLOAD_LEN];
        payload.copy_from_slice(&bytes[PAYLOAD_AT..PAYLOAD_AT + PAYLOAD_LEN]);
        let used = usize::from(bytes[11]);
        (bytes[15] == 0 && all_zero(&payload[used..])).then_some(Record {
            number: u32_at(bytes, 0),
            previous: u32_at(bytes, 4),
            page: u16_at(bytes, 8),
            change,
            payload,
        })
    }

    /// The page a record's bytes name, whatever else they hold.
    pub fn page_of(bytes: &[u8]) -> u16 {
        u16_at(bytes, 8)
    }

    /// Alters body and page lsn of an image; its other bytes stay.
    pub fn apply(&self, image: &mut [u8]) {
        let body = &mut image[BODY];
        match self.change {
            Change::Format { fill } => body.fill(fill),
            Change::Put { offset, length } => self.put(body, offset.into(), length.into()),
            Change::Slide { offset, length } => {
                let (offset, length) = (usize::from(offset), usize::from(length));
                body.copy_within(offset..BODY_LEN - length, offset + length);
                self.put(body, offset, length);
            }
        }
        set_image_lsn(image, self.number);
    }

    fn put(&self, body: &mut [u8], offset: usize, length: usize) {
        body[offset..offset + length].copy_from_slice(&self.payload[..length]);
    }
}
