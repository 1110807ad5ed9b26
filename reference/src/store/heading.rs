//! The four bytes that a volume starts with, and the sum that they ask of its images.

use crate::store::bytes::{byte_checksum, checksum, put_u32, u32_at};

pub const HEADING_LEN: usize = 4;

#[derive(Clone, Copy, Debug, PartialEq, Eq)]
pub enum Heading {
    /// Images sum 16-bit words.
    First,
    /// From the first to the second: images pass by either sum, new ones get the byte sum.
    Carrying,
    /// Images sum single bytes.
    Second,
}

impl Heading {
    pub const ALL: [Heading; 3] = [Heading::First, Heading::Carrying, Heading::Second];
    /// Those that Make writes.
    pub const MADE: [Heading; 2] = [Heading::First, Heading::Second];

    pub fn bytes(self) -> [u8; HEADING_LEN] {
        let last = match self {
            Heading::First => 0x56,
            Heading::Carrying => 0x43,
            Heading::Second => 0x32,
        };
        [0x43, 0x48, 0x50, last]
    }

    /// The heading of a volume; None if it has none that is known.
    pub fn read(volume: &[u8]) -> Option<Heading> {
        Heading::ALL.into_iter().find(|heading| volume.starts_with(&heading.bytes()))
    }

    /// Whether an image's last four bytes hold a sum that the heading takes.
    pub fn image_sealed(self, image: &[u8]) -> bool {
        match self {
            Heading::First => sealed_by_words(image),
            Heading::Carrying => sealed_by_words(image) || sealed_by_bytes(image),
            Heading::Second => sealed_by_bytes(image),
        }
    }

    /// Sets an image's last four bytes.
    pub fn seal_image(self, image: &mut [u8]) {
        let at = image.len() - 4;
        let sum = match self {
            Heading::First => checksum(&image[..at]),
            Heading::Carrying | Heading::Second => byte_checksum(&image[..at]),
        };
        put_u32(image, at, sum);
    }
}

pub fn sealed_by_words(image: &[u8]) -> bool {
    let at = image.len() - 4;
    checksum(&image[..at]) == u32_at(image, at)
}

pub fn sealed_by_bytes(image: &[u8]) -> bool {
    let at = image.len() - 4;
    byte_checksum(&image[..at]) == u32_at(image, at)
}
