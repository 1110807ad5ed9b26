//! Page images: 0-1 page, 2-3 zero, 4-7 page lsn, 8-251 body, 252-255 checksum.

use crate::store::bytes::{put_u16, put_u32, u16_at, u32_at};
use crate::store::geometry::IMAGE_LEN;
use crate::store::heading::Heading;
use std::ops::Range;

pub const BODY: Range<usize> = 8..252;
pub const BODY_LEN: usize = BODY.end - BODY.start;
pub const CHECKSUM: Range<usize> = 252..256;

pub type Image = [u8; IMAGE_LEN];

/// An image of `page` with lsn, body and checksum zero.
pub fn blank_image(page: u16) -> Image {
    let mut image = [0; IMAGE_LEN];
    put_u16(&mut image, 0, page);
    image
}

/// The page log number.
pub fn image_lsn(image: &[u8]) -> u32 {
    u32_at(image, 4)
}

pub fn set_image_lsn(image: &mut [u8], lsn: u32) {
    put_u32(image, 4, lsn);
}

pub fn image_page(image: &[u8]) -> u16 {
    u16_at(image, 0)
}

/// Whether an image passes as one of `page`.
pub fn passes(heading: Heading, image: &[u8], page: u16) -> bool {
    heading.image_sealed(image) && image_page(image) == page && u16_at(image, 2) == 0
}

/// An image as a frame holds it: checksum bytes zero.
pub fn as_frame(stored: &[u8]) -> Image {
    let mut image = copy(stored);
    image[CHECKSUM].fill(0);
    image
}

/// An image as the volume holds it: checksum set.
pub fn as_stored(heading: Heading, frame: &[u8]) -> Image {
    let mut image = copy(frame);
    heading.seal_image(&mut image);
    image
}

fn copy(bytes: &[u8]) -> Image {
    let mut image = [0; IMAGE_LEN];
    image.copy_from_slice(bytes);
    image
}
