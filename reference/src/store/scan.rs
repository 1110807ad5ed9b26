//! Document 01's program: a line for each page of a volume.

use crate::store::answer::{Answer, Refusal};
use crate::store::calls::inspect;
use crate::store::geometry::{Geometry, IMAGE_LEN};

/// The program takes no longer volume.
pub const MAX_VOLUME: usize = 32_768;

/// What the program prints for a volume.
pub fn scan(volume: &[u8]) -> String {
    let refused = |refusal| format!("{}\n", Answer::Refused(refusal));
    let geometry = match Geometry::read(volume) {
        Ok(geometry) if volume.len() <= MAX_VOLUME => geometry,
        _ => return refused(Refusal::Volume),
    };
    let mut text = String::new();
    for page in 1..=geometry.pages as u16 {
        let mut buffer = [0; IMAGE_LEN];
        match inspect(volume, page, &mut buffer) {
            Answer::Refused(Refusal::Blank) => text += &format!("{page} BLANK\n"),
            // One page that is lost must not hide the others.
            answer @ Answer::Refused(Refusal::BelowRun) => text += &format!("{page} {answer}\n"),
            Answer::Refused(refusal) => return refused(refusal),
            answer => text += &format!("{page} {answer}\n"),
        }
    }
    text
}
