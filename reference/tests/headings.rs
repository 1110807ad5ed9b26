//! The second heading: which sum images have, and what a change within one word comes to.

mod common;

use common::*;
use reference::store::answer::{Answer, Refusal};
use reference::store::bytes::{byte_checksum, checksum, is_sealed, seal};
use reference::store::calls::{inspect, make, restart};
use reference::store::heading::Heading;

#[test]
fn make_writes_the_heading_it_is_asked_for() {
    let lasts = [(Heading::First, 0x56), (Heading::Carrying, 0x43), (Heading::Second, 0x32)];
    for (heading, last) in lasts {
        assert_eq!(made(heading)[..4], [0x43, 0x48, 0x50, last]);
    }
    let mut volume = vec![9; 1_107];
    let answer = make(&mut volume, Heading::Second, COUNTS);
    assert_eq!(answer, Answer::Refused(Refusal::Volume));
    assert_eq!(volume, vec![9; 1_107]);
}

#[test]
fn an_unknown_heading_is_refused() {
    for byte in [0x00, 0x31, 0x33, 0x57, 0xFF] {
        let mut volume = made(Heading::Second);
        volume[3] = byte;
        let answer = restart(&volume, &mut [0; 1_280]).1;
        assert_eq!(answer, Answer::Refused(Refusal::Volume));
    }
}

/// The first and the second heading take their own sum only, the third takes both.
#[test]
fn an_image_under_another_heading() {
    for stored in Heading::ALL {
        for read in Heading::ALL {
            let mut volume = with_log(stored);
            set_page(&mut volume, 1, 3);
            volume[..4].copy_from_slice(&read.bytes());
            let by_words = stored == Heading::First;
            let passes = match read {
                Heading::First => by_words,
                Heading::Carrying => true,
                Heading::Second => !by_words,
            };
            let answer = inspect(&volume, 1, &mut [0; 256]).to_string();
            assert_eq!(answer, if passes { "GOOD OWN 0" } else { "FAILED FORMAT 2" });
        }
    }
}

/// Write, Backup and Inspect set the heading's sum; records and notes keep the word sum.
#[test]
fn stored_items_have_the_sum_of_the_heading() {
    for heading in Heading::ALL {
        let mut volume = made(heading);
        let mut memory = vec![0; 1_280];
        let (state, _) = restart(&volume, &mut memory);
        let (state, _) = state.begin(&volume, &mut memory, 1, 1, 7);
        let (state, _) = state.force(&mut volume, &memory);
        let (state, _) = state.write(&mut volume, &memory, 1);
        let (state, _) = state.note(&mut volume, &memory);
        let (_, answer) = state.backup(&mut volume, &memory, 1, 1);
        assert_eq!(answer, Answer::Done);
        let mut lent = [0; 256];
        inspect(&volume, 1, &mut lent);
        let geometry = geometry();
        for image in [&volume[geometry.page(1)], &volume[geometry.slot(1)], &lent] {
            assert!(heading.image_sealed(image));
            assert_eq!(is_sealed(image), heading == Heading::First);
        }
        assert!(is_sealed(&volume[geometry.record(1)]) && is_sealed(&volume[geometry.note(1)]));
    }
}

/// Any two neighbouring bytes of an image, changed in any way that is tried, are caught.
#[test]
fn a_change_within_one_word_is_caught() {
    let sealed = image(Heading::Second, 1, 3);
    for at in 0..251 {
        for (u, w) in [(0, 0), (255, 255), (0, 255), (255, 0), (1, 2), (0x11, 0x12), (254, 1)] {
            let mut changed = sealed;
            (changed[at], changed[at + 1]) = (u, w);
            assert_eq!(Heading::Second.image_sealed(&changed), changed == sealed, "{at} {u} {w}");
        }
    }
}

/// What is not promised: two words that make up for each other, and 0000 for FFFF in words.
#[test]
fn changes_that_a_sum_misses() {
    let mut bytes = [5u8; 252];
    let before = byte_checksum(&bytes);
    (bytes[10], bytes[11], bytes[12]) = (6, 3, 6);
    assert_eq!(byte_checksum(&bytes), before);
    let mut item = [0; 256];
    seal(&mut item);
    (item[20], item[21]) = (255, 255);
    assert!(is_sealed(&item));
    assert_eq!(checksum(&[0, 0]), checksum(&[255, 255]));
    assert_ne!(byte_checksum(&[0, 0]), byte_checksum(&[255, 255]));
}
