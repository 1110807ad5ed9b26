//! Document 01's cases K1 to K12 and its example of the program's output, under both headings.

mod common;

use common::*;
use reference::store::answer::{Answer, Class, Rebuild, Refusal, Start};
use reference::store::bytes::{byte_checksum, checksum};
use reference::store::calls::{inspect, make, restart};
use reference::store::heading::Heading;
use reference::store::note::NoteKind;
use reference::store::record::{Change, Record};
use reference::store::scan::scan;

/// Inspects page 1 and, where it is rebuilt, checks the image against `lsn`'s.
fn inspect_first(volume: &[u8], lsn: u32) -> Answer {
    let mut buffer = [0; 256];
    let answer = inspect(volume, 1, &mut buffer);
    if let Answer::Rebuilt(_) = answer {
        assert_eq!(buffer, image(heading_of(volume), 1, lsn));
    }
    answer
}

fn rebuilt(class: Class, start: Start, replayed: usize) -> Answer {
    Answer::Rebuilt(Rebuild { class, start, replayed })
}

/// A Restart and a Load of page 1 must answer and repair as Inspect does.
fn load_first(volume: &[u8], lsn: u32) -> Answer {
    let mut memory = vec![0; 1_280];
    let (state, answer) = restart(volume, &mut memory);
    assert_eq!(answer, Answer::Done);
    let (state, answer) = state.load(volume, &mut memory, 1, 1);
    assert_eq!(memory[1_024..1_276], image(heading_of(volume), 1, lsn)[..252]);
    assert_eq!(memory[1_276..], [0; 4]);
    let Answer::Rebuilt(rebuild) = answer else { panic!("{answer}") };
    assert_eq!(state.frames[0].dirty, rebuild.class != Class::Good);
    answer
}

fn expect(volume: &[u8], lsn: u32, answer: Answer) {
    assert_eq!(inspect_first(volume, lsn), answer);
    assert_eq!(load_first(volume, lsn), answer);
}

#[test]
fn k1_checksum_of_two_words() {
    assert_eq!(checksum(&[1, 0, 2, 0]), 393_220);
    assert_eq!(byte_checksum(&[1, 0, 2, 0]), 786_436);
}

#[test]
fn k2_zero_image_fails() {
    assert_eq!(checksum(&[0; 252]), 8_257_537);
    assert_eq!(byte_checksum(&[0; 252]), 16_515_073);
    for heading in Heading::ALL {
        assert!(!heading.image_sealed(&[0; 256]));
        assert!(!heading.image_sealed(&[0xFF; 256]));
    }
}

#[test]
fn k3_slide_twice() {
    let change = Change::Slide { offset: 0, length: 1 };
    let slide = Record { number: 1, previous: 0, page: 1, change, payload: [0x41; 44] };
    let mut image = [0; 256];
    slide.apply(&mut image);
    slide.apply(&mut image);
    assert_eq!(image[8..11], [0x41, 0x41, 0]);
}

#[test]
fn k4_put_at_the_end_of_the_body() {
    for heading in Heading::ALL {
        let volume = made(heading);
        let mut memory = vec![0; 1_280];
        let (state, _) = restart(&volume, &mut memory);
        let (state, _) = state.begin(&volume, &mut memory, 1, 1, 0);
        let put = |offset| Change::Put { offset, length: 44 };
        let (_, answer) = state.change(&volume, &mut memory, 1, put(201), [9; 44]);
        assert_eq!(answer, Answer::Refused(Refusal::ChangeRule));
        let (_, answer) = state.change(&volume, &mut memory, 1, put(200), [9; 44]);
        assert_eq!(answer, Answer::Done);
        assert_eq!(memory[1_024 + 207..1_024 + 254], [&[0][..], &[9; 44], &[0; 2]].concat());
    }
}

#[test]
fn k5_length_of_a_volume() {
    for heading in Heading::ALL {
        let mut volume = vec![0; 1_108];
        assert_eq!(make(&mut volume[..1_107], heading, COUNTS), Answer::Refused(Refusal::Volume));
        assert_eq!(make(&mut volume, heading, COUNTS), Answer::Done);
        let mut memory = vec![0; 1_280];
        assert_eq!(restart(&volume, &mut memory).1, Answer::Done);
        let answer = restart(&volume[..1_107], &mut memory).1;
        assert_eq!(answer, Answer::Refused(Refusal::Volume));
    }
}

#[test]
fn k6_image_behind() {
    for heading in Heading::ALL {
        let mut volume = with_log(heading);
        set_page(&mut volume, 1, 1);
        expect(&volume, 3, rebuilt(Class::Behind, Start::Own, 1));
    }
}

#[test]
fn k7_image_stale() {
    for heading in Heading::ALL {
        let mut volume = with_log(heading);
        set_page(&mut volume, 1, 1);
        set_note(&mut volume, NoteKind::Written, 3);
        expect(&volume, 3, rebuilt(Class::Stale, Start::Own, 1));
    }
}

#[test]
fn image_at_the_written_number_is_behind() {
    for heading in Heading::ALL {
        let mut volume = with_log(heading);
        set_page(&mut volume, 1, 1);
        set_note(&mut volume, NoteKind::Written, 1);
        expect(&volume, 3, rebuilt(Class::Behind, Start::Own, 1));
    }
}

#[test]
fn k8_start_at_the_backup() {
    for heading in Heading::ALL {
        let mut volume = with_log(heading);
        set_slot(&mut volume, 3);
        set_note(&mut volume, NoteKind::BackedUp, 3);
        expect(&volume, 3, rebuilt(Class::Failed, Start::Backup, 0));
    }
}

#[test]
fn k9_start_at_the_format() {
    for heading in Heading::ALL {
        expect(&with_log(heading), 3, rebuilt(Class::Failed, Start::Format, 2));
    }
}

#[test]
fn k10_image_above_the_log() {
    for heading in Heading::ALL {
        let mut volume = with_log(heading);
        set_page(&mut volume, 1, 4);
        expect(&volume, 3, rebuilt(Class::Ahead, Start::Format, 2));
        assert_eq!(scan(&volume), "1 AHEAD FORMAT 2\n2 FAILED FORMAT 1\n");
    }
}

#[test]
fn ahead_with_a_backup() {
    for heading in Heading::ALL {
        let mut volume = with_log(heading);
        set_page(&mut volume, 1, 5);
        set_slot(&mut volume, 3);
        set_note(&mut volume, NoteKind::BackedUp, 3);
        expect(&volume, 3, rebuilt(Class::Ahead, Start::Backup, 0));
    }
}

/// Equal logs, one own image damaged: the bodies are the same, the answers are not.
#[test]
fn mended_and_healthy_differ_in_the_answer_only() {
    for heading in Heading::ALL {
        let mut healthy = with_log(heading);
        set_page(&mut healthy, 2, 2);
        let mut mended = healthy.clone();
        mended[geometry().page(2).start + 9] ^= 1;
        let look = |volume: &[u8]| {
            let mut buffer = [0; 256];
            (inspect(volume, 2, &mut buffer), buffer)
        };
        assert_eq!(look(&healthy).1, look(&mended).1);
        assert_eq!(look(&healthy).0, rebuilt(Class::Good, Start::Own, 0));
        assert_eq!(look(&mended).0, rebuilt(Class::Failed, Start::Format, 1));
    }
}

#[test]
fn k11_torn_record() {
    for heading in Heading::ALL {
        let mut volume = with_log(heading);
        let mut torn = record(3);
        torn[60] ^= 1;
        set_record(&mut volume, 3, &torn);
        set_page(&mut volume, 1, 1);
        expect(&volume, 1, rebuilt(Class::Good, Start::Own, 0));
    }
}

#[test]
fn k12_bytes_after_a_torn_record() {
    for heading in Heading::ALL {
        let mut volume = with_log(heading);
        let mut torn = record(3);
        torn[60] ^= 1;
        set_record(&mut volume, 3, &torn);
        let mut late = [0; 64];
        late[63] = 1;
        set_record(&mut volume, 4, &late);
        assert_eq!(inspect_first(&volume, 1), Answer::Refused(Refusal::LogBroken));
        let mut memory = vec![7; 1_280];
        let (state, answer) = restart(&volume, &mut memory);
        assert_eq!(answer, Answer::Refused(Refusal::LogBroken));
        assert_eq!(state, reference::store::state::State::zero());
        assert_eq!(memory, vec![7; 1_280]);
    }
}

#[test]
fn example_output() {
    for heading in Heading::ALL {
        let mut volume = with_log(heading);
        set_page(&mut volume, 1, 1);
        set_page(&mut volume, 2, 2);
        assert_eq!(scan(&volume), "1 BEHIND OWN 1\n2 GOOD OWN 0\n");
    }
}

#[test]
fn scan_of_blank_and_refused_volumes() {
    for heading in Heading::ALL {
        let mut volume = made(heading);
        set_record(&mut volume, 1, &record(1));
        assert_eq!(scan(&volume), "1 FAILED FORMAT 1\n2 BLANK\n");
        set_record(&mut volume, 4, &record(1));
        assert_eq!(scan(&volume), "REFUSED 17\n");
        assert_eq!(scan(&volume[1..]), "REFUSED 1\n");
        assert_eq!(scan(&[]), "REFUSED 1\n");
        assert_eq!(scan(&[0; 32_769]), "REFUSED 1\n");
    }
}
