//! The script driver: lines, hashes, skipped cells, buffers.

use reference::script::cell::{decode, encode, Call, Cell, Op, Second};
use reference::script::driver::{drive, Driver};
use reference::store::heading::Heading;
use reference::store::record::Change;

fn output(cells: &[Cell]) -> String {
    let mut out = Vec::new();
    drive(&cells.concat(), &mut out).unwrap();
    String::from_utf8(out).unwrap()
}

#[test]
fn lines_and_hashes() {
    let sizes = Op::Sizes { volume: 1_108, memory: 1_280, buffer: 256 };
    let made = Op::Call(Call::Make { heading: Heading::First, counts: [2, 1, 4, 4] });
    let cells = [Op::Call(Call::Force), sizes, made, Op::Skip].map(|op| encode(&op));
    let rest = "m=1439761655 u=1534058852 s=2015357818";
    let expected =
        format!("REFUSED 1 v=7 {rest}\nOK v=409635846 {rest}\nOK v=288778681 {rest}\nSKIP\n");
    assert_eq!(output(&cells), expected);
}

#[test]
fn incomplete_and_surplus_cells_are_ignored() {
    let mut script = vec![0; 64 * 4_100 + 63];
    let mut out = Vec::new();
    drive(&script, &mut out).unwrap();
    assert_eq!(out, b"SKIP\n".repeat(4_096));
    script.truncate(63);
    out.clear();
    drive(&script, &mut out).unwrap();
    assert!(out.is_empty());
}

#[test]
fn ops_survive_encoding() {
    let bytes = [7; 44];
    let change = Change::Slide { offset: 300, length: 9 };
    for op in [
        Op::Call(Call::Make { heading: Heading::First, counts: [1, 2, 3, 4] }),
        Op::Call(Call::Make { heading: Heading::Second, counts: [5, 6, 7, 8] }),
        Op::Call(Call::Begin { page: 1, frame: 515, fill: 3 }),
        Op::Call(Call::Start),
        Op::Call(Call::Restamp),
        Op::Call(Call::Finish),
        Op::Call(Call::Change { page: 9, change, payload: bytes }),
        Op::Call(Call::Backup { page: 2, slot: 260 }),
        Op::Poke { at: 70_000, count: 200, bytes },
        Op::PokeMemory { at: 5, count: 4, bytes },
        Op::SetState { position: 359, value: u32::MAX },
        Op::Fill { target: 2, byte: 9 },
        Op::Second(Second::Volume),
        Op::Second(Second::Lent),
        Op::Second(Second::Length(70_001)),
        Op::PokeSecond { at: 70_000, count: 3, bytes },
        Op::Lose,
        Op::Skip,
    ] {
        assert_eq!(decode(&encode(&op)), op);
    }
}

#[test]
fn change_of_unknown_kind_is_skipped() {
    for kind in [0, 4, 255] {
        let mut cell = [0; 64];
        (cell[0], cell[1]) = (5, kind);
        assert_eq!(decode(&cell), Op::Skip);
    }
}

#[test]
fn pokes_stay_inside_the_buffers() {
    let mut driver = Driver::default();
    let bytes = [5; 44];
    for at in [131_199, 131_200, u32::MAX] {
        assert!(driver.run(&Op::Poke { at, count: 255, bytes }).is_some());
    }
    assert_eq!(driver.volume.iter().filter(|&&byte| byte == 5).count(), 1);
    driver.run(&Op::Poke { at: 0, count: 255, bytes });
    assert_eq!(driver.volume.iter().filter(|&&byte| byte == 5).count(), 45);
    assert!(driver.run(&Op::PokeMemory { at: 5_375, count: 2, bytes }).is_some());
    assert_eq!(driver.memory[5_375], 5);
}

#[test]
fn sizes_are_cut_to_the_buffers() {
    let mut driver = Driver::default();
    driver.run(&Op::Sizes { volume: u32::MAX, memory: u32::MAX, buffer: u32::MAX });
    assert_eq!((driver.volume_len, driver.memory_len, driver.lent_len), (131_200, 5_376, 65_920));
    assert!(driver.run(&Op::Fill { target: 4, byte: 1 }).is_none());
}

#[test]
fn the_second_buffer() {
    let mut driver = Driver::default();
    assert_eq!((driver.second.len(), driver.second_len), (131_200, 0));
    driver.run(&Op::Sizes { volume: 3, memory: 1_280, buffer: 2 });
    for (target, byte) in [(0, 1), (2, 2), (3, 3)] {
        assert!(driver.run(&Op::Fill { target, byte }).is_some());
    }
    driver.run(&Op::Second(Second::Volume));
    assert_eq!((driver.second(), driver.second[3]), (&[1, 1, 1][..], 3));
    driver.run(&Op::Second(Second::Lent));
    assert_eq!((driver.second(), driver.second[2]), (&[2, 2][..], 1));
    driver.run(&Op::PokeSecond { at: 1, count: 2, bytes: [9; 44] });
    assert_eq!(driver.second(), [2, 9]);
    for (length, expected) in [(5, 5), (131_200, 131_200), (u32::MAX, 131_200), (0, 0)] {
        driver.run(&Op::Second(Second::Length(length)));
        assert_eq!(driver.second_len, expected);
    }
    assert_eq!(driver.second[..5], [2, 9, 9, 3, 3]);
    driver.run(&Op::PokeSecond { at: 131_199, count: 44, bytes: [9; 44] });
    assert_eq!(driver.second[131_198..], [3, 9]);
    let mut cell = [0; 64];
    (cell[0], cell[1]) = (27, 3);
    assert_eq!(decode(&cell), Op::Skip);
}

#[test]
fn state_numbers_set_one_by_one() {
    let mut driver = Driver::default();
    let mut set = |position, value| {
        let ran = driver.run(&Op::SetState { position, value }).is_some();
        (ran, driver.state.numbers())
    };
    for (position, value) in [(360, 0), (4, 1), (7, 0), (3, 3), (8, 65_536), (9, 2), (43, 256)] {
        assert_eq!(set(position, value), (false, vec![0; 360]), "{position} {value}");
    }
    set(3, 1);
    for position in 4..8 {
        assert!(set(position, 200).0);
    }
    assert!(!set(6, 256).0);
    assert!(!set(5, 65_536).0);
    assert_eq!(set(3, 2).1[3..8], [2, 200, 200, 200, 200]);
    assert_eq!(set(3, 0).1, vec![0; 360]);
    for position in (0..3).chain(8..360) {
        let (ran, numbers) = set(position, 1);
        assert!(ran && numbers[position as usize] == 1);
    }
}
