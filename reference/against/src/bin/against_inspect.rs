//! Holds the proved inspection, called as C calls it, against the second implementation's, on
//! valid, damaged and arbitrary volumes: the same number and the same buffer.
//! `against_inspect [--seed N] [--scripts N]`; exits 1 at the first difference.

use against::{full, proved};
use reference::store::answer::Answer;
use reference::generators::arbitrary::arbitrary_script;
use reference::script::args::value;
use reference::store::bytes::put_u32;
use reference::store::calls::inspect;
use reference::script::cell::decode;
use reference::script::driver::Driver;
use reference::store::geometry::Geometry;
use reference::store::heading::Heading;
use reference::generators::history::{choose_geometry, history_script, ring_script};
use reference::generators::mutate::{edit_image, edit_note, edit_record, seal_item};
use reference::generators::rng::Rng;
use std::collections::BTreeMap;
use std::process::ExitCode;

/// The answers that inspection can give.
const ANSWERS: [u32; 8] = [0, 1, 2, 3, 7, 17, 18, 23];
const CELLS: usize = 600;
/// Cells of a script between two looks at its volume.
const STRIDE: usize = 5;
/// Pages looked at, of a volume with more.
const PAGES: usize = 6;

struct Tally {
    volumes: usize,
    largest: usize,
    answers: BTreeMap<u32, usize>,
    different: bool,
}

fn main() -> ExitCode {
    let seed = value("--seed", 1);
    let scripts: usize = value("--scripts", 100);
    let mut rng = Rng::new(seed);
    let mut tally = Tally { volumes: 0, largest: 0, answers: BTreeMap::new(), different: false };
    for length in 0..48 {
        tally.look(&noise(length, &mut rng), &mut rng, PAGES);
    }
    for _ in 0..scripts {
        let generator = rng.pick(&[history_script, ring_script, arbitrary_script]);
        played(&generator(&mut rng, CELLS), &mut tally, &mut rng);
        garbage(&mut tally, &mut rng);
    }
    for (records, heading) in
        [(64, Heading::First), (256, Heading::Second), (1024, Heading::Second)]
    {
        full_volumes(&full::geometry(heading, records), scripts, &mut tally, &mut rng);
    }
    let calls: usize = tally.answers.values().sum();
    println!(
        "seed {seed}: {} volumes of up to {} bytes, {calls} calls",
        tally.volumes, tally.largest
    );
    for answer in ANSWERS {
        println!("{:9} answered {answer}", tally.answers.get(&answer).unwrap_or(&0));
    }
    let missed = ANSWERS.iter().any(|answer| !tally.answers.contains_key(answer));
    if missed {
        println!("an answer was not reached");
    }
    match tally.different || missed {
        true => ExitCode::FAILURE,
        false => ExitCode::SUCCESS,
    }
}

/// The volumes that a script goes through.
fn played(script: &[reference::script::cell::Cell], tally: &mut Tally, rng: &mut Rng) {
    let mut driver = Driver::default();
    for (at, cell) in script.iter().enumerate() {
        driver.run(&decode(cell));
        if at % STRIDE == 0 {
            tally.look(driver.volume(), rng, PAGES);
        }
    }
}

/// Random bytes behind a right heading and right counts.
fn garbage(tally: &mut Tally, rng: &mut Rng) {
    let geometry = choose_geometry(rng);
    let mut volume = noise(geometry.volume_len(), rng);
    for range in [geometry.record(1), geometry.note(1)] {
        if rng.chance(500) && range.end <= volume.len() {
            volume[range.clone()].fill(0);
        }
    }
    let mut empty = volume.clone();
    geometry.format(&mut empty);
    volume[..4].copy_from_slice(&geometry.heading.bytes());
    for at in
        [4, geometry.slot(1).start - 4, geometry.record(1).start - 4, geometry.note(1).start - 4]
    {
        volume[at..at + 4].copy_from_slice(&empty[at..at + 4]);
    }
    tally.look(&volume, rng, PAGES);
    tally.look(&empty, rng, PAGES);
}

/// The full volume, and copies of it with a few items edited, or cut, or with another count.
fn full_volumes(geometry: &Geometry, count: usize, tally: &mut Tally, rng: &mut Rng) {
    let whole = full::volume(geometry);
    tally.look(&whole, rng, geometry.pages);
    for _ in 0..count {
        let mut volume = whole.clone();
        for _ in 0..rng.between(1, 3) {
            edit(&mut volume, geometry, rng);
        }
        tally.look(&volume, rng, PAGES);
    }
    tally.look(&whole[..whole.len() - 1], rng, PAGES);
    let mut other = whole.clone();
    put_u32(&mut other, 4, 65);
    tally.look(&other, rng, PAGES);
}

/// One field of one item, mostly with its checksum set anew; or the end of a section torn off.
fn edit(volume: &mut [u8], geometry: &Geometry, rng: &mut Rng) {
    let durable = geometry.records as u32;
    let place = match rng.below(6) {
        0 => geometry.page(rng.between(1, geometry.pages)),
        1 => geometry.slot(rng.between(1, geometry.slots)),
        2 => geometry.record(rng.between(1, geometry.records)),
        3 => geometry.note(rng.between(1, geometry.notes)),
        // The last items: then the log or the notes end earlier.
        4 => return volume[geometry.record(geometry.records)].fill(0),
        _ => return volume[geometry.note(geometry.notes)].fill(rng.byte()),
    };
    let item = &mut volume[place];
    match item.len() {
        64 => edit_record(item, geometry, rng),
        16 => edit_note(item, geometry, durable, rng),
        _ => edit_image(item, geometry, durable, rng),
    }
    if rng.chance(800) {
        seal_item(item, geometry.heading, rng);
    }
}

fn noise(length: usize, rng: &mut Rng) -> Vec<u8> {
    let mut bytes = vec![0; length];
    rng.fill(&mut bytes);
    bytes
}

impl Tally {
    /// Compares on one volume: some of its pages, those outside it, and buffers of other lengths.
    fn look(&mut self, volume: &[u8], rng: &mut Rng, most: usize) {
        self.volumes += 1;
        self.largest = self.largest.max(volume.len());
        let pages = Geometry::read(volume).map_or(2, |geometry| geometry.pages) as u32;
        let inside: Vec<u32> = match pages as usize <= most {
            true => (1..=pages).collect(),
            false => (0..most).map(|_| rng.between(1, pages as usize) as u32).collect(),
        };
        let outside = [0, pages + 1, 65_537, u32::MAX];
        for page in inside.into_iter().chain(outside) {
            self.compare(volume, page, 256);
        }
        for length in [0, 255, 257] {
            self.compare(volume, rng.pick(&[0, 1, pages, pages + 1]), length);
        }
    }

    fn compare(&mut self, volume: &[u8], page: u32, length: usize) {
        let fill = page as u8 ^ 0xA5;
        let (mut ours, mut other) = (vec![fill; length], vec![fill; length]);
        let number = proved::inspect(volume, page, &mut ours);
        // The second implementation takes pages of 16 bits; any past 64 are alike.
        let answer = inspect(volume, u16::try_from(page).unwrap_or(u16::MAX), &mut other);
        let expected = match answer {
            Answer::Refused(refusal) => u32::from(refusal.number()),
            _ => 0,
        };
        *self.answers.entry(number).or_default() += 1;
        if (number, &ours) != (expected, &other) && !self.different {
            self.different = true;
            println!(
                "DIFFERENT: volume of {} bytes, page {page}, buffer of {length}",
                volume.len()
            );
            println!("proved {number}, reference {expected}");
            if let Some(at) = (0..length).find(|&at| ours[at] != other[at]) {
                println!("first other byte at {at}: {} and {}", ours[at], other[at]);
            }
            let saved = std::env::temp_dir().join("against_inspect.vol");
            if std::fs::write(&saved, volume).is_ok() {
                println!("volume saved in {}", saved.display());
            }
        }
    }
}
