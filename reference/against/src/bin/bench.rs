//! Times the proved code and the second implementation on the same inputs, in one run.
//! `bench [--rounds N]`; prints the best round of each, in nanoseconds for one operation.

use against::{full, proved};
use reference::store::answer::Answer;
use reference::script::args::value;
use reference::store::bytes::{byte_checksum, checksum};
use reference::store::calls::{inspect, make, restart};
use reference::store::geometry::Geometry;
use reference::store::heading::Heading;
use reference::store::record::Change;
use reference::generators::rng::Rng;
use std::hint::black_box;
use std::time::{Duration, Instant};

/// Rounds that are run and not counted. A round is short, so that the best one ran undisturbed.
const WARM_UP: usize = 3;
/// Pages of the volume on which the cycles run: one cycle for each.
const CYCLE_PAGES: u32 = 64;
/// A page that has a chain on every full volume.
const PAGE: u16 = 3;

fn main() {
    let rounds: usize = value("--rounds", 1500);
    println!("load average at the start: {}", load());
    println!(
        "{:44} {:>10} {:>12} {:>6}",
        "ns an operation, best of the rounds", "proved", "reference", "ratio"
    );
    sums("checksum of 252 bytes", proved::checksum, checksum, rounds);
    sums("byte sum of 252 bytes", proved::byte_checksum, byte_checksum, rounds);
    let [small, middle, large] = [64, 256, 1024].map(|records| inspections(records, rounds));
    cycles(rounds);
    let [step, end] = [middle - small, large - middle];
    println!(
        "inspection, proved: {:.1} ns a record from L 64 to 256, {:.1} from 256 to 1,024",
        step / 192.0,
        end / 768.0
    );
    println!("load average at the end: {}", load());
}

fn load() -> String {
    std::fs::read_to_string("/proc/loadavg").unwrap_or("unknown".into()).trim().to_string()
}

/// The best time of one operation for each side, the two in turns.
fn best(
    rounds: usize,
    operations: u32,
    mut ours: impl FnMut() -> Duration,
    mut other: impl FnMut() -> Duration,
) -> [f64; 2] {
    let mut least = [Duration::MAX; 2];
    for round in 0..WARM_UP + rounds {
        let taken = [ours(), other()];
        if round >= WARM_UP {
            least = [least[0].min(taken[0]), least[1].min(taken[1])];
        }
    }
    least.map(|time| time.as_nanos() as f64 / f64::from(operations))
}

fn report(name: &str, [ours, other]: [f64; 2]) {
    println!("{name:44} {ours:10.1} {other:12.1} {:6.2}", ours / other);
}

/// The time of so many runs.
fn timed(runs: u32, mut run: impl FnMut()) -> Duration {
    let start = Instant::now();
    for _ in 0..runs {
        run();
    }
    start.elapsed()
}

/// (a) A sum of an image's 252 bytes, which stay in the cache.
fn sums(name: &str, ours: fn(&[u8]) -> u32, other: fn(&[u8]) -> u32, rounds: usize) {
    const RUNS: u32 = 1_000;
    let mut part = [0; 252];
    Rng::new(1).fill(&mut part);
    assert_eq!(ours(&part), other(&part));
    let times = best(
        rounds,
        RUNS,
        || timed(RUNS, || _ = black_box(ours(black_box(&part)))),
        || timed(RUNS, || _ = black_box(other(black_box(&part)))),
    );
    report(name, times);
}

/// (b) Inspection of a page with a chain of 16, log and notes full. The buffer is not cleared
/// between calls.
fn inspections(records: u32, rounds: usize) -> f64 {
    const RUNS: u32 = 4;
    let volume = full::volume(&full::geometry(Heading::Second, records));
    let (mut ours, mut other) = ([0; 256], [0; 256]);
    assert_eq!(proved::inspect(&volume, PAGE.into(), &mut ours), 0);
    let answer = inspect(&volume, PAGE, &mut other);
    assert!(matches!(answer, Answer::Rebuilt(rebuild) if rebuild.replayed == full::CHAIN));
    assert_eq!(ours, other);
    let times = best(
        rounds,
        RUNS,
        || {
            timed(RUNS, || {
                _ = black_box(proved::inspect(black_box(&volume), PAGE.into(), &mut ours))
            })
        },
        || timed(RUNS, || _ = black_box(inspect(black_box(&volume), PAGE, &mut other))),
    );
    report(&format!("inspection, chain of 16, L {records}, N 1,024"), times);
    times[0]
}

/// (c) A cycle: Begin, Change, Force twice, Write, Note, and Load of the page before. Each
/// round starts on a made volume and a cleared memory, which are set outside the time.
fn cycles(rounds: usize) {
    let geometry = Geometry::new(Heading::Second, [CYCLE_PAGES, 0, 2 * CYCLE_PAGES, CYCLE_PAGES])
        .expect("in range");
    let mut made = vec![0; geometry.volume_len()];
    make(&mut made, geometry.heading, geometry.counts());
    let mut both = [(made.clone(), vec![0; 1536]), (made.clone(), vec![0; 1536])];
    let [ours, other] = &mut both;
    let fresh = |(volume, memory): &mut (Vec<u8>, Vec<u8>)| {
        volume.copy_from_slice(&made);
        memory.fill(0);
    };
    let (mut refused, mut refused_too) = (0, 0);
    let times = best(
        rounds,
        CYCLE_PAGES,
        || {
            fresh(ours);
            timed(1, || refused = proved::cycles(&mut ours.0, &mut ours.1, CYCLE_PAGES))
        },
        || {
            fresh(other);
            timed(1, || refused_too = play(&mut other.0, &mut other.1, CYCLE_PAGES))
        },
    );
    assert_eq!((refused, refused_too), (1, 1), "only the first cycle's Load has no page");
    assert_eq!(both[0], both[1], "the two left other bytes");
    report("cycle of seven calls on a fresh volume", times);
}

/// The cycles of the proved library, by the second implementation's calls.
fn play(volume: &mut [u8], memory: &mut [u8], count: u32) -> u32 {
    let put = Change::Put { offset: 100, length: 44 };
    let mut refused = 0;
    let mut count_in = |answer: Answer| refused += u32::from(answer.is_refused());
    let (mut state, answer) = restart(volume, memory);
    count_in(answer);
    for page in 1..=count as u16 {
        let (begun, answer) = state.begin(volume, memory, page, 1, 7);
        count_in(answer);
        let (changed, answer) = begun.change(volume, memory, page, put, [9; 44]);
        count_in(answer);
        let (first, answer) = changed.force(volume, memory);
        count_in(answer);
        let (second, answer) = first.force(volume, memory);
        count_in(answer);
        let (written, answer) = second.write(volume, memory, page);
        count_in(answer);
        let (noted, answer) = written.note(volume, memory);
        count_in(answer);
        let (loaded, answer) = noted.load(volume, memory, page - 1, 2);
        count_in(answer);
        state = loaded;
    }
    refused
}
