//! What upkeep adds: 10,000 changes spread over all pages, one Write for four changes, as
//! backups, writes and refreshing puts of upkeep's for each geometry.

use reference::generators::rng::Rng;
use reference::script::cell::Call;
use reference::store::answer::Answer;
use reference::store::calls::{make, restart};
use reference::store::geometry::{memory_len_for, Geometry};
use reference::store::heading::Heading;
use reference::store::record::Change;
use reference::store::state::State;
use reference::store::upkeep::Advice;

const FRAMES: usize = 4;
const RESERVED: u16 = 4;

struct Store {
    volume: Vec<u8>,
    memory: Vec<u8>,
    state: State,
    /// Calls, backups, writes and puts of upkeep's.
    added: [usize; 4],
    most: usize,
}

impl Store {
    fn call(&mut self, call: Call) -> Answer {
        let (volume, memory) = (&mut self.volume, &mut self.memory);
        let (state, answer) = match call {
            Call::Begin { page, frame, fill } => {
                self.state.begin(volume, memory, page, frame, fill)
            }
            Call::Load { page, frame } => self.state.load(volume, memory, page, frame),
            Call::Change { page, change, payload } => {
                self.state.change(volume, memory, page, change, payload)
            }
            Call::Force => self.state.force(volume, memory),
            Call::Write { page } => self.state.write(volume, memory, page),
            Call::Backup { page, slot } => self.state.backup(volume, memory, page, slot),
            Call::Note => self.state.note(volume, memory),
            other => panic!("{other:?} is none of these"),
        };
        self.state = state;
        assert!(!answer.is_refused(), "{call:?} answers {answer}");
        answer
    }

    fn tidy(&mut self) {
        let mut calls = 0;
        while let Advice::Make(call) =
            self.state.upkeep(&self.volume, &self.memory, RESERVED).expect("a sound store")
        {
            calls += 1;
            self.added[0] += 1;
            match call {
                Call::Backup { .. } => self.added[1] += 1,
                Call::Write { .. } => self.added[2] += 1,
                Call::Change { .. } => self.added[3] += 1,
                _ => {}
            }
            self.call(call);
        }
        self.most = self.most.max(calls);
    }

    /// The page in a frame, and upkeep idle; a page in the reserved frame may have been pushed out.
    fn bring(&mut self, page: u16, frame: u16) {
        self.tidy();
        while self.state.frame_of(page).is_none() {
            self.call(Call::Load { page, frame });
            self.tidy();
        }
    }
}

fn measure(counts: [u32; 4], writes: bool) {
    let geometry = Geometry::new(Heading::Second, counts).expect("the counts are in range");
    let mut volume = vec![0; geometry.volume_len()];
    make(&mut volume, Heading::Second, counts);
    let mut memory = vec![0; memory_len_for(FRAMES)];
    let (state, _) = restart(&volume, &mut memory);
    let mut store = Store { volume, memory, state, added: [0; 4], most: 0 };
    let mut rng = Rng::new(1);
    let mut written = 0;
    for _ in 0..10_000 {
        let page = rng.between(1, counts[0] as usize) as u16;
        let frame = rng.between(1, FRAMES - 1) as u16;
        store.tidy();
        if store.state.entry(page).newest == 0 {
            store.call(Call::Begin { page, frame, fill: 0 });
            continue;
        }
        store.bring(page, frame);
        let change = Change::Put { offset: 0, length: 1 };
        store.call(Call::Change { page, change, payload: [rng.byte(); 44] });
        if writes && rng.below(4) == 0 {
            store.bring(page, frame);
            written += 1;
            store.call(Call::Write { page });
        }
    }
    store.tidy();
    let [p, b, l, n] = counts;
    let [_, backups, writes, puts] = store.added;
    println!(
        "| {p} | {b} | {l} | {n} | {written} | {backups} | {writes} | {puts} | {} |",
        store.most
    );
}

fn main() {
    println!("| P | B | L | N | user's writes | backups | writes | refreshing puts | most calls |");
    println!("|---|---|---|---|---|---|---|---|---|");
    for pages in [8, 16, 32, 64] {
        measure([pages, pages + 1, 8 * pages, 4 * pages], true);
        measure([pages, pages + 1, 16 * pages, 8 * pages], true);
        measure([pages, pages + 1, 8 * pages, 4 * pages], false);
    }
}
