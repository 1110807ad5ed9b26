//! Search for one compact script in which every call gives every answer it can give, with
//! every cause of a refusal.

use crate::checks::coverage::{hits, sought, Hit};
use crate::generators::arbitrary::one_bench;
use crate::generators::history::{choose_geometry, choose_ring, one_history};
use crate::generators::rng::Rng;
use crate::script::cell::{Cell, MAX_CELLS};
use crate::script::recorder::Script;
use crate::store::geometry::Geometry;
use crate::store::heading::Heading;
use std::collections::BTreeSet;

/// Cells of a candidate piece.
const PIECE: usize = 110;
/// How many new answers a piece must bring to be taken, and for how many tries.
const ROUNDS: [(usize, usize); 6] =
    [(25, 100), (15, 100), (8, 200), (4, 400), (2, 800), (1, 6_000)];

/// The script, on rings or on volumes that don't turn, and the answers that it does not reach.
pub fn mixed_script(rng: &mut Rng, cells: usize, ring: bool) -> (Vec<Cell>, BTreeSet<Hit>) {
    let most = cells.min(MAX_CELLS);
    let mut missing = sought(if ring { "turning" } else { "mixed" }).unwrap_or_default();
    let mut all = full_size_piece(rng, ring);
    remove(&mut missing, &all);
    for (gain, tries) in ROUNDS {
        for _ in 0..tries {
            if missing.is_empty() {
                break;
            }
            let piece = piece(rng, ring);
            if hits(&piece).intersection(&missing).count() < gain {
                continue;
            }
            let piece = shortest_with_same_hits(piece, &missing);
            if all.len() + piece.len() <= most {
                remove(&mut missing, &piece);
                all.extend(piece);
            }
        }
    }
    (all, missing)
}

fn remove(missing: &mut BTreeSet<Hit>, piece: &[Cell]) {
    hits(piece).iter().for_each(|hit| _ = missing.remove(hit));
}

/// A piece that stands by itself: it brings the driver to zero first.
fn piece(rng: &mut Rng, ring: bool) -> Vec<Cell> {
    let geometry = loop {
        let geometry = match ring && rng.chance(600) {
            true => choose_ring(rng),
            false => choose_geometry(rng),
        };
        if geometry.pages <= 8 && geometry.is_ring() == ring {
            break geometry;
        }
    };
    let script = match rng.chance(400) {
        true => one_history(Script::default(), geometry, PIECE, rng),
        false => one_bench(Script::default(), geometry, PIECE, rng),
    };
    script.cells
}

/// A piece of the largest geometry, 131,092 bytes.
fn full_size_piece(rng: &mut Rng, ring: bool) -> Vec<Cell> {
    let heading = if ring { Heading::Second } else { Heading::First };
    let geometry = Geometry::new(heading, [64, 128, 1024, 1024]).expect("the counts are in range");
    one_history(Script::default(), geometry, 2 * PIECE, rng).cells
}

/// Drops the cells after the last one that reaches something missing.
fn shortest_with_same_hits(mut piece: Vec<Cell>, missing: &BTreeSet<Hit>) -> Vec<Cell> {
    let wanted: BTreeSet<Hit> = hits(&piece).intersection(missing).cloned().collect();
    let (mut low, mut high) = (0, piece.len());
    while low < high {
        let middle = (low + high) / 2;
        match wanted.is_subset(&hits(&piece[..middle])) {
            true => high = middle,
            false => low = middle + 1,
        }
    }
    piece.truncate(high);
    piece
}
