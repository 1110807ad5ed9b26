//! Generators and the abstract log, briefly: determinism, cell limits, no contradiction, no panic.

use reference::checks::coverage::{hits, sought};
use reference::checks::histories::check_history;
use reference::generators::arbitrary::arbitrary_script;
use reference::generators::history::{history_script, ring_script};
use reference::generators::reading::{
    carrying_script, mirror_script, reading_script, rehearse_script,
};
use reference::generators::rng::Rng;
use reference::generators::upkeep_episodes::upkeep_script;
use reference::script::cell::Cell;
use reference::script::driver::drive;
use std::collections::BTreeSet;

#[test]
fn histories_agree_with_the_abstract_log() {
    for seed in 0..25 {
        if let Err(text) = check_history(seed) {
            panic!("seed {seed}: {text}");
        }
    }
}

#[test]
fn a_seed_gives_one_script() {
    let history = |seed| history_script(&mut Rng::new(seed), 300);
    let arbitrary = |seed| arbitrary_script(&mut Rng::new(seed), 300);
    assert_eq!(history(4), history(4));
    assert_eq!(arbitrary(4), arbitrary(4));
    assert_ne!(history(4), history(5));
    assert_eq!((history(4).len(), arbitrary(4).len()), (300, 300));
}

#[test]
fn scripts_give_only_answers_that_the_table_knows() {
    let mut reached = BTreeSet::new();
    for seed in 0..6 {
        reached.extend(hits(&arbitrary_script(&mut Rng::new(seed), 1_000)));
        reached.extend(hits(&history_script(&mut Rng::new(seed), 1_000)));
        reached.extend(hits(&ring_script(&mut Rng::new(seed), 1_000)));
    }
    let kinds = ["mixed", "turning", "reading", "mirror", "rehearse", "carrying", "upkeep"];
    let known: BTreeSet<_> = kinds.into_iter().flat_map(sought).flatten().collect();
    let unknown: Vec<_> = reached.difference(&known).collect();
    assert!(unknown.is_empty(), "{unknown:?}");
}

/// What eight scripts of a kind miss of what they are for.
fn left_out(kind: &str, script: fn(&mut Rng, usize) -> Vec<Cell>) {
    let mut missing = sought(kind).unwrap();
    for seed in 0..8 {
        let reached = hits(&script(&mut Rng::new(seed), 2_000));
        missing = missing.difference(&reached).cloned().collect();
    }
    assert!(missing.is_empty(), "{missing:?}");
}

#[test]
fn upkeep_scripts_reach_all_that_they_are_for() {
    left_out("upkeep", upkeep_script);
}

#[test]
fn reading_scripts_reach_all_that_they_are_for() {
    left_out("reading", reading_script);
}

#[test]
fn mirror_scripts_reach_all_that_they_are_for() {
    left_out("mirror", mirror_script);
}

#[test]
fn rehearse_scripts_reach_all_that_they_are_for() {
    left_out("rehearse", rehearse_script);
}

#[test]
fn carrying_scripts_reach_all_that_they_are_for() {
    left_out("carrying", carrying_script);
}

#[test]
fn random_cells_never_panic() {
    let mut rng = Rng::new(11);
    for _ in 0..20 {
        let mut script = vec![0; 64 * 300];
        rng.fill(&mut script);
        for cell in script.chunks_mut(64) {
            cell[0] = rng.between(0, 31) as u8;
            for at in [3, 5, 13, 14, 15, 61, 62, 63] {
                cell[at] = if rng.chance(800) { 0 } else { cell[at] };
            }
        }
        drive(&script, &mut Vec::new()).unwrap();
    }
}
