//! Maps and sets.

use super::{Draws, Meter};
use crate::std_shim::alloc::Global;
use crate::std_shim::collections::{BTreeMap, BTreeSet};
use crate::std_shim::vec::Vec as Bytes;
use std::collections;

/// Adds more than it takes out, and then less, by turns, so that chunks are split and go.
fn grows(draws: &mut Draws, round: u64) -> bool {
    draws.below(3) < 1 + u64::from(round / 20_000 % 2 == 0)
}

#[test]
fn a_map_is_that_of_std() {
    for (seed, keys) in [(1, 10), (2, 100), (3, 1_000), (4, 20_000)] {
        let mut draws = Draws::of(seed);
        let (mut ours, mut theirs) = (BTreeMap::new(Global), collections::BTreeMap::new());
        for round in 0..60_000 {
            let key = draws.below(keys);
            if grows(&mut draws, round) {
                assert_eq!(ours.insert(key, round).unwrap(), theirs.insert(key, round));
            } else {
                assert_eq!(ours.remove(&key), theirs.remove(&key));
            }
            let asked = draws.below(keys + 2);
            assert_eq!(ours.get(&asked), theirs.get(&asked));
            assert_eq!(ours.contains_key(&asked), theirs.contains_key(&asked));
            assert_eq!(ours.len(), theirs.len());
        }
        for key in 0..keys {
            assert_eq!(ours.get(&key), theirs.get(&key));
        }
    }
}

#[test]
fn a_set_is_that_of_std() {
    for (seed, keys) in [(5, 10), (6, 100), (7, 3_000)] {
        let mut draws = Draws::of(seed);
        let (mut ours, mut theirs) = (BTreeSet::new(Global), collections::BTreeSet::new());
        for round in 0..60_000 {
            let item = draws.below(keys);
            if grows(&mut draws, round) {
                assert_eq!(ours.insert(item).unwrap(), theirs.insert(item));
            } else {
                assert_eq!(ours.remove(&item), theirs.remove(&item));
            }
            let asked = draws.below(keys + 2);
            assert!(
                ours.range(asked..)
                    .take(3)
                    .eq(theirs.range(asked..).take(3))
            );
        }
        for from in [0, keys / 3, keys] {
            assert!(ours.range(from..).eq(theirs.range(from..)));
        }
    }
}

#[test]
fn a_key_is_found_by_what_it_is_borrowed_as() {
    let mut ours = BTreeMap::new(Global);
    for name in ["b", "a", "c", "aa"] {
        ours.insert(Bytes::from_slice(Global, name.as_bytes()).unwrap(), name)
            .unwrap();
    }
    assert_eq!(ours.get(b"aa".as_slice()), Some(&"aa"));
    assert_eq!(ours.remove(b"a".as_slice()), Some("a"));
    assert!(!ours.contains_key(b"a".as_slice()) && ours.contains_key(b"b".as_slice()));
}

#[test]
fn a_refused_insertion_changes_nothing() {
    let (mut draws, meter) = (Draws::of(8), Meter::new());
    let (mut ours, mut theirs) = (BTreeMap::new(&meter), collections::BTreeMap::new());
    let mut refused = 0;
    for round in 0..40_000u64 {
        let key = draws.below(5_000);
        if draws.below(4) == 0 {
            meter.asked();
            assert_eq!(ours.remove(&key), theirs.remove(&key));
            assert_eq!(meter.asked(), 0);
            continue;
        }
        // a split asks for a chunk, and now and then for a longer list of them
        meter.permit(draws.below(3));
        match ours.insert(key, round) {
            Ok(before) => assert_eq!(before, theirs.insert(key, round)),
            Err(failed) => {
                assert_eq!(failed.value, (key, round));
                refused += 1;
            }
        }
        assert_eq!(ours.get(&key), theirs.get(&key));
    }
    assert!(
        refused > 20 && theirs.len() > 3_000,
        "{refused} {}",
        theirs.len()
    );
    for key in 0..5_000 {
        assert_eq!(ours.get(&key), theirs.get(&key));
        ours.remove(&key);
    }
    assert_eq!((ours.len(), meter.held()), (0, 0));
}

#[test]
fn a_set_refuses_likewise() {
    let meter = Meter::new();
    let mut ours = BTreeSet::new(&meter);
    meter.permit(0);
    assert!(ours.insert(1).is_err());
    assert_eq!(ours.range(0..).count(), 0);
    meter.permit(u64::MAX);
    assert_eq!(ours.insert(1), Ok(true));
    meter.permit(0);
    // what is there takes no memory
    assert_eq!(ours.insert(1), Ok(false));
    assert!(ours.remove(&1) && !ours.remove(&1));
}

/// The bytes that an item takes, where so many runs of items rise side by side.
fn bytes_of_an_item(runs: u64) -> f64 {
    const ITEMS: u64 = 20_000;
    let meter = Meter::new();
    let mut ours = BTreeSet::new(&meter);
    for n in 0..ITEMS {
        assert_eq!(ours.insert((n % runs, n)), Ok(true));
    }
    assert_eq!(ours.range((0, 0)..).count() as u64, ITEMS);
    meter.held() as f64 / ITEMS as f64
}

#[test]
fn items_that_rise_fill_their_chunks() {
    assert!(bytes_of_an_item(1) < 17.5, "{}", bytes_of_an_item(1));
    for runs in [2, 7, 64] {
        let bytes = bytes_of_an_item(runs);
        assert!(bytes < 32.0, "{runs} runs: {bytes}");
    }
}
