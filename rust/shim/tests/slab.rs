//! Slabs: values under keys that the slab picks.

use super::{Draws, Meter};
use crate::std_shim::alloc::Global;
use crate::std_shim::slab::Slab;
use std::collections::{BTreeMap, HashMap};

#[test]
fn a_slab_is_a_map_whose_keys_are_picked() {
    let mut draws = Draws::of(1);
    let (mut ours, mut theirs) = (Slab::new(Global), HashMap::new());
    assert!(ours.is_empty());
    for round in 0..100_000u64 {
        let key = draws.below(300) as usize;
        if draws.below(2) == 0 {
            ours.reserve(1).unwrap();
            let next = ours.vacant_key();
            assert!(!ours.contains(next));
            assert_eq!(ours.insert_reserved(round), next);
            assert!(next < ours.capacity() && theirs.insert(next, round).is_none());
        } else {
            assert_eq!(ours.try_remove(key), theirs.remove(&key));
        }
        assert_eq!(ours.get(key), theirs.get(&key));
        assert_eq!(ours.contains(key), theirs.contains_key(&key));
        assert_eq!(
            (ours.len(), ours.is_empty()),
            (theirs.len(), theirs.is_empty())
        );
        if let Some(value) = ours.get_mut(key) {
            *value += 1;
            *theirs.get_mut(&key).unwrap() += 1;
            assert_eq!(ours[key], theirs[&key]);
        }
    }
}

#[test]
fn the_key_that_was_given_up_last_is_picked_next() {
    let mut ours = Slab::new(Global);
    ours.reserve(4).unwrap();
    let keys = [10, 20, 30, 40].map(|value| ours.insert_reserved(value));
    assert_eq!(keys, [0, 1, 2, 3]);
    assert_eq!((ours.remove(1), ours.remove(3)), (20, 40));
    assert_eq!((ours.insert_reserved(50), ours.insert_reserved(60)), (3, 1));
    assert_eq!((ours[3], ours[1]), (50, 60));
}

#[test]
fn a_slab_that_is_cut_keeps_its_values_and_the_least_key_is_picked_next() {
    let mut draws = Draws::of(3);
    let (mut ours, mut theirs) = (Slab::new(Global), BTreeMap::new());
    for round in 0..2_000u64 {
        let mut entries = 0;
        for _ in 0..draws.below(40) {
            ours.reserve(1).unwrap();
            let key = ours.insert_reserved(round);
            entries = entries.max(key + 1);
            theirs.insert(key, round);
        }
        let kept = draws.below(60) as usize;
        for key in 0..100 {
            if key >= kept || draws.below(4) == 0 {
                assert_eq!(ours.try_remove(key), theirs.remove(&key));
            }
        }
        ours.shrink_to_fit();
        let len = theirs.last_key_value().map_or(0, |(key, _)| key + 1);
        assert_eq!(ours.capacity(), len);
        assert!(
            ours.iter()
                .eq(theirs.iter().map(|(key, value)| (*key, value)))
        );
        if entries > len {
            let free = (0..len).find(|key| !theirs.contains_key(key));
            assert_eq!(ours.vacant_key(), free.unwrap_or(len));
        }
    }
}

#[test]
fn room_is_made_before_and_is_enough() {
    let meter = Meter::new();
    let mut ours = Slab::new(&meter);
    meter.permit(0);
    assert!(ours.reserve(1).is_err());
    assert_eq!((ours.len(), ours.capacity()), (0, 0));
    meter.permit(1);
    ours.reserve(100).unwrap();
    meter.asked();
    for value in 0..100 {
        ours.insert_reserved(value);
    }
    for key in 0..50 {
        ours.remove(key);
    }
    // the places that were given up count as room
    ours.reserve(50).unwrap();
    assert_eq!(meter.asked(), 0);
    assert!(ours.reserve(ours.capacity()).is_err());
    assert_eq!(ours.len(), 50);
    assert_eq!(ours.get(99), Some(&99));
}

#[test]
#[should_panic(expected = "a key that has a value")]
fn a_key_without_a_value_is_not_removed() {
    let mut ours: Slab<u8> = Slab::new(Global);
    ours.remove(0);
}
