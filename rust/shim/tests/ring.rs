//! Rings of so many places.

use super::{Draws, Meter};
use crate::std_shim::alloc::Global;
use crate::std_shim::circular_buffer::HeapCircularBuffer;
use std::collections::VecDeque;

/// A ring of ours, and one of std's with the capacity that ours has.
struct Rings {
    ours: HeapCircularBuffer<u64>,
    theirs: VecDeque<u64>,
    capacity: usize,
}

impl Rings {
    fn push(&mut self, item: u64, at_front: bool) {
        let pushed = if at_front {
            self.ours.try_push_front(item)
        } else {
            self.ours.try_push_back(item)
        };
        if self.theirs.len() == self.capacity {
            assert_eq!(pushed, Err(item));
            return;
        }
        assert_eq!(pushed, Ok(()));
        if at_front {
            self.theirs.push_front(item)
        } else {
            self.theirs.push_back(item)
        }
    }

    fn extend(&mut self, items: &[u64]) {
        self.ours.extend_from_slice(items);
        self.theirs.extend(items);
        while self.theirs.len() > self.capacity {
            self.theirs.pop_front();
        }
    }

    fn resize(&mut self, capacity: usize) {
        self.ours.resize(capacity).unwrap();
        self.theirs.truncate(capacity);
        self.capacity = capacity;
    }

    fn are_the_same(&self) {
        let (front, back) = self.ours.as_slices();
        assert!(front.iter().chain(back).eq(self.theirs.iter()));
        let of_ours = (
            self.ours.front(),
            self.ours.back(),
            self.ours.len(),
            self.ours.is_empty(),
            self.ours.capacity(),
        );
        let theirs = &self.theirs;
        assert_eq!(
            of_ours,
            (
                theirs.front(),
                theirs.back(),
                theirs.len(),
                theirs.is_empty(),
                self.capacity
            )
        );
    }
}

#[test]
fn a_ring_is_that_of_std_with_a_most() {
    let mut draws = Draws::of(1);
    let ours = HeapCircularBuffer::with_capacity(Global, 8).unwrap();
    let mut rings = Rings {
        ours,
        theirs: VecDeque::new(),
        capacity: 8,
    };
    for round in 0..200_000 {
        match draws.below(10) {
            0..=2 => rings.push(round, false),
            3 => rings.push(round, true),
            4 => assert_eq!(rings.ours.pop_back(), rings.theirs.pop_back()),
            5..=6 => assert_eq!(rings.ours.pop_front(), rings.theirs.pop_front()),
            7..=8 => {
                let items: Vec<u64> = (0..draws.below(20)).map(|place| round + place).collect();
                rings.extend(&items);
            }
            _ => rings.resize(draws.below(40) as usize + 1),
        }
        rings.are_the_same();
    }
}

#[test]
fn a_refused_resize_changes_nothing() {
    let meter = Meter::new();
    meter.permit(0);
    assert!(HeapCircularBuffer::<u64, _>::with_capacity(&meter, 4).is_err());
    meter.permit(1);
    let mut ours = HeapCircularBuffer::<u64, _>::with_capacity(&meter, 4).unwrap();
    assert_eq!(meter.last(), 4 * size_of::<u64>());
    for item in 0..4 {
        assert_eq!(ours.try_push_back(item), Ok(()));
    }
    assert!(ours.resize(8).is_err());
    assert_eq!((ours.len(), ours.capacity()), (4, 4));
    assert_eq!(ours.try_push_back(4), Err(4));
    assert!(HeapCircularBuffer::<u64>::with_capacity(Global, usize::MAX).is_err());
    // nothing that is pushed asks for memory
    assert_eq!(ours.pop_front(), Some(0));
    assert_eq!(ours.try_push_back(4), Ok(()));
    ours.extend_from_slice(&[5]);
    assert_eq!(
        (ours.front(), meter.held()),
        (Some(&2), 4 * size_of::<u64>())
    );
    meter.permit(1);
    ours.resize(2).unwrap();
    assert_eq!(meter.held(), 2 * size_of::<u64>());
    drop(ours);
    assert_eq!(meter.held(), 0);
}
