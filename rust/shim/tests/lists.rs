//! Lists and boxes.

use super::{Draws, Meter};
use crate::std_shim::alloc::{AllocError, Global};
use crate::std_shim::boxed::Box;
use crate::std_shim::vec::Vec;

/// Makes a drawn change to both lists, or where ours finds no memory to none.
fn change(
    ours: &mut Vec<u64, &Meter>,
    theirs: &mut std::vec::Vec<u64>,
    draws: &mut Draws,
    round: u64,
) -> bool {
    let count = draws.below(40) as usize;
    let items: std::vec::Vec<u64> = (0..count as u64).map(|place| round + place).collect();
    match draws.below(8) {
        0..=1 => match ours.push(round) {
            Ok(()) => theirs.push(round),
            Err(failed) => return failed.value == round,
        },
        2 => match ours.extend_from_slice(&items) {
            Ok(()) => theirs.extend_from_slice(&items),
            Err(AllocError) => return true,
        },
        3 => match ours.resize(count, round) {
            Ok(()) => theirs.resize(count, round),
            Err(AllocError) => return true,
        },
        4 => assert_eq!(ours.pop(), theirs.pop()),
        5 => {
            ours.truncate(count);
            theirs.truncate(count);
        }
        6 => {
            ours.retain(|item| item % 3 != 0);
            theirs.retain(|item| item % 3 != 0);
        }
        _ if count < ours.len() => {
            ours.slice_mut(count..)[0] = round;
            ours.as_mut_slice()[count / 2] += 1;
            theirs[count] = round;
            theirs[count / 2] += 1;
        }
        _ => {}
    }
    false
}

#[test]
fn a_list_is_that_of_std() {
    let (mut draws, meter) = (Draws::of(1), Meter::new());
    let (mut ours, mut theirs) = (Vec::new(&meter), std::vec::Vec::new());
    let mut refused = 0;
    for round in 0..100_000 {
        if draws.below(500) == 0 {
            (ours, theirs) = (Vec::new(&meter), std::vec::Vec::new());
        }
        meter.permit(draws.below(2));
        refused += u64::from(change(&mut ours, &mut theirs, &mut draws, round));
        assert_eq!(ours.as_slice(), theirs);
        assert!(ours.len() <= ours.capacity());
        assert_eq!(meter.held(), ours.capacity() * size_of::<u64>());
    }
    assert!(refused > 50, "{refused}");
    drop(ours);
    assert_eq!(meter.held(), 0);
}

#[test]
fn a_list_asks_once_for_what_it_takes() {
    let meter = Meter::new();
    let mut ours = Vec::with_capacity(&meter, 10).unwrap();
    assert_eq!((meter.asked(), meter.last()), (1, 10 * size_of::<u32>()));
    for item in 0..10u32 {
        ours.push_reserved(item);
    }
    assert_eq!(meter.asked(), 0);
    ours.push(10).unwrap();
    // it grows to twice as many
    assert_eq!((meter.asked(), meter.last()), (1, 20 * size_of::<u32>()));
    assert_eq!(ours.capacity(), 20);
    ours.try_reserve(9).unwrap();
    assert_eq!(meter.asked(), 0);
    let copy = Vec::from_slice(&meter, ours.as_slice()).unwrap();
    assert_eq!((meter.asked(), meter.last()), (1, 11 * size_of::<u32>()));
    assert!(copy == ours && copy.capacity() == 11);
}

#[test]
fn a_list_grows_as_that_of_std() {
    fn capacities<T: Copy>(item: T) {
        let (mut ours, mut theirs) = (Vec::new(Global), std::vec::Vec::new());
        for _ in 0..1_000 {
            ours.push(item).unwrap();
            theirs.push(item);
            assert_eq!(ours.capacity(), theirs.capacity());
        }
    }
    capacities(7u8);
    capacities(7u64);
    capacities([7u64; 100]);
    capacities([7u64; 200]);
}

#[test]
fn a_list_gives_back_what_no_item_stands_in() {
    let meter = Meter::new();
    let mut ours = Vec::from_elem(&meter, 7u8, 100).unwrap();
    ours.shrink_to_fit();
    assert_eq!((ours.len(), ours.capacity(), meter.held()), (100, 100, 100));
    ours.truncate(1);
    ours.shrink_to_fit();
    assert_eq!(
        (ours.as_slice(), ours.capacity(), meter.held()),
        ([7].as_slice(), 1, 1)
    );
    ours.reserve_exact(9).unwrap();
    ours.clear();
    assert_eq!((ours.capacity(), meter.held()), (10, 10));
    meter.permit(0);
    assert!(ours.reserve_exact(11).is_err());
    ours.shrink_to_fit();
    assert_eq!((ours.capacity(), meter.held()), (0, 0));
}

#[test]
fn a_list_that_goes_on_as_one_of_std_is_gone() {
    let meter = Meter::new();
    let ours = Vec::from_slice(&meter, &[1u8, 2, 3]).unwrap();
    assert_eq!(meter.held(), 3);
    assert_eq!(std::vec::Vec::from(ours), [1, 2, 3]);
    assert_eq!(meter.held(), 0);
    let ours = Vec::from_slice(&meter, &[1u8, 2, 3]).unwrap();
    assert!(ours.into_iter().eq([1, 2, 3]));
    assert_eq!(meter.held(), 0);
}

#[test]
fn too_great_a_list_is_refused_by_the_host() {
    assert!(Vec::<u64>::with_capacity(Global, usize::MAX).is_err());
    // a host of 32 bits may have half of what it can address
    #[cfg(target_pointer_width = "64")]
    assert!(Vec::<u64>::with_capacity(Global, usize::MAX / 16).is_err());
    let mut ours = Vec::from_slice(Global, &[1, 2]).unwrap();
    assert!(ours.try_reserve(usize::MAX).is_err());
    assert_eq!(ours.as_slice(), [1, 2]);
    // what the host refuses isn't held
    let meter = Meter::new();
    let mut ours = Vec::from_slice(&meter, &[1u8]).unwrap();
    assert!(
        ours.try_reserve(usize::MAX - 1).is_err()
            && Vec::<u64, _>::with_capacity(&meter, usize::MAX / 8).is_err()
    );
    assert_eq!(meter.held(), 1);
}

#[test]
fn lists_are_in_the_order_of_std() {
    let lists = [&[][..], &[1], &[1, 1], &[1, 2], &[2]];
    for left in lists {
        for right in lists {
            let (ours, other) = (
                Vec::from_slice(Global, left).unwrap(),
                Vec::from_slice(Global, right).unwrap(),
            );
            assert_eq!(ours.cmp(&other), left.cmp(right));
            assert_eq!(ours.partial_cmp(&other), left.partial_cmp(right));
            assert_eq!(ours == other, left == right);
        }
    }
}

#[test]
fn a_box_holds_one_value() {
    let meter = Meter::new();
    let mut ours = Box::new(&meter, [1u64, 2]).unwrap();
    assert_eq!((meter.asked(), meter.last()), (1, 2 * size_of::<u64>()));
    ours[1] = 3;
    assert_eq!(*ours, [1, 3]);
    meter.permit(0);
    assert!(Box::new(&meter, 1u8).is_err());
    assert_eq!(meter.held(), 2 * size_of::<u64>());
    drop(ours);
    assert_eq!(meter.held(), 0);
}

#[test]
#[allow(unsafe_code)]
fn a_box_goes_out_as_a_pointer_and_comes_back() {
    let (meter, text) = (Meter::new(), std::rc::Rc::new(5));
    let pointer = Box::into_raw(Box::new(&meter, text.clone()).unwrap());
    assert_eq!(
        (std::rc::Rc::strong_count(&text), meter.held()),
        (2, size_of_val(&text))
    );
    // Safety: it came from into_raw, and is given back once
    let ours = unsafe { Box::from_raw(&meter, pointer) };
    assert_eq!(**ours, 5);
    drop(ours);
    assert_eq!((std::rc::Rc::strong_count(&text), meter.held()), (1, 0));
}
