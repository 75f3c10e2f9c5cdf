//! Ordered maps and sets whose growth can fail, which that of `std`'s can't: sorted entries in chunks of at most 64. An empty one holds no
//! memory.

use super::alloc::{AllocError, AllocFailed, Allocator, Global};
use super::vec::Vec;
use ::alloc::collections::VecDeque;
use core::borrow::Borrow;
use core::cmp::Ordering;
use core::ops::RangeFrom;

/// The most entries of a chunk, which has memory for so many from the start.
const MOST: usize = 64;

/// Entries in order. The first one stands in the list of chunks itself, so that a search for a chunk looks into no other memory.
struct Chunk<K: Ord, V, A: Allocator> {
    first: (K, V),
    others: Vec<(K, V), A>,
}

impl<K: Ord, V, A: Allocator> Chunk<K, V, A> {
    fn len(&self) -> usize {
        1 + self.others.len()
    }

    // The place of a key, or where it belongs. Both ends are tried first, because most entries come and go there.
    fn place_of<Q: Ord + ?Sized>(&self, key: &Q) -> Result<usize, usize>
    where
        K: Borrow<Q>,
    {
        match key.cmp(self.first.0.borrow()) {
            Ordering::Less => return Err(0),
            Ordering::Equal => return Ok(0),
            Ordering::Greater => {}
        }
        if self.others.last().is_none_or(|last| last.0.borrow() < key) {
            return Err(self.len());
        }
        match self
            .others
            .binary_search_by(|entry| entry.0.borrow().cmp(key))
        {
            Ok(place) => Ok(place + 1),
            Err(place) => Err(place + 1),
        }
    }

    fn get(&self, place: usize) -> &(K, V) {
        match place.checked_sub(1) {
            None => &self.first,
            Some(place) => &self.others[place],
        }
    }

    fn get_mut(&mut self, place: usize) -> &mut (K, V) {
        match place.checked_sub(1) {
            None => &mut self.first,
            Some(place) => &mut self.others[place],
        }
    }

    // Puts an entry before the one at a place. There is room for it.
    fn insert(&mut self, place: usize, entry: (K, V)) {
        match place.checked_sub(1) {
            None => {
                let second = core::mem::replace(&mut self.first, entry);
                self.others.insert_reserved(0, second);
            }
            Some(place) => self.others.insert_reserved(place, entry),
        }
    }

    // Takes an entry out. It isn't the only one.
    fn remove(&mut self, place: usize) -> (K, V) {
        match place.checked_sub(1) {
            None => {
                let second = self.others.remove(0);
                core::mem::replace(&mut self.first, second)
            }
            Some(place) => self.others.remove(place),
        }
    }
}

/// A map from keys to values. Its chunks stand in a ring, so that the first one goes without moving the others.
pub struct BTreeMap<K: Ord, V, A: Allocator = Global> {
    chunks: VecDeque<Chunk<K, V, A>>,
    len: usize,
    alloc: A,
}

impl<K: Ord, V, A: Allocator + Copy> BTreeMap<K, V, A> {
    pub const fn new(alloc: A) -> Self {
        BTreeMap {
            chunks: VecDeque::new(),
            len: 0,
            alloc,
        }
    }

    /// Puts a value at a key, and answers the one that was there. An error leaves all as it was.
    pub fn insert(&mut self, key: K, value: V) -> Result<Option<V>, AllocFailed<(K, V)>> {
        let (chunk, place) = self.place_of(&key);
        match place {
            Ok(place) => Ok(Some(core::mem::replace(
                &mut self.chunks[chunk].get_mut(place).1,
                value,
            ))),
            Err(place) => {
                self.insert_at(chunk, place, (key, value))
                    .map_err(|value| AllocFailed { value })?;
                self.len += 1;
                Ok(None)
            }
        }
    }

    // Puts an entry before the one at a place of a chunk, or gives it back where there is no memory.
    fn insert_at(&mut self, chunk: usize, place: usize, entry: (K, V)) -> Result<(), (K, V)> {
        if self
            .chunks
            .get(chunk)
            .is_some_and(|chunk| chunk.len() < MOST)
        {
            self.chunks[chunk].insert(place, entry);
            return Ok(());
        }
        // An entry that comes after a full chunk begins the next one, so that entries in rising order fill their chunks.
        let next = self.chunks.len().min(chunk + 1);
        if place == MOST && self.chunks.get(next).is_some_and(|next| next.len() < MOST) {
            self.chunks[next].insert(0, entry);
            return Ok(());
        }
        let Ok(mut others) = self.room_for_a_chunk() else {
            return Err(entry);
        };
        if place == MOST || self.chunks.is_empty() {
            let first = entry;
            self.chunks.insert(next, Chunk { first, others });
            return Ok(());
        }
        let mut upper = self.chunks[chunk].others.drain(MOST / 2 - 1..);
        let first = upper.next();
        upper.for_each(|entry| others.push_reserved(entry));
        if let Some(first) = first {
            self.chunks.insert(next, Chunk { first, others });
        }
        if place <= MOST / 2 {
            self.chunks[chunk].insert(place, entry);
        } else {
            self.chunks[next].insert(place - MOST / 2, entry);
        }
        Ok(())
    }

    // Memory for one chunk more, in which its entries but the first stand, and for its place.
    fn room_for_a_chunk(&mut self) -> Result<Vec<(K, V), A>, AllocError> {
        let others = Vec::with_capacity(self.alloc, MOST - 1)?;
        let chunks = &mut self.chunks;
        let before = chunks.capacity();
        if chunks.len() == before {
            let after = before.saturating_mul(2).max(4);
            let (from, to) = (
                bytes_of_chunks::<K, V, A>(before),
                bytes_of_chunks::<K, V, A>(after),
            );
            self.alloc.grows(from, to, || {
                chunks.try_reserve_exact(after - before).is_ok()
            })?;
        }
        Ok(others)
    }
}

/// The bytes of so many chunks, but for the entries that don't stand in their list.
fn bytes_of_chunks<K: Ord, V, A: Allocator>(count: usize) -> usize {
    count.saturating_mul(size_of::<Chunk<K, V, A>>())
}

impl<K: Ord, V, A: Allocator> BTreeMap<K, V, A> {
    /// How many entries there are.
    pub fn len(&self) -> usize {
        self.len
    }

    // The chunk in which a key stands or belongs. Both ends are tried first, as in a chunk.
    fn chunk_of<Q: Ord + ?Sized>(&self, key: &Q) -> usize
    where
        K: Borrow<Q>,
    {
        let begins_by = |chunk: &Chunk<K, V, A>| chunk.first.0.borrow() <= key;
        if !self.chunks.get(1).is_some_and(begins_by) {
            return 0;
        }
        if self.chunks.back().is_some_and(begins_by) {
            return self.chunks.len() - 1;
        }
        self.chunks.partition_point(begins_by) - 1
    }

    // The chunk in which a key stands or belongs, and its place there.
    fn place_of<Q: Ord + ?Sized>(&self, key: &Q) -> (usize, Result<usize, usize>)
    where
        K: Borrow<Q>,
    {
        let chunk = self.chunk_of(key);
        let place = self
            .chunks
            .get(chunk)
            .map_or(Err(0), |entries| entries.place_of(key));
        (chunk, place)
    }

    pub fn get<Q: Ord + ?Sized>(&self, key: &Q) -> Option<&V>
    where
        K: Borrow<Q>,
    {
        let (chunk, place) = self.place_of(key);
        let place = place.ok()?;
        Some(&self.chunks[chunk].get(place).1)
    }

    pub fn contains_key<Q: Ord + ?Sized>(&self, key: &Q) -> bool
    where
        K: Borrow<Q>,
    {
        self.place_of(key).1.is_ok()
    }

    /// Takes the value at a key out. It takes no memory.
    pub fn remove<Q: Ord + ?Sized>(&mut self, key: &Q) -> Option<V>
    where
        K: Borrow<Q>,
    {
        let (chunk, place) = self.place_of(key);
        let place = place.ok()?;
        self.len -= 1;
        if self.chunks[chunk].len() > 1 {
            return Some(self.chunks[chunk].remove(place).1);
        }
        let removed = self.chunks.remove(chunk)?;
        if self.chunks.is_empty() {
            self.let_go();
        }
        Some(removed.first.1)
    }

    // Gives the list of chunks back.
    fn let_go(&mut self) {
        let chunks = core::mem::take(&mut self.chunks);
        let bytes = bytes_of_chunks::<K, V, A>(chunks.capacity());
        if bytes != 0 {
            drop(chunks);
            self.alloc.shrinks(bytes, 0);
        }
    }

    // The keys from one on, in order.
    fn keys_from<'a>(&'a self, from: &K) -> impl Iterator<Item = &'a K> + use<'a, K, V, A> {
        let (chunk, place) = self.place_of(from);
        let (mut chunk, Ok(mut place) | Err(mut place)) = (chunk, place);
        core::iter::from_fn(move || {
            if place == self.chunks.get(chunk)?.len() {
                (chunk, place) = (chunk + 1, 0);
            }
            place += 1;
            Some(&self.chunks.get(chunk)?.get(place - 1).0)
        })
    }
}

impl<K: Ord, V, A: Allocator> Drop for BTreeMap<K, V, A> {
    fn drop(&mut self) {
        self.let_go();
    }
}

/// A set of items.
pub struct BTreeSet<T: Ord, A: Allocator = Global> {
    map: BTreeMap<T, (), A>,
}

impl<T: Ord, A: Allocator + Copy> BTreeSet<T, A> {
    pub fn new(alloc: A) -> Self {
        BTreeSet {
            map: BTreeMap::new(alloc),
        }
    }

    /// Adds an item, and answers whether it wasn't there.
    pub fn insert(&mut self, item: T) -> Result<bool, AllocError> {
        Ok(self.map.insert(item, ())?.is_none())
    }
}

impl<T: Ord, A: Allocator> BTreeSet<T, A> {
    /// How many items there are.
    pub fn len(&self) -> usize {
        self.map.len()
    }

    /// Takes an item out, and answers whether it was there. It takes no memory.
    pub fn remove(&mut self, item: &T) -> bool {
        self.map.remove(item).is_some()
    }

    /// The items from one on, in order.
    pub fn range(&self, items: RangeFrom<T>) -> impl Iterator<Item = &T> {
        self.map.keys_from(&items.start)
    }
}
