//! `SortedArena`.

use crate::error::Error;
use crate::iter::{Drain, Iter, IterMut, PopUntil};
use crate::key::Key;
use crate::pointer::{Entry, Pointer};
use crate::raw;
use std::cell::UnsafeCell;
use std::fmt;
use std::marker::PhantomData;
use std::ops::{Bound, Index, IndexMut, RangeBounds};
use std::ptr;

/// Values by keys, in the order of the keys. Equal keys keep the order of their insertion.
///
/// The order and the pointers are kept by the proved library, and the values here, each at the index of its entry's pointer.
///
/// In the docs n is the number of entries. An arena is [`Send`] where its keys and values are, and not [`Sync`]: also a read moves the
/// proved arena out of its handle and back. Share it by a `Mutex`.
pub struct SortedArena<K, V> {
    // Open from the beginning to the end. No call leads to another.
    handle: UnsafeCell<raw::Handle>,
    // For each entry its value lies at its slot; what lies at other slots is `None`.
    pub(crate) values: Vec<Option<V>>,
    keys: PhantomData<K>,
}

// Safety: the handle has no tie to a thread: `crates/arena_c` proves `Send` of what it owns, and memory comes from `malloc`.
unsafe impl<K: Send, V: Send> Send for SortedArena<K, V> {}

type Search<X> = unsafe extern "C" fn(*mut raw::Handle, X, *mut raw::Entry) -> u8;
type End = unsafe extern "C" fn(*mut raw::Handle, *mut raw::Entry) -> u8;

impl<K: Key, V> SortedArena<K, V> {
    /// Creates an empty arena.
    ///
    /// # Errors
    ///
    /// `NoMemory`.
    pub fn new() -> Result<Self, Error> {
        let mut handle = raw::Handle {
            is_open: false,
            at: ptr::null_mut(),
        };
        // Safety: a closed handle, which is moved only while it is not used. The generation keeps pointers of other arenas apart.
        match unsafe { raw::topscedar_arena_open_at(&mut handle, raw::topscedar_generation()) } {
            raw::OK => Ok(SortedArena {
                handle: UnsafeCell::new(handle),
                values: Vec::new(),
                keys: PhantomData,
            }),
            _ => Err(Error::NoMemory),
        }
    }

    /// Creates an arena of pairs whose keys are in order, in O(n).
    ///
    /// # Errors
    ///
    /// `OutOfOrder`, `Full`, `NoMemory`.
    pub fn from_sorted(pairs: impl IntoIterator<Item = (K, V)>) -> Result<Self, Error> {
        let mut arena = Self::new()?;
        arena.extend_sorted(pairs)?;
        Ok(arena)
    }

    // What the C calls take.
    #[inline]
    pub(crate) fn raw(&self) -> *mut raw::Handle {
        self.handle.get()
    }

    #[inline]
    pub(crate) fn found<X>(&self, search: Search<X>, given: X) -> Option<raw::Entry> {
        let mut entry = raw::Entry::default();
        // Safety: an open handle, which no other call uses meanwhile: it is not `Sync`.
        (unsafe { search(self.raw(), given, &mut entry) } == raw::OK).then_some(entry)
    }

    #[inline]
    pub(crate) fn end(&self, search: End) -> Option<raw::Entry> {
        let mut entry = raw::Entry::default();
        // Safety: as in `found`.
        (unsafe { search(self.raw(), &mut entry) } == raw::OK).then_some(entry)
    }

    // An entry that is there, with its value.
    #[inline]
    pub(crate) fn shown(&self, raw: raw::Entry) -> Entry<K, &V> {
        let pointer = Pointer::of(raw.pointer).expect("an entry has an index");
        Entry {
            pointer,
            key: K::from_i64(raw.key),
            value: self.values[pointer.slot()]
                .as_ref()
                .expect("an entry has a value"),
        }
    }

    // An entry that was removed, with its value.
    pub(crate) fn taken(&mut self, raw: raw::Entry) -> Entry<K, V> {
        let pointer = Pointer::of(raw.pointer).expect("an entry has an index");
        Entry {
            pointer,
            key: K::from_i64(raw.key),
            value: self.values[pointer.slot()]
                .take()
                .expect("an entry has a value"),
        }
    }

    // Keeps the value of an entry that was inserted. There is room for it.
    fn keep(&mut self, pointer: Pointer, value: V) {
        let slot = pointer.slot();
        if slot >= self.values.len() {
            self.values.resize_with(slot + 1, || None);
        }
        self.values[slot] = Some(value);
    }

    /// Returns the number of entries.
    #[inline]
    pub fn len(&self) -> usize {
        let mut length = 0;
        // Safety: as in `found`.
        unsafe { raw::topscedar_arena_length(self.raw(), &mut length) };
        length
    }

    /// Returns whether there are no entries.
    pub fn is_empty(&self) -> bool {
        self.len() == 0
    }

    /// Makes room for so many more entries.
    ///
    /// # Errors
    ///
    /// `Full`, `NoMemory`; the arena is unchanged.
    pub fn reserve(&mut self, additional: usize) -> Result<(), Error> {
        let wanted = self
            .len()
            .saturating_add(additional)
            .saturating_sub(self.values.len());
        self.values
            .try_reserve(wanted)
            .map_err(|_| Error::NoMemory)?;
        // Safety: as in `found`.
        changed(unsafe { raw::topscedar_arena_reserve(self.raw(), additional) })
    }

    /// Returns how many entries the arena holds without growing.
    pub fn capacity(&self) -> usize {
        let mut capacity = 0;
        // Safety: as in `found`.
        unsafe { raw::topscedar_arena_capacity(self.raw(), &mut capacity) };
        capacity
    }

    /// Gives back the memory that no entry needs, in O(capacity).
    pub fn shrink_to_fit(&mut self) {
        // Safety: as in `found`.
        unsafe { raw::topscedar_arena_shrink(self.raw()) };
        while matches!(self.values.last(), Some(None)) {
            self.values.pop();
        }
        self.values.shrink_to_fit();
    }

    /// Lays the entries and their values in their order, which makes iteration faster, in O(capacity). All pointers are stale then.
    pub fn compact(&mut self) {
        let mut values: Vec<Option<V>> = Vec::with_capacity(self.len());
        let mut entries = crate::iter::Batch::from(self.end(raw::topscedar_arena_first));
        while let Some(entry) = entries.take(self) {
            values.push(self.taken(entry).value.into());
        }
        // Safety: as in `found`. The entries get the indexes from 1 on, in their order.
        unsafe { raw::topscedar_arena_compact(self.raw()) };
        self.values = values;
    }

    /// Removes all entries, in O(capacity). The memory stays with the arena.
    pub fn clear(&mut self) {
        // Safety: as in `found`.
        unsafe { raw::topscedar_arena_clear(self.raw()) };
        self.values.clear();
    }

    fn insert_by(
        &mut self,
        call: unsafe extern "C" fn(*mut raw::Handle, i64, u64, *mut raw::Pointer) -> u8,
        key: K,
        value: V,
    ) -> Result<Pointer, Error> {
        let mut pointer = raw::Pointer::default();
        // An index is at most the number of entries that there ever were at one time, so one more slot is enough.
        self.values.try_reserve(1).map_err(|_| Error::NoMemory)?;
        // Safety: as in `found`.
        changed(unsafe { call(self.raw(), key.to_i64(), 0, &mut pointer) })?;
        let pointer = Pointer::of(pointer).expect("an entry has an index");
        self.keep(pointer, value);
        Ok(pointer)
    }

    /// Inserts an entry after every entry with a key ≤ `key`, and returns its pointer. O(log n), plus O(n) when the arena grows
    /// (amortized O(1)).
    ///
    /// # Errors
    ///
    /// `Full`, `NoMemory`; the arena is unchanged.
    pub fn insert(&mut self, key: K, value: V) -> Result<Pointer, Error> {
        self.insert_by(raw::topscedar_arena_insert, key, value)
    }

    /// Inserts an entry, as [`insert`](Self::insert) does, unless one has an equal key.
    ///
    /// # Errors
    ///
    /// `EqualKey`, `Full`, `NoMemory`; the arena is unchanged.
    pub fn insert_unique(&mut self, key: K, value: V) -> Result<Pointer, Error> {
        self.insert_by(raw::topscedar_arena_insert_unique, key, value)
    }

    /// Inserts pairs whose keys are in order behind all entries, in one call: all of them, or none. Returns their pointers in order.
    /// Amortized O(1) for each.
    ///
    /// # Errors
    ///
    /// `OutOfOrder`, `Full`, `NoMemory`; the entries are unchanged, and the pairs are dropped.
    pub fn extend_sorted(
        &mut self,
        pairs: impl IntoIterator<Item = (K, V)>,
    ) -> Result<Vec<Pointer>, Error> {
        let (keys, values): (Vec<i64>, Vec<V>) = pairs
            .into_iter()
            .map(|(key, value)| (key.to_i64(), value))
            .unzip();
        let numbers = vec![0; keys.len()];
        let mut pointers = vec![raw::Pointer::default(); keys.len()];
        self.reserve(keys.len())?;
        let mut at = 0;
        // Safety: as in `found`, and the arrays have the lengths that are passed.
        let status = unsafe {
            raw::topscedar_arena_extend_sorted(
                self.raw(),
                keys.as_ptr(),
                keys.len(),
                numbers.as_ptr(),
                numbers.len(),
                pointers.as_mut_ptr(),
                pointers.len(),
                &mut at,
            )
        };
        match status {
            raw::OUT_OF_ORDER => return Err(Error::OutOfOrder(at)),
            _ => changed(status)?,
        }
        let pointers: Vec<Pointer> = pointers
            .into_iter()
            .map(|pointer| Pointer::of(pointer).expect("an entry has an index"))
            .collect();
        for (&pointer, value) in pointers.iter().zip(values) {
            self.keep(pointer, value);
        }
        Ok(pointers)
    }

    /// Returns whether a pointer names an entry, in O(1).
    pub fn contains(&self, pointer: Pointer) -> bool {
        self.found(raw::topscedar_arena_get, pointer.raw())
            .is_some()
    }

    /// Returns the entry at a pointer, in O(1); `None` if the pointer is stale.
    pub fn get(&self, pointer: Pointer) -> Option<Entry<K, &V>> {
        Some(self.shown(self.found(raw::topscedar_arena_get, pointer.raw())?))
    }

    /// Returns the value at a pointer, to be changed, in O(1); `None` if the pointer is stale.
    pub fn get_mut(&mut self, pointer: Pointer) -> Option<&mut V> {
        self.found(raw::topscedar_arena_get, pointer.raw())?;
        self.values[pointer.slot()].as_mut()
    }

    /// Replaces the value of the entry at a pointer and returns the old one, in O(1).
    ///
    /// # Errors
    ///
    /// `Stale`; nothing changes.
    pub fn set_value(&mut self, pointer: Pointer, value: V) -> Result<V, Error> {
        match self.get_mut(pointer) {
            Some(at) => Ok(std::mem::replace(at, value)),
            None => Err(Error::Stale),
        }
    }

    /// Gives the entry at a pointer another key and returns the old one, in O(log n). Pointer and value stay; the entry goes behind
    /// all others whose key is at most `key`.
    ///
    /// # Errors
    ///
    /// `Stale`; nothing changes.
    pub fn rekey(&mut self, pointer: Pointer, key: K) -> Result<K, Error> {
        let mut before = 0;
        // Safety: as in `found`.
        changed(unsafe {
            raw::topscedar_arena_rekey(self.raw(), pointer.raw(), key.to_i64(), &mut before)
        })?;
        Ok(K::from_i64(before))
    }

    /// Gives the entry at a pointer another key, as [`rekey`](Self::rekey) does, unless another entry has it.
    ///
    /// # Errors
    ///
    /// `Stale`, `EqualKey`; nothing changes.
    pub fn rekey_unique(&mut self, pointer: Pointer, key: K) -> Result<K, Error> {
        let mut before = 0;
        // Safety: as in `found`.
        changed(unsafe {
            raw::topscedar_arena_rekey_unique(self.raw(), pointer.raw(), key.to_i64(), &mut before)
        })?;
        Ok(K::from_i64(before))
    }

    /// Removes the first entry with this key and returns it, in O(log n).
    pub fn remove_key(&mut self, key: K) -> Option<Entry<K, V>> {
        let gone = self.found(raw::topscedar_arena_remove_key, key.to_i64())?;
        Some(self.taken(gone))
    }

    /// Returns how many entries have this key, in O(log n), and O(1) for each.
    pub fn count(&self, key: K) -> usize {
        let mut count = 0;
        // Safety: as in `found`.
        unsafe { raw::topscedar_arena_count(self.raw(), key.to_i64(), &mut count) };
        count
    }

    /// Returns how many entries have a smaller key, in O(log n), and O(1) for each.
    pub fn rank(&self, key: K) -> usize {
        let mut rank = 0;
        // Safety: as in `found`.
        unsafe { raw::topscedar_arena_rank(self.raw(), key.to_i64(), &mut rank) };
        rank
    }

    /// Returns the entry that has `index` entries before it, in O(index); `None` if there are no more than `index` entries.
    pub fn nth(&self, index: usize) -> Option<Entry<K, &V>> {
        Some(self.shown(self.found(raw::topscedar_arena_nth, index)?))
    }

    /// Removes the entry at a pointer and returns it, in O(log n); `None` if the pointer is stale.
    pub fn remove(&mut self, pointer: Pointer) -> Option<Entry<K, V>> {
        let gone = self.found(raw::topscedar_arena_remove, pointer.raw())?;
        Some(self.taken(gone))
    }

    /// Returns the first entry with this key, in O(log n).
    pub fn find(&self, key: K) -> Option<Entry<K, &V>> {
        Some(self.shown(self.found(raw::topscedar_arena_find, key.to_i64())?))
    }

    /// Returns whether an entry has this key, in O(log n).
    pub fn contains_key(&self, key: K) -> bool {
        self.found(raw::topscedar_arena_find, key.to_i64())
            .is_some()
    }

    /// Returns the first entry whose key is at least `key`, in O(log n).
    pub fn lower_bound(&self, key: K) -> Option<Entry<K, &V>> {
        Some(self.shown(self.found(raw::topscedar_arena_lower_bound, key.to_i64())?))
    }

    /// Returns the first entry whose key is greater than `key`, in O(log n).
    pub fn upper_bound(&self, key: K) -> Option<Entry<K, &V>> {
        Some(self.shown(self.found(raw::topscedar_arena_upper_bound, key.to_i64())?))
    }

    /// Returns the entry with the smallest key, in O(1).
    pub fn first(&self) -> Option<Entry<K, &V>> {
        Some(self.shown(self.end(raw::topscedar_arena_first)?))
    }

    /// Returns the entry with the greatest key, in O(1).
    pub fn last(&self) -> Option<Entry<K, &V>> {
        Some(self.shown(self.end(raw::topscedar_arena_last)?))
    }

    /// Returns the entry behind the one at a pointer, in O(1); `None` at the end, and if the pointer is stale.
    pub fn next(&self, pointer: Pointer) -> Option<Entry<K, &V>> {
        Some(self.shown(self.found(raw::topscedar_arena_next, pointer.raw())?))
    }

    /// Returns the entry before the one at a pointer, in O(1); `None` at the beginning, and if the pointer is stale.
    pub fn previous(&self, pointer: Pointer) -> Option<Entry<K, &V>> {
        Some(self.shown(self.found(raw::topscedar_arena_previous, pointer.raw())?))
    }

    /// Removes the entry with the smallest key and returns it, in O(log n).
    pub fn pop_first(&mut self) -> Option<Entry<K, V>> {
        let gone = self.end(raw::topscedar_arena_pop_first)?;
        Some(self.taken(gone))
    }

    /// Removes the entry with the greatest key and returns it, in O(log n).
    pub fn pop_last(&mut self) -> Option<Entry<K, V>> {
        let gone = self.end(raw::topscedar_arena_pop_last)?;
        Some(self.taken(gone))
    }

    /// Returns an iterator that removes the entries whose key is at most `until`, in order, each when it is asked for: what is not asked
    /// for stays.
    pub fn pop_until(&mut self, until: K) -> PopUntil<'_, K, V> {
        PopUntil::new(self, until.to_i64())
    }

    /// Removes the entries for which `keeps` answers false, in order. `keeps` may change values.
    pub fn retain(&mut self, mut keeps: impl FnMut(Entry<K, &mut V>) -> bool) {
        let mut next = self.end(raw::topscedar_arena_first);
        while let Some(at) = next {
            next = self.found(raw::topscedar_arena_next, at.pointer);
            let pointer = Pointer::of(at.pointer).expect("an entry has an index");
            let value = self.values[pointer.slot()]
                .as_mut()
                .expect("an entry has a value");
            if !keeps(Entry {
                pointer,
                key: K::from_i64(at.key),
                value,
            }) {
                self.remove(pointer);
            }
        }
    }

    /// Returns an iterator over all entries in order, from both ends.
    pub fn iter(&self) -> Iter<'_, K, V> {
        Iter::all(self)
    }

    /// Returns an iterator over all entries in order, from both ends, with values to be changed.
    pub fn iter_mut(&mut self) -> IterMut<'_, K, V> {
        IterMut::new(self)
    }

    /// Returns an iterator over the entries whose keys are in a range, from both ends. O(log n), and O(1) for each.
    pub fn range(&self, range: impl RangeBounds<K>) -> Iter<'_, K, V> {
        let low = match range.start_bound() {
            Bound::Included(key) => Some(key.to_i64()),
            Bound::Excluded(key) => match key.to_i64().checked_add(1) {
                Some(low) => Some(low),
                None => return Iter::none(self),
            },
            Bound::Unbounded => None,
        };
        let high = match range.end_bound() {
            Bound::Included(key) => Some(key.to_i64()),
            Bound::Excluded(key) => match key.to_i64().checked_sub(1) {
                Some(high) => Some(high),
                None => return Iter::none(self),
            },
            Bound::Unbounded => None,
        };
        let first = match low {
            Some(low) => self.found(raw::topscedar_arena_lower_bound, low),
            None => self.end(raw::topscedar_arena_first),
        };
        let last = match high {
            Some(high) => match self.found(raw::topscedar_arena_upper_bound, high) {
                Some(behind) => self.found(raw::topscedar_arena_previous, behind.pointer),
                None => self.end(raw::topscedar_arena_last),
            },
            None => self.end(raw::topscedar_arena_last),
        };
        match (first, last) {
            (Some(first), Some(last))
                if first.key <= last.key && high.map_or(true, |high| first.key <= high) =>
            {
                Iter::between(self, first, last)
            }
            _ => Iter::none(self),
        }
    }

    /// Returns an iterator over the entries whose key is at least `key`, in order.
    pub fn iter_from(&self, key: K) -> Iter<'_, K, V> {
        self.range((Bound::Included(key), Bound::Unbounded))
    }
}

// What the status of a change means.
pub(crate) fn changed(status: u8) -> Result<(), Error> {
    match status {
        raw::OK => Ok(()),
        raw::NOT_FOUND => Err(Error::Stale),
        raw::FULL => Err(Error::Full),
        raw::NO_MEMORY => Err(Error::NoMemory),
        raw::EQUAL_KEY => Err(Error::EqualKey),
        _ => unreachable!("status {status} of an open arena"),
    }
}

impl<K, V> Drop for SortedArena<K, V> {
    fn drop(&mut self) {
        // Safety: as in `found`.
        unsafe { raw::topscedar_arena_close(self.handle.get()) };
    }
}

impl<K: Key + fmt::Debug, V: fmt::Debug> fmt::Debug for SortedArena<K, V> {
    fn fmt(&self, f: &mut fmt::Formatter<'_>) -> fmt::Result {
        f.debug_map()
            .entries(self.iter().map(|entry| (entry.key, entry.value)))
            .finish()
    }
}

/// Panics where memory is refused, as `Vec` does.
impl<K: Key, V> Default for SortedArena<K, V> {
    fn default() -> Self {
        Self::new().expect("memory for an arena")
    }
}

/// The clone has the same pointers, keys and values. Panics where memory is refused.
impl<K: Key, V: Clone> Clone for SortedArena<K, V> {
    fn clone(&self) -> Self {
        let values = self.values.clone();
        let mut handle = raw::Handle {
            is_open: false,
            at: ptr::null_mut(),
        };
        // Safety: as in `new`, and the handle of this arena is open.
        let status = unsafe { raw::topscedar_arena_clone(self.raw(), &mut handle) };
        assert!(status == raw::OK, "memory for an arena");
        SortedArena {
            handle: UnsafeCell::new(handle),
            values,
            keys: PhantomData,
        }
    }
}

/// By keys and values in order; pointers don't count.
impl<K: Key, V: PartialEq> PartialEq for SortedArena<K, V> {
    fn eq(&self, other: &Self) -> bool {
        self.len() == other.len()
            && self
                .iter()
                .zip(other.iter())
                .all(|(one, two)| one.key.to_i64() == two.key.to_i64() && one.value == two.value)
    }
}

impl<K: Key, V: Eq> Eq for SortedArena<K, V> {}

/// Panics where memory is refused, or the arena is full.
impl<K: Key, V> Extend<(K, V)> for SortedArena<K, V> {
    fn extend<I: IntoIterator<Item = (K, V)>>(&mut self, pairs: I) {
        for (key, value) in pairs {
            self.insert(key, value).expect("room for an entry");
        }
    }
}

impl<K: Key, V> FromIterator<(K, V)> for SortedArena<K, V> {
    fn from_iter<I: IntoIterator<Item = (K, V)>>(pairs: I) -> Self {
        let mut arena = Self::default();
        arena.extend(pairs);
        arena
    }
}

impl<K: Key, V> Index<Pointer> for SortedArena<K, V> {
    type Output = V;

    /// Panics if the pointer is stale.
    fn index(&self, pointer: Pointer) -> &V {
        self.get(pointer).expect("a pointer of an entry").value
    }
}

impl<K: Key, V> IndexMut<Pointer> for SortedArena<K, V> {
    fn index_mut(&mut self, pointer: Pointer) -> &mut V {
        self.get_mut(pointer).expect("a pointer of an entry")
    }
}

impl<'a, K: Key, V> IntoIterator for &'a SortedArena<K, V> {
    type Item = Entry<K, &'a V>;
    type IntoIter = Iter<'a, K, V>;

    fn into_iter(self) -> Iter<'a, K, V> {
        self.iter()
    }
}

impl<'a, K: Key, V> IntoIterator for &'a mut SortedArena<K, V> {
    type Item = Entry<K, &'a mut V>;
    type IntoIter = IterMut<'a, K, V>;

    fn into_iter(self) -> IterMut<'a, K, V> {
        self.iter_mut()
    }
}

impl<K: Key, V> IntoIterator for SortedArena<K, V> {
    type Item = Entry<K, V>;
    type IntoIter = Drain<K, V>;

    fn into_iter(self) -> Drain<K, V> {
        Drain::new(self)
    }
}
