//! Lists by their versions.

use crate::error::Error;
use crate::library;
use crate::store::{Store, Version, place};
use crate::value::{Value, within};
use std::fmt;
use std::iter::FusedIterator;
use std::marker::PhantomData;
use std::ops::{Bound, RangeBounds};

/// Lists by their versions, of `u64` or of `String`. Each version stays until it is forgotten, and versions share what they have
/// in common. A store that is dropped frees all of them.
/// `T::Given` is how a value is passed: a `u64` as it is, a `String` as `&str`.
///
/// ```
/// use naipselu::Lists;
///
/// let mut lists: Lists<u64> = Lists::new()?;
/// let old = lists.from_iter([1, 2])?;
/// let new = lists.push(old, 3)?;
/// assert_eq!(lists.to_vec(old)?, [1, 2]);
/// assert_eq!(lists.to_vec(new)?, [1, 2, 3]);
/// assert_eq!(format!("{lists:?}"), "Lists { versions: 2, .. }");
/// # Ok::<(), naipselu::Error>(())
/// ```
pub struct Lists<T: Value> {
    store: Store,
    values: PhantomData<T>,
}

impl<T: Value> Lists<T> {
    /// A store without versions.
    ///
    /// ```
    /// let lists = naipselu::Lists::<u64>::new()?;
    /// # Ok::<(), naipselu::Error>(())
    /// ```
    pub fn new() -> Result<Lists<T>, Error> {
        Ok(Lists { store: Store::new()?, values: PhantomData })
    }

    /// The version without values.
    ///
    /// ```
    /// # let mut lists = naipselu::Lists::<u64>::new()?;
    /// let none = lists.empty()?;
    /// assert!(lists.is_empty(none)?);
    /// # Ok::<(), naipselu::Error>(())
    /// ```
    pub fn empty(&mut self) -> Result<Version, Error> {
        self.store.make(|store| store.ask(|handle, made| library::naipselu_lists_empty(handle, made)))
    }

    /// The same list as another version, which an edit `_here` of the first leaves as it was.
    ///
    /// ```
    /// # let mut lists = naipselu::Lists::<u64>::new()?;
    /// let one = lists.from_iter([1])?;
    /// let kept = lists.copy(one)?;
    /// lists.push_here(one, 2)?;
    /// assert_eq!(lists.to_vec(kept)?, [1]);
    /// # Ok::<(), naipselu::Error>(())
    /// ```
    pub fn copy(&mut self, version: Version) -> Result<Version, Error> {
        self.store.make(|store| store.of_one(library::naipselu_lists_copy, version))
    }

    /// The version with the value after its last. Refused as `Error::Long` where that would be the 2^32nd.
    ///
    /// ```
    /// # let mut lists = naipselu::Lists::<u64>::new()?;
    /// let first = lists.empty()?;
    /// let second = lists.push(first, 7)?;
    /// assert_eq!(lists.get(second, 0)?, Some(7));
    /// assert_eq!(lists.len(first)?, 0);
    /// # Ok::<(), naipselu::Error>(())
    /// ```
    pub fn push(&mut self, version: Version, value: T::Given<'_>) -> Result<Version, Error> {
        self.store.make(|store| store.of_value(library::naipselu_lists_push, version, value.into()))
    }

    /// The version with the value at the index. Refused as `Error::Range` where the index is past the end.
    ///
    /// ```
    /// # let mut lists = naipselu::Lists::<u64>::new()?;
    /// let first = lists.from_iter([1, 2])?;
    /// let second = lists.set(first, 0, 7)?;
    /// assert_eq!(lists.to_vec(second)?, [7, 2]);
    /// # Ok::<(), naipselu::Error>(())
    /// ```
    pub fn set(&mut self, version: Version, index: usize, value: T::Given<'_>) -> Result<Version, Error> {
        self.store.make(|store| store.of_place(library::naipselu_lists_set, version, index, value.into()))
    }

    /// The version with the value before the one at the index, or after the last where the index is the length. Refused as
    /// `Error::Range` where it is larger, and as `Error::Long` where the list would have 2^32 values.
    ///
    /// ```
    /// # let mut lists = naipselu::Lists::<u64>::new()?;
    /// let first = lists.from_iter([1, 3])?;
    /// let second = lists.insert(first, 1, 2)?;
    /// assert_eq!(lists.to_vec(second)?, [1, 2, 3]);
    /// # Ok::<(), naipselu::Error>(())
    /// ```
    pub fn insert(&mut self, version: Version, index: usize, value: T::Given<'_>) -> Result<Version, Error> {
        self.store.make(|store| store.of_place(library::naipselu_lists_insert, version, index, value.into()))
    }

    /// The version without the value at the index. Refused as `Error::Range` where the index is past the end.
    ///
    /// ```
    /// # let mut lists = naipselu::Lists::<u64>::new()?;
    /// let first = lists.from_iter([1, 2, 3])?;
    /// let second = lists.remove(first, 1)?;
    /// assert_eq!(lists.to_vec(second)?, [1, 3]);
    /// # Ok::<(), naipselu::Error>(())
    /// ```
    pub fn remove(&mut self, version: Version, index: usize) -> Result<Version, Error> {
        let (number, index) = (self.store.number(version)?, place(index)?);
        self.store.make(|store| store.ask(|handle, made| library::naipselu_lists_remove(handle, number, index, made)))
    }

    /// The version without its last value. Refused as `Error::Range` where it has none.
    ///
    /// ```
    /// # let mut lists = naipselu::Lists::<u64>::new()?;
    /// let first = lists.from_iter([1, 2])?;
    /// let second = lists.pop(first)?;
    /// assert_eq!(lists.to_vec(second)?, [1]);
    /// # Ok::<(), naipselu::Error>(())
    /// ```
    pub fn pop(&mut self, version: Version) -> Result<Version, Error> {
        self.store.make(|store| store.of_one(library::naipselu_lists_pop, version))
    }

    /// The values of one version and then those of another. Refused as `Error::Long` where they are 2^32 or more.
    ///
    /// ```
    /// # let mut lists = naipselu::Lists::<u64>::new()?;
    /// let left = lists.from_iter([1, 2])?;
    /// let right = lists.from_iter([3])?;
    /// let both = lists.concat(left, right)?;
    /// assert_eq!(lists.to_vec(both)?, [1, 2, 3]);
    /// # Ok::<(), naipselu::Error>(())
    /// ```
    pub fn concat(&mut self, left: Version, right: Version) -> Result<Version, Error> {
        self.store.make(|store| store.of_two(library::naipselu_lists_concat, left, right))
    }

    /// The values at the indices of the range. Refused as `Error::Range` where that isn't one of the list.
    ///
    /// ```
    /// # let mut lists = naipselu::Lists::<u64>::new()?;
    /// let first = lists.from_iter([1, 2, 3])?;
    /// let part = lists.slice(first, 1..3)?;
    /// assert_eq!(lists.to_vec(part)?, [2, 3]);
    /// let rest = lists.slice(first, 2..)?;
    /// assert_eq!(lists.to_vec(rest)?, [3]);
    /// assert_eq!(lists.slice(first, 2..=3), Err(naipselu::Error::Range));
    /// # Ok::<(), naipselu::Error>(())
    /// ```
    pub fn slice(&mut self, version: Version, range: impl RangeBounds<usize>) -> Result<Version, Error> {
        let (from, to) = ends(&range, self.len(version)?);
        let (number, from, to) = (self.store.number(version)?, place(from)?, place(to)?);
        self.store.make(|store| store.ask(|handle, made| library::naipselu_lists_slice(handle, number, from, to, made)))
    }

    /// Puts the value after the last of this version itself, in place where its rows are its own. Every other version stays.
    /// Refused as `Error::Long` where that would be the 2^32nd.
    ///
    /// ```
    /// # let mut lists = naipselu::Lists::<u64>::new()?;
    /// let squares = lists.empty()?;
    /// for number in 0..100 {
    ///     lists.push_here(squares, number * number)?;
    /// }
    /// assert_eq!(lists.get(squares, 9)?, Some(81));
    /// # Ok::<(), naipselu::Error>(())
    /// ```
    pub fn push_here(&mut self, version: Version, value: T::Given<'_>) -> Result<(), Error> {
        self.store.of_value(library::naipselu_lists_push_here, version, value.into()).map(|_| ())
    }

    /// Puts the value at the index of this version itself, in place where its rows are its own. Every other version stays.
    /// Refused as `Error::Range` where the index is past the end.
    ///
    /// ```
    /// # let mut lists = naipselu::Lists::<u64>::new()?;
    /// let numbers = lists.from_iter([1, 2])?;
    /// lists.set_here(numbers, 1, 7)?;
    /// assert_eq!(lists.to_vec(numbers)?, [1, 7]);
    /// # Ok::<(), naipselu::Error>(())
    /// ```
    pub fn set_here(&mut self, version: Version, index: usize, value: T::Given<'_>) -> Result<(), Error> {
        self.store.of_place(library::naipselu_lists_set_here, version, index, value.into()).map(|_| ())
    }

    /// Takes the last value off this version itself, in place where its rows are its own. Every other version stays. Refused as
    /// `Error::Range` where it has none.
    ///
    /// ```
    /// # let mut lists = naipselu::Lists::<u64>::new()?;
    /// let numbers = lists.from_iter([1, 2])?;
    /// lists.pop_here(numbers)?;
    /// assert_eq!(lists.to_vec(numbers)?, [1]);
    /// # Ok::<(), naipselu::Error>(())
    /// ```
    pub fn pop_here(&mut self, version: Version) -> Result<(), Error> {
        self.store.of_one(library::naipselu_lists_pop_here, version).map(|_| ())
    }

    /// Forgets the version, and frees what no other shares. The store may give its name to a version that it makes later.
    ///
    /// ```
    /// # let mut lists = naipselu::Lists::<u64>::new()?;
    /// let one = lists.from_iter([1])?;
    /// lists.forget(one)?;
    /// assert!(!lists.holds(one));
    /// # Ok::<(), naipselu::Error>(())
    /// ```
    pub fn forget(&mut self, version: Version) -> Result<(), Error> {
        self.store.forget(library::naipselu_lists_forget, version)
    }

    /// The version of these values. If the iterator panics, what it gave so far stays in the store as a version without a name.
    ///
    /// ```
    /// # let mut lists = naipselu::Lists::<String>::new()?;
    /// let words = lists.from_iter(["one", "two"])?;
    /// assert_eq!(lists.get(words, 1)?.as_deref(), Some("two"));
    /// # Ok::<(), naipselu::Error>(())
    /// ```
    // It needs the store, so it is no `FromIterator`.
    #[allow(clippy::should_implement_trait)]
    pub fn from_iter<'v>(&mut self, values: impl IntoIterator<Item = T::Given<'v>>) -> Result<Version, Error>
    where
        T: 'v,
    {
        let made = self.empty()?;
        match values.into_iter().try_for_each(|value| self.push_here(made, value)) {
            Ok(()) => Ok(made),
            Err(error) => self.forget(made).and(Err(error)),
        }
    }

    /// Whether the store holds the version, or one that has its name since it was forgotten.
    ///
    /// ```
    /// # let mut lists = naipselu::Lists::<u64>::new()?;
    /// let none = lists.empty()?;
    /// assert!(lists.holds(none));
    /// # Ok::<(), naipselu::Error>(())
    /// ```
    pub fn holds(&self, version: Version) -> bool {
        self.len(version).is_ok()
    }

    /// How many values the version has.
    ///
    /// ```
    /// # let mut lists = naipselu::Lists::<u64>::new()?;
    /// let numbers = lists.from_iter([1, 2])?;
    /// assert_eq!(lists.len(numbers)?, 2);
    /// # Ok::<(), naipselu::Error>(())
    /// ```
    pub fn len(&self, version: Version) -> Result<usize, Error> {
        self.store.of_one(library::naipselu_lists_len, version)
    }

    /// Whether the version has no value.
    ///
    /// ```
    /// # let mut lists = naipselu::Lists::<u64>::new()?;
    /// let none = lists.empty()?;
    /// assert!(lists.is_empty(none)?);
    /// # Ok::<(), naipselu::Error>(())
    /// ```
    pub fn is_empty(&self, version: Version) -> Result<bool, Error> {
        Ok(self.len(version)? == 0)
    }

    /// The value at the index, and none past the end.
    ///
    /// ```
    /// # let mut lists = naipselu::Lists::<u64>::new()?;
    /// let numbers = lists.from_iter([1, 2])?;
    /// assert_eq!(lists.get(numbers, 1)?, Some(2));
    /// assert_eq!(lists.get(numbers, 2)?, None);
    /// # Ok::<(), naipselu::Error>(())
    /// ```
    pub fn get(&self, version: Version, index: usize) -> Result<Option<T>, Error> {
        let version = self.store.number(version)?;
        // The pointer and the length are those of a slice that lives for the call.
        let found = T::read(|form, room| {
            let index = place(index)?;
            self.store.call(|handle| unsafe {
                library::naipselu_lists_get(handle, version, index, form, room.as_mut_ptr(), room.len())
            })
        });
        within(found)
    }

    /// Whether two versions have equal values at each place, and as many.
    ///
    /// ```
    /// # let mut lists = naipselu::Lists::<u64>::new()?;
    /// let one = lists.from_iter([1, 2])?;
    /// let other = lists.push(one, 3)?;
    /// assert!(!lists.same(one, other)?);
    /// let back = lists.pop(other)?;
    /// assert!(lists.same(one, back)?);
    /// # Ok::<(), naipselu::Error>(())
    /// ```
    pub fn same(&self, left: Version, right: Version) -> Result<bool, Error> {
        self.store.of_two(library::naipselu_lists_same, left, right)
    }

    /// The values of the version, in order. Each is read when it is asked for.
    ///
    /// ```
    /// # let mut lists = naipselu::Lists::<u64>::new()?;
    /// let numbers = lists.from_iter([1, 2, 3])?;
    /// assert_eq!(lists.iter(numbers)?.sum::<u64>(), 6);
    /// assert!(lists.iter(numbers)?.rev().eq([3, 2, 1]));
    /// assert_eq!(format!("{:?}", lists.iter(numbers)?), "[1, 2, 3]");
    /// # Ok::<(), naipselu::Error>(())
    /// ```
    pub fn iter(&self, version: Version) -> Result<Iter<'_, T>, Error> {
        let end = self.len(version)?;
        Ok(Iter { lists: self, version, next: 0, end })
    }

    /// The values of the version as a `Vec`.
    ///
    /// ```
    /// # let mut lists = naipselu::Lists::<u64>::new()?;
    /// let numbers = lists.from_iter([1, 2])?;
    /// assert_eq!(lists.to_vec(numbers)?, [1, 2]);
    /// # Ok::<(), naipselu::Error>(())
    /// ```
    pub fn to_vec(&self, version: Version) -> Result<Vec<T>, Error> {
        Ok(self.iter(version)?.collect())
    }
}

impl<T: Value> fmt::Debug for Lists<T> {
    fn fmt(&self, f: &mut fmt::Formatter<'_>) -> fmt::Result {
        self.store.debug("Lists", f)
    }
}

/// The index that a range begins with, and the one behind its last, in a list of this length.
fn ends(range: &impl RangeBounds<usize>, len: usize) -> (usize, usize) {
    let from = match range.start_bound() {
        Bound::Included(&at) => at,
        Bound::Excluded(&at) => at.saturating_add(1),
        Bound::Unbounded => 0,
    };
    let to = match range.end_bound() {
        Bound::Included(&at) => at.saturating_add(1),
        Bound::Excluded(&at) => at,
        Bound::Unbounded => len,
    };
    (from, to)
}

/// The values of a version, in order.
///
/// ```
/// # let mut lists = naipselu::Lists::<u64>::new()?;
/// let numbers = lists.from_iter([1, 2, 3])?;
/// let mut iter = lists.iter(numbers)?;
/// assert_eq!(iter.next(), Some(1));
/// assert_eq!(iter.len(), 2);
/// # Ok::<(), naipselu::Error>(())
/// ```
#[derive(Clone)]
pub struct Iter<'s, T: Value> {
    lists: &'s Lists<T>,
    version: Version,
    next: usize,
    end: usize,
}

impl<T: Value> Iter<'_, T> {
    /// The value at an index that is left. The store is borrowed, so the version stays as it was.
    fn at(&self, index: usize) -> T {
        self.lists.get(self.version, index).ok().flatten().expect("the version is held, and has the index")
    }
}

impl<T: Value> Iterator for Iter<'_, T> {
    type Item = T;

    fn next(&mut self) -> Option<T> {
        if self.next == self.end {
            return None;
        }
        self.next += 1;
        Some(self.at(self.next - 1))
    }

    fn size_hint(&self) -> (usize, Option<usize>) {
        let left = self.end - self.next;
        (left, Some(left))
    }
}

impl<T: Value> DoubleEndedIterator for Iter<'_, T> {
    fn next_back(&mut self) -> Option<T> {
        if self.next == self.end {
            return None;
        }
        self.end -= 1;
        Some(self.at(self.end))
    }
}

impl<T: Value> ExactSizeIterator for Iter<'_, T> {}

impl<T: Value> FusedIterator for Iter<'_, T> {}

impl<T: Value> fmt::Debug for Iter<'_, T> {
    fn fmt(&self, f: &mut fmt::Formatter<'_>) -> fmt::Result {
        f.debug_list().entries(self.clone()).finish()
    }
}
