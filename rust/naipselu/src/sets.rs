//! Sets by their versions.

use crate::error::Error;
use crate::library;
use crate::store::{Store, Version};
use crate::value::{Shown, Value};
use std::fmt;
use std::iter;
use std::marker::PhantomData;
use std::vec;

/// Sets by their versions, of `u64` or of `String`. Each version stays until it is forgotten, and versions share what they have
/// in common. A store that is dropped frees all of them.
/// `T::Given` is how a value is passed: a `u64` as it is, a `String` as `&str`.
///
/// ```
/// use naipselu::Sets;
///
/// let mut sets: Sets<String> = Sets::new()?;
/// let few = sets.from_iter(["a", "b"])?;
/// let more = sets.insert(few, "c")?;
/// assert!(!sets.contains(few, "c")?);
/// assert!(sets.contains(more, "c")?);
/// assert_eq!(format!("{sets:?}"), "Sets { versions: 2, .. }");
/// # Ok::<(), naipselu::Error>(())
/// ```
pub struct Sets<T: Value> {
    store: Store,
    keys: PhantomData<T>,
}

impl<T: Value> Sets<T> {
    /// A store without versions.
    ///
    /// ```
    /// let sets = naipselu::Sets::<u64>::new()?;
    /// # Ok::<(), naipselu::Error>(())
    /// ```
    pub fn new() -> Result<Sets<T>, Error> {
        Ok(Sets { store: Store::new()?, keys: PhantomData })
    }

    /// The version without keys.
    ///
    /// ```
    /// # let mut sets = naipselu::Sets::<u64>::new()?;
    /// let none = sets.empty()?;
    /// assert!(sets.is_empty(none)?);
    /// # Ok::<(), naipselu::Error>(())
    /// ```
    pub fn empty(&mut self) -> Result<Version, Error> {
        self.store.make(|store| store.ask(|handle, made| library::naipselu_sets_empty(handle, made)))
    }

    /// The same set as another version, which an edit `_here` of the first leaves as it was.
    ///
    /// ```
    /// # let mut sets = naipselu::Sets::<u64>::new()?;
    /// let one = sets.from_iter([1])?;
    /// let kept = sets.copy(one)?;
    /// sets.insert_here(one, 2)?;
    /// assert!(!sets.contains(kept, 2)?);
    /// # Ok::<(), naipselu::Error>(())
    /// ```
    pub fn copy(&mut self, version: Version) -> Result<Version, Error> {
        self.store.make(|store| store.of_one(library::naipselu_sets_copy, version))
    }

    /// The version with the key.
    ///
    /// ```
    /// # let mut sets = naipselu::Sets::<u64>::new()?;
    /// let first = sets.from_iter([1, 2])?;
    /// let larger = sets.insert(first, 3)?;
    /// assert_eq!(sets.len(larger)?, 3);
    /// assert_eq!(sets.len(first)?, 2);
    /// # Ok::<(), naipselu::Error>(())
    /// ```
    pub fn insert(&mut self, version: Version, key: T::Given<'_>) -> Result<Version, Error> {
        self.store.make(|store| store.of_value(library::naipselu_sets_insert, version, key.into()))
    }

    /// The version without the key, which is the same set where it has no such key.
    ///
    /// ```
    /// # let mut sets = naipselu::Sets::<u64>::new()?;
    /// let first = sets.from_iter([1, 2])?;
    /// let fewer = sets.remove(first, 1)?;
    /// assert_eq!(sets.sorted(fewer)?, [2]);
    /// # Ok::<(), naipselu::Error>(())
    /// ```
    pub fn remove(&mut self, version: Version, key: T::Given<'_>) -> Result<Version, Error> {
        self.store.make(|store| store.of_value(library::naipselu_sets_remove, version, key.into()))
    }

    /// The keys of either version.
    ///
    /// ```
    /// # let mut sets = naipselu::Sets::<u64>::new()?;
    /// let first = sets.from_iter([1, 2])?;
    /// let second = sets.from_iter([2, 3])?;
    /// let union = sets.union(first, second)?;
    /// assert_eq!(sets.len(union)?, 3);
    /// # Ok::<(), naipselu::Error>(())
    /// ```
    pub fn union(&mut self, first: Version, second: Version) -> Result<Version, Error> {
        self.store.make(|store| store.of_two(library::naipselu_sets_union, first, second))
    }

    /// The keys that both versions have.
    ///
    /// ```
    /// # let mut sets = naipselu::Sets::<u64>::new()?;
    /// let first = sets.from_iter([1, 2])?;
    /// let second = sets.from_iter([2, 3])?;
    /// let both = sets.intersection(first, second)?;
    /// assert_eq!(sets.sorted(both)?, [2]);
    /// # Ok::<(), naipselu::Error>(())
    /// ```
    pub fn intersection(&mut self, first: Version, second: Version) -> Result<Version, Error> {
        self.store.make(|store| store.of_two(library::naipselu_sets_both, first, second))
    }

    /// The keys of the first version that the second lacks.
    ///
    /// ```
    /// # let mut sets = naipselu::Sets::<u64>::new()?;
    /// let first = sets.from_iter([1, 2])?;
    /// let second = sets.from_iter([2, 3])?;
    /// let rest = sets.difference(first, second)?;
    /// assert_eq!(sets.sorted(rest)?, [1]);
    /// # Ok::<(), naipselu::Error>(())
    /// ```
    pub fn difference(&mut self, first: Version, second: Version) -> Result<Version, Error> {
        self.store.make(|store| store.of_two(library::naipselu_sets_less, first, second))
    }

    /// Puts the key into this version itself, in place where its rows are its own. Every other version stays.
    ///
    /// ```
    /// # let mut sets = naipselu::Sets::<u64>::new()?;
    /// let squares = sets.empty()?;
    /// for number in 0..100 {
    ///     sets.insert_here(squares, number * number)?;
    /// }
    /// assert!(sets.contains(squares, 81)?);
    /// # Ok::<(), naipselu::Error>(())
    /// ```
    pub fn insert_here(&mut self, version: Version, key: T::Given<'_>) -> Result<(), Error> {
        self.store.of_value(library::naipselu_sets_insert_here, version, key.into()).map(|_| ())
    }

    /// Takes the key out of this version itself, in place where its rows are its own. Every other version stays.
    ///
    /// ```
    /// # let mut sets = naipselu::Sets::<u64>::new()?;
    /// let numbers = sets.from_iter([1, 2])?;
    /// sets.remove_here(numbers, 1)?;
    /// assert_eq!(sets.sorted(numbers)?, [2]);
    /// # Ok::<(), naipselu::Error>(())
    /// ```
    pub fn remove_here(&mut self, version: Version, key: T::Given<'_>) -> Result<(), Error> {
        self.store.of_value(library::naipselu_sets_remove_here, version, key.into()).map(|_| ())
    }

    /// Forgets the version, and frees what no other shares. The store may give its name to a version that it makes later.
    ///
    /// ```
    /// # let mut sets = naipselu::Sets::<u64>::new()?;
    /// let one = sets.from_iter([1])?;
    /// sets.forget(one)?;
    /// assert!(!sets.holds(one));
    /// # Ok::<(), naipselu::Error>(())
    /// ```
    pub fn forget(&mut self, version: Version) -> Result<(), Error> {
        self.store.forget(library::naipselu_sets_forget, version)
    }

    /// The version of these keys. If the iterator panics, what it gave so far stays in the store as a version without a name.
    ///
    /// ```
    /// # let mut sets = naipselu::Sets::<u64>::new()?;
    /// let squares = sets.from_iter([1, 4, 1])?;
    /// assert_eq!(sets.len(squares)?, 2);
    /// # Ok::<(), naipselu::Error>(())
    /// ```
    // It needs the store, so it is no `FromIterator`.
    #[allow(clippy::should_implement_trait)]
    pub fn from_iter<'v>(&mut self, keys: impl IntoIterator<Item = T::Given<'v>>) -> Result<Version, Error>
    where
        T: 'v,
    {
        let made = self.empty()?;
        match keys.into_iter().try_for_each(|key| self.insert_here(made, key)) {
            Ok(()) => Ok(made),
            Err(error) => self.forget(made).and(Err(error)),
        }
    }

    /// Whether the store holds the version, or one that has its name since it was forgotten.
    ///
    /// ```
    /// # let mut sets = naipselu::Sets::<u64>::new()?;
    /// let none = sets.empty()?;
    /// assert!(sets.holds(none));
    /// # Ok::<(), naipselu::Error>(())
    /// ```
    pub fn holds(&self, version: Version) -> bool {
        self.is_empty(version).is_ok()
    }

    /// How many keys the version has. It walks them all.
    ///
    /// ```
    /// # let mut sets = naipselu::Sets::<u64>::new()?;
    /// let numbers = sets.from_iter([1, 2])?;
    /// assert_eq!(sets.len(numbers)?, 2);
    /// # Ok::<(), naipselu::Error>(())
    /// ```
    pub fn len(&self, version: Version) -> Result<usize, Error> {
        self.store.of_one(library::naipselu_sets_len, version)
    }

    /// Whether the version has no key.
    ///
    /// ```
    /// # let mut sets = naipselu::Sets::<u64>::new()?;
    /// let none = sets.empty()?;
    /// assert!(sets.is_empty(none)?);
    /// # Ok::<(), naipselu::Error>(())
    /// ```
    pub fn is_empty(&self, version: Version) -> Result<bool, Error> {
        self.store.is_empty(library::naipselu_sets_keys, version)
    }

    /// Whether the version has the key. It takes no memory.
    ///
    /// ```
    /// # let mut sets = naipselu::Sets::<u64>::new()?;
    /// let numbers = sets.from_iter([1, 2])?;
    /// assert!(sets.contains(numbers, 1)?);
    /// assert!(!sets.contains(numbers, 3)?);
    /// # Ok::<(), naipselu::Error>(())
    /// ```
    pub fn contains(&self, version: Version, key: T::Given<'_>) -> Result<bool, Error> {
        self.store.of_value(library::naipselu_sets_contains, version, key.into())
    }

    /// Whether two versions have the same keys.
    ///
    /// ```
    /// # let mut sets = naipselu::Sets::<u64>::new()?;
    /// let one = sets.from_iter([1, 2])?;
    /// let other = sets.from_iter([2, 1])?;
    /// assert!(sets.same(one, other)?);
    /// # Ok::<(), naipselu::Error>(())
    /// ```
    pub fn same(&self, left: Version, right: Version) -> Result<bool, Error> {
        self.store.of_two(library::naipselu_sets_same, left, right)
    }

    /// The keys of the version, in no order that means something. They are copied first.
    ///
    /// ```
    /// # let mut sets = naipselu::Sets::<u64>::new()?;
    /// let numbers = sets.from_iter([1, 2, 3])?;
    /// assert_eq!(sets.iter(numbers)?.sum::<u64>(), 6);
    /// # Ok::<(), naipselu::Error>(())
    /// ```
    pub fn iter(&self, version: Version) -> Result<vec::IntoIter<T>, Error> {
        let most = self.len(version)?;
        let show = |forms: &mut [_], room: &mut [_]| self.store.show(library::naipselu_sets_keys, version, forms, room);
        let mut shown = Shown::read(most, most * T::ROOM, show)?;
        Ok(iter::from_fn(|| shown.next()).collect::<Vec<_>>().into_iter())
    }

    /// The keys of the version as a `Vec`, by rising order, in which `iter` does not have them.
    ///
    /// ```
    /// # let mut sets = naipselu::Sets::<u64>::new()?;
    /// let numbers = sets.from_iter([3, 1])?;
    /// assert_eq!(sets.sorted(numbers)?, [1, 3]);
    /// # Ok::<(), naipselu::Error>(())
    /// ```
    pub fn sorted(&self, version: Version) -> Result<Vec<T>, Error> {
        let mut keys: Vec<T> = self.iter(version)?.collect();
        keys.sort_unstable();
        Ok(keys)
    }
}

impl<T: Value> fmt::Debug for Sets<T> {
    fn fmt(&self, f: &mut fmt::Formatter<'_>) -> fmt::Result {
        self.store.debug("Sets", f)
    }
}
