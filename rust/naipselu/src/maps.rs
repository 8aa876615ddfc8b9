//! Maps by their versions.

use crate::error::Error;
use crate::library::{self, Form};
use crate::store::{Store, Version};
use crate::value::crossing::Given;
use crate::value::{Shown, Value, within};
use std::fmt;
use std::iter;
use std::marker::PhantomData;
use std::vec;

/// Maps by their versions, with keys and values of `u64` or of `String`. Each version stays until it is forgotten, and versions
/// share what they have in common. A store that is dropped frees all of them.
/// `K::Given` and `V::Given` are how a value is passed: a `u64` as it is, a `String` as `&str`.
///
/// ```
/// use naipselu::Maps;
///
/// let mut maps: Maps<String, u64> = Maps::new()?;
/// let ages = maps.from_iter([("Ada", 36), ("Bob", 41)])?;
/// let later = maps.insert(ages, "Ada", 37)?;
/// assert_eq!(maps.get(ages, "Ada")?, Some(36));
/// assert_eq!(maps.get(later, "Ada")?, Some(37));
/// assert_eq!(format!("{maps:?}"), "Maps { versions: 2, .. }");
/// # Ok::<(), naipselu::Error>(())
/// ```
pub struct Maps<K: Value, V: Value> {
    store: Store,
    entries: PhantomData<(K, V)>,
}

impl<K: Value, V: Value> Maps<K, V> {
    /// A store without versions.
    ///
    /// ```
    /// let maps = naipselu::Maps::<u64, String>::new()?;
    /// # Ok::<(), naipselu::Error>(())
    /// ```
    pub fn new() -> Result<Maps<K, V>, Error> {
        Ok(Maps { store: Store::new()?, entries: PhantomData })
    }

    /// The version without keys.
    ///
    /// ```
    /// # let mut maps = naipselu::Maps::<u64, u64>::new()?;
    /// let none = maps.empty()?;
    /// assert!(maps.is_empty(none)?);
    /// # Ok::<(), naipselu::Error>(())
    /// ```
    pub fn empty(&mut self) -> Result<Version, Error> {
        self.store.make(|store| store.ask(|handle, made| library::naipselu_maps_empty(handle, made)))
    }

    /// The same map as another version, which an edit `_here` of the first leaves as it was.
    ///
    /// ```
    /// # let mut maps = naipselu::Maps::<u64, u64>::new()?;
    /// let one = maps.from_iter([(1, 10)])?;
    /// let kept = maps.copy(one)?;
    /// maps.insert_here(one, 1, 11)?;
    /// assert_eq!(maps.get(kept, 1)?, Some(10));
    /// # Ok::<(), naipselu::Error>(())
    /// ```
    pub fn copy(&mut self, version: Version) -> Result<Version, Error> {
        self.store.make(|store| store.of_one(library::naipselu_maps_copy, version))
    }

    /// The version with the value at the key.
    ///
    /// ```
    /// # let mut maps = naipselu::Maps::<u64, String>::new()?;
    /// let first = maps.empty()?;
    /// let second = maps.insert(first, 1, "one")?;
    /// assert_eq!(maps.get(second, 1)?.as_deref(), Some("one"));
    /// assert_eq!(maps.get(first, 1)?, None);
    /// # Ok::<(), naipselu::Error>(())
    /// ```
    pub fn insert(&mut self, version: Version, key: K::Given<'_>, value: V::Given<'_>) -> Result<Version, Error> {
        self.store.make(|store| store.of_entry(library::naipselu_maps_insert, version, key.into(), value.into()))
    }

    /// The version without the key, which is the same map where it has no such key.
    ///
    /// ```
    /// # let mut maps = naipselu::Maps::<u64, u64>::new()?;
    /// let first = maps.from_iter([(1, 10), (2, 20)])?;
    /// let fewer = maps.remove(first, 1)?;
    /// assert_eq!(maps.sorted(fewer)?, [(2, 20)]);
    /// # Ok::<(), naipselu::Error>(())
    /// ```
    pub fn remove(&mut self, version: Version, key: K::Given<'_>) -> Result<Version, Error> {
        self.store.make(|store| store.of_value(library::naipselu_maps_remove, version, key.into()))
    }

    /// The entries of either version, of two with the same key the first's.
    ///
    /// ```
    /// # let mut maps = naipselu::Maps::<u64, u64>::new()?;
    /// let first = maps.from_iter([(1, 10), (2, 20)])?;
    /// let second = maps.from_iter([(2, 21), (3, 31)])?;
    /// let union = maps.union(first, second)?;
    /// assert_eq!(maps.sorted(union)?, [(1, 10), (2, 20), (3, 31)]);
    /// # Ok::<(), naipselu::Error>(())
    /// ```
    pub fn union(&mut self, first: Version, second: Version) -> Result<Version, Error> {
        self.store.make(|store| store.of_two(library::naipselu_maps_union, first, second))
    }

    /// The first version's entries whose keys the second has too.
    ///
    /// ```
    /// # let mut maps = naipselu::Maps::<u64, u64>::new()?;
    /// let first = maps.from_iter([(1, 10), (2, 20)])?;
    /// let second = maps.from_iter([(2, 21), (3, 31)])?;
    /// let both = maps.intersection(first, second)?;
    /// assert_eq!(maps.sorted(both)?, [(2, 20)]);
    /// # Ok::<(), naipselu::Error>(())
    /// ```
    pub fn intersection(&mut self, first: Version, second: Version) -> Result<Version, Error> {
        self.store.make(|store| store.of_two(library::naipselu_maps_both, first, second))
    }

    /// The first version's entries whose keys the second lacks.
    ///
    /// ```
    /// # let mut maps = naipselu::Maps::<u64, u64>::new()?;
    /// let first = maps.from_iter([(1, 10), (2, 20)])?;
    /// let second = maps.from_iter([(2, 21), (3, 31)])?;
    /// let rest = maps.difference(first, second)?;
    /// assert_eq!(maps.sorted(rest)?, [(1, 10)]);
    /// # Ok::<(), naipselu::Error>(())
    /// ```
    pub fn difference(&mut self, first: Version, second: Version) -> Result<Version, Error> {
        self.store.make(|store| store.of_two(library::naipselu_maps_less, first, second))
    }

    /// Puts the value at the key of this version itself, in place where its rows are its own. Every other version stays.
    ///
    /// ```
    /// # let mut maps = naipselu::Maps::<u64, u64>::new()?;
    /// let squares = maps.empty()?;
    /// for number in 0..100 {
    ///     maps.insert_here(squares, number, number * number)?;
    /// }
    /// assert_eq!(maps.get(squares, 9)?, Some(81));
    /// # Ok::<(), naipselu::Error>(())
    /// ```
    pub fn insert_here(&mut self, version: Version, key: K::Given<'_>, value: V::Given<'_>) -> Result<(), Error> {
        self.store.of_entry(library::naipselu_maps_insert_here, version, key.into(), value.into()).map(|_| ())
    }

    /// Takes the key out of this version itself, in place where its rows are its own. Every other version stays.
    ///
    /// ```
    /// # let mut maps = naipselu::Maps::<u64, u64>::new()?;
    /// let numbers = maps.from_iter([(1, 10), (2, 20)])?;
    /// maps.remove_here(numbers, 1)?;
    /// assert_eq!(maps.sorted(numbers)?, [(2, 20)]);
    /// # Ok::<(), naipselu::Error>(())
    /// ```
    pub fn remove_here(&mut self, version: Version, key: K::Given<'_>) -> Result<(), Error> {
        self.store.of_value(library::naipselu_maps_remove_here, version, key.into()).map(|_| ())
    }

    /// Forgets the version, and frees what no other shares. The store may give its name to a version that it makes later.
    ///
    /// ```
    /// # let mut maps = naipselu::Maps::<u64, u64>::new()?;
    /// let one = maps.from_iter([(1, 10)])?;
    /// maps.forget(one)?;
    /// assert!(!maps.holds(one));
    /// # Ok::<(), naipselu::Error>(())
    /// ```
    pub fn forget(&mut self, version: Version) -> Result<(), Error> {
        self.store.forget(library::naipselu_maps_forget, version)
    }

    /// The version of these entries, of two with the same key the later. If the iterator panics, what it gave so far stays in the
    /// store as a version without a name.
    ///
    /// ```
    /// # let mut maps = naipselu::Maps::<String, String>::new()?;
    /// let words = maps.from_iter([("eins", "one"), ("zwei", "two")])?;
    /// assert_eq!(maps.len(words)?, 2);
    /// # Ok::<(), naipselu::Error>(())
    /// ```
    // It needs the store, so it is no `FromIterator`.
    #[allow(clippy::should_implement_trait)]
    pub fn from_iter<'v>(&mut self, entries: impl IntoIterator<Item = (K::Given<'v>, V::Given<'v>)>) -> Result<Version, Error>
    where
        K: 'v,
        V: 'v,
    {
        let made = self.empty()?;
        match entries.into_iter().try_for_each(|(key, value)| self.insert_here(made, key, value)) {
            Ok(()) => Ok(made),
            Err(error) => self.forget(made).and(Err(error)),
        }
    }

    /// Whether the store holds the version, or one that has its name since it was forgotten.
    ///
    /// ```
    /// # let mut maps = naipselu::Maps::<u64, u64>::new()?;
    /// let none = maps.empty()?;
    /// assert!(maps.holds(none));
    /// # Ok::<(), naipselu::Error>(())
    /// ```
    pub fn holds(&self, version: Version) -> bool {
        self.is_empty(version).is_ok()
    }

    /// How many keys the version has. It walks them all.
    ///
    /// ```
    /// # let mut maps = naipselu::Maps::<u64, u64>::new()?;
    /// let numbers = maps.from_iter([(1, 10), (2, 20)])?;
    /// assert_eq!(maps.len(numbers)?, 2);
    /// # Ok::<(), naipselu::Error>(())
    /// ```
    pub fn len(&self, version: Version) -> Result<usize, Error> {
        self.store.of_one(library::naipselu_maps_len, version)
    }

    /// Whether the version has no key.
    ///
    /// ```
    /// # let mut maps = naipselu::Maps::<u64, u64>::new()?;
    /// let none = maps.empty()?;
    /// assert!(maps.is_empty(none)?);
    /// # Ok::<(), naipselu::Error>(())
    /// ```
    pub fn is_empty(&self, version: Version) -> Result<bool, Error> {
        self.store.is_empty(library::naipselu_maps_entries, version)
    }

    /// The value at the key, and none where the key is absent.
    ///
    /// ```
    /// # let mut maps = naipselu::Maps::<String, u64>::new()?;
    /// let ages = maps.from_iter([("Ada", 36)])?;
    /// assert_eq!(maps.get(ages, "Ada")?, Some(36));
    /// assert_eq!(maps.get(ages, "Bob")?, None);
    /// # Ok::<(), naipselu::Error>(())
    /// ```
    pub fn get(&self, version: Version, key: K::Given<'_>) -> Result<Option<V>, Error> {
        within(V::read(|form, room| self.find(version, key, form, room)))
    }

    /// Shows the value at the key.
    fn find(&self, version: Version, key: K::Given<'_>, form: &mut Form, room: &mut [u8]) -> Result<(), Error> {
        let version = self.store.number(version)?;
        let given: Given = key.into();
        let (text, len) = (given.text.as_ptr(), given.text.len());
        // The pointers and the lengths are those of slices that live for the call.
        self.store.call(|handle| unsafe {
            library::naipselu_maps_get(handle, version, given.form, text, len, form, room.as_mut_ptr(), room.len())
        })
    }

    /// Whether the version has the key.
    ///
    /// ```
    /// # let mut maps = naipselu::Maps::<u64, u64>::new()?;
    /// let numbers = maps.from_iter([(1, 10)])?;
    /// assert!(maps.contains_key(numbers, 1)?);
    /// assert!(!maps.contains_key(numbers, 10)?);
    /// # Ok::<(), naipselu::Error>(())
    /// ```
    pub fn contains_key(&self, version: Version, key: K::Given<'_>) -> Result<bool, Error> {
        // There is no room here for a text, so none is copied.
        let found = within(self.find(version, key, &mut Form::default(), &mut []))?;
        Ok(found.is_some())
    }

    /// Whether two versions have the same keys with the same values.
    ///
    /// ```
    /// # let mut maps = naipselu::Maps::<u64, u64>::new()?;
    /// let one = maps.from_iter([(1, 10), (2, 20)])?;
    /// let other = maps.insert(one, 1, 11)?;
    /// assert!(!maps.same(one, other)?);
    /// let back = maps.insert(other, 1, 10)?;
    /// assert!(maps.same(one, back)?);
    /// # Ok::<(), naipselu::Error>(())
    /// ```
    pub fn same(&self, left: Version, right: Version) -> Result<bool, Error> {
        self.store.of_two(library::naipselu_maps_same, left, right)
    }

    /// The entries of the version, in no order that means something. They are copied first.
    ///
    /// ```
    /// # let mut maps = naipselu::Maps::<u64, u64>::new()?;
    /// let numbers = maps.from_iter([(1, 10), (2, 20)])?;
    /// assert_eq!(maps.iter(numbers)?.map(|(_, value)| value).sum::<u64>(), 30);
    /// assert_eq!(maps.iter(numbers)?.len(), 2);
    /// # Ok::<(), naipselu::Error>(())
    /// ```
    pub fn iter(&self, version: Version) -> Result<vec::IntoIter<(K, V)>, Error> {
        let most = self.len(version)?;
        let show = |forms: &mut [_], room: &mut [_]| self.store.show(library::naipselu_maps_entries, version, forms, room);
        let mut shown = Shown::read(2 * most, most * (K::ROOM + V::ROOM), show)?;
        Ok(iter::from_fn(|| Some((shown.next()?, shown.next()?))).collect::<Vec<_>>().into_iter())
    }

    /// The entries of the version as a `Vec`, by rising keys, in which `iter` does not have them.
    ///
    /// ```
    /// # let mut maps = naipselu::Maps::<u64, u64>::new()?;
    /// let numbers = maps.from_iter([(2, 20), (1, 10)])?;
    /// assert_eq!(maps.sorted(numbers)?, [(1, 10), (2, 20)]);
    /// # Ok::<(), naipselu::Error>(())
    /// ```
    pub fn sorted(&self, version: Version) -> Result<Vec<(K, V)>, Error> {
        let mut entries: Vec<(K, V)> = self.iter(version)?.collect();
        entries.sort_unstable();
        Ok(entries)
    }
}

impl<K: Value, V: Value> fmt::Debug for Maps<K, V> {
    fn fmt(&self, f: &mut fmt::Formatter<'_>) -> fmt::Result {
        self.store.debug("Maps", f)
    }
}
