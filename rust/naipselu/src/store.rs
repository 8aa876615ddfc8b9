//! A store of the library, which is freed when it is dropped, and its versions. A pointer is passed here by one call for each form
//! of an export.

use crate::error::{Error, told};
use crate::library::{Form, Handle, naipselu_free, naipselu_new};
use crate::value::crossing::Given;
use std::cell::UnsafeCell;
use std::fmt;
use std::sync::atomic::{AtomicU64, Ordering};

/// Names a version in the store that made it; another store refuses it. `==` asks whether both name one version, and not whether
/// they have equal values, which is `same`; a copy of the name is no copy of the version. The name of a version that was forgotten
/// may be given again.
///
/// ```
/// use naipselu::{Error, Lists, Version};
///
/// let mut lists: Lists<u64> = Lists::new()?;
/// let kept: Version = lists.from_iter([1, 2])?;
/// let other: Lists<u64> = Lists::new()?;
/// assert_eq!(other.len(kept), Err(Error::Version));
/// # Ok::<(), Error>(())
/// ```
#[derive(Clone, Copy, Debug, PartialEq, Eq, Hash)]
pub struct Version {
    store: u64,
    number: usize,
}

/// An export that takes a version, and puts its answer into a place.
pub(crate) type OfOne<A> = extern "C" fn(&mut Handle, usize, &mut A) -> u32;

/// One that takes two versions.
pub(crate) type OfTwo<A> = extern "C" fn(&mut Handle, usize, usize, &mut A) -> u32;

/// One that takes a version and a value, whose text is a pointer and a length.
pub(crate) type OfValue<A> = unsafe extern "C" fn(&mut Handle, usize, Form, *const u8, usize, &mut A) -> u32;

/// One that takes a version, an index and a value.
pub(crate) type OfPlace = unsafe extern "C" fn(&mut Handle, usize, u32, Form, *const u8, usize, &mut usize) -> u32;

/// One that takes a version, a key and a value.
pub(crate) type OfEntry =
    unsafe extern "C" fn(&mut Handle, usize, Form, *const u8, usize, Form, *const u8, usize, &mut usize) -> u32;

/// One that shows all that a version has, and answers by how many forms.
pub(crate) type OfAll = unsafe extern "C" fn(&mut Handle, usize, *mut Form, usize, *mut u8, usize, &mut usize) -> u32;

/// A store behind its handle. The library takes the handle for the time of a call, also of one that reads.
pub(crate) struct Store {
    handle: UnsafeCell<Handle>,
    name: u64,
    versions: usize,
}

impl Store {
    pub fn new() -> Result<Store, Error> {
        static NAMES: AtomicU64 = AtomicU64::new(0);
        let mut handle = Handle::null();
        told(naipselu_new(&mut handle))?;
        let name = NAMES.fetch_add(1, Ordering::Relaxed);
        Ok(Store { handle: UnsafeCell::new(handle), name, versions: 0 })
    }

    /// The number of a version of this store.
    #[inline]
    pub fn number(&self, version: Version) -> Result<usize, Error> {
        if version.store == self.name { Ok(version.number) } else { Err(Error::Version) }
    }

    /// The version that a call makes, which answers its number.
    #[inline]
    pub fn make(&mut self, call: impl FnOnce(&Store) -> Result<usize, Error>) -> Result<Version, Error> {
        let number = call(self)?;
        self.versions += 1;
        Ok(Version { store: self.name, number })
    }

    #[inline]
    pub fn forget(&mut self, call: OfOne<usize>, version: Version) -> Result<(), Error> {
        self.of_one(call, version)?;
        self.versions -= 1;
        Ok(())
    }

    #[inline]
    pub fn of_one<A: Default>(&self, call: OfOne<A>, version: Version) -> Result<A, Error> {
        let version = self.number(version)?;
        self.ask(|handle, answer| call(handle, version, answer))
    }

    #[inline]
    pub fn of_two<A: Default>(&self, call: OfTwo<A>, left: Version, right: Version) -> Result<A, Error> {
        let (left, right) = (self.number(left)?, self.number(right)?);
        self.ask(|handle, answer| call(handle, left, right, answer))
    }

    #[inline]
    pub fn of_value<A: Default>(&self, call: OfValue<A>, version: Version, value: Given) -> Result<A, Error> {
        let version = self.number(version)?;
        let Given { form, text } = value;
        // The pointer and the length are those of a slice that lives for the call.
        self.ask(|handle, answer| unsafe { call(handle, version, form, text.as_ptr(), text.len(), answer) })
    }

    #[inline]
    pub fn of_place(&self, call: OfPlace, version: Version, index: usize, value: Given) -> Result<usize, Error> {
        let (version, index) = (self.number(version)?, place(index)?);
        let Given { form, text } = value;
        // The pointer and the length are those of a slice that lives for the call.
        self.ask(|handle, answer| unsafe { call(handle, version, index, form, text.as_ptr(), text.len(), answer) })
    }

    #[inline]
    pub fn of_entry(&self, call: OfEntry, version: Version, key: Given, value: Given) -> Result<usize, Error> {
        let version = self.number(version)?;
        let (text, other) = (key.text, value.text);
        let (at, len) = (text.as_ptr(), text.len());
        // The pointers and the lengths are those of slices that live for the call.
        self.ask(|handle, answer| unsafe {
            call(handle, version, key.form, at, len, value.form, other.as_ptr(), other.len(), answer)
        })
    }

    /// Shows all that the version has, where there is room for it, and answers by how many forms.
    pub fn show(&self, call: OfAll, version: Version, forms: &mut [Form], room: &mut [u8]) -> Result<usize, Error> {
        let version = self.number(version)?;
        // The pointers and the lengths are those of slices that live for the call.
        self.ask(|handle, count| unsafe {
            call(handle, version, forms.as_mut_ptr(), forms.len(), room.as_mut_ptr(), room.len(), count)
        })
    }

    /// Whether the version has nothing that is shown.
    pub fn is_empty(&self, call: OfAll, version: Version) -> Result<bool, Error> {
        // There is no room here for anything.
        match self.show(call, version, &mut [], &mut []) {
            Err(Error::Range) => Ok(false),
            answer => answer.map(|count| count == 0),
        }
    }

    /// What a call puts into the place that it is given.
    #[inline]
    pub fn ask<A: Default>(&self, call: impl FnOnce(&mut Handle, &mut A) -> u32) -> Result<A, Error> {
        let mut answer = A::default();
        self.call(|handle| call(handle, &mut answer))?;
        Ok(answer)
    }

    /// A call of the library, which is all that `call` does with the handle. It must not use the store again: it has the handle for
    /// that time.
    #[inline]
    pub fn call(&self, call: impl FnOnce(&mut Handle) -> u32) -> Result<(), Error> {
        // The library calls nothing back, and a store stays on its thread, so no other call has the handle.
        told(call(unsafe { &mut *self.handle.get() }))
    }

    /// Tells how many versions there are in the store of this name.
    pub fn debug(&self, name: &str, f: &mut fmt::Formatter<'_>) -> fmt::Result {
        f.debug_struct(name).field("versions", &self.versions).finish_non_exhaustive()
    }
}

impl Drop for Store {
    fn drop(&mut self) {
        naipselu_free(self.handle.get_mut());
    }
}

/// The index as the library takes it. No list is so long that a larger one is within it.
#[inline]
pub(crate) fn place(index: usize) -> Result<u32, Error> {
    u32::try_from(index).map_err(|_| Error::Range)
}
