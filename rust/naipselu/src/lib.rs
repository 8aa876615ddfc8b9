//! Lists, sets and maps of numbers and of texts, whose old versions stay. A change makes a new version, which shares with the old
//! one what the change leaves, and the old one stays and reads as it did.
//!
//! The library under this crate is proved: each of its calls does what its contract says, for every argument. This crate itself is
//! not; `docs/RUST.md` of the repository says what is trusted.
//!
//! A call refuses a version that its store doesn't hold (`Error::Version`), a text that can't be one, also where it is only looked
//! for (`Error::Text`), and, where it makes or edits a version or a store, may want memory (`Error::Memory`). What else one refuses
//! is told there. A store stays on its thread:
//!
//! ```compile_fail,E0277
//! fn sent<T: Send>(_: T) {}
//! sent(naipselu::Lists::<u64>::new());
//! ```
//!
//! ```
//! use naipselu::Lists;
//!
//! let mut lists: Lists<u64> = Lists::new()?;
//! let old = lists.from_iter([1, 2])?;
//! let new = lists.push(old, 3)?;
//! assert_eq!(lists.to_vec(old)?, [1, 2]);
//! assert_eq!(lists.to_vec(new)?, [1, 2, 3]);
//! # Ok::<(), naipselu::Error>(())
//! ```

#![deny(missing_docs)]

mod error;
mod library;
mod lists;
mod maps;
mod sets;
mod store;
mod value;

pub use error::Error;
pub use lists::{Iter, Lists};
pub use maps::Maps;
pub use sets::Sets;
pub use store::Version;
pub use value::Value;
