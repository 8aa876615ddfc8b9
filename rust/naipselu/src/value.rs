//! What the stores keep, and how it crosses.

use crate::error::Error;
use crate::library::Form;
use std::fmt;
use std::hash::Hash;

/// What a store keeps: `u64`, or `String`, which is passed as `&str`. A text has at most 65,536 bytes and no line feed. No other
/// type can be one.
///
/// ```
/// use naipselu::{Error, Lists};
///
/// let mut texts: Lists<String> = Lists::new()?;
/// let none = texts.empty()?;
/// assert_eq!(texts.push(none, "two\nlines"), Err(Error::Text));
/// # Ok::<(), Error>(())
/// ```
pub trait Value: Clone + fmt::Debug + Ord + Hash + crossing::Crosses {
    /// How a value is passed: a `u64` as it is, and a `String` as a `&str`.
    type Given<'a>: Copy + fmt::Debug + Into<crossing::Given<'a>>;
}

impl Value for u64 {
    type Given<'a> = u64;
}

impl Value for String {
    type Given<'a> = &'a str;
}

pub mod crossing {
    use super::*;

    /// A value as the library takes it.
    #[derive(Clone, Copy)]
    pub struct Given<'a> {
        pub(crate) form: Form,
        pub(crate) text: &'a [u8],
    }

    impl From<u64> for Given<'_> {
        #[inline]
        fn from(number: u64) -> Self {
            Given { form: Form { is_text: false, number }, text: b"" }
        }
    }

    impl<'a> From<&'a str> for Given<'a> {
        #[inline]
        fn from(text: &'a str) -> Given<'a> {
            Given { form: Form { is_text: true, number: 0 }, text: text.as_bytes() }
        }
    }

    /// What the library shows is of a type that this crate has.
    pub trait Crosses: Sized {
        /// The room that is passed first for the bytes of a value.
        const ROOM: usize;

        /// The value of this form, whose bytes these begin with, where it is a text.
        fn shown(form: Form, bytes: &[u8]) -> Self;

        /// The value that the library shows by its form and its bytes, which `ask` asks it for.
        fn read(ask: impl Fn(&mut Form, &mut [u8]) -> Result<(), Error>) -> Result<Self, Error>;
    }

    impl Crosses for u64 {
        const ROOM: usize = 0;

        #[inline]
        fn shown(form: Form, _: &[u8]) -> u64 {
            form.number
        }

        #[inline]
        fn read(ask: impl Fn(&mut Form, &mut [u8]) -> Result<(), Error>) -> Result<u64, Error> {
            let mut form = Form::default();
            ask(&mut form, &mut [])?;
            Ok(form.number)
        }
    }

    impl Crosses for String {
        const ROOM: usize = 64;

        fn shown(form: Form, bytes: &[u8]) -> String {
            std::str::from_utf8(&bytes[..form.number as usize]).expect("the library keeps UTF-8 alone").to_owned()
        }

        fn read(ask: impl Fn(&mut Form, &mut [u8]) -> Result<(), Error>) -> Result<String, Error> {
            let mut form = Form::default();
            let mut room = [0; String::ROOM];
            ask(&mut form, &mut room)?;
            if form.number as usize <= room.len() {
                return Ok(String::shown(form, &room));
            }
            let mut room = vec![0; form.number as usize];
            ask(&mut form, &mut room)?;
            Ok(String::shown(form, &room))
        }
    }
}

/// What was looked for, and none where the library has it not.
#[inline]
pub(crate) fn within<T>(found: Result<T, Error>) -> Result<Option<T>, Error> {
    match found {
        Ok(value) => Ok(Some(value)),
        Err(Error::Range) => Ok(None),
        Err(error) => Err(error),
    }
}

/// The values that the library shows by their forms and their bytes, one after another, which `ask` asks it for. More room is
/// made for the bytes until they fit.
pub(crate) struct Shown {
    forms: std::vec::IntoIter<Form>,
    room: Vec<u8>,
    next: usize,
}

impl Shown {
    /// Of so many values, with so much room for bytes at first.
    pub(crate) fn read(
        most: usize, bytes: usize, ask: impl Fn(&mut [Form], &mut [u8]) -> Result<usize, Error>,
    ) -> Result<Shown, Error> {
        let mut forms = vec![Form::default(); most];
        let mut room = vec![0; bytes];
        loop {
            match ask(&mut forms, &mut room) {
                // A text has at most 65,536 bytes.
                Err(Error::Range) if room.len() < most * 65_536 => room.resize(2 * room.len() + 64, 0),
                answer => {
                    assert_eq!(answer?, most, "the version has as many as it said");
                    return Ok(Shown { forms: forms.into_iter(), room, next: 0 });
                }
            }
        }
    }

    pub(crate) fn next<T: Value>(&mut self) -> Option<T> {
        let form = self.forms.next()?;
        let value = T::shown(form, &self.room[self.next..]);
        self.next += if form.is_text { form.number as usize } else { 0 };
        Some(value)
    }
}
