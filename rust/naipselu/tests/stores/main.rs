//! Random calls of a store beside a model of it, after each of which every version that is kept is compared.

mod lists;
mod maps;
mod sets;

use naipselu::{Error, Value, Version};
use std::fmt;

/// A value that is drawn by a number, so that one test serves numbers and texts.
trait Drawn: Value {
    fn drawn(number: u64) -> Self;

    fn lent(&self) -> Self::Given<'_>;
}

impl Drawn for u64 {
    // Numbers far apart: a trie goes by the bits of a number.
    fn drawn(number: u64) -> u64 {
        number.wrapping_mul(0x9e37_79b9_7f4a_7c15)
    }

    fn lent(&self) -> u64 {
        *self
    }
}

impl Drawn for String {
    // Some lie in a cell's own bytes and some apart, and the longest need more than the room that is tried first.
    fn drawn(number: u64) -> String {
        format!("text {number} ").repeat(1 + number as usize % 9)
    }

    fn lent(&self) -> &str {
        self
    }
}

/// The versions that are kept, each with what it should have.
type Kept<M> = Vec<(Version, M)>;

/// What should come of a call.
enum Comes<M> {
    /// A new version.
    Made(M),
    /// The version itself, edited.
    Edited(M),
    Forgotten,
    Refused(Error),
}

/// A store beside a model of a version.
trait Beside: fmt::Debug {
    type Model: Default + PartialEq;
    type Call;

    /// What should come of the call with the version at this place, or none where it is left out.
    fn comes(kept: &Kept<Self::Model>, at: usize, call: &Self::Call) -> Option<Comes<Self::Model>>;

    /// Makes the call. The answer is the version that it makes, edits or forgets.
    fn ask(&mut self, kept: &Kept<Self::Model>, at: usize, call: &Self::Call) -> Result<Version, Error>;

    fn empty(&mut self) -> Result<Version, Error>;

    fn same(&self, left: Version, right: Version) -> Result<bool, Error>;

    /// Fails where the version hasn't what it should have.
    fn compare(&self, version: Version, model: &Self::Model) -> Result<(), Error>;
}

fn turn<S: Beside>(store: &mut S, kept: &mut Kept<S::Model>, at: usize, call: &S::Call) -> Result<(), Error> {
    let version = kept[at].0;
    let Some(comes) = S::comes(kept, at, call) else { return Ok(()) };
    let answer = store.ask(kept, at, call);
    match comes {
        Comes::Refused(error) => assert_eq!(answer, Err(error)),
        Comes::Made(model) => {
            let new = answer?;
            assert!(kept.iter().all(|(old, _)| *old != new));
            assert_eq!(store.same(version, new)?, model == kept[at].1);
            kept.push((new, model));
        }
        Comes::Edited(model) => {
            assert_eq!(answer, Ok(version));
            kept[at].1 = model;
        }
        Comes::Forgotten => {
            assert_eq!(answer, Ok(version));
            kept.swap_remove(at);
            assert_eq!(store.same(version, version), Err(Error::Version));
        }
    }
    assert!(format!("{store:?}").ends_with(&format!("{{ versions: {}, .. }}", kept.len())));
    kept.iter().try_for_each(|(version, model)| store.compare(*version, model))
}

/// Makes the calls one after another, each with one of the versions that are kept.
fn all_turns<S: Beside>(store: Result<S, Error>, calls: &[(usize, S::Call)]) {
    let mut store = store.expect("there is memory");
    let mut kept = Kept::new();
    for (at, call) in calls {
        if kept.is_empty() {
            kept.push((store.empty().expect("there is memory"), S::Model::default()));
        }
        let at = at % kept.len();
        turn(&mut store, &mut kept, at, call).expect("the versions are held, and there is memory");
    }
}
