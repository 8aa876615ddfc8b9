//! Random calls beside `BTreeSet`, after each of which every version that is kept is compared.

use crate::{Beside, Comes, Drawn, Kept, all_turns};
use naipselu::{Error, Sets, Version};
use proptest::prelude::*;
use std::collections::BTreeSet;

#[derive(Clone, Debug)]
pub enum Call {
    Empty,
    Copy,
    Insert(u64),
    Remove(u64),
    Union(usize),
    Intersection(usize),
    Difference(usize),
    InsertHere(u64),
    RemoveHere(u64),
    Forget,
}

fn calls() -> impl Strategy<Value = Vec<(usize, Call)>> {
    let key = || 0..60u64;
    let call = prop_oneof![
        1 => Just(Call::Empty),
        2 => Just(Call::Copy),
        10 => key().prop_map(Call::Insert),
        5 => key().prop_map(Call::Remove),
        3 => any::<usize>().prop_map(Call::Union),
        2 => any::<usize>().prop_map(Call::Intersection),
        2 => any::<usize>().prop_map(Call::Difference),
        10 => key().prop_map(Call::InsertHere),
        4 => key().prop_map(Call::RemoveHere),
        2 => Just(Call::Forget),
    ];
    prop::collection::vec((any::<usize>(), call), 1..120)
}

impl<T: Drawn> Beside for Sets<T> {
    type Model = BTreeSet<T>;
    type Call = Call;

    fn comes(kept: &Kept<BTreeSet<T>>, at: usize, call: &Call) -> Option<Comes<BTreeSet<T>>> {
        let mut new = kept[at].1.clone();
        let other = |other: &usize| &kept[other % kept.len()].1;
        match call {
            Call::Empty => new.clear(),
            Call::Copy => (),
            Call::Insert(key) | Call::InsertHere(key) => drop(new.insert(T::drawn(*key))),
            Call::Remove(key) | Call::RemoveHere(key) => drop(new.remove(&T::drawn(*key))),
            Call::Union(at) => new.extend(other(at).iter().cloned()),
            Call::Intersection(at) => new.retain(|key| other(at).contains(key)),
            Call::Difference(at) => new.retain(|key| !other(at).contains(key)),
            Call::Forget => return Some(Comes::Forgotten),
        }
        let is_edited = matches!(call, Call::InsertHere(_) | Call::RemoveHere(_));
        Some(if is_edited { Comes::Edited(new) } else { Comes::Made(new) })
    }

    fn ask(&mut self, kept: &Kept<BTreeSet<T>>, at: usize, call: &Call) -> Result<Version, Error> {
        let version = kept[at].0;
        let other = |other: usize| kept[other % kept.len()].0;
        match *call {
            Call::Empty => self.empty(),
            Call::Copy => self.copy(version),
            Call::Insert(key) => self.insert(version, T::drawn(key).lent()),
            Call::Remove(key) => self.remove(version, T::drawn(key).lent()),
            Call::Union(at) => self.union(version, other(at)),
            Call::Intersection(at) => self.intersection(version, other(at)),
            Call::Difference(at) => self.difference(version, other(at)),
            Call::InsertHere(key) => self.insert_here(version, T::drawn(key).lent()).map(|()| version),
            Call::RemoveHere(key) => self.remove_here(version, T::drawn(key).lent()).map(|()| version),
            Call::Forget => self.forget(version).map(|()| version),
        }
    }

    fn empty(&mut self) -> Result<Version, Error> {
        self.empty()
    }

    fn same(&self, left: Version, right: Version) -> Result<bool, Error> {
        self.same(left, right)
    }

    fn compare(&self, version: Version, set: &BTreeSet<T>) -> Result<(), Error> {
        assert_eq!(self.len(version)?, set.len());
        assert_eq!(self.is_empty(version)?, set.is_empty());
        assert!(self.sorted(version)?.iter().eq(set));
        for key in (0..60).step_by(7).map(T::drawn) {
            assert_eq!(self.contains(version, key.lent())?, set.contains(&key));
        }
        Ok(())
    }
}

proptest! {
    #[test]
    fn every_kept_version_of_numbers_has_what_it_had(calls in calls()) {
        all_turns(Sets::<u64>::new(), &calls);
    }

    #[test]
    fn every_kept_version_of_texts_has_what_it_had(calls in calls()) {
        all_turns(Sets::<String>::new(), &calls);
    }
}

#[test]
fn a_large_set_is_that_of_a_btree_set() {
    let mut sets: Sets<u64> = Sets::new().unwrap();
    let drawn = |from: u64, to: u64| (from..to).map(u64::drawn);
    let (first, second) = (sets.from_iter(drawn(0, 20_000)).unwrap(), sets.from_iter(drawn(15_000, 30_000)).unwrap());
    let sorted = |from, to| Ok(drawn(from, to).collect::<BTreeSet<u64>>().into_iter().collect());
    let (union, both) = (sets.union(first, second).unwrap(), sets.intersection(first, second).unwrap());
    let less = sets.difference(first, second).unwrap();
    assert_eq!(sets.sorted(union), sorted(0, 30_000));
    assert_eq!(sets.sorted(both), sorted(15_000, 20_000));
    assert_eq!(sets.sorted(less), sorted(0, 15_000));
    assert_eq!(sets.sorted(first), sorted(0, 20_000));
}

#[test]
fn a_text_with_a_line_feed_is_no_key() {
    let mut sets: Sets<String> = Sets::new().unwrap();
    let one = sets.from_iter(["a"]).unwrap();
    assert_eq!(sets.insert(one, "two\nlines"), Err(Error::Text));
    assert_eq!(sets.insert_here(one, "two\nlines"), Err(Error::Text));
    assert_eq!(sets.remove_here(one, "two\nlines"), Err(Error::Text));
    assert_eq!(sets.contains(one, "two\nlines"), Err(Error::Text));
    assert_eq!(sets.sorted(one), Ok(vec!["a".to_owned()]));
}

#[test]
fn a_version_of_another_store_is_refused() {
    let mut sets: Sets<u64> = Sets::new().unwrap();
    let mut others: Sets<u64> = Sets::new().unwrap();
    let (one, other) = (sets.from_iter([1]).unwrap(), others.from_iter([2]).unwrap());
    for (call, refused) in [
        ("len", sets.len(other).err()),
        ("is_empty", sets.is_empty(other).err()),
        ("contains", sets.contains(other, 2).err()),
        ("iter", sets.iter(other).err()),
        ("sorted", sets.sorted(other).err()),
        ("same", sets.same(one, other).err()),
        ("same", sets.same(other, one).err()),
        ("copy", sets.copy(other).err()),
        ("insert", sets.insert(other, 3).err()),
        ("remove", sets.remove(other, 2).err()),
        ("union", sets.union(one, other).err()),
        ("union", sets.union(other, one).err()),
        ("intersection", sets.intersection(one, other).err()),
        ("intersection", sets.intersection(other, one).err()),
        ("difference", sets.difference(one, other).err()),
        ("difference", sets.difference(other, one).err()),
        ("insert_here", sets.insert_here(other, 3).err()),
        ("remove_here", sets.remove_here(other, 2).err()),
        ("forget", sets.forget(other).err()),
    ] {
        assert_eq!(refused, Some(Error::Version), "{call}");
    }
    assert!(!sets.holds(other));
    assert_eq!((sets.sorted(one), others.sorted(other)), (Ok(vec![1]), Ok(vec![2])));
}

#[test]
fn the_longest_keys_are_read_as_they_were_passed() {
    let texts = ["a", "b", "c", "d", "e"].map(|letter| letter.repeat(65_536));
    let mut sets: Sets<String> = Sets::new().unwrap();
    let all = sets.from_iter(texts.each_ref().map(String::as_str)).unwrap();
    // The texts themselves would fill the report of a failure.
    assert!(sets.sorted(all) == Ok(texts.to_vec()));
}
