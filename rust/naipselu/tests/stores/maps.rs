//! Random calls beside `BTreeMap`, after each of which every version that is kept is compared.

use crate::{Beside, Comes, Drawn, Kept, all_turns};
use naipselu::{Error, Maps, Version};
use proptest::prelude::*;
use std::collections::BTreeMap;

#[derive(Clone, Debug)]
pub enum Call {
    Empty,
    Copy,
    Insert(u64, u64),
    Remove(u64),
    Union(usize),
    Intersection(usize),
    Difference(usize),
    InsertHere(u64, u64),
    RemoveHere(u64),
    Forget,
}

fn calls() -> impl Strategy<Value = Vec<(usize, Call)>> {
    let key = || 0..60u64;
    let call = prop_oneof![
        1 => Just(Call::Empty),
        2 => Just(Call::Copy),
        10 => (key(), any::<u64>()).prop_map(|(key, value)| Call::Insert(key, value)),
        4 => key().prop_map(Call::Remove),
        3 => any::<usize>().prop_map(Call::Union),
        2 => any::<usize>().prop_map(Call::Intersection),
        2 => any::<usize>().prop_map(Call::Difference),
        10 => (key(), any::<u64>()).prop_map(|(key, value)| Call::InsertHere(key, value)),
        4 => key().prop_map(Call::RemoveHere),
        2 => Just(Call::Forget),
    ];
    prop::collection::vec((any::<usize>(), call), 1..120)
}

impl<K: Drawn, V: Drawn> Beside for Maps<K, V> {
    type Model = BTreeMap<K, V>;
    type Call = Call;

    fn comes(kept: &Kept<BTreeMap<K, V>>, at: usize, call: &Call) -> Option<Comes<BTreeMap<K, V>>> {
        let mut new = kept[at].1.clone();
        let other = |other: &usize| &kept[other % kept.len()].1;
        match call {
            Call::Empty => new.clear(),
            Call::Copy => (),
            Call::Insert(key, value) | Call::InsertHere(key, value) => drop(new.insert(K::drawn(*key), V::drawn(*value))),
            Call::Remove(key) | Call::RemoveHere(key) => drop(new.remove(&K::drawn(*key))),
            Call::Union(at) => {
                for (key, value) in other(at) {
                    new.entry(key.clone()).or_insert_with(|| value.clone());
                }
            }
            Call::Intersection(at) => new.retain(|key, _| other(at).contains_key(key)),
            Call::Difference(at) => new.retain(|key, _| !other(at).contains_key(key)),
            Call::Forget => return Some(Comes::Forgotten),
        }
        let is_edited = matches!(call, Call::InsertHere(..) | Call::RemoveHere(_));
        Some(if is_edited { Comes::Edited(new) } else { Comes::Made(new) })
    }

    fn ask(&mut self, kept: &Kept<BTreeMap<K, V>>, at: usize, call: &Call) -> Result<Version, Error> {
        let version = kept[at].0;
        let other = |other: usize| kept[other % kept.len()].0;
        match *call {
            Call::Empty => self.empty(),
            Call::Copy => self.copy(version),
            Call::Insert(key, value) => self.insert(version, K::drawn(key).lent(), V::drawn(value).lent()),
            Call::Remove(key) => self.remove(version, K::drawn(key).lent()),
            Call::Union(at) => self.union(version, other(at)),
            Call::Intersection(at) => self.intersection(version, other(at)),
            Call::Difference(at) => self.difference(version, other(at)),
            Call::InsertHere(key, value) => {
                self.insert_here(version, K::drawn(key).lent(), V::drawn(value).lent()).map(|()| version)
            }
            Call::RemoveHere(key) => self.remove_here(version, K::drawn(key).lent()).map(|()| version),
            Call::Forget => self.forget(version).map(|()| version),
        }
    }

    fn empty(&mut self) -> Result<Version, Error> {
        self.empty()
    }

    fn same(&self, left: Version, right: Version) -> Result<bool, Error> {
        self.same(left, right)
    }

    fn compare(&self, version: Version, map: &BTreeMap<K, V>) -> Result<(), Error> {
        assert_eq!(self.len(version)?, map.len());
        assert_eq!(self.is_empty(version)?, map.is_empty());
        assert!(self.sorted(version)?.iter().map(|(key, value)| (key, value)).eq(map));
        for key in (0..60).step_by(7).map(K::drawn) {
            assert_eq!(self.get(version, key.lent())?, map.get(&key).cloned());
            assert_eq!(self.contains_key(version, key.lent())?, map.contains_key(&key));
        }
        Ok(())
    }
}

proptest! {
    #[test]
    fn every_kept_version_of_numbers_has_what_it_had(calls in calls()) {
        all_turns(Maps::<u64, u64>::new(), &calls);
    }

    #[test]
    fn every_kept_version_of_texts_has_what_it_had(calls in calls()) {
        all_turns(Maps::<String, String>::new(), &calls);
    }

    #[test]
    fn every_kept_version_by_texts_has_what_it_had(calls in calls()) {
        all_turns(Maps::<String, u64>::new(), &calls);
    }

    #[test]
    fn every_kept_version_by_numbers_has_what_it_had(calls in calls()) {
        all_turns(Maps::<u64, String>::new(), &calls);
    }
}

#[test]
fn a_large_map_is_that_of_a_btree_map() {
    let mut maps: Maps<u64, u64> = Maps::new().unwrap();
    let drawn = |from: u64, to: u64| (from..to).map(|number| (u64::drawn(number), number));
    let (first, second) = (maps.from_iter(drawn(0, 20_000)).unwrap(), maps.from_iter(drawn(15_000, 30_000)).unwrap());
    let union = maps.union(first, second).unwrap();
    let (both, less) = (maps.intersection(first, second).unwrap(), maps.difference(first, second).unwrap());
    let fewer = maps.remove(union, u64::drawn(17)).unwrap();
    let sorted = |from, to| Ok(drawn(from, to).collect::<BTreeMap<u64, u64>>().into_iter().collect());
    assert_eq!(maps.sorted(union), sorted(0, 30_000));
    assert_eq!(maps.sorted(both), sorted(15_000, 20_000));
    assert_eq!(maps.sorted(less), sorted(0, 15_000));
    let mut should: BTreeMap<u64, u64> = drawn(0, 30_000).collect();
    should.remove(&u64::drawn(17));
    assert_eq!(maps.sorted(fewer), Ok(should.into_iter().collect()));
    assert_eq!(maps.len(first), Ok(20_000));
}

#[test]
fn a_text_with_a_line_feed_is_no_key_and_no_value() {
    let mut maps: Maps<String, String> = Maps::new().unwrap();
    let one = maps.from_iter([("a", "b")]).unwrap();
    assert_eq!(maps.insert(one, "two\nlines", "b"), Err(Error::Text));
    assert_eq!(maps.insert_here(one, "a", "two\nlines"), Err(Error::Text));
    assert_eq!(maps.remove(one, "two\nlines"), Err(Error::Text));
    assert_eq!(maps.get(one, "two\nlines"), Err(Error::Text));
    assert_eq!(maps.contains_key(one, "two\nlines"), Err(Error::Text));
    assert_eq!(maps.sorted(one), Ok(vec![("a".to_owned(), "b".to_owned())]));
}

#[test]
fn a_version_of_another_store_is_refused() {
    let mut maps: Maps<u64, u64> = Maps::new().unwrap();
    let mut others: Maps<u64, u64> = Maps::new().unwrap();
    let (one, other) = (maps.from_iter([(1, 1)]).unwrap(), others.from_iter([(2, 2)]).unwrap());
    for (call, refused) in [
        ("len", maps.len(other).err()),
        ("is_empty", maps.is_empty(other).err()),
        ("get", maps.get(other, 2).err()),
        ("contains_key", maps.contains_key(other, 2).err()),
        ("iter", maps.iter(other).err()),
        ("sorted", maps.sorted(other).err()),
        ("same", maps.same(one, other).err()),
        ("same", maps.same(other, one).err()),
        ("copy", maps.copy(other).err()),
        ("insert", maps.insert(other, 3, 3).err()),
        ("remove", maps.remove(other, 2).err()),
        ("union", maps.union(one, other).err()),
        ("union", maps.union(other, one).err()),
        ("intersection", maps.intersection(one, other).err()),
        ("intersection", maps.intersection(other, one).err()),
        ("difference", maps.difference(one, other).err()),
        ("difference", maps.difference(other, one).err()),
        ("insert_here", maps.insert_here(other, 3, 3).err()),
        ("remove_here", maps.remove_here(other, 2).err()),
        ("forget", maps.forget(other).err()),
    ] {
        assert_eq!(refused, Some(Error::Version), "{call}");
    }
    assert!(!maps.holds(other));
    assert_eq!((maps.sorted(one), others.sorted(other)), (Ok(vec![(1, 1)]), Ok(vec![(2, 2)])));
}

#[test]
fn the_longest_keys_and_values_are_read_as_they_were_passed() {
    let texts = ["a", "b", "c", "d", "e"].map(|letter| letter.repeat(65_536));
    let mut maps: Maps<String, String> = Maps::new().unwrap();
    let entries = texts.each_ref().map(|text| (text.as_str(), text.as_str()));
    let all = maps.from_iter(entries).unwrap();
    // The texts themselves would fill the report of a failure.
    assert!(maps.sorted(all) == Ok(texts.map(|text| (text.clone(), text)).to_vec()));
}
