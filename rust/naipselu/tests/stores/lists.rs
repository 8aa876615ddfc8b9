//! Random calls beside `Vec`, after each of which every version that is kept is compared.

use crate::{Beside, Comes, Drawn, Kept, all_turns};
use naipselu::{Error, Lists, Version};
use proptest::prelude::*;

#[derive(Clone, Debug)]
pub enum Call {
    Empty,
    Copy,
    Push(u64),
    Set(usize, u64),
    Insert(usize, u64),
    Remove(usize),
    Pop,
    Concat(usize),
    Slice(usize, usize),
    PushHere(u64),
    SetHere(usize, u64),
    PopHere,
    Forget,
}

fn calls() -> impl Strategy<Value = Vec<(usize, Call)>> {
    let (at, value) = (any::<usize>, any::<u64>);
    let call = prop_oneof![
        1 => Just(Call::Empty),
        2 => Just(Call::Copy),
        8 => value().prop_map(Call::Push),
        3 => (at(), value()).prop_map(|(at, value)| Call::Set(at, value)),
        4 => (at(), value()).prop_map(|(at, value)| Call::Insert(at, value)),
        3 => at().prop_map(Call::Remove),
        2 => Just(Call::Pop),
        3 => at().prop_map(Call::Concat),
        3 => (at(), at()).prop_map(|(from, to)| Call::Slice(from, to)),
        8 => value().prop_map(Call::PushHere),
        3 => (at(), value()).prop_map(|(at, value)| Call::SetHere(at, value)),
        2 => Just(Call::PopHere),
        2 => Just(Call::Forget),
    ];
    prop::collection::vec((any::<usize>(), call), 1..120)
}

/// The longest list that a call joins: what each turn compares stays small.
const LONGEST: usize = 300;

/// The index of a call in a list of this length, which is past the end now and then.
fn index(at: usize, len: usize) -> usize {
    at % (len + 2)
}

/// What the call makes of a list, but that it forgets, or none where it is out of range.
fn edited<T: Drawn>(list: &[T], kept: &Kept<Vec<T>>, call: &Call) -> Option<Vec<T>> {
    let mut new = list.to_vec();
    let place = |at: &usize| index(*at, list.len());
    match call {
        Call::Empty => new.clear(),
        Call::Copy | Call::Forget => (),
        Call::Push(number) | Call::PushHere(number) => new.push(T::drawn(*number)),
        Call::Set(at, number) | Call::SetHere(at, number) => *new.get_mut(place(at))? = T::drawn(*number),
        Call::Insert(at, number) => {
            list.get(place(at)..)?;
            new.insert(place(at), T::drawn(*number));
        }
        Call::Remove(at) => {
            list.get(place(at))?;
            new.remove(place(at));
        }
        Call::Pop | Call::PopHere => drop(new.pop()?),
        Call::Concat(other) => new.extend_from_slice(&kept[other % kept.len()].1),
        Call::Slice(from, to) => new = list.get(place(from)..place(to))?.to_vec(),
    }
    Some(new)
}

impl<T: Drawn> Beside for Lists<T> {
    type Model = Vec<T>;
    type Call = Call;

    fn comes(kept: &Kept<Vec<T>>, at: usize, call: &Call) -> Option<Comes<Vec<T>>> {
        let Some(new) = edited(&kept[at].1, kept, call) else { return Some(Comes::Refused(Error::Range)) };
        match call {
            Call::Forget => Some(Comes::Forgotten),
            _ if new.len() > LONGEST => None,
            Call::PushHere(_) | Call::SetHere(..) | Call::PopHere => Some(Comes::Edited(new)),
            _ => Some(Comes::Made(new)),
        }
    }

    fn ask(&mut self, kept: &Kept<Vec<T>>, at: usize, call: &Call) -> Result<Version, Error> {
        let (version, ref list) = kept[at];
        let place = |at: usize| index(at, list.len());
        match *call {
            Call::Empty => self.empty(),
            Call::Copy => self.copy(version),
            Call::Push(number) => self.push(version, T::drawn(number).lent()),
            Call::Set(at, number) => self.set(version, place(at), T::drawn(number).lent()),
            Call::Insert(at, number) => self.insert(version, place(at), T::drawn(number).lent()),
            Call::Remove(at) => self.remove(version, place(at)),
            Call::Pop => self.pop(version),
            Call::Concat(other) => self.concat(version, kept[other % kept.len()].0),
            Call::Slice(from, to) => self.slice(version, place(from)..place(to)),
            Call::PushHere(number) => self.push_here(version, T::drawn(number).lent()).map(|()| version),
            Call::SetHere(at, number) => self.set_here(version, place(at), T::drawn(number).lent()).map(|()| version),
            Call::PopHere => self.pop_here(version).map(|()| version),
            Call::Forget => self.forget(version).map(|()| version),
        }
    }

    fn empty(&mut self) -> Result<Version, Error> {
        self.empty()
    }

    fn same(&self, left: Version, right: Version) -> Result<bool, Error> {
        self.same(left, right)
    }

    fn compare(&self, version: Version, list: &Vec<T>) -> Result<(), Error> {
        assert_eq!(self.len(version)?, list.len());
        let items = self.iter(version)?;
        assert_eq!(items.len(), list.len());
        assert!(items.eq(list.iter().cloned()));
        assert_eq!(self.get(version, list.len())?, None);
        Ok(())
    }
}

proptest! {
    #[test]
    fn every_kept_version_of_numbers_has_what_it_had(calls in calls()) {
        all_turns(Lists::<u64>::new(), &calls);
    }

    #[test]
    fn every_kept_version_of_texts_has_what_it_had(calls in calls()) {
        all_turns(Lists::<String>::new(), &calls);
    }
}

#[test]
fn a_version_of_another_store_is_refused() {
    let mut lists: Lists<u64> = Lists::new().unwrap();
    let mut others: Lists<u64> = Lists::new().unwrap();
    let (one, other) = (lists.from_iter([1]).unwrap(), others.from_iter([2]).unwrap());
    for (call, refused) in [
        ("len", lists.len(other).err()),
        ("is_empty", lists.is_empty(other).err()),
        ("get", lists.get(other, 0).err()),
        ("iter", lists.iter(other).err()),
        ("same", lists.same(one, other).err()),
        ("same", lists.same(other, one).err()),
        ("copy", lists.copy(other).err()),
        ("push", lists.push(other, 3).err()),
        ("set", lists.set(other, 0, 3).err()),
        ("insert", lists.insert(other, 0, 3).err()),
        ("remove", lists.remove(other, 0).err()),
        ("pop", lists.pop(other).err()),
        ("slice", lists.slice(other, ..).err()),
        ("concat", lists.concat(one, other).err()),
        ("concat", lists.concat(other, one).err()),
        ("push_here", lists.push_here(other, 3).err()),
        ("set_here", lists.set_here(other, 0, 3).err()),
        ("pop_here", lists.pop_here(other).err()),
        ("forget", lists.forget(other).err()),
    ] {
        assert_eq!(refused, Some(Error::Version), "{call}");
    }
    assert!(!lists.holds(other));
    assert_eq!((lists.to_vec(one), others.to_vec(other)), (Ok(vec![1]), Ok(vec![2])));
}

#[test]
fn a_list_of_2_to_the_32_values_is_refused() {
    let mut lists: Lists<u64> = Lists::new().unwrap();
    let one = lists.from_iter([7]).unwrap();
    // Each list is joined with itself, and shares its rows.
    let half = (0..31).fold(one, |list, _| lists.concat(list, list).unwrap());
    assert_eq!(lists.concat(half, half), Err(Error::Long));
    let rest = lists.slice(half, 1..).unwrap();
    let longest = lists.concat(half, rest).unwrap();
    assert_eq!(lists.concat(longest, one), Err(Error::Long));
    assert_eq!(lists.push(longest, 8), Err(Error::Long));
    assert_eq!(lists.push_here(longest, 8), Err(Error::Long));
    assert_eq!(lists.insert(longest, 9, 8), Err(Error::Long));
    let lens = [one, half, rest, longest].map(|version| lists.len(version).unwrap());
    assert_eq!(lens, [1, 1 << 31, (1 << 31) - 1, (1 << 32) - 1]);
    assert_eq!((lists.get(longest, 9), lists.get(longest, (1 << 32) - 2)), (Ok(Some(7)), Ok(Some(7))));
    assert_eq!(format!("{lists:?}"), "Lists { versions: 34, .. }");
}

#[test]
fn values_are_read_from_either_end() {
    let mut lists: Lists<u64> = Lists::new().unwrap();
    let numbers = lists.from_iter(0..100).unwrap();
    let mut items = lists.iter(numbers).unwrap();
    assert_eq!((items.next(), items.next_back(), items.next_back()), (Some(0), Some(99), Some(98)));
    assert!(items.rev().eq((1..98).rev()));
    assert_eq!(lists.to_vec(numbers), Ok((0..100).collect()));
}

#[test]
fn ranges_are_those_of_a_slice() {
    let mut lists: Lists<u64> = Lists::new().unwrap();
    let numbers: Vec<u64> = (0..100_000).collect();
    let all = lists.from_iter(numbers.iter().copied()).unwrap();
    let mut part = |range| lists.slice(all, range).and_then(|part| lists.to_vec(part));
    use std::ops::Bound::{Excluded, Included, Unbounded};
    assert_eq!(part((Included(17), Excluded(70_000))), Ok(numbers[17..70_000].to_vec()));
    assert_eq!(part((Excluded(17), Included(70_000))), Ok(numbers[18..=70_000].to_vec()));
    assert_eq!(part((Unbounded, Included(99_999))), Ok(numbers.clone()));
    assert_eq!(part((Included(100_000), Unbounded)), Ok(vec![]));
    assert_eq!(part((Included(2), Excluded(1))), Err(Error::Range));
    assert_eq!(part((Unbounded, Included(100_000))), Err(Error::Range));
    assert_eq!(part((Unbounded, Included(usize::MAX))), Err(Error::Range));
    assert_eq!(lists.set(all, 1 << 32, 7), Err(Error::Range));
    assert_eq!(lists.get(all, (1 << 32) + 1), Ok(None));
}

#[test]
fn a_large_list_is_that_of_a_vec() {
    let mut lists: Lists<u64> = Lists::new().unwrap();
    let mut numbers: Vec<u64> = (0..50_000).collect();
    let old = lists.from_iter(numbers.iter().copied()).unwrap();
    let other = lists.slice(old, 11..33_333).unwrap();
    let both = lists.concat(other, old).unwrap();
    let both = lists.remove(both, 40_000).unwrap();
    let both = lists.insert(both, 123, 7).unwrap();
    let mut joined = [&numbers[11..33_333], &numbers[..]].concat();
    joined.remove(40_000);
    joined.insert(123, 7);
    assert_eq!(lists.to_vec(both), Ok(joined));
    let new = lists.copy(old).unwrap();
    for index in (0..50_000).step_by(977) {
        lists.set_here(new, index, 1).unwrap();
    }
    assert_eq!(lists.to_vec(old), Ok(numbers.clone()));
    numbers.iter_mut().step_by(977).for_each(|number| *number = 1);
    assert_eq!(lists.to_vec(new), Ok(numbers));
}

#[test]
fn a_text_of_any_length_is_read_as_it_was_passed() {
    let mut lists: Lists<String> = Lists::new().unwrap();
    let none = lists.empty().unwrap();
    for len in [0, 1, 30, 31, 64, 65, 65_536] {
        let text = "x".repeat(len);
        let one = lists.push(none, &text).unwrap();
        assert_eq!(lists.get(one, 0), Ok(Some(text)));
    }
    for refused in [&*"x".repeat(65_537), "two\nlines"] {
        assert_eq!(lists.push(none, refused), Err(Error::Text));
        assert_eq!(lists.push_here(none, refused), Err(Error::Text));
        assert_eq!(lists.from_iter(["one", refused]), Err(Error::Text));
    }
    assert_eq!(lists.len(none), Ok(0));
}
