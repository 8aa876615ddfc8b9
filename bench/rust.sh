#!/usr/bin/env bash
# A million pushes, random gets and random sets over one list by its versions through the Rust crate, with each old version forgotten
# and in place, beside the same calls in Rattle and beside `im_rc::Vector`, best of three. Through the crate they should take at most
# 1.15 times what they take in Rattle. Both have elements of 16 bytes, since one of the Rust crate may be a text.
#   bench/rust.sh           where cargo finds `im_rc` by itself, without a download
#   bench/rust.sh FOLDER    with cargo set up as FOLDER/.cargo/config.toml says
# COUNT in the environment takes the place of the million.
# It writes small programs beside links to the crates that they stand on, in a folder of its own, since the gate takes no
# program outside the listed crates. Without `im_rc` it says so and runs the rest.
set -eu
. "$(dirname -- "$0")/shared.sh"
. "$top/bench/stores.sh"
begin "$@"
if ! command -v cargo > /dev/null; then
    echo "There is no cargo here, and so nothing to measure." >&2
    exit 1
fi

"$top/rust/build-library"
take_crates versions
runs=()
add_lists wide
in_rattle=("${runs[@]}")

begin_rust lists "naipselu = { path = \"$top/rust/naipselu\" }
im-rc = \"15.1\""
cat > "$rust/src/main.rs" <<'RUST'
//! The same phases over a list of the Rust crate, and over `im_rc::Vector`: `lists kept`, `in_place`, and the same behind `im_`.

mod measure;

use measure::{COUNT, place, scattered, stay, tell};
use naipselu::{Error, Lists, Version};

trait Rows {
    fn count(&self) -> usize;
    fn at(&self, index: usize) -> u32;
    fn push(&mut self, value: u32);
    fn set(&mut self, index: usize, value: u32);
}

/// A list by its versions, each beside the old one, which is then forgotten, or the one edited itself.
struct Listed<const IN_PLACE: bool> {
    lists: Lists<u64>,
    version: Version,
}

impl<const IN_PLACE: bool> Listed<IN_PLACE> {
    fn new() -> Result<Self, Error> {
        let mut lists = Lists::new()?;
        let version = lists.empty()?;
        Ok(Listed { lists, version })
    }

    fn pushed(&mut self, value: u64) -> Result<(), Error> {
        if IN_PLACE {
            return self.lists.push_here(self.version, value);
        }
        let new = self.lists.push(self.version, value)?;
        self.lists.forget(std::mem::replace(&mut self.version, new))
    }

    fn changed(&mut self, index: usize, value: u64) -> Result<(), Error> {
        if IN_PLACE {
            return self.lists.set_here(self.version, index, value);
        }
        let new = self.lists.set(self.version, index, value)?;
        self.lists.forget(std::mem::replace(&mut self.version, new))
    }
}

impl<const IN_PLACE: bool> Rows for Listed<IN_PLACE> {
    fn count(&self) -> usize {
        self.lists.len(self.version).expect("the version is held")
    }
    fn at(&self, index: usize) -> u32 {
        self.lists.get(self.version, index).ok().flatten().expect("the index is in range") as u32
    }
    fn push(&mut self, value: u32) {
        self.pushed(value.into()).expect("there is memory");
    }
    fn set(&mut self, index: usize, value: u32) {
        self.changed(index, value.into()).expect("there is memory");
    }
}

#[cfg(feature = "shared")]
mod shared {
    use super::Rows;
    use std::rc::Rc;

    /// A vector of counted elements, as a list's are: each beside the old one, which is then dropped, or the one changed itself.
    #[derive(Default)]
    pub struct Counted<const IN_PLACE: bool>(im_rc::Vector<Rc<u32>>);

    impl<const IN_PLACE: bool> Counted<IN_PLACE> {
        fn edit(&mut self, edit: impl FnOnce(&mut im_rc::Vector<Rc<u32>>)) {
            if IN_PLACE {
                return edit(&mut self.0);
            }
            let mut new = self.0.clone();
            edit(&mut new);
            self.0 = new;
        }
    }

    impl<const IN_PLACE: bool> Rows for Counted<IN_PLACE> {
        fn count(&self) -> usize {
            self.0.len()
        }
        fn at(&self, index: usize) -> u32 {
            *self.0[index]
        }
        fn push(&mut self, value: u32) {
            self.edit(|all| all.push_back(Rc::new(value)));
        }
        fn set(&mut self, index: usize, value: u32) {
            self.edit(|all| drop(all.set(index, Rc::new(value))));
        }
    }
}

fn gets(all: &impl Rows, mut seed: u32) -> usize {
    let mut sum: u32 = 0;
    for _ in 0..COUNT {
        seed = scattered(seed);
        sum = sum.wrapping_add(all.at(place(seed)));
    }
    sum as usize
}

fn phases(mut all: impl Rows) {
    tell("start", 0);
    for value in 0..COUNT {
        all.push(value);
    }
    tell("push", all.count());
    let sum = gets(&all, 1);
    tell("get", sum);
    let mut seed = 2;
    for value in 0..COUNT {
        seed = scattered(seed);
        all.set(place(seed), value);
    }
    tell("set", 0);
    let sum = gets(&all, 3);
    tell("end", sum);
    stay();
}

fn main() -> Result<(), Error> {
    match std::env::args().nth(1).as_deref() {
        Some("kept") => phases(Listed::<false>::new()?),
        Some("in_place") => phases(Listed::<true>::new()?),
        #[cfg(feature = "shared")]
        Some("im_kept") => phases(shared::Counted::<false>::default()),
        #[cfg(feature = "shared")]
        Some("im_in_place") => phases(shared::Counted::<true>::default()),
        _ => panic!("it takes one of these words: kept, in_place, im_kept, im_in_place"),
    }
    Ok(())
}
RUST

beside=("im_rc of Rc, persistent|$built|im_kept" "im_rc of Rc, in place|$built|im_in_place")
if ! cargo_builds; then
    say_without
    sed -i '/^im-rc/d; s/^default = .*/default = []/' "$rust/Cargo.toml"
    beside=()
    cargo_builds || { cat "$work/cargo.log"; exit 1; }
fi
runs=("this repository, from Rust|$built|kept" "this repository, from Rust, in place|$built|in_place" "${in_rattle[@]}" "${beside[@]}")

report "$count" "${runs[@]}" <<'PYTHON'
import sys
from shared import ROUNDS, best_of_rounds, programs, tables

count, runs = int(sys.argv[1]), programs(sys.argv[2:])
phases = ["push", "get", "set"]
spans, peaks, _ = best_of_rounds(runs, len(phases) + 2, "lists")
print(f"{count:,} of each over one list, best of {ROUNDS}, processor seconds and peak megabytes:")
figures = {name: [used for _, used in spans[name][: len(phases)]] + [peaks[name]] for name, _, _ in runs}
tables([*phases, "peak"], figures, width=12, margin=44)
PYTHON
