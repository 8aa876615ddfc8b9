#!/usr/bin/env bash
# A million pushes, random gets and random sets over one vector, with each old version left and in place, beside `im_rc::Vector`
# and a plain `Vec`, best of three.
#   bench/vector.sh           where cargo finds `im_rc` by itself, without a download
#   bench/vector.sh FOLDER    with cargo set up as FOLDER/.cargo/config.toml says
# COUNT in the environment takes the place of the million.
# It writes small programs beside links to the crates that they stand on, in a folder of its own, since the gate takes no
# program outside the listed crates. Without cargo or `im_rc` it says so and runs the rest.
set -eu
. "$(dirname -- "$0")/shared.sh"
. "$top/bench/stores.sh"
begin "$@"

# The program over this repository's vectors.
take_crates versions
begin_program vector_rows 'rrb_core node_heap elem_core anyhow'
cat > "$crate/src/main.rt" <<PROGRAM
//! Pushes, random gets and random sets over one vector, each new vector beside the old, which is then given up.
#![tactic(auto)]

ghost use Rattle.std.specs.Prelude.{◌≡◌, ◌<◌, ◌^◌, IfOk, OnOk};
ghost use Rattle.node_heap.specs.Heap.{holds_at, hold_count};
ghost use Rattle.rrb_core.specs.Vector.{IsGoodVector};

use anyhow::Result;
use elem_core::NoMemory;
use node_heap::{Heap, Link};
use rrb_core::{Flex, FlexRef, PushFault, SetFault, push, set};
use std::io;
use std::rt::Clock;
use std::time::CpuClock;

fn main(rt: HostRuntime) -> Result<()> {
    let mut heap: Heap<u32> = Heap::new(rt.alloc());
    let empty = first(&mut heap)?;
    tell(&rt, "start", 0)?;
    let pushed = pushes(&mut heap, empty, COUNT)?;
    tell(&rt, "push", FlexRef::at(pushed).len(&heap))?;
    let sum = gets(&heap, pushed, 1);
    tell(&rt, "get", sum)?;
    let changed = sets(&mut heap, pushed, 2)?;
    tell(&rt, "set", 0)?;
    let sum = gets(&heap, changed, 3);
    tell(&rt, "end", sum)?;
    // It stays until its input ends, so that the peak of its memory can be read.
    let mut line = String::new(rt.alloc());
    rt.read_line(&mut line)?;
    Ok(())
}

fn sets(heap: &mut Heap<u32>, root: Link, seed: u32) -> Result<Link>
$one_vector
{
    let mut top = root;
    let mut seed = seed;
    'turns: for value in 0..COUNT {
        seed = scattered(seed);
        top = changed(heap, top, place(seed), value)?;
    }
    Ok(top)
}
PROGRAM
add_measures u32
add_vectors
prove_turns sets
add_spent changed set index

prove_and_build vector_rows
runs=("this repository|$crate/out/vector_rows|")

# The program over this repository's vectors, edited in place.
begin_program vector_in_place 'edit_vec rrb_core node_heap elem_core anyhow'
cat > "$crate/src/main.rt" <<'PROGRAM'
//! Pushes, random gets and random sets over one vector that is edited in place.
#![tactic(auto)]

ghost use Rattle.std.specs.Prelude.{◌≡◌, ◌<◌, ◌^◌, IfOk, OnOk};
ghost use Rattle.node_heap.specs.Heap.{hold_count};
ghost use Rattle.rrb_core.specs.Vector.{IsGoodVector};
ghost use Rattle.vector_in_place.specs.Edited.{IsEdited};

use anyhow::Result;
use edit_vec::{FlexEdit, OpenFault};
use elem_core::NoMemory;
use node_heap::{Heap, Link};
use rrb_core::{Flex, FlexRef, PushFault, SetFault};
use std::io;
use std::rt::Clock;
use std::time::CpuClock;

fn main(rt: HostRuntime) -> Result<()> {
    let mut heap: Heap<u32> = Heap::new(rt.alloc());
    let mut vector = opened(&mut heap)?;
    let told = phases(&rt, &mut heap, &mut vector);
    // A vector can't be dropped, but its link can.
    let _ = vector.freeze().into_root();
    told?;
    // It stays until its input ends, so that the peak of its memory can be read.
    let mut line = String::new(rt.alloc());
    rt.read_line(&mut line)?;
    Ok(())
}

fn opened(heap: &mut Heap<u32>) -> Result<FlexEdit, NoMemory>
    requires few { hold_count heap.old ≡ 0 }
    ensures edited { IfOk result (λ v. IsEdited heap.new v) }
{
    let empty = Flex::empty(heap)?;
    match FlexEdit::open(empty, heap) {
        Ok(vector) => Ok(vector),
        Err(OpenFault { vector }) => {
            let _ = vector.into_root();
            Err(NoMemory)
        }
    }
}

fn phases(
    rt: &(impl Print + Clock + CpuClock),
    heap: &mut Heap<u32>,
    vector: &mut FlexEdit,
) -> Result<()>
    requires edited { IsEdited heap.old vector.old }
{
    tell(rt, "start", 0)?;
    pushes(heap, vector)?;
    let root = vector.view().root();
    tell(rt, "push", FlexRef::at(root).len(heap))?;
    let sum = gets(heap, root, 1);
    tell(rt, "get", sum)?;
    sets(heap, vector, 2)?;
    tell(rt, "set", 0)?;
    let sum = gets(heap, vector.view().root(), 3);
    tell(rt, "end", sum)?;
    Ok(())
}

fn pushes(heap: &mut Heap<u32>, vector: &mut FlexEdit) -> Result<()>
    requires edited { IsEdited heap.old vector.old }
    ensures edited { OnOk result (IsEdited heap.new vector.new) }
{
    'turns: for value in 0..COUNT {
        push(heap, vector, value)?;
    }
    Ok(())
}

fn sets(heap: &mut Heap<u32>, vector: &mut FlexEdit, seed: u32) -> Result<()>
    requires edited { IsEdited heap.old vector.old }
    ensures edited { OnOk result (IsEdited heap.new vector.new) }
{
    let mut seed = seed;
    'turns: for value in 0..COUNT {
        seed = scattered(seed);
        set(heap, vector, place(seed), value)?;
    }
    Ok(())
}

fn push(heap: &mut Heap<u32>, vector: &mut FlexEdit, value: u32) -> Result<(), PushFault>
    requires edited { IsEdited heap.old vector.old }
    ensures edited { OnOk result (IsEdited heap.new vector.new) }
{
    heap.reserve(1, 0)?;
    let cell = heap.cell(value);
    vector.push(heap, cell)?;
    Ok(())
}

// The element that stood there is given up.
fn set(heap: &mut Heap<u32>, vector: &mut FlexEdit, index: u32, value: u32) -> Result<(), SetFault>
    requires edited { IsEdited heap.old vector.old }
    ensures edited { OnOk result (IsEdited heap.new vector.new) }
{
    heap.reserve(1, 0)?;
    let cell = heap.cell(value);
    let given = vector.set(heap, index, cell)?;
    heap.release(given);
    Ok(())
}
PROGRAM
add_measures u32
add_gets

# What holds of the vector between the edits, and the proofs that each keeps it so.
echo 'pub mod Edited' > "$crate/specs/Lib.antt"
cat > "$crate/specs/Edited.antt" <<'SPEC'
-- A vector that is edited.
use Rattle.std.specs.Prelude.{◌≡◌, ℕ, ◌<◌}
use Rattle.node_heap.specs.Heap.{Heap, holds_at, hold_count}
use Rattle.rrb_core.specs.Vector.{IsGoodVector}

-- it is in good shape, and the one hold of all is of its root
pub record IsEdited {T : Type 0} (h : Heap T) (root : ℕ) : Type 0 where
  pub good : IsGoodVector h root
  pub held : 0 < holds_at h root
  pub count : hold_count h ≡ 1
SPEC
for function in push set pushes sets; do
    mkdir "$crate/proofs/$function"
done
echo 'pub mod Edits' > "$crate/proofs/Lib.antt"
cat > "$crate/proofs/Edits.antt" <<'PROOF'
-- Edits of a vector that has the one hold of all.
use Rattle.std.proofs.Common.{◌≡◌, ℕ, ◌+◌, ◌<◌, ◌≤◌, [], ◌∷◌, refl, arith}
use Rattle.node_heap.specs.Forms.{cell}
use Rattle.node_heap.specs.Heap.{Heap, holds_at, hold_count, one_at}
use Rattle.node_heap.specs.Calls.{HasHolds, Unchanged, Adds, Releases, KeepsHeld}
use Rattle.node_heap.specs.declared.owner.Owner.TheVariants.{Hold as by_hold}
use Rattle.node_heap.proofs.Counts.{test_same}
use Rattle.rrb_core.proofs.LinkCounts.{count-cons, one-held}
use Rattle.rrb_core.proofs.Stays.{vector-stays}
use Rattle.edit_vec.specs.Edit.{SetsElement, PushesElement}
use Rattle.vector_in_place.specs.Edited.{IsEdited}

module _ {T : Type 0} where
  -- the vector and a new cell each have a hold
  pub both-held : {a b c : Heap T} (root : ℕ) {link : ℕ} {x : T} → 0 < holds_at a root → Unchanged a b → Adds b c link (cell x) → HasHolds c (root ∷ link ∷ [])
  both-held {a} {b} {c} root {link} held same adds k =
      let added : holds_at c k + 0 ≡ holds_at b k + one_at link k = adds.holds k in
      omega (arith, same.holds k, added, one-held root 0 (holds_at a) held k, count-cons k root (link ∷ []), count-cons k root [], count-cons k link [])

  pub pushed : {c d : Heap T} {root new link : ℕ} → HasHolds c (root ∷ link ∷ []) → hold_count c ≡ 2 → PushesElement (by_hold root) c d new link → IsEdited d new
  pushed {c} {d} {root} {new} {link} both two did = record {
    good = did.vector.0;
    held = omega (arith, did.edits.trades.holds new, both new, count-cons new new [], test_same new new refl);
    count = omega (arith, did.edits.trades.total, two);
  }

  -- the new vector and the element that came back each have a hold
  each-held : {c d : Heap T} {root new link given index : ℕ} → HasHolds c (root ∷ link ∷ []) → SetsElement (by_hold root) c d new index link given → (k : ℕ) → one_at new k + one_at given k ≤ holds_at d k
  each-held {c} {d} {root} {new} {link} {given} both did k = omega (arith, did.edits.trades.holds k, both k, count-cons k new (given ∷ []), count-cons k given [])

  pub given-held : {c d : Heap T} {root new link given index : ℕ} → HasHolds c (root ∷ link ∷ []) → SetsElement (by_hold root) c d new index link given → 0 < holds_at d given
  given-held {c} {d} {root} {new} {link} {given} both did = omega (arith, each-held both did given, test_same given given refl)

  pub changed : {c d e : Heap T} {root new link given index : ℕ} → HasHolds c (root ∷ link ∷ []) → hold_count c ≡ 2 → SetsElement (by_hold root) c d new index link given
      → Releases d e given → KeepsHeld (one_at given) d e → IsEdited e new
  changed {c} {d} {e} {root} {new} {link} {given} both two did releases keeps =
      let each = each-held both did new in
      record {
        good = (vector-stays T d e new (keeps.kept new (omega (arith, each, test_same new new refl))) did.vector.0).0;
        held = omega (arith, each, releases.holds new, test_same new new refl);
        count = omega (arith, did.edits.trades.total, releases.count, two);
      }
PROOF
cat > "$crate/proofs/push/Answers.antt" <<'PROOF'
use Rattle.std.proofs.Common.{arith}
use Rattle.rrb_core.proofs.Stays.{extended-good}
use Rattle.rrb_core.proofs.BuildLemmas.{unchanged-good}
use Rattle.vector_in_place.proofs.Edits.{both-held, pushed}
use Rattle.vector_in_place.proofs.push.Goals as goal

pub push-requires-clause-good : goal.push-requires-clause-good
push-requires-clause-good c = extended-good c.args.vector.now c.cell-cell.ensures.extends (unchanged-good c.args.vector.now c.in_ok-reserve.ensures.rest c.requires.edited.good).0

pub push-requires-clause-held : goal.push-requires-clause-held
push-requires-clause-held c = both-held c.args.vector.now c.requires.edited.held c.in_ok-reserve.ensures.rest c.cell-cell.ensures.adds

pub returns : goal.returns
returns c =
    let both = both-held c.args.vector.now c.requires.edited.held c.in_ok-reserve.ensures.rest c.cell-cell.ensures.adds in
    record { edited = pushed both (omega (arith, c.cell-cell.ensures.count, c.in_ok-reserve.ensures.rest.count, c.requires.edited.count)) c.in_ok-push.ensures.pushes }
PROOF
cat > "$crate/proofs/set/Answers.antt" <<'PROOF'
use Rattle.std.proofs.Common.{arith}
use Rattle.rrb_core.proofs.Stays.{extended-good}
use Rattle.rrb_core.proofs.BuildLemmas.{unchanged-good}
use Rattle.vector_in_place.proofs.Edits.{both-held, given-held, changed}
use Rattle.vector_in_place.proofs.set.Goals as goal

pub set-requires-clause-good : goal.set-requires-clause-good
set-requires-clause-good c = extended-good c.args.vector.now c.cell-cell.ensures.extends (unchanged-good c.args.vector.now c.in_ok-reserve.ensures.rest c.requires.edited.good).0

pub set-requires-clause-held : goal.set-requires-clause-held
set-requires-clause-held c = both-held c.args.vector.now c.requires.edited.held c.in_ok-reserve.ensures.rest c.cell-cell.ensures.adds

pub release-requires : goal.release-requires
release-requires c = given-held (both-held c.args.vector.now c.requires.edited.held c.in_ok-reserve.ensures.rest c.cell-cell.ensures.adds) c.in_ok-given.ensures.sets

pub returns : goal.returns
returns c =
    let both = both-held c.args.vector.now c.requires.edited.held c.in_ok-reserve.ensures.rest c.cell-cell.ensures.adds in
    record { edited = changed both (omega (arith, c.cell-cell.ensures.count, c.in_ok-reserve.ensures.rest.count, c.requires.edited.count)) c.in_ok-given.ensures.sets c.release.ensures.releases c.release.ensures.keeps }
PROOF
for function in pushes sets; do
    cat > "$crate/proofs/$function/Invariants.antt" <<PROOF
use Rattle.vector_in_place.specs.Edited.{IsEdited}
use Rattle.vector_in_place.proofs.$function.Given as goal

abbrev pub invariant-turns : goal.invariant-turns
invariant-turns l = IsEdited l.heap l.vector
PROOF
done

prove_and_build vector_in_place
runs+=("this repository, in place|$crate/out/vector_in_place|")

# The programs over a list of a store of versions.
add_lists

# The program over `im_rc::Vector` and `Vec`.
begin_rust vectors
cat > "$rust/src/main.rs" <<'RUST'
//! The same phases over another vector: `vectors counted`, `kept`, `counted_in_place`, `in_place` or `plain`.

mod measure;

use measure::{COUNT, place, scattered, stay, tell};

trait Rows: Sized {
    fn empty() -> Self;
    fn count(&self) -> usize;
    fn at(&self, index: usize) -> u32;
    fn pushed(self, value: u32) -> Self;
    fn changed(self, index: usize, value: u32) -> Self;
}

struct Plain(Vec<u32>);

impl Rows for Plain {
    fn empty() -> Self {
        Plain(Vec::new())
    }
    fn count(&self) -> usize {
        self.0.len()
    }
    fn at(&self, index: usize) -> u32 {
        self.0[index]
    }
    fn pushed(mut self, value: u32) -> Self {
        self.0.push(value);
        self
    }
    fn changed(mut self, index: usize, value: u32) -> Self {
        self.0[index] = value;
        self
    }
}

#[cfg(feature = "shared")]
mod shared {
    use super::Rows;
    use crate::measure::Element;

    /// The new version beside the old, which is then dropped.
    pub struct Kept<E: Clone>(im_rc::Vector<E>);

    impl<E: Element> Rows for Kept<E> {
        fn empty() -> Self {
            Kept(im_rc::Vector::new())
        }
        fn count(&self) -> usize {
            self.0.len()
        }
        fn at(&self, index: usize) -> u32 {
            self.0[index].number()
        }
        fn pushed(self, value: u32) -> Self {
            let mut new = self.0.clone();
            new.push_back(E::of(value));
            Kept(new)
        }
        fn changed(self, index: usize, value: u32) -> Self {
            let mut new = self.0.clone();
            new.set(index, E::of(value));
            Kept(new)
        }
    }

    /// One version, changed where it is.
    pub struct InPlace<E: Clone>(im_rc::Vector<E>);

    impl<E: Element> Rows for InPlace<E> {
        fn empty() -> Self {
            InPlace(im_rc::Vector::new())
        }
        fn count(&self) -> usize {
            self.0.len()
        }
        fn at(&self, index: usize) -> u32 {
            self.0[index].number()
        }
        fn pushed(mut self, value: u32) -> Self {
            self.0.push_back(E::of(value));
            self
        }
        fn changed(mut self, index: usize, value: u32) -> Self {
            self.0.set(index, E::of(value));
            self
        }
    }
}

fn gets<V: Rows>(all: &V, mut seed: u32) -> usize {
    let mut sum: u32 = 0;
    for _ in 0..COUNT {
        seed = scattered(seed);
        sum = sum.wrapping_add(all.at(place(seed)));
    }
    sum as usize
}

fn phases<V: Rows>() {
    let mut all = V::empty();
    tell("start", 0);
    for value in 0..COUNT {
        all = all.pushed(value);
    }
    tell("push", all.count());
    let sum = gets(&all, 1);
    tell("get", sum);
    let mut seed = 2;
    for value in 0..COUNT {
        seed = scattered(seed);
        all = all.changed(place(seed), value);
    }
    tell("set", 0);
    let sum = gets(&all, 3);
    tell("end", sum);
    stay();
}

fn main() {
    match std::env::args().nth(1).as_deref() {
        #[cfg(feature = "shared")]
        Some("kept") => phases::<shared::Kept<u32>>(),
        #[cfg(feature = "shared")]
        Some("counted") => phases::<shared::Kept<std::rc::Rc<u32>>>(),
        #[cfg(feature = "shared")]
        Some("counted_in_place") => phases::<shared::InPlace<std::rc::Rc<u32>>>(),
        #[cfg(feature = "shared")]
        Some("in_place") => phases::<shared::InPlace<u32>>(),
        _ => phases::<Plain>(),
    }
}
RUST

add_runs "im_rc of Rc, persistent|counted" "im_rc, persistent|kept" "im_rc of Rc, in place|counted_in_place" \
    "im_rc, in place|in_place" "Vec, in place|plain"

report "$count" "${runs[@]}" <<'PYTHON'
import sys
from shared import ROUNDS, best_of_rounds, programs, tables

count, runs = int(sys.argv[1]), programs(sys.argv[2:])
phases = ["push", "get", "set"]
spans, peaks, _ = best_of_rounds(runs, len(phases) + 2, "vectors")
print(f"{count:,} of each over one vector, best of {ROUNDS}, seconds of wall and of processor, and peak megabytes:")
columns = [f"{phase} {kind}" for phase in phases for kind in ["wall", "proc."]] + ["peak"]
figures = {}
for name, _, _ in runs:
    figures[name] = [span for pair in spans[name][: len(phases)] for span in pair] + [peaks[name]]
tables(columns, figures, width=12, margin=34)
PYTHON
