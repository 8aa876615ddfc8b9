#!/usr/bin/env bash
# Splits, joins, inserts and erases at random places of a vector of a million elements, beside `im_rc::Vector`, and then
# joins at six lengths, best of three.
#   bench/join.sh           where cargo finds `im_rc` by itself, without a download
#   bench/join.sh FOLDER    with cargo set up as FOLDER/.cargo/config.toml says
# COUNT and TURNS in the environment take the places of the million and of the 10,000 changes of each kind.
# It writes a small program beside links to the crates that it stands on, in a folder of its own, since the gate takes no
# program outside the listed crates. Without cargo or `im_rc` it says so and runs the rest.
set -eu
. "$(dirname -- "$0")/shared.sh"
begin "$@"
turns=${TURNS:-10000}
shortest=1000
lengths=6

# The program over this repository's vectors.
take_crates rrb_join
begin_program join_rows 'rrb_join rrb_core node_heap elem_core anyhow'
cat > "$crate/src/main.rt" <<PROGRAM
//! Splits, joins, inserts and erases over one vector, each new vector beside the old, which is then given up.
#![tactic(auto)]

ghost use Rattle.std.specs.Prelude.{◌≡◌, ◌<◌, ◌^◌, IfOk, OnOk};
ghost use Rattle.node_heap.specs.Heap.{holds_at, hold_count};
ghost use Rattle.rrb_core.specs.Vector.{IsGoodVector};

use anyhow::Result;
use elem_core::NoMemory;
use node_heap::{Heap, Link};
use rrb_core::{Flex, FlexRef, PushFault, push};
use rrb_join::{InsertFault, concat, erase, insert, slice};
use std::io;
use std::rt::Clock;
use std::time::CpuClock;

const TURNS: u32 = $turns;
const SHORTEST: u32 = $shortest;
const LENGTHS: u32 = $lengths;

fn main(rt: HostRuntime) -> Result<()> {
    let mut heap: Heap<u32> = Heap::new(rt.alloc());
    steps(&rt, &mut heap)?;
    // It waits for a line, so that the peak of its memory can be read.
    let mut line = String::new(rt.alloc());
    rt.read_line(&mut line)?;
    let mut count = SHORTEST;
    for _length in 0..LENGTHS {
        let mut heap: Heap<u32> = Heap::new(rt.alloc());
        joins(&rt, &mut heap, count)?;
        count = count.wrapping_mul(4);
    }
    Ok(())
}

// One vector through all steps but the last.
fn steps(rt: &(impl Print + Clock + CpuClock), heap: &mut Heap<u32>) -> Result<()>
    requires { hold_count heap.old ≡ 0 }
{
    let empty = first(heap)?;
    let all = pushes(heap, empty, COUNT)?;
    tell(rt, "start", FlexRef::at(all).len(heap))?;
    let sum = gets(heap, all, 1);
    tell(rt, "get", sum)?;
    let split = turns(heap, all, Step::Split, 2)?;
    tell(rt, "split", FlexRef::at(split).len(heap))?;
    let rotated = turns(heap, split, Step::Rotate, 3)?;
    tell(rt, "rotate", FlexRef::at(rotated).len(heap))?;
    let longer = turns(heap, rotated, Step::Insert, 4)?;
    tell(rt, "insert", FlexRef::at(longer).len(heap))?;
    let shorter = turns(heap, longer, Step::Erase, 5)?;
    tell(rt, "erase", FlexRef::at(shorter).len(heap))?;
    let sum = gets(heap, shorter, 6);
    tell(rt, "again", sum)?;
    Ok(())
}

// A vector of so many elements, joined with itself.
fn joins(rt: &(impl Print + Clock + CpuClock), heap: &mut Heap<u32>, count: u32) -> Result<()>
    requires { hold_count heap.old ≡ 0 }
{
    let empty = first(heap)?;
    let all = pushes(heap, empty, count)?;
    tell(rt, "start", 0)?;
    let same = turns(heap, all, Step::Join, 7)?;
    tell(rt, "join", FlexRef::at(same).len(heap))?;
    Ok(())
}

// What is done at each turn.
#[derive(Clone, Copy)]
enum Step {
    // The parts before and from a place, both given up.
    Split,
    // The same, joined the other way round.
    Rotate,
    Insert,
    Erase,
    // The vector joined with itself, given up.
    Join,
}

fn turns(heap: &mut Heap<u32>, root: Link, step: Step, seed: u32) -> Result<Link>
$one_vector
{
    let mut top = root;
    let mut seed = seed;
    'turns: for _turn in 0..TURNS {
        seed = scattered(seed);
        top = turn(heap, top, step, seed)?;
    }
    Ok(top)
}

fn turn(heap: &mut Heap<u32>, root: Link, step: Step, seed: u32) -> Result<Link>
$one_vector
{
    match step {
        Step::Split => split(heap, root, place(seed)),
        Step::Rotate => rotated(heap, root, place(seed)),
        Step::Insert => inserted(heap, root, place(seed), seed),
        Step::Erase => erased(heap, root, place(seed)),
        Step::Join => joined(heap, root),
    }
}

fn split(heap: &mut Heap<u32>, root: Link, index: u32) -> Result<Link>
$one_vector
{
    let front = cut(heap, root, 0, index)?;
    cut(heap, front, index, COUNT)
}

fn cut(heap: &mut Heap<u32>, root: Link, from: u32, to: u32) -> Result<Link>
$one_vector
{
    let part = slice(heap, FlexRef::at(root), from, to)?;
    part.release(heap);
    Ok(root)
}

fn rotated(heap: &mut Heap<u32>, root: Link, index: u32) -> Result<Link>
$one_vector
{
    let left = slice(heap, FlexRef::at(root), 0, index)?.into_root();
    let right = slice(heap, FlexRef::at(root), index, COUNT)?.into_root();
    let new = concat(heap, FlexRef::at(right), FlexRef::at(left))?.into_root();
    Flex::from_root(left).release(heap);
    Flex::from_root(right).release(heap);
    Flex::from_root(root).release(heap);
    Ok(new)
}

fn erased(heap: &mut Heap<u32>, root: Link, index: u32) -> Result<Link>
    requires small { index < 2 ^ 24 }
$one_vector
{
    let new = erase(heap, FlexRef::at(root), index, index + 1)?.into_root();
    Flex::from_root(root).release(heap);
    Ok(new)
}

fn joined(heap: &mut Heap<u32>, root: Link) -> Result<Link>
$one_vector
{
    let twice = concat(heap, FlexRef::at(root), FlexRef::at(root))?;
    twice.release(heap);
    Ok(root)
}
PROGRAM
add_measures u32

# The rest of the program, and the proofs: the loops' invariants, and that the old vector and the new one each have a hold of
# their own.
add_vectors
prove_turns turns
add_spent inserted insert index
prove_new erased erase '(one-more c.in_ok-erase.ensures.answered)' 'join_rows.proofs.Parts.{one-more}'
echo 'pub mod Parts' >> "$crate/proofs/Lib.antt"
cat > "$crate/proofs/Parts.antt" <<'PROOF'
-- A new vector beside others, and two parts of a vector beside it and what they are joined to.
use Rattle.std.proofs.Common.{◌≡◌, ℕ, ◌+◌, [], arith}
use Rattle.node_heap.specs.Heap.{Heap, holds_at, one_at}
use Rattle.node_heap.specs.Calls.{Answered}

module _ {T : Type 0} where
  -- a call that spent nothing: the new vector is held once more, and every other link as often as before
  pub one-more : {a b : Heap T} {new n m : ℕ} → Answered a b [] new n m → (k : ℕ) → holds_at b k ≡ holds_at a k + one_at new k
  one-more {a} {b} {new} answered k =
      let more : holds_at b k + 0 ≡ holds_at a k + one_at new k = answered.holds k in
      omega (arith, more)

  pub three-more : {a b c d : Heap T} {left right new n m p : ℕ} → Answered a b [] left 0 n → Answered b c [] right 0 m → Answered c d [] new 0 p → (k : ℕ) → holds_at d k ≡ holds_at a k + one_at left k + one_at right k + one_at new k
  three-more first second third k = omega (arith, one-more first k, one-more second k, one-more third k)
PROOF
mkdir -p "$crate/proofs/rotated"
cat > "$crate/proofs/rotated/Answers.antt" <<'PROOF'
use Rattle.std.proofs.Common.{◌≡◌, ◌+◌, ◌<◌, refl, arith}
use Rattle.node_heap.specs.Heap.{holds_at, one_at}
use Rattle.rrb_core.proofs.LinkCounts.{one-same}
use Rattle.rrb_core.proofs.Stays.{extended-good}
use Rattle.join_rows.proofs.OldAndNew.{one-within}
use Rattle.join_rows.proofs.Parts.{three-more}
use Rattle.join_rows.proofs.rotated.Goals as goal

pub slice-requires-2-clause-good : goal.slice-requires-2-clause-good
slice-requires-2-clause-good c = rw c.at-2.ensures (extended-good c.args.root c.in_ok-slice.ensures.answered.extends c.requires.good)

pub concat-requires-clause-right_good : goal.concat-requires-clause-right_good
concat-requires-clause-right_good c = rw (c.at-4.ensures, c.into_root-left.ensures) (extended-good c.in_ok-slice.field-0 c.in_ok-slice-2.ensures.answered.extends c.in_ok-slice.ensures.good)

pub release-requires : goal.release-requires
release-requires c =
    let left = c.in_ok-slice.field-0 in
    let more = three-more c.in_ok-slice.ensures.answered c.in_ok-slice-2.ensures.answered c.in_ok-concat.ensures.answered left in
    rw (c.from_root.ensures, c.into_root-left.ensures) (omega (arith, more, one-same left left refl))

pub release-requires-2 : goal.release-requires-2
release-requires-2 c =
    let right = c.in_ok-slice-2.field-0 in
    let more = three-more c.in_ok-slice.ensures.answered c.in_ok-slice-2.ensures.answered c.in_ok-concat.ensures.answered right in
    let first = rw (c.from_root.ensures, c.into_root-left.ensures) at c.release.ensures.releases.holds right in
    rw (c.from_root-2.ensures, c.into_root-right.ensures) (omega (arith, more, one-same right right refl, first))

pub release-requires-3 : goal.release-requires-3
release-requires-3 c =
    let more = three-more c.in_ok-slice.ensures.answered c.in_ok-slice-2.ensures.answered c.in_ok-concat.ensures.answered c.args.root in
    let first = rw (c.from_root.ensures, c.into_root-left.ensures) at c.release.ensures.releases.holds c.args.root in
    let second = rw (c.from_root-2.ensures, c.into_root-right.ensures) at c.release-2.ensures.releases.holds c.args.root in
    rw c.from_root-3.ensures (omega (arith, more, c.requires.held, first, second))

-- the new vector keeps a hold at each of the three
made : (c : goal.After-release-3) → holds_at c.concat.new.heap c.in_ok-concat.field-0 ≡ holds_at c.args.heap.now c.in_ok-concat.field-0 + one_at c.from_root.result c.in_ok-concat.field-0 + one_at c.from_root-2.result c.in_ok-concat.field-0 + 1
made c =
    let new = c.in_ok-concat.field-0 in
    let more = three-more c.in_ok-slice.ensures.answered c.in_ok-slice-2.ensures.answered c.in_ok-concat.ensures.answered new in
    rw (c.from_root.ensures, c.into_root-left.ensures, c.from_root-2.ensures, c.into_root-right.ensures) (omega (arith, more, one-same new new refl))

last : (c : goal.After-release-3) → one_at c.from_root-3.result c.in_ok-concat.field-0 < holds_at c.release-2.new.heap c.in_ok-concat.field-0
last c =
    let new = c.in_ok-concat.field-0 in
    rw c.from_root-3.ensures (omega (arith, made c, c.release.ensures.releases.holds new, c.release-2.ensures.releases.holds new, one-within c.args.heap.now c.args.root new c.requires.held))

pub returns-clause-good : goal.returns-clause-good
returns-clause-good c =
    let new = c.in_ok-concat.field-0 in
    let first = (c.release.ensures.vectors new (omega (arith, made c)) c.in_ok-concat.ensures.good).0 in
    let second = (c.release-2.ensures.vectors new (omega (arith, made c, c.release.ensures.releases.holds new)) first).0 in
    rw c.into_root-new.ensures (c.release-3.ensures.vectors new (last c) second).0

pub returns-clause-held : goal.returns-clause-held
returns-clause-held c = rw c.into_root-new.ensures (omega (arith, last c, c.release-3.ensures.releases.holds c.in_ok-concat.field-0))
PROOF
for pair in cut:part joined:twice; do
    function=${pair%:*}
    answer=${pair#*:}
    mkdir -p "$crate/proofs/$function"
    cat > "$crate/proofs/$function/Answers.antt" <<PROOF
use Rattle.std.proofs.Common.{refl, arith}
use Rattle.rrb_core.proofs.LinkCounts.{one-same}
use Rattle.rrb_core.proofs.Stays.{extended-good}
use Rattle.join_rows.proofs.Parts.{one-more}
use Rattle.join_rows.proofs.$function.Goals as goal

pub release-requires : goal.release-requires
release-requires c =
    let new = c.in_ok-$answer.$answer in
    omega (arith, one-more c.in_ok-$answer.ensures.answered new, one-same new new refl)

pub returns-clause-good : goal.returns-clause-good
returns-clause-good c =
    let old = c.args.root in
    (c.release.ensures.vectors old (omega (arith, c.requires.held, one-more c.in_ok-$answer.ensures.answered old)) (extended-good old c.in_ok-$answer.ensures.answered.extends c.requires.good)).0

pub returns-clause-held : goal.returns-clause-held
returns-clause-held c = omega (arith, c.requires.held, one-more c.in_ok-$answer.ensures.answered c.args.root, c.release.ensures.releases.holds c.args.root)
PROOF
done

prove_and_build join_rows
runs=("this repository|$crate/out/join_rows|")

# The program over `im_rc::Vector`.
begin_rust vectors
cat > "$rust/src/main.rs" <<RUST
//! The same phases over \`im_rc::Vector\`: \`vectors kept\`, \`counted\` or \`in_place\`.

mod measure;

use measure::{COUNT, Element, place, scattered, stay, tell};
use std::hint::black_box;
use std::rc::Rc;

const TURNS: u32 = $turns;
const SHORTEST: u32 = $shortest;
const LENGTHS: u32 = $lengths;
RUST
cat >> "$rust/src/main.rs" <<'RUST'

/// What a change does with the old vector: it keeps it whole until the new one is there, or it changes it.
trait Way {
    fn begin<E: Clone>(all: &mut im_rc::Vector<E>) -> im_rc::Vector<E>;
}

/// The new version beside the old, which is then dropped.
struct Persistent;

impl Way for Persistent {
    fn begin<E: Clone>(all: &mut im_rc::Vector<E>) -> im_rc::Vector<E> {
        all.clone()
    }
}

/// One version, changed where it is.
struct InPlace;

impl Way for InPlace {
    fn begin<E: Clone>(all: &mut im_rc::Vector<E>) -> im_rc::Vector<E> {
        std::mem::take(all)
    }
}

fn pushes<E: Element>(count: u32) -> im_rc::Vector<E> {
    (0..count).map(E::of).collect()
}

fn gets<E: Element>(all: &im_rc::Vector<E>, mut seed: u32) -> usize {
    let mut sum: u32 = 0;
    for _ in 0..COUNT {
        seed = scattered(seed);
        sum = sum.wrapping_add(all[place(seed)].number());
    }
    sum as usize
}

/// The place of each turn is drawn from the seed, as in the other program.
fn turns(mut seed: u32, mut turn: impl FnMut(u32)) {
    for _ in 0..TURNS {
        seed = scattered(seed);
        turn(seed);
    }
}

fn phases<E: Element, W: Way>() {
    let mut all = pushes::<E>(COUNT);
    tell("start", all.len());
    tell("get", gets(&all, 1));
    turns(2, |seed| {
        black_box(all.clone().split_at(place(seed)));
    });
    tell("split", all.len());
    turns(3, |seed| {
        let (left, mut right) = W::begin(&mut all).split_at(place(seed));
        right.append(left);
        all = right;
    });
    tell("rotate", all.len());
    turns(4, |seed| {
        let mut new = W::begin(&mut all);
        new.insert(place(seed), E::of(seed));
        all = new;
    });
    tell("insert", all.len());
    turns(5, |seed| {
        let mut new = W::begin(&mut all);
        new.remove(place(seed));
        all = new;
    });
    tell("erase", all.len());
    tell("again", gets(&all, 6));
    stay();
    for length in 0..LENGTHS {
        let all = pushes::<E>(SHORTEST << (2 * length));
        tell("start", 0);
        turns(7, |_| {
            let mut twice = all.clone();
            twice.append(all.clone());
            black_box(twice);
        });
        tell("join", all.len());
    }
}

fn main() {
    match std::env::args().nth(1).as_deref() {
        Some("counted") => phases::<Rc<u32>, Persistent>(),
        Some("kept") => phases::<u32, Persistent>(),
        _ => phases::<u32, InPlace>(),
    }
}
RUST

if cargo_builds; then
    runs+=("im_rc of Rc, persistent|$built|counted" "im_rc, persistent|$built|kept" "im_rc, in place|$built|in_place")
else
    say_without
fi

report "$count" "$turns" "$shortest" "$lengths" "${runs[@]}" <<'PYTHON'
import sys
from shared import ROUNDS, best_of_rounds, programs, table

count, turns, shortest, lengths = map(int, sys.argv[1:5])
runs = programs(sys.argv[5:])
phases = ["get", "split", "rotate", "insert", "erase", "again"]
spans, peaks, _ = best_of_rounds(runs, len(phases) + 1, "vectors")
print(f"{turns:,} of each at random places of a vector of {count:,}, and {count:,} gets, best of {ROUNDS},")
print("microseconds of wall and of processor for one, and peak megabytes:")
columns = [f"{phase} {kind}" for phase in phases for kind in ["wall", "proc."]] + ["peak"]
times = [count if phase in ["get", "again"] else turns for phase in phases]
figures = {}
for name, _, _ in runs:
    figures[name] = [span * 1e6 / many for pair, many in zip(spans[name], times) for span in pair] + [peaks[name]]
table(columns, figures, width=14, digits=3)

sizes = [shortest * 4**length for length in range(lengths)]
print(f"A join of a vector with itself, best of {ROUNDS} over {turns:,}, microseconds of wall and of processor for one:")
for name, _, _ in runs:
    figures[name] = [span * 1e6 / turns for pair in spans[name][len(phases) :] for span in pair]
table([f"{size:,}" for size in sizes for _ in range(2)], figures, width=14, digits=3)
PYTHON
