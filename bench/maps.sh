#!/usr/bin/env bash
# A million insertions, look-ups and removals over one map, and the same over a copy that is kept, with each old version left and
# in place, beside `im_rc::HashMap` and std's `HashMap`, best of three.
#   bench/maps.sh           where cargo finds `im_rc` by itself, without a download
#   bench/maps.sh FOLDER    with cargo set up as FOLDER/.cargo/config.toml says
# COUNT in the environment takes the place of the million.
# It writes small programs beside links to the crates that they stand on, in a folder of its own, since the gate takes no
# program outside the listed crates. Without cargo or `im_rc` it says so and runs the rest.
set -eu
. "$(dirname -- "$0")/shared.sh"
. "$top/bench/stores.sh"
begin "$@"

# add_maps: adds to the program what both have in common: keys, look-ups, and a copy that is kept, with its proof, what is said of
# one map after another, and lemmas on that.
add_maps() {
    add_measures usize
    cat >> "$crate/src/main.rt" <<'PROGRAM'

// What a cell has: a key or a value, which are numbers.
trait Numbered: Element {
    fn key_of(number: u32) -> Self;

    fn value_of(number: u32) -> Self;

    fn number(&self) -> u32;
}

impl Numbered for Num {
    fn key_of(number: u32) -> Num {
        Num(number)
    }

    fn value_of(number: u32) -> Num {
        Num(number)
    }

    fn number(&self) -> u32 {
        self.0
    }
}

// The key of a turn. No two turns have one key, and the keys' codes lie as if by chance.
fn key<T: Numbered>(turn: u32) -> T {
    let spread = turn.wrapping_mul(2_654_435_761);
    T::key_of(spread ^ (spread >> 15))
}

// One hold more of the map, which is never given up.
fn keep<T: Numbered>(heap: &mut Heap<T>, map: MapRef)
    requires good { IsGood T.cmp T.code_of heap.old map }
    requires held { 0 < holds_at heap.old map.root }
    requires few { hold_count heap.old < 2 ^ 50 }
    ensures good { IsGood T.cmp T.code_of heap.new map }
    ensures twice { 1 < holds_at heap.new map.root }
    ensures count { hold_count heap.new ≡ hold_count heap.old + 1 }
{
    let _ = heap.live();
    let map = Map::from_root(map.root(), map.bits());
    let more = map.share(heap);
    let _root = map.into_root();
    let _root = more.into_root();
}

fn gets<T: Numbered>(heap: &Heap<T>, map: MapRef, from: u32) -> usize
    requires { IsGood T.cmp T.code_of heap.now map }
{
    let mut sum: u32 = 0;
    let mut seed = 1;
    for turn in 0..COUNT {
        let _ = turn;
        seed = scattered(seed);
        sum = sum.wrapping_add(number_at(heap, map, from.wrapping_add(place(seed))));
    }
    sum as usize
}

fn number_at<T: Numbered>(heap: &Heap<T>, map: MapRef, turn: u32) -> u32
    requires { IsGood T.cmp T.code_of heap.now map }
{
    let key: T = key(turn);
    match map.get(heap, &key) {
        Some(cell) => match heap.value(cell) {
            Some(value) => value.number(),
            None => 0,
        },
        None => 0,
    }
}
PROGRAM
    echo 'pub mod Turn' > "$crate/specs/Lib.antt"
    cat > "$crate/specs/Turn.antt" <<'SPEC'
-- One map after another.
use Rattle.std.specs.Prelude.{◌≡◌, ℕ, ◌+◌, ◌<◌, List}
use Rattle.std.specs.declared.cmp.Ordering.{Ordering}
use Rattle.node_heap.specs.Heap.{Heap, holds_at, one_at}
use Rattle.champ_kinds.specs.Root.{Root}
use Rattle.champ_kinds.specs.Binding.{Binding}
use Rattle.champ_kinds.specs.Kinds.{IsMapOf}
use Rattle.champ_kinds.specs.Laws.{KeepsContainer}

module _ {T : Type 0} where
  -- a root is a map
  abbrev pub IsGood : (T → T → Ordering) → (T → ℕ) → Heap T → Root → Type 0
  IsGood cmp code h r = (M : List (Binding T)) × IsMapOf cmp code h r M

  -- the hold went from one root to another, and each map of which a hold is left is the same
  pub record Turns (old new : Heap T) (from to : ℕ) : Type 0 where
    pub holds : (k : ℕ) → holds_at new k + one_at from k ≡ holds_at old k + one_at to k
    pub kept : (r : Root) → one_at from r.root < holds_at old r.root → KeepsContainer old new r
SPEC
    echo 'pub mod Turn' > "$crate/proofs/Lib.antt"
    cat > "$crate/proofs/Turn.antt" <<PROOF
-- One map after another.
use Rattle.std.proofs.Common.{ℕ, ◌<◌, ◌≤◌, refl, ap, sym, arith, inl, inr}
use Rattle.std.specs.declared.cmp.Ordering.{Ordering}
use Rattle.std.proofs.lemmas.Bool.{cases_eq}
use Rattle.node_heap.specs.Heap.{Heap, holds_at, one_at}
use Rattle.node_heap.specs.Calls.{Extends}
use Rattle.node_heap.proofs.Counts.{test_same, test_other}
use Rattle.champ_chain.proofs.CopyLemmas.{one_at-same}
use Rattle.champ_kinds.specs.Root.{Root}
use Rattle.champ_kinds.specs.Laws.{KeepsContainer}
use Rattle.champ_kinds.proofs.StayLemmas.{containers-extended}
use Rattle.$program.specs.Turn.{IsGood, Turns}

module _ {T : Type 0} where
  pub one-held : (h : Heap T) (x k : ℕ) → 0 < holds_at h x → one_at x k ≤ holds_at h k
  one-held h x k held = elim (cases_eq x k) as (λ _. one_at x k ≤ holds_at h k) [
    | inl same ↦ omega (arith, test_same k x (sym same), ap (holds_at h) same, held)
    | inr other ↦ omega (arith, test_other k x (λ e. other (sym e)))
  ]

  pub keeps-extended : (old new : Heap T) → Extends old new → (r : Root) → KeepsContainer old new r
  keeps-extended old new ext r = containers-extended old new ext r

  pub keeps-then : (a b c : Heap T) (r : Root) → KeepsContainer a b r → KeepsContainer b c r → KeepsContainer a c r
  keeps-then a b c r first second = record {
    map = λ cmp code M is. second.map cmp code M (first.map cmp code M is);
    set = λ cmp code E is. second.set cmp code E (first.set cmp code E is);
  }

  pub good-kept : (cmp : T → T → Ordering) (code : T → ℕ) {a b : Heap T} {r : Root} → KeepsContainer a b r → IsGood cmp code a r → IsGood cmp code b r
  good-kept cmp code keeps good = (good.0, keeps.map cmp code good.0 good.1)

  pub good-extended : (cmp : T → T → Ordering) (code : T → ℕ) {a b : Heap T} {r : Root} → Extends a b → IsGood cmp code a r → IsGood cmp code b r
  good-extended cmp code {a} {b} {r} ext good = good-kept cmp code (keeps-extended a b ext r) good

  pub turns-none : (h : Heap T) (l : ℕ) → Turns h h l l
  turns-none h l = record {
    holds = λ k. refl;
    kept = λ r left. record { map = λ cmp code M is. is; set = λ cmp code E is. is };
  }

  pub turns-then : {a b c : Heap T} {l m n : ℕ} → Turns a b l m → Turns b c m n → Turns a c l n
  turns-then {a} {b} {c} {l} {m} {n} first second = record {
    holds = λ k. omega (arith, first.holds k, second.holds k);
    kept = λ r left. keeps-then a b c r (first.kept r left) (second.kept r (omega (arith, first.holds r.root, left)));
  }

  pub turns-held : {a b : Heap T} {l m : ℕ} → Turns a b l m → 0 < holds_at a l → 0 < holds_at b m
  turns-held {a} {b} {l} {m} turns held = omega (arith, turns.holds m, one-held a l m held, one_at-same m)

  -- a map that is held twice stays when one hold goes over
  pub copy-kept : {a b : Heap T} {m : ℕ} (r : Root) → Turns a b r.root m → 1 < holds_at a r.root → KeepsContainer a b r
  copy-kept r turns twice = turns.kept r (omega (arith, one_at-same r.root, twice))
PROOF
    mkdir "$crate/proofs/keep"
    cat > "$crate/proofs/keep/Answers.antt" <<PROOF
use Rattle.$program.proofs.Turn.{good-extended}
use Rattle.$program.proofs.keep.Goals as goal

pub returns-clause-good : goal.returns-clause-good
returns-clause-good g c =
    good-extended g.T.Ord.cmp g.T.Element.code_of c.share-more.ensures.builds.extends c.requires.good
PROOF
}

# prove_map_turns FUNCTION MAP ANSWER: the invariant of a loop over turns, and that the step keeps it. MAP is the map that goes from
# turn to turn, and ANSWER the name of the step's answer.
prove_map_turns() {
    local function=$1 map=$2 answer=$3
    mkdir "$crate/proofs/$function"
    cat > "$crate/proofs/$function/Invariants.antt" <<PROOF
use Rattle.std.proofs.Common.{◌≡◌, ◌<◌}
use Rattle.node_heap.specs.Heap.{holds_at, hold_count}
use Rattle.$program.specs.Turn.{IsGood, Turns}
use Rattle.$program.proofs.$function.Given as goal

abbrev pub invariant-loop-turn : goal.invariant-loop-turn
invariant-loop-turn g l =
    record {
      good : IsGood g.T.Ord.cmp g.T.Element.code_of l.heap l.$map;
      held : 0 < holds_at l.heap l.$map.root;
      turns : Turns l.fn.heap l.heap l.fn.map.root l.$map.root;
      count : hold_count l.heap ≡ hold_count l.fn.heap;
    }
PROOF
    cat > "$crate/proofs/$function/Answers.antt" <<PROOF
use Rattle.std.proofs.Common.{◌∙◌}
use Rattle.$program.proofs.Turn.{turns-then}
use Rattle.$program.proofs.$function.Goals as goal

pub loop-turn-preserved : goal.loop-turn-preserved
loop-turn-preserved g c = record {
  good = c.$answer.ensures.good;
  held = c.$answer.ensures.held;
  turns = turns-then c.loop-turn.invariant.turns c.$answer.ensures.turns;
  count = c.$answer.ensures.count ∙ c.loop-turn.invariant.count;
}
PROOF
}

# over_pieces NAME: the program once more, by this name, over cells that say whether they are a key or a value, as those of a store of
# maps do: what `Maps` takes more than it is the price of the store alone.
over_pieces() {
    local before=$program source=$crate
    begin_program "$1" "$(sed -n "s/^$before: //p" "$work/crates.txt" | tail -1) versions"
    cp -r "$source/src" "$source/specs" "$source/proofs" "$crate"
    find "$crate/src" "$crate/specs" "$crate/proofs" -type f -exec sed -i "s/\\b$before\\b/$1/g" {} +
    sed -i 's/Heap<Num>/Heap<Piece<Num, u32>>/; s/^use std::time::CpuClock;/&\nuse versions::Piece;/' "$crate/src/main.rt"
    cat >> "$crate/src/main.rt" <<'PROGRAM'

impl Numbered for Piece<Num, u32> {
    fn key_of(number: u32) -> Piece<Num, u32> {
        Piece::Key(Num(number))
    }

    fn value_of(number: u32) -> Piece<Num, u32> {
        Piece::Value(number)
    }

    fn number(&self) -> u32 {
        match self {
            Piece::Key(key) => key.0,
            Piece::Value(number) => *number,
        }
    }
}
PROGRAM
    prove_and_build "$1"
}

# The program over this repository's maps.
take_crates versions
begin_program map_rows 'champ_kinds champ_chain node_heap elem_core anyhow'
# The contract of what makes one map of another, which is then given up.
one_map='    requires good { IsGood T.cmp T.code_of heap.old map }
    requires held { 0 < holds_at heap.old map.root }
    requires few { hold_count heap.old < 2 ^ 50 }
    ensures good { IfOk result (λ m. IsGood T.cmp T.code_of heap.new m) }
    ensures held { IfOk result (λ m. 0 < holds_at heap.new m.root) }
    ensures turns { IfOk result (λ m. Turns heap.old heap.new map.root m.root) }
    ensures count { OnOk result (hold_count heap.new ≡ hold_count heap.old) }'
cat > "$crate/src/main.rt" <<PROGRAM
//! Inserts, look-ups and removals over one map, each new map beside the old, which is then given up; and the same over a
//! copy that is kept.
#![tactic(auto)]

ghost use Rattle.std.specs.Prelude.{◌≡◌, ℕ, ◌+◌, ◌<◌, ◌^◌, IfOk, OnOk};
ghost use Rattle.node_heap.specs.Heap.{holds_at, hold_count, one_at};
ghost use Rattle.champ_kinds.specs.Root.{Root};
ghost use Rattle.champ_kinds.specs.Laws.{KeepsContainer};
ghost use Rattle.map_rows.specs.Turn.{IsGood, Turns};

use anyhow::Result;
use champ_kinds::{Map, MapRef, map_insert, map_remove};
use elem_core::{CODE_BITS, Element, NoMemory, Num};
use node_heap::Heap;
use std::io;
use std::rt::Clock;
use std::time::CpuClock;

fn main(rt: HostRuntime) -> Result<()> {
    let mut heap: Heap<Num> = Heap::new(rt.alloc());
    let none = first(&mut heap)?;
    let left = alone(&rt, &mut heap, none)?;
    beside(&rt, &mut heap, left)?;
    // It stays until its input ends, so that the peak of its memory can be read.
    let mut line = String::new(rt.alloc());
    rt.read_line(&mut line)?;
    Ok(())
}

// A map alone: a million keys come, are looked up, and go again.
fn alone<T: Numbered>(
    rt: &(impl Print + Clock + CpuClock),
    heap: &mut Heap<T>,
    none: MapRef,
) -> Result<MapRef>
    requires good { IsGood T.cmp T.code_of heap.old none }
    requires held { 0 < holds_at heap.old none.root }
    requires few { hold_count heap.old < 2 ^ 50 }
    ensures good { IfOk result (λ m. IsGood T.cmp T.code_of heap.new m) }
    ensures held { IfOk result (λ m. 0 < holds_at heap.new m.root) }
    ensures count { OnOk result (hold_count heap.new ≡ hold_count heap.old) }
{
    tell(rt, "start", 0)?;
    let all = inserts(heap, none, 0)?;
    tell(rt, "insert", 0)?;
    tell(rt, "start", all.len(heap))?;
    let sum = gets(heap, all, 0);
    tell(rt, "get", sum)?;
    let left = removes(heap, all, 0)?;
    tell(rt, "remove", 0)?;
    tell(rt, "start", left.len(heap))?;
    Ok(left)
}

// The same over a copy of the map, which is kept to the end.
fn beside<T: Numbered>(
    rt: &(impl Print + Clock + CpuClock),
    heap: &mut Heap<T>,
    none: MapRef,
) -> Result<()>
    requires good { IsGood T.cmp T.code_of heap.old none }
    requires held { 0 < holds_at heap.old none.root }
    requires few { hold_count heap.old < 2 ^ 40 }
{
    let copy = inserts(heap, none, 0)?;
    tell(rt, "again", copy.len(heap))?;
    keep(heap, copy);
    let both = inserts(heap, copy, COUNT)?;
    tell(rt, "insert", 0)?;
    tell(rt, "start", both.len(heap))?;
    let sum = gets(heap, both, COUNT);
    tell(rt, "get", sum)?;
    let left = removes(heap, both, COUNT)?;
    tell(rt, "remove", 0)?;
    tell(rt, "start", left.len(heap))?;
    let sum = gets(heap, copy, 0);
    tell(rt, "end", sum)?;
    Ok(())
}

fn first<T: Numbered>(heap: &mut Heap<T>) -> Result<MapRef, NoMemory>
    requires few { hold_count heap.old ≡ 0 }
    ensures good { IfOk result (λ m. IsGood T.cmp T.code_of heap.new m) }
    ensures held { IfOk result (λ m. 0 < holds_at heap.new m.root) }
    ensures count { OnOk result (hold_count heap.new ≡ 1) }
{
    let made = Map::empty(heap, CODE_BITS)?;
    Ok(kept(made))
}

// The map, whose root stays held.
fn kept(map: Map) -> MapRef
    ensures { result ≡ map }
{
    let view = map.view();
    let _root = map.into_root();
    view
}

fn inserts<T: Numbered>(heap: &mut Heap<T>, map: MapRef, from: u32) -> Result<MapRef, NoMemory>
$one_map
{
    let mut top = map;
    for turn in 0..COUNT {
        top = inserted(heap, top, from.wrapping_add(turn))?;
    }
    Ok(top)
}

fn inserted<T: Numbered>(heap: &mut Heap<T>, map: MapRef, turn: u32) -> Result<MapRef, NoMemory>
$one_map
{
    heap.reserve(1, 0)?;
    let value = heap.cell(T::value_of(turn));
    match map_insert(heap, map, key(turn), value) {
        Ok(made) => Ok(moved(heap, map, made)),
        Err(_fault) => Err(NoMemory),
    }
}

// The new map, once the old one is given up.
fn moved<T: Numbered>(heap: &mut Heap<T>, old: MapRef, made: Map) -> MapRef
    requires good { IsGood T.cmp T.code_of heap.old made }
    requires held { 0 < holds_at heap.old old.root }
    requires twice { one_at old.root made.root < holds_at heap.old made.root }
    ensures good { IsGood T.cmp T.code_of heap.new result }
    ensures same { result ≡ made }
    ensures holds { (k : ℕ) → holds_at heap.new k + one_at old.root k ≡ holds_at heap.old k }
    ensures kept { (r : Root) → one_at old.root r.root < holds_at heap.old r.root → KeepsContainer heap.old heap.new r }
    ensures count { hold_count heap.new + 1 ≡ hold_count heap.old }
{
    Map::from_root(old.root(), old.bits()).release(heap);
    kept(made)
}

fn removes<T: Numbered>(heap: &mut Heap<T>, map: MapRef, from: u32) -> Result<MapRef, NoMemory>
$one_map
{
    let mut top = map;
    for turn in 0..COUNT {
        top = removed(heap, top, from.wrapping_add(turn))?;
    }
    Ok(top)
}

fn removed<T: Numbered>(heap: &mut Heap<T>, map: MapRef, turn: u32) -> Result<MapRef, NoMemory>
$one_map
{
    let key: T = key(turn);
    match map_remove(heap, map, &key)? {
        Some(left) => Ok(moved(heap, map, left)),
        None => Ok(map),
    }
}
PROGRAM
add_maps

# The proofs: that the old map, the new one and the copy each have a hold of their own.
for function in beside inserted moved removed; do
    mkdir "$crate/proofs/$function"
done
prove_map_turns inserts top in_ok-top
prove_map_turns removes top in_ok-top
echo 'pub mod OldAndNew' >> "$crate/proofs/Lib.antt"
cat > "$crate/proofs/OldAndNew.antt" <<'PROOF'
-- A new map beside the old one.
use Rattle.std.proofs.Common.{◌≡◌, ℕ, ◌+◌, ◌<◌, [], ◌∷◌, arith}
use Rattle.node_heap.specs.Heap.{Heap, holds_at, one_at}
use Rattle.node_heap.specs.Forms.{cell}
use Rattle.node_heap.specs.Calls.{Adds, Unchanged, Answered, Extends}
use Rattle.node_heap.proofs.BuildLemmas.{count-one}
use Rattle.champ_chain.proofs.CopyLemmas.{one_at-same}
use Rattle.champ_kinds.specs.Root.{Root}
use Rattle.champ_kinds.specs.Laws.{KeepsContainer}
use Rattle.map_rows.specs.Turn.{Turns}
use Rattle.map_rows.proofs.Turn.{one-held, keeps-extended, keeps-then}

module _ {T : Type 0} where
  -- the holds once the new map is there beside the old one
  pub spent-holds : {a b c d : Heap T} {value new n m : ℕ} {x : T} → Unchanged a b → Adds b c value (cell x) → Answered c d (value ∷ []) new n m → (k : ℕ) → holds_at d k ≡ holds_at a k + one_at new k
  spent-holds {a} {b} {c} {d} {value} {new} same adds answered k =
      let added : holds_at c k + 0 ≡ holds_at b k + one_at value k = adds.holds k in
      omega (arith, same.holds k, added, answered.holds k, count-one k value)

  pub both-held : (a d : Heap T) (old new : ℕ) → 0 < holds_at a old → ((k : ℕ) → holds_at d k ≡ holds_at a k + one_at new k) → one_at old new < holds_at d new
  both-held a d old new held holds = omega (arith, holds new, one-held a old new held, one_at-same new)

  -- the old map is given up
  pub turned : {a d e : Heap T} {old new : ℕ} → Extends a d → ((k : ℕ) → holds_at d k ≡ holds_at a k + one_at new k) → ((k : ℕ) → holds_at e k + one_at old k ≡ holds_at d k)
      → ((r : Root) → one_at old r.root < holds_at d r.root → KeepsContainer d e r) → Turns a e old new
  turned {a} {d} {e} {old} {new} ext holds less kept = record {
    holds = λ k. omega (arith, holds k, less k);
    kept = λ r left. keeps-then a d e r (keeps-extended a d ext r) (kept r (omega (arith, holds r.root, left)));
  }
PROOF
cat > "$crate/proofs/beside/Answers.antt" <<'PROOF'
use Rattle.map_rows.proofs.Turn.{good-kept, turns-then, copy-kept}
use Rattle.map_rows.proofs.beside.Goals as goal

pub gets-sum-requires-2 : goal.gets-sum-requires-2
gets-sum-requires-2 g c =
    good-kept g.T.Ord.cmp g.T.Element.code_of (copy-kept c.in_ok-copy.copy (turns-then c.in_ok-both.ensures.turns c.in_ok-left.ensures.turns) c.keep.ensures.twice) c.keep.ensures.good
PROOF
cat > "$crate/proofs/inserted/Answers.antt" <<'PROOF'
use Rattle.std.proofs.Common.{sym, subst, arith}
use Rattle.node_heap.proofs.Frames.{Extends-trans}
use Rattle.champ_kinds.specs.Root.{Root}
use Rattle.champ_kinds.specs.Binding.{bind}
use Rattle.map_rows.specs.Turn.{Turns}
use Rattle.map_rows.proofs.Turn.{good-extended, turns-held}
use Rattle.map_rows.proofs.OldAndNew.{spent-holds, both-held, turned}
use Rattle.map_rows.proofs.inserted.Goals as goal

pub map_insert-requires-clause-contents : goal.map_insert-requires-clause-contents
map_insert-requires-clause-contents g c =
    good-extended g.T.Ord.cmp g.T.Element.code_of (Extends-trans c.in_ok-reserve.ensures.extends c.cell-value.ensures.extends) c.requires.good

pub moved-requires-clause-good : goal.moved-requires-clause-good
moved-requires-clause-good g c =
    let good = good-extended g.T.Ord.cmp g.T.Element.code_of (Extends-trans c.in_ok-reserve.ensures.extends c.cell-value.ensures.extends) c.requires.good in
    (bind g.T.Ord.cmp good.0 c.key.result c.cell-value.result, c.in-Ok.ensures.contents good.0 good.1)

pub moved-requires-clause-held : goal.moved-requires-clause-held
moved-requires-clause-held g c =
    let good = good-extended g.T.Ord.cmp g.T.Element.code_of (Extends-trans c.in_ok-reserve.ensures.extends c.cell-value.ensures.extends) c.requires.good in
    omega (arith, spent-holds c.in_ok-reserve.ensures.rest c.cell-value.ensures.adds (c.in-Ok.ensures.answered good.0 good.1) c.args.map.root, c.requires.held)

pub moved-requires-clause-twice : goal.moved-requires-clause-twice
moved-requires-clause-twice g c =
    let good = good-extended g.T.Ord.cmp g.T.Element.code_of (Extends-trans c.in_ok-reserve.ensures.extends c.cell-value.ensures.extends) c.requires.good in
    both-held c.args.heap.now c.map_insert.new.heap c.args.map.root c.in-Ok.made.root c.requires.held (spent-holds c.in_ok-reserve.ensures.rest c.cell-value.ensures.adds (c.in-Ok.ensures.answered good.0 good.1))

turns : goal.returns-in-Ok-clause-turns
turns g c =
    let good = good-extended g.T.Ord.cmp g.T.Element.code_of (Extends-trans c.in_ok-reserve.ensures.extends c.cell-value.ensures.extends) c.requires.good in
    let answered = c.in-Ok.ensures.answered good.0 good.1 in
    let turned : Turns c.args.heap.now c.moved.new.heap c.args.map.root c.in-Ok.made.root =
    turned (Extends-trans (Extends-trans c.in_ok-reserve.ensures.extends c.cell-value.ensures.extends) answered.extends) (spent-holds c.in_ok-reserve.ensures.rest c.cell-value.ensures.adds answered) c.moved.ensures.holds c.moved.ensures.kept in
    subst (λ (r : Root). Turns c.args.heap.now c.moved.new.heap c.args.map.root r.root) (sym c.moved.ensures.same) turned

pub returns-in-Ok-clause-turns : goal.returns-in-Ok-clause-turns
returns-in-Ok-clause-turns g c = turns g c

pub returns-in-Ok-clause-held : goal.returns-in-Ok-clause-held
returns-in-Ok-clause-held g c = turns-held (turns g c) c.requires.held

pub returns-in-Ok-clause-count : goal.returns-in-Ok-clause-count
returns-in-Ok-clause-count g c =
    let good = good-extended g.T.Ord.cmp g.T.Element.code_of (Extends-trans c.in_ok-reserve.ensures.extends c.cell-value.ensures.extends) c.requires.good in
    omega (arith, (c.in-Ok.ensures.answered good.0 good.1).count, c.cell-value.ensures.count, c.in_ok-reserve.ensures.rest.count, c.moved.ensures.count)
PROOF
cat > "$crate/proofs/moved/Answers.antt" <<'PROOF'
use Rattle.map_rows.proofs.Turn.{good-kept}
use Rattle.map_rows.proofs.moved.Goals as goal

pub returns-clause-good : goal.returns-clause-good
returns-clause-good g c =
    rw c.kept.ensures (good-kept g.T.Ord.cmp g.T.Element.code_of (c.release.ensures.containers c.args.made (rw (c.from_root.ensures, c.root.ensures) c.requires.twice)) c.requires.good)

pub returns-clause-kept : goal.returns-clause-kept
returns-clause-kept g c = λ r left. c.release.ensures.containers r (rw (c.from_root.ensures, c.root.ensures) left)
PROOF
cat > "$crate/proofs/removed/Answers.antt" <<'PROOF'
use Rattle.std.proofs.Common.{sym, subst, arith}
use Rattle.champ_kinds.specs.Root.{Root}
use Rattle.champ_kinds.specs.Binding.{unbind}
use Rattle.map_rows.specs.Turn.{Turns}
use Rattle.map_rows.proofs.Turn.{turns-held}
use Rattle.map_rows.proofs.OldAndNew.{both-held, turned}
use Rattle.map_rows.proofs.removed.Goals as goal

pub moved-requires-clause-good : goal.moved-requires-clause-good
moved-requires-clause-good g c =
    (unbind g.T.Ord.cmp c.key-key.result c.requires.good.0, rw c.in-Some.is at (c.in_ok-left.ensures.contents c.requires.good.0 c.requires.good.1))

pub moved-requires-clause-held : goal.moved-requires-clause-held
moved-requires-clause-held g c =
    let answered = rw c.in-Some.is at (c.in_ok-left.ensures.answered c.requires.good.0 c.requires.good.1) in
    omega (arith, answered.holds c.args.map.root, c.requires.held)

pub moved-requires-clause-twice : goal.moved-requires-clause-twice
moved-requires-clause-twice g c =
    let answered = rw c.in-Some.is at (c.in_ok-left.ensures.answered c.requires.good.0 c.requires.good.1) in
    both-held c.args.heap.now c.map_remove.new.heap c.args.map.root c.in-Some.left.root c.requires.held (λ k. omega (arith, answered.holds k))

turns : goal.returns-in-Some-clause-turns
turns g c =
    let answered = rw c.in-Some.is at (c.in_ok-left.ensures.answered c.requires.good.0 c.requires.good.1) in
    let after : Turns c.args.heap.now c.moved.new.heap c.args.map.root c.in-Some.left.root =
    turned answered.extends (λ k. omega (arith, answered.holds k)) c.moved.ensures.holds c.moved.ensures.kept in
    subst (λ (r : Root). Turns c.args.heap.now c.moved.new.heap c.args.map.root r.root) (sym c.moved.ensures.same) after

pub returns-in-Some-clause-turns : goal.returns-in-Some-clause-turns
returns-in-Some-clause-turns g c = turns g c

pub returns-in-Some-clause-held : goal.returns-in-Some-clause-held
returns-in-Some-clause-held g c = turns-held (turns g c) c.requires.held

pub returns-in-Some-clause-count : goal.returns-in-Some-clause-count
returns-in-Some-clause-count g c =
    let answered = rw c.in-Some.is at (c.in_ok-left.ensures.answered c.requires.good.0 c.requires.good.1) in
    omega (arith, answered.count, c.moved.ensures.count)
PROOF
prove_and_build map_rows
runs=("this repository|$crate/out/map_rows|")
over_pieces map_pieces
runs+=("this repository, its cells|$crate/out/map_pieces|")

# The program over this repository's maps, edited in place.
begin_program map_in_place 'edit_trie champ_kinds champ_trie champ_chain node_heap elem_core anyhow'
# The contract of what edits a map.
edits_map='    requires good { IsGood T.cmp T.code_of heap.old map.old }
    requires held { 0 < holds_at heap.old map.old.root }
    requires few { hold_count heap.old < 2 ^ 50 }
    ensures good { OnOk result (IsGood T.cmp T.code_of heap.new map.new) }
    ensures held { OnOk result (0 < holds_at heap.new map.new.root) }
    ensures turns { OnOk result (Turns heap.old heap.new map.old.root map.new.root) }
    ensures count { OnOk result (hold_count heap.new ≡ hold_count heap.old) }'
cat > "$crate/src/main.rt" <<PROGRAM
//! Inserts, look-ups and removals over one map that is edited in place, and the same over a copy that is kept.
#![tactic(auto)]

ghost use Rattle.std.specs.Prelude.{◌≡◌, ◌+◌, ◌<◌, ◌^◌, IfOk, OnOk, option_to_list};
ghost use Rattle.node_heap.specs.Heap.{holds_at, hold_count};
ghost use Rattle.node_heap.specs.Calls.{HasHolds};
ghost use Rattle.map_in_place.specs.Turn.{IsGood, Turns};
ghost use Rattle.map_in_place.specs.Given.{GivesUp};

use anyhow::Result;
use champ_kinds::{Map, MapRef};
use edit_trie::{MapOpenFault, TrieEdit};
use elem_core::{CODE_BITS, Element, NoMemory, Num};
use node_heap::{Heap, Link};
use std::io;
use std::rt::Clock;
use std::time::CpuClock;

fn main(rt: HostRuntime) -> Result<()> {
    let mut heap: Heap<Num> = Heap::new(rt.alloc());
    let mut map = opened(&mut heap)?;
    let told = phases(&rt, &mut heap, &mut map);
    // A map can't be dropped, but its link can.
    let _ = map.freeze().into_root();
    told?;
    // It stays until its input ends, so that the peak of its memory can be read.
    let mut line = String::new(rt.alloc());
    rt.read_line(&mut line)?;
    Ok(())
}

fn opened<T: Numbered>(heap: &mut Heap<T>) -> Result<TrieEdit, NoMemory>
    requires few { hold_count heap.old ≡ 0 }
    ensures good { IfOk result (λ m. IsGood T.cmp T.code_of heap.new m) }
    ensures held { IfOk result (λ m. 0 < holds_at heap.new m.root) }
    ensures count { OnOk result (hold_count heap.new ≡ 1) }
{
    let empty = Map::empty(heap, CODE_BITS)?;
    match TrieEdit::open(empty, heap) {
        Ok(map) => Ok(map),
        Err(MapOpenFault { map }) => {
            let _ = map.into_root();
            Err(NoMemory)
        }
    }
}

fn phases<T: Numbered>(
    rt: &(impl Print + Clock + CpuClock),
    heap: &mut Heap<T>,
    map: &mut TrieEdit,
) -> Result<()>
    requires good { IsGood T.cmp T.code_of heap.old map.old }
    requires held { 0 < holds_at heap.old map.old.root }
    requires few { hold_count heap.old < 2 ^ 40 }
{
    alone(rt, heap, map)?;
    beside(rt, heap, map)
}

// A map alone: a million keys come, are looked up, and go again.
fn alone<T: Numbered>(
    rt: &(impl Print + Clock + CpuClock),
    heap: &mut Heap<T>,
    map: &mut TrieEdit,
) -> Result<()>
$edits_map
{
    tell(rt, "start", 0)?;
    inserts(heap, map, 0)?;
    tell(rt, "insert", 0)?;
    tell(rt, "start", map.view().len(heap))?;
    let sum = gets(heap, map.view(), 0);
    tell(rt, "get", sum)?;
    removes(heap, map, 0)?;
    tell(rt, "remove", 0)?;
    tell(rt, "start", map.view().len(heap))?;
    Ok(())
}

// The same over a copy of the map, which is kept to the end.
fn beside<T: Numbered>(
    rt: &(impl Print + Clock + CpuClock),
    heap: &mut Heap<T>,
    map: &mut TrieEdit,
) -> Result<()>
    requires good { IsGood T.cmp T.code_of heap.old map.old }
    requires held { 0 < holds_at heap.old map.old.root }
    requires few { hold_count heap.old < 2 ^ 40 }
{
    inserts(heap, map, 0)?;
    let copy = map.view();
    tell(rt, "again", copy.len(heap))?;
    keep(heap, copy);
    inserts(heap, map, COUNT)?;
    tell(rt, "insert", 0)?;
    tell(rt, "start", map.view().len(heap))?;
    let sum = gets(heap, map.view(), COUNT);
    tell(rt, "get", sum)?;
    removes(heap, map, COUNT)?;
    tell(rt, "remove", 0)?;
    tell(rt, "start", map.view().len(heap))?;
    let sum = gets(heap, copy, 0);
    tell(rt, "end", sum)?;
    Ok(())
}

fn inserts<T: Numbered>(heap: &mut Heap<T>, map: &mut TrieEdit, from: u32) -> Result<(), NoMemory>
$edits_map
{
    for turn in 0..COUNT {
        insert(heap, map, from.wrapping_add(turn))?;
    }
    Ok(())
}

fn insert<T: Numbered>(heap: &mut Heap<T>, map: &mut TrieEdit, turn: u32) -> Result<(), NoMemory>
$edits_map
{
    heap.reserve(1, 0)?;
    let value = heap.cell(T::value_of(turn));
    match map.insert(heap, key(turn), value) {
        Ok(given) => {
            give_up(heap, given);
            Ok(())
        }
        Err(_fault) => Err(NoMemory),
    }
}

fn removes<T: Numbered>(heap: &mut Heap<T>, map: &mut TrieEdit, from: u32) -> Result<(), NoMemory>
$edits_map
{
    for turn in 0..COUNT {
        remove(heap, map, from.wrapping_add(turn))?;
    }
    Ok(())
}

fn remove<T: Numbered>(heap: &mut Heap<T>, map: &mut TrieEdit, turn: u32) -> Result<(), NoMemory>
$edits_map
{
    let key: T = key(turn);
    match map.remove(heap, &key)? {
        Some(value) => {
            give_up(heap, Some(value));
            Ok(())
        }
        None => Ok(()),
    }
}

// Gives up the value that came back, if one did.
fn give_up<T: Numbered>(heap: &mut Heap<T>, given: Option<Link>)
    requires { HasHolds heap.old (option_to_list given) }
    ensures { GivesUp heap.old heap.new (option_to_list given) }
{
    match given {
        Some(value) => heap.release(value),
        None => {}
    }
}
PROGRAM
add_maps

# The proofs: what an edit makes of the holds, and of the maps beside.
for function in opened alone beside insert remove give_up; do
    mkdir "$crate/proofs/$function"
done
prove_map_turns inserts map in_ok-insert
prove_map_turns removes map in_ok-remove
echo 'pub mod Given' >> "$crate/specs/Lib.antt"
cat > "$crate/specs/Given.antt" <<'SPEC'
-- Links that are given up.
use Rattle.std.specs.Prelude.{◌≡◌, ℕ, ◌+◌, ◌<◌, List, length}
use Rattle.node_heap.specs.Links.{count}
use Rattle.node_heap.specs.Heap.{Heap, holds_at, hold_count}
use Rattle.node_heap.specs.Calls.{KeepsBelow}

-- a hold of each of these links was given up, and what a link reaches of which a hold is left is the same
pub record GivesUp {T : Type 0} (old new : Heap T) (links : List ℕ) : Type 0 where
  pub holds : (k : ℕ) → holds_at new k + count k links ≡ holds_at old k
  pub total : hold_count new + length links ≡ hold_count old
  pub kept : (l : ℕ) → count l links < holds_at old l → KeepsBelow old new l
SPEC
echo 'pub mod Edits' >> "$crate/proofs/Lib.antt"
cat > "$crate/proofs/Edits.antt" <<'PROOF'
-- A map that is edited by its hold.
use Rattle.std.proofs.Common.{◌≡◌, ℕ, ◌+◌, ◌<◌, ◌≤◌, List, [], ◌∷◌, length, refl, arith}
use Rattle.std.specs.declared.cmp.Ordering.{Ordering}
use Rattle.node_heap.specs.Links.{count}
use Rattle.node_heap.specs.Forms.{cell}
use Rattle.node_heap.specs.Heap.{Heap, holds_at, hold_count, one_at}
use Rattle.node_heap.specs.Calls.{HasHolds, Unchanged, Adds, Releases, KeepsHeld}
use Rattle.node_heap.specs.declared.owner.Owner.TheVariants.{Hold as by_hold}
use Rattle.node_heap.specs.Owner.{EditsBy}
use Rattle.node_heap.proofs.BuildLemmas.{count-cons, count-one}
use Rattle.node_heap.proofs.OwnerLemmas.{KeepsHeld-EditsBy}
use Rattle.champ_chain.proofs.CopyLemmas.{one_at-same}
use Rattle.champ_kinds.specs.Root.{Root}
use Rattle.champ_kinds.specs.Laws.{KeepsContainer}
use Rattle.champ_kinds.proofs.StayLemmas.{container-stays}
use Rattle.map_in_place.specs.Turn.{IsGood, Turns}
use Rattle.map_in_place.specs.Given.{GivesUp}
use Rattle.map_in_place.proofs.Turn.{one-held, keeps-then, good-kept}

module _ {T : Type 0} where
  pub gives-none : (h : Heap T) → GivesUp h h []
  gives-none h = record { holds = λ k. omega arith; total = omega arith; kept = λ l left m way. refl }

  pub gives-one : {d e : Heap T} {given : ℕ} → Releases d e given → KeepsHeld (one_at given) d e → GivesUp d e (given ∷ [])
  gives-one {d} {e} {given} releases keeps = record {
    holds = λ k. omega (arith, releases.holds k, count-one k given);
    total = omega (arith, releases.count);
    kept = λ l left. keeps.kept l (omega (arith, left, count-one l given));
  }

  -- the map and a new cell each have a hold
  pub both-held : {a b c : Heap T} (root : ℕ) {value : ℕ} {x : T} → 0 < holds_at a root → Unchanged a b → Adds b c value (cell x) → HasHolds c (root ∷ value ∷ [])
  both-held {a} {b} {c} root {value} held same adds k =
      let added : holds_at c k + 0 ≡ holds_at b k + one_at value k = adds.holds k in
      omega (arith, same.holds k, added, one-held a root k held, count-cons k root (value ∷ []), count-one k value)

  pub one-hold : (a : Heap T) (root : ℕ) → 0 < holds_at a root → HasHolds a (root ∷ [])
  one-hold a root held k = omega (arith, one-held a root k held, count-one k root)

  module _ {c d : Heap T} {old new cells nodes : ℕ} {spent gained : List ℕ} (held : HasHolds c (old ∷ spent)) (edits : EditsBy (by_hold old) c d new spent gained cells nodes) where
    holds-edited : (k : ℕ) → holds_at d k + count k (old ∷ spent) ≡ holds_at c k + (one_at new k + count k gained)
    holds-edited k = omega (arith, edits.trades.holds k, count-cons k new gained)

    pub given-held : HasHolds d gained
    given-held k = omega (arith, holds-edited k, held k)

    new-held : one_at new new + count new gained ≤ holds_at d new
    new-held = omega (arith, holds-edited new, held new)

    module _ {e : Heap T} (gives : GivesUp d e gained) where
      pub good-edited : (cmp : T → T → Ordering) (code : T → ℕ) (bits : ℕ) → IsGood cmp code d (record { root = new; bits = bits }) → IsGood cmp code e (record { root = new; bits = bits })
      good-edited cmp code bits good = good-kept cmp code (container-stays d e (record { root = new; bits = bits }) (gives.kept new (omega (arith, new-held, one_at-same new)))) good

      pub held-edited : 0 < holds_at e new
      held-edited = omega (arith, new-held, one_at-same new, gives.holds new)

      pub count-edited : hold_count e + length spent ≡ hold_count c
      count-edited = omega (arith, edits.trades.total, gives.total)

      -- the old map's hold went over, and what was spent for it is gone
      pub turns-edited : {a : Heap T} → ((k : ℕ) → holds_at c k ≡ holds_at a k + count k spent) → ((r : Root) → KeepsContainer a c r) → Turns a e old new
      turns-edited {a} more keeps = record {
        holds = λ k. omega (arith, more k, holds-edited k, gives.holds k, count-cons k old spent);
        kept = λ r left. keeps-then a c e r (keeps r) (keeps-then c d e r
          (container-stays c d r ((KeepsHeld-EditsBy edits).kept r.root (omega (arith, left, more r.root, count-cons r.root old spent))))
          (container-stays d e r (gives.kept r.root (omega (arith, left, more r.root, holds-edited r.root, count-cons r.root old spent)))));
      }

  -- what the new cell added
  pub cell-held : {a b c : Heap T} {value : ℕ} {x : T} → Unchanged a b → Adds b c value (cell x) → (k : ℕ) → holds_at c k ≡ holds_at a k + count k (value ∷ [])
  cell-held {a} {b} {c} {value} same adds k =
      let added : holds_at c k + 0 ≡ holds_at b k + one_at value k = adds.holds k in
      omega (arith, same.holds k, added, count-one k value)
PROOF
cat > "$crate/proofs/opened/Answers.antt" <<'PROOF'
use Rattle.std.proofs.Common.{[], arith}
use Rattle.node_heap.proofs.BuildLemmas.{count-one}
use Rattle.champ_chain.proofs.CopyLemmas.{one_at-same}
use Rattle.map_in_place.proofs.opened.Goals as goal

pub open-requires-clause-contents : goal.open-requires-clause-contents
open-requires-clause-contents g c = ([], c.in_ok-empty.ensures.map)

pub open-requires-clause-held : goal.open-requires-clause-held
open-requires-clause-held g c =
    let root = c.in_ok-empty.empty.root in
    omega (arith, c.in_ok-empty.ensures.answered.holds root, one_at-same root)

pub returns-in-Ok-clause-good : goal.returns-in-Ok-clause-good
returns-in-Ok-clause-good g c = ([], c.in-Ok.ensures.contents [] c.in_ok-empty.ensures.map)

pub returns-in-Ok-clause-held : goal.returns-in-Ok-clause-held
returns-in-Ok-clause-held g c =
    let old = c.in_ok-empty.empty.root in
    let new = c.in-Ok.map.root in
    omega (arith, c.in-Ok.ensures.edits.trades.holds new, c.in_ok-empty.ensures.answered.holds new, count-one new old, count-one new new, one_at-same new)

pub returns-in-Ok-clause-count : goal.returns-in-Ok-clause-count
returns-in-Ok-clause-count g c = omega (arith, c.in-Ok.ensures.edits.trades.total, c.in_ok-empty.ensures.answered.count, c.requires.few)
PROOF
cat > "$crate/proofs/alone/Answers.antt" <<'PROOF'
use Rattle.map_in_place.proofs.Turn.{turns-then}
use Rattle.map_in_place.proofs.alone.Goals as goal

pub returns-clause-turns : goal.returns-clause-turns
returns-clause-turns g c = turns-then c.in_ok-inserts.ensures.turns c.in_ok-removes.ensures.turns
PROOF
cat > "$crate/proofs/beside/Answers.antt" <<'PROOF'
use Rattle.map_in_place.proofs.Turn.{good-kept, turns-then, copy-kept}
use Rattle.map_in_place.proofs.beside.Goals as goal

pub gets-sum-requires-2 : goal.gets-sum-requires-2
gets-sum-requires-2 g c =
    let turns = turns-then c.in_ok-inserts-2.ensures.turns c.in_ok-removes.ensures.turns in
    rw c.view-copy.ensures (good-kept g.T.Ord.cmp g.T.Element.code_of (copy-kept c.inserts.new.map turns (rw c.view-copy.ensures at c.keep.ensures.twice)) (rw c.view-copy.ensures at c.keep.ensures.good))
PROOF
cat > "$crate/proofs/give_up/Answers.antt" <<'PROOF'
use Rattle.std.proofs.Common.{arith}
use Rattle.node_heap.proofs.BuildLemmas.{count-one}
use Rattle.champ_chain.proofs.CopyLemmas.{one_at-same}
use Rattle.map_in_place.proofs.Edits.{gives-none, gives-one}
use Rattle.map_in_place.proofs.give_up.Goals as goal

pub release-requires : goal.release-requires
release-requires g c =
    let value = c.in-Some.value in
    let held = rw c.in-Some.is at (c.requires value) in
    omega (arith, held, count-one value value, one_at-same value)

pub returns-in-Some : goal.returns-in-Some
returns-in-Some g c = rw c.in-Some.is (gives-one c.release.ensures.releases c.release.ensures.keeps)

pub returns-in-None : goal.returns-in-None
returns-in-None g c = rw c.in-None.is (gives-none c.args.heap.now)
PROOF
cat > "$crate/proofs/insert/Answers.antt" <<'PROOF'
use Rattle.std.proofs.Common.{sym, subst, arith}
use Rattle.node_heap.proofs.Frames.{Extends-trans}
use Rattle.champ_kinds.specs.Binding.{bind}
use Rattle.champ_kinds.specs.Kinds.{IsMapOf}
use Rattle.edit_trie.specs.Edit.{by_bits}
use Rattle.map_in_place.proofs.Turn.{good-extended, keeps-extended}
use Rattle.map_in_place.proofs.Edits.{both-held, cell-held, given-held, good-edited, held-edited, count-edited, turns-edited}
use Rattle.map_in_place.proofs.insert.Goals as goal

pub insert-requires-clause-held : goal.insert-requires-clause-held
insert-requires-clause-held g c = both-held c.args.map.now.root c.requires.held c.in_ok-reserve.ensures.rest c.cell-value.ensures.adds

pub insert-requires-clause-contents : goal.insert-requires-clause-contents
insert-requires-clause-contents g c =
    good-extended g.T.Ord.cmp g.T.Element.code_of (Extends-trans c.in_ok-reserve.ensures.extends c.cell-value.ensures.extends) c.requires.good

pub give_up-requires : goal.give_up-requires
give_up-requires g c =
    let good = good-extended g.T.Ord.cmp g.T.Element.code_of (Extends-trans c.in_ok-reserve.ensures.extends c.cell-value.ensures.extends) c.requires.good in
    given-held (both-held c.args.map.now.root c.requires.held c.in_ok-reserve.ensures.rest c.cell-value.ensures.adds) (c.in-Ok.ensures.puts good.0 good.1).edits

pub returns-in-Ok : goal.returns-in-Ok
returns-in-Ok g c =
    let good = good-extended g.T.Ord.cmp g.T.Element.code_of (Extends-trans c.in_ok-reserve.ensures.extends c.cell-value.ensures.extends) c.requires.good in
    let both = both-held c.args.map.now.root c.requires.held c.in_ok-reserve.ensures.rest c.cell-value.ensures.adds in
    let puts = c.in-Ok.ensures.puts good.0 good.1 in
    let map = subst (λ b. IsMapOf g.T.Ord.cmp g.T.Element.code_of c.insert.new.heap (by_bits b c.insert.new.self.root) (bind g.T.Ord.cmp good.0 c.key.result c.cell-value.result)) (sym c.insert.ensures.bits) puts.map in
    record {
      good = good-edited both puts.edits c.give_up.ensures g.T.Ord.cmp g.T.Element.code_of c.insert.new.self.bits (bind g.T.Ord.cmp good.0 c.key.result c.cell-value.result, map);
      held = held-edited both puts.edits c.give_up.ensures;
      turns = turns-edited both puts.edits c.give_up.ensures (cell-held c.in_ok-reserve.ensures.rest c.cell-value.ensures.adds)
        (keeps-extended c.args.heap.now c.cell-value.new.self (Extends-trans c.in_ok-reserve.ensures.extends c.cell-value.ensures.extends));
      count = omega (arith, count-edited both puts.edits c.give_up.ensures, c.cell-value.ensures.count, c.in_ok-reserve.ensures.rest.count);
    }
PROOF
cat > "$crate/proofs/remove/Answers.antt" <<'PROOF'
use Rattle.std.proofs.Common.{sym, subst, arith}
use Rattle.champ_kinds.specs.Binding.{unbind}
use Rattle.champ_kinds.specs.Kinds.{IsMapOf}
use Rattle.edit_trie.specs.Edit.{by_bits}
use Rattle.map_in_place.proofs.Edits.{one-hold, given-held, good-edited, held-edited, count-edited, turns-edited}
use Rattle.map_in_place.proofs.remove.Goals as goal

pub give_up-requires : goal.give_up-requires
give_up-requires g c =
    let cuts = rw c.in-Some.is at (c.in_ok-value.ensures.cuts c.requires.good.0 c.requires.good.1) in
    given-held (one-hold c.args.heap.now c.args.map.now.root c.requires.held) cuts.edits

pub returns-in-Some : goal.returns-in-Some
returns-in-Some g c =
    let one = one-hold c.args.heap.now c.args.map.now.root c.requires.held in
    let cuts = rw c.in-Some.is at (c.in_ok-value.ensures.cuts c.requires.good.0 c.requires.good.1) in
    let map = subst (λ b. IsMapOf g.T.Ord.cmp g.T.Element.code_of c.remove.new.heap (by_bits b c.remove.new.self.root) (unbind g.T.Ord.cmp c.key-key.result c.requires.good.0)) (sym c.remove.ensures.bits) cuts.map in
    record {
      good = good-edited one cuts.edits c.give_up.ensures g.T.Ord.cmp g.T.Element.code_of c.remove.new.self.bits (unbind g.T.Ord.cmp c.key-key.result c.requires.good.0, map);
      held = held-edited one cuts.edits c.give_up.ensures;
      turns = turns-edited one cuts.edits c.give_up.ensures (λ k. omega arith) (λ r. record { map = λ cmp code M is. is; set = λ cmp code E is. is });
      count = omega (arith, count-edited one cuts.edits c.give_up.ensures);
    }
PROOF

prove_and_build map_in_place
runs+=("this repository, in place|$crate/out/map_in_place|")
over_pieces map_pieces_in_place
runs+=("this repository, its cells, in place|$crate/out/map_pieces_in_place|")

# add_versions WAY: the program over a map of a store of versions.
add_versions() {
    begin_store "maps_$1" maps 'Maps<Num, u32>' usize \
        "Inserts, look-ups and removals over one map of a store of versions, and over one of which a copy is kept, by edits ${1/_/ }."
    cat >> "$crate/src/main.rt" <<'PROGRAM'

fn phases(rt: &(impl Print + Clock + CpuClock), maps: &mut Maps<Num, u32>) -> Result<()> {
    let none = maps.empty()?;
    let left = alone(rt, maps, none)?;
    beside(rt, maps, left)
}

// A map alone: a million keys come, are looked up, and go again.
fn alone(
    rt: &(impl Print + Clock + CpuClock),
    maps: &mut Maps<Num, u32>,
    none: Version,
) -> Result<Version>
    requires { Holds maps.old none }
    ensures { IfOk result (λ v. Holds maps.new v) }
{
    tell(rt, "start", 0)?;
    let all = inserts(maps, none, 0)?;
    tell(rt, "insert", 0)?;
    tell(rt, "start", maps.len(all))?;
    let sum = gets(maps, all, 0);
    tell(rt, "get", sum)?;
    let left = removes(maps, all, 0)?;
    tell(rt, "remove", 0)?;
    tell(rt, "start", maps.len(left))?;
    Ok(left)
}

// The same over a copy of the map, which is kept to the end.
fn beside(
    rt: &(impl Print + Clock + CpuClock),
    maps: &mut Maps<Num, u32>,
    none: Version,
) -> Result<()>
    requires { Holds maps.old none }
{
    let copy = inserts(maps, none, 0)?;
    tell(rt, "again", maps.len(copy))?;
    let both = over(rt, maps, copy)?;
    tell(rt, "remove", 0)?;
    tell(rt, "start", maps.len(both))?;
    // That it is still held is asked for once, and not proved over all the turns.
    if maps.holds(copy) {
        let sum = gets(maps, copy, 0);
        tell(rt, "end", sum)?;
    }
    Ok(())
}

// Other keys come beside those of a version that stays, are looked up, and go again.
fn over(
    rt: &(impl Print + Clock + CpuClock),
    maps: &mut Maps<Num, u32>,
    kept: Version,
) -> Result<Version>
    requires { Holds maps.old kept }
    ensures { IfOk result (λ v. Holds maps.new v) }
{
    let copy = maps.copy(kept)?;
    let both = inserts(maps, copy, COUNT)?;
    tell(rt, "insert", 0)?;
    tell(rt, "start", maps.len(both))?;
    let sum = gets(maps, both, COUNT);
    tell(rt, "get", sum)?;
    removes(maps, both, COUNT)
}

fn inserts(maps: &mut Maps<Num, u32>, first: Version, from: u32) -> Result<Version>
    requires { Holds maps.old first }
    ensures { IfOk result (λ v. Holds maps.new v) }
{
    let mut version = first;
    'turns: for turn in 0..COUNT {
        version = inserted(maps, version, from.wrapping_add(turn))?;
    }
    Ok(version)
}

fn removes(maps: &mut Maps<Num, u32>, first: Version, from: u32) -> Result<Version>
    requires { Holds maps.old first }
    ensures { IfOk result (λ v. Holds maps.new v) }
{
    let mut version = first;
    'turns: for turn in 0..COUNT {
        version = removed(maps, version, from.wrapping_add(turn))?;
    }
    Ok(version)
}

fn gets(maps: &Maps<Num, u32>, version: Version, from: u32) -> usize
    requires { Holds maps.now version }
{
    let mut sum: u32 = 0;
    let mut seed = 1;
    for _turn in 0..COUNT {
        seed = scattered(seed);
        sum = sum.wrapping_add(number_at(maps, version, from.wrapping_add(place(seed))));
    }
    sum as usize
}

fn number_at(maps: &Maps<Num, u32>, version: Version, turn: u32) -> u32
    requires { Holds maps.now version }
{
    match maps.get(version, &key(turn)) {
        Some(value) => *value,
        None => 0,
    }
}

// The key of a turn, as the other programs have it.
fn key(turn: u32) -> Num {
    let spread = turn.wrapping_mul(2_654_435_761);
    Num(spread ^ (spread >> 15))
}
PROGRAM
    prove_versions inserts removes
    prove_made phases alone empty none
    prove_made over inserts copy copy
    add_edit "$1" inserted insert 'turn: u32' 'key(turn), turn'
    add_edit "$1" removed remove 'turn: u32' '&key(turn)'
    prove_and_build "maps_$1"
}

add_versions beside
runs+=("this repository, Maps|$crate/out/maps_beside|")
add_versions in_place
runs+=("this repository, Maps, in place|$crate/out/maps_in_place|")

# The program over `im_rc::HashMap` and std's.
begin_rust maps
cat > "$rust/src/main.rs" <<'RUST'
//! The same phases over another map: `maps counted`, `coded`, `kept`, `counted_in_place`, `in_place` or `plain`.

mod measure;

use measure::{COUNT, Element, place, scattered, stay, tell};

fn key(turn: u32) -> u32 {
    let spread = turn.wrapping_mul(2_654_435_761);
    spread ^ (spread >> 15)
}

trait Table: Sized {
    fn empty() -> Self;
    fn count(&self) -> usize;
    fn at(&self, key: u32) -> u32;
    fn with(self, key: u32, value: u32) -> Self;
    fn without(self, key: u32) -> Self;
    fn copied(&self) -> Self;
}

// One version, changed where it is.
macro_rules! in_place {
    ($name:ident, $map:ty, $element:ty) => {
        pub struct $name($map);

        impl Table for $name {
            fn empty() -> Self {
                $name(<$map>::new())
            }
            fn count(&self) -> usize {
                self.0.len()
            }
            fn at(&self, key: u32) -> u32 {
                self.0.get(&key).map_or(0, <$element>::number)
            }
            fn with(mut self, key: u32, value: u32) -> Self {
                self.0.insert(key, <$element>::of(value));
                self
            }
            fn without(mut self, key: u32) -> Self {
                self.0.remove(&key);
                self
            }
            fn copied(&self) -> Self {
                $name(self.0.clone())
            }
        }
    };
}

in_place!(Plain, std::collections::HashMap<u32, u32>, u32);

#[cfg(feature = "shared")]
mod shared {
    use super::Table;
    use crate::measure::Element;
    use std::collections::hash_map::RandomState;
    use std::hash::{BuildHasher, BuildHasherDefault, Hasher};

    /// A number is its own code.
    #[derive(Default)]
    pub struct Code(u32);

    impl Hasher for Code {
        fn write(&mut self, _: &[u8]) {
            unreachable!("the keys are numbers")
        }
        fn write_u32(&mut self, number: u32) {
            self.0 = number;
        }
        fn finish(&self) -> u64 {
            self.0.into()
        }
    }

    pub type Hashed = RandomState;
    pub type Coded = BuildHasherDefault<Code>;

    /// The new version beside the old, which is then dropped.
    pub struct Kept<E: Clone, S>(im_rc::HashMap<u32, E, S>);

    impl<E: Element, S: BuildHasher + Default> Table for Kept<E, S> {
        fn empty() -> Self {
            Kept(im_rc::HashMap::default())
        }
        fn count(&self) -> usize {
            self.0.len()
        }
        fn at(&self, key: u32) -> u32 {
            self.0.get(&key).map_or(0, E::number)
        }
        fn with(self, key: u32, value: u32) -> Self {
            Kept(self.0.update(key, E::of(value)))
        }
        fn without(self, key: u32) -> Self {
            Kept(self.0.without(&key))
        }
        fn copied(&self) -> Self {
            Kept(self.0.clone())
        }
    }

    in_place!(InPlace, im_rc::HashMap<u32, u32>, u32);
    in_place!(CountedInPlace, im_rc::HashMap<u32, std::rc::Rc<u32>>, std::rc::Rc<u32>);
}

fn inserts<M: Table>(mut all: M, from: u32) -> M {
    for turn in from..from + COUNT {
        all = all.with(key(turn), turn);
    }
    all
}

fn gets<M: Table>(all: &M, from: u32) -> usize {
    let mut sum: u32 = 0;
    let mut seed = 1;
    for _ in 0..COUNT {
        seed = scattered(seed);
        sum = sum.wrapping_add(all.at(key(from + place(seed) as u32)));
    }
    sum as usize
}

fn removes<M: Table>(mut all: M, from: u32) -> M {
    for turn in from..from + COUNT {
        all = all.without(key(turn));
    }
    all
}

fn phases<M: Table>() {
    tell("start", 0);
    let all = inserts(M::empty(), 0);
    tell("insert", 0);
    tell("start", all.count());
    let sum = gets(&all, 0);
    tell("get", sum);
    let left = removes(all, 0);
    tell("remove", 0);
    tell("start", left.count());
    let copy = inserts(left, 0);
    tell("again", copy.count());
    let both = inserts(copy.copied(), COUNT);
    tell("insert", 0);
    tell("start", both.count());
    let sum = gets(&both, COUNT);
    tell("get", sum);
    let left = removes(both, COUNT);
    tell("remove", 0);
    tell("start", left.count());
    let sum = gets(&copy, 0);
    tell("end", sum);
    stay();
}

fn main() {
    match std::env::args().nth(1).as_deref() {
        #[cfg(feature = "shared")]
        Some("counted") => phases::<shared::Kept<std::rc::Rc<u32>, shared::Hashed>>(),
        #[cfg(feature = "shared")]
        Some("coded") => phases::<shared::Kept<std::rc::Rc<u32>, shared::Coded>>(),
        #[cfg(feature = "shared")]
        Some("kept") => phases::<shared::Kept<u32, shared::Hashed>>(),
        #[cfg(feature = "shared")]
        Some("counted_in_place") => phases::<shared::CountedInPlace>(),
        #[cfg(feature = "shared")]
        Some("in_place") => phases::<shared::InPlace>(),
        _ => phases::<Plain>(),
    }
}
RUST

add_runs "im_rc of Rc, persistent|counted" "im_rc of Rc, own codes|coded" "im_rc, persistent|kept" \
    "im_rc of Rc, in place|counted_in_place" "im_rc, in place|in_place" "std HashMap, in place|plain"

report "$count" "${runs[@]}" <<'PYTHON'
import sys
from shared import ROUNDS, best_of_rounds, programs, tables

count, runs = int(sys.argv[1]), programs(sys.argv[2:])
# The phases that count, by their places among all that are told. Behind an insertion or a removal keys are counted, by a walk that isn't
# measured: its number comes with another `start`.
phases = {"insert": 0, "get": 1, "remove": 2, "insert over": 4, "get over": 5, "remove over": 6}
spans, peaks, told = best_of_rounds(runs, 13, "maps")
# The copy is looked through at the end as the map alone was, by the fourth line.
if told[3] != told[-1]:
    sys.exit("the copy has changed")
for kind, clock in enumerate(["wall", "processor"]):
    print(f"{count:,} of each over one map, and over a kept copy, best of {ROUNDS}, seconds of {clock}, and peak megabytes:")
    figures = {name: [spans[name][place][kind] for place in phases.values()] + [peaks[name]] for name, _, _ in runs}
    tables([*phases, "peak"], figures, width=13, margin=34)
PYTHON
