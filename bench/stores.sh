# The programs over stores of versions, which vector.sh, maps.sh and rust.sh have in common. They source it behind shared.sh; by
# itself it runs nothing.

# begin_store NAME STORE TYPE SUM WHAT: begins the program over a store of this type, which it calls STORE and hands to `phases`.
# SUM is the type of the numbers that it tells, and WHAT says what it does.
begin_store() {
    local library=${3%%<*}
    store=$2
    store_type=$3
    begin_program "$1" 'versions elem_core anyhow'
    cat > "$crate/src/main.rt" <<PROGRAM
//! $5
#![tactic(auto)]

ghost use Rattle.std.specs.Prelude.{◌<◌, ◌^◌, IfOk};
ghost use Rattle.versions.specs.Store.{Holds};

use anyhow::Result;
use elem_core::Num;
use std::io;
use std::rt::Clock;
use std::time::CpuClock;
use versions::{$library, Version};

fn main(rt: HostRuntime) -> Result<()> {
    let mut $store = $library::new(rt.alloc());
    run(&rt, &mut $store)
}

// It stays until its input ends, so that the peak of its memory can be read.
fn run(rt: &HostRuntime, $store: &mut $store_type) -> Result<()> {
    phases(rt, $store)?;
    let mut line = String::new(rt.alloc());
    rt.read_line(&mut line)?;
    Ok(())
}
PROGRAM
    add_measures "$4"
}

# add_edit WAY FUNCTION CALL PARAMETERS ARGUMENTS: adds a function that edits a version by a CALL of the store, with its proof: in the
# version itself where the way is `in_place`, and else beside the old version, which is then forgotten.
add_edit() {
    local way=$1 function=$2 call=$3
    local body="let new = $store.$call(version, $5)?;
    $store.forget(version);
    Ok(new)"
    if [ "$way" = in_place ]; then
        call+=_here
        body="$store.$call(version, $5)?;
    Ok(version)"
    fi
    cat >> "$crate/src/main.rt" <<PROGRAM

fn $function($store: &mut $store_type, version: Version, $4) -> Result<Version>
    requires { Holds $store.old version }
    ensures { IfOk result (λ v. Holds $store.new v) }
{
    $body
}
PROGRAM
    mkdir -p "$crate/proofs/$function"
    if [ "$way" = in_place ]; then
        cat > "$crate/proofs/$function/Answers.antt" <<PROOF
use Rattle.versions.proofs.CallerLemmas.{new-held}
use Rattle.$program.proofs.$function.Goals as goal

pub returns : goal.returns
returns c = new-held c.args.$store.now c.$call.new.self c.args.version _ c.in_ok-$call.ensures.made
PROOF
        return
    fi
    cat > "$crate/proofs/$function/Answers.antt" <<PROOF
use Rattle.std.proofs.Common.{ap, sym, subst, ◌∙◌}
use Rattle.std.specs.Prelude.{IsSome}
use Rattle.std.specs.FinMap.{get}
use Rattle.versions.proofs.CallerLemmas.{get-left, held-apart, made-held, new-held}
use Rattle.$program.proofs.$function.Goals as goal

pub forget-requires : goal.forget-requires
forget-requires c = made-held c.args.$store.now c.$call.new.self c.in_ok-new.new _ c.args.version c.in_ok-new.ensures.made c.in_ok-new.ensures.fresh c.requires

pub returns : goal.returns
returns c =
    subst IsSome (sym (ap (λ s. get s c.in_ok-new.new) c.forget.ensures ∙ get-left c.$call.new.self c.args.version c.in_ok-new.new (λ e. held-apart c.args.$store.now c.in_ok-new.new c.args.version c.in_ok-new.ensures.fresh c.requires (sym e))))
    (new-held c.args.$store.now c.$call.new.self c.in_ok-new.new _ c.in_ok-new.ensures.made)
PROOF
}

# prove_versions FUNCTION..: the invariants of loops `'turns` that make one version after another.
prove_versions() {
    local function
    for function; do
        mkdir -p "$crate/proofs/$function"
        cat > "$crate/proofs/$function/Invariants.antt" <<PROOF
use Rattle.versions.specs.Store.{Holds}
use Rattle.$program.proofs.$function.Given as goal

abbrev pub invariant-turns : goal.invariant-turns
invariant-turns l = Holds l.$store l.version
PROOF
    done
}

# prove_made FUNCTION NEXT CALL VERSION: the proof that NEXT is called in FUNCTION with the version that a CALL just made, which is VERSION there.
prove_made() {
    mkdir -p "$crate/proofs/$1"
    cat > "$crate/proofs/$1/Answers.antt" <<PROOF
use Rattle.versions.proofs.CallerLemmas.{new-held}
use Rattle.$program.proofs.$1.Goals as goal

pub $2-requires : goal.$2-requires
$2-requires g c = new-held c.args.$store.now c.$3.new.self c.in_ok-$4.$4 _ c.in_ok-$4.ensures.made
PROOF
}

# add_wide: adds an element of 16 bytes to the program.
add_wide() {
    sed -i 's/^use elem_core::Num;/use elem_core::{Code, Element};/' "$crate/src/main.rt"
    cat >> "$crate/src/main.rt" <<PROGRAM

/// A number in as many bytes as a number or a text takes.
#[derive(Clone, Copy, Debug, PartialEq, Eq, PartialOrd, Ord)]
pub struct Wide {
    pub number: u32,
    pub rest: u64,
}

impl Element for Wide {
    ghost use Rattle.std.specs.FinMap.{nat_cmp-IsAntisymmetric};
    ghost use Rattle.$program.specs.Wide.{first-equal};

    ghost code_of = { λ wide. wide.number };

    fn code(&self) -> Code {
        u64::from(self.number)
    }

    ghost equal_codes = { λ x y same. nat_cmp-IsAntisymmetric x.number y.number (first-equal _ _ same) };
}
PROGRAM
    echo 'pub mod Wide' > "$crate/specs/Lib.antt"
    sed 's/^-- What the order of places says of their rows\./-- What the order of elements says of their numbers./' "$top/crates/undo_history/specs/Place.antt" > "$crate/specs/Wide.antt"
}

# build_lists WAY [WIDE]: the program over a list of a store of versions, whose edits go this way. Its elements are numbers of 4 bytes,
# or with WIDE numbers in 16 bytes, as those of the Rust crate are.
build_lists() {
    local name=lists_$1${2:+_wide} element=Num made='Num(value)' read='Some(number) => number.0,'
    if [ -n "${2:-}" ]; then
        element=Wide made='Wide { number: value, rest: 0 }' read='Some(wide) => wide.number,'
    fi
    begin_store "$name" lists "Lists<$element>" u32 "Pushes, random gets and random sets over one list of a store of versions, by edits ${1/_/ }."
    if [ -n "${2:-}" ]; then
        add_wide
    fi
    cat >> "$crate/src/main.rt" <<PROGRAM

fn phases(rt: &(impl Print + Clock + CpuClock), lists: &mut Lists<$element>) -> Result<()> {
    let none = lists.empty()?;
    tell(rt, "start", 0)?;
    let all = pushes(lists, none)?;
    tell(rt, "push", lists.len(all))?;
    let sum = gets(lists, all, 1);
    tell(rt, "get", sum)?;
    let all = sets(lists, all, 2)?;
    tell(rt, "set", 0)?;
    let sum = gets(lists, all, 3);
    tell(rt, "end", sum)?;
    Ok(())
}

fn pushes(lists: &mut Lists<$element>, first: Version) -> Result<Version>
    requires { Holds lists.old first }
    ensures { IfOk result (λ v. Holds lists.new v) }
{
    let mut version = first;
    'turns: for value in 0..COUNT {
        version = pushed(lists, version, value)?;
    }
    Ok(version)
}

fn sets(lists: &mut Lists<$element>, first: Version, seed: u32) -> Result<Version>
    requires { Holds lists.old first }
    ensures { IfOk result (λ v. Holds lists.new v) }
{
    let mut version = first;
    let mut seed = seed;
    'turns: for value in 0..COUNT {
        seed = scattered(seed);
        version = changed(lists, version, place(seed), value)?;
    }
    Ok(version)
}

fn gets(lists: &Lists<$element>, version: Version, seed: u32) -> u32
    requires { Holds lists.now version }
{
    let mut sum: u32 = 0;
    let mut seed = seed;
    for _turn in 0..COUNT {
        seed = scattered(seed);
        sum = sum.wrapping_add(number_at(lists, version, place(seed)));
    }
    sum
}

fn number_at(lists: &Lists<$element>, version: Version, index: u32) -> u32
    requires { Holds lists.now version }
{
    match lists.get(version, index) {
        $read
        None => 0,
    }
}
PROGRAM
    prove_versions pushes sets
    prove_made phases pushes empty none
    add_edit "$1" pushed push 'value: u32' "$made"
    add_edit "$1" changed set 'index: u32, value: u32' "index, $made"
    prove_and_build "$name"
}

# add_lists [WIDE]: adds runs of the programs over a list of a store of versions, with each new version beside the old and in place.
add_lists() {
    build_lists beside "${1:-}"
    runs+=("this repository, Lists|$crate/out/$program|")
    build_lists in_place "${1:-}"
    runs+=("this repository, Lists, in place|$crate/out/$program|")
}
