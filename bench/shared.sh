# What the benches of this folder share. They source it; by itself it runs nothing.

top=$(cd "$(dirname -- "${BASH_SOURCE[0]}")/.." && pwd -P)
count=${COUNT:-1000000}

# begin [FOLDER]: takes the folder of a cargo set-up, and makes a folder to work in, which goes when the bench ends. With KEEP in
# the environment it is one in the folder of that name, and stays, so that the next run finds the programs proved and built.
begin() {
    setup=${1:-}
    if [ -n "$setup" ]; then
        setup=$(cd "$setup" && pwd -P)
    fi
    if [ -n "${KEEP:-}" ]; then
        mkdir -p "$KEEP/$(basename -- "$0" .sh)"
        work=$(cd "$KEEP/$(basename -- "$0" .sh)" && pwd -P)
    else
        work=$(mktemp -d)
        trap 'rm -rf -- "$work"' EXIT
    fi
}

# begin_shell COUNT: begins a bench of the shell, with so many turns, or as many as COUNT in the environment says. Where the shell
# isn't proved and built yet, that is done first. With PROGRAM in the environment that program is run in its place.
begin_shell() {
    count=${COUNT:-$1}
    begin
    if [ -n "${PROGRAM:-}" ]; then
        program=$(readlink -f -- "$PROGRAM")
        return
    fi
    program=$top/crates/ewig_shell/out/ewig_shell
    "$top/ewig" </dev/null >/dev/null
}

# take_crates NAME..: has these crates proved where they aren't yet, with all below, as `./ewig` has it done, and puts links to all
# crates where the bench works.
take_crates() {
    local name
    for name; do
        "$top/tools/prove-program" "$name"
    done
    mkdir -p "$work/crates" "$work/tools"
    cp "$top/tools/prove-program" "$work/tools"
    cp "$top/crates.txt" "$work"
    for name in "$top"/crates/*; do
        ln -sfn "$name" "$work/crates/${name##*/}"
    done
}

# begin_program NAME LIBRARIES: begins the program's crate beside the others.
begin_program() {
    program=$1
    crate=$work/crates/$program
    rm -rf "$crate/src" "$crate/specs" "$crate/proofs"
    mkdir -p "$crate/src" "$crate/specs" "$crate/proofs"
    : > "$crate/specs/Lib.antt"
    : > "$crate/proofs/Lib.antt"
    echo "$program: $2" >> "$work/crates.txt"
}

# prove_and_build NAME: has the program proved and built, or shows the end of the log.
prove_and_build() {
    if ! "$work/tools/prove-program" "$1" > "$work/$1.log" 2>&1; then
        tail -20 "$work/$1.log"
        exit 1
    fi
}

# add_tell SUM: adds to the program what tells the clocks. SUM is the type of the numbers that it tells.
add_tell() {
    cat >> "$crate/src/main.rt" <<PROGRAM

// Prints the two clocks in seconds and nanoseconds, and a number that all programs must agree on.
fn tell(rt: &(impl Print + Clock + CpuClock), phase: &str, sum: $1) -> io::Result<()> {
    let wall = rt.monotonic()?;
    let used = rt.thread_cpu_time()?;
    println!(
        rt;
        "{phase} {} {} {} {} {sum}",
        wall.as_secs(),
        wall.subsec_nanos(),
        used.as_secs(),
        used.subsec_nanos()
    )
}
PROGRAM
}

# add_measures SUM: adds to the program what it measures with. SUM is the type of the numbers that it tells.
add_measures() {
    add_tell "$1"
    cat >> "$crate/src/main.rt" <<PROGRAM

const COUNT: u32 = $count;

// The next of a row of scattered numbers.
fn scattered(seed: u32) -> u32 {
    seed.wrapping_mul(1_664_525).wrapping_add(1_013_904_223)
}

fn place(seed: u32) -> u32
    ensures { result < 2 ^ 24 }
{
    (seed >> 8) % COUNT
}
PROGRAM
}

# The contract of what makes one vector of another, which is then given up.
one_vector='    requires good { IsGoodVector heap.old root }
    requires held { 0 < holds_at heap.old root }
    requires few { hold_count heap.old ≡ 1 }
    ensures good { IfOk result (λ l. IsGoodVector heap.new l) }
    ensures held { IfOk result (λ l. 0 < holds_at heap.new l) }
    ensures count { OnOk result (hold_count heap.new ≡ 1) }'

# add_gets: adds look-ups in one vector to the program.
add_gets() {
    cat >> "$crate/src/main.rt" <<PROGRAM

fn gets(heap: &Heap<u32>, root: Link, seed: u32) -> u32
    requires { IsGoodVector heap.now root }
{
    let mut sum: u32 = 0;
    let mut seed = seed;
    for _turn in 0..COUNT {
        seed = scattered(seed);
        sum = sum.wrapping_add(number_at(heap, root, place(seed)));
    }
    sum
}

fn number_at(heap: &Heap<u32>, root: Link, index: u32) -> u32
    requires { IsGoodVector heap.now root }
{
    match FlexRef::at(root).get(heap, index) {
        Some(cell) => match heap.value(cell) {
            Some(number) => *number,
            None => 0,
        },
        None => 0,
    }
}
PROGRAM
}

# add_vectors: adds pushes and look-ups over one vector to the program, each new vector beside the old, with their proofs.
add_vectors() {
    cat >> "$crate/src/main.rt" <<PROGRAM

fn first(heap: &mut Heap<u32>) -> Result<Link, NoMemory>
    requires few { hold_count heap.old ≡ 0 }
    ensures good { IfOk result (λ l. IsGoodVector heap.new l) }
    ensures held { IfOk result (λ l. 0 < holds_at heap.new l) }
    ensures count { OnOk result (hold_count heap.new ≡ 1) }
{
    let vector = Flex::empty(heap)?;
    Ok(vector.into_root())
}

fn pushes(heap: &mut Heap<u32>, root: Link, count: u32) -> Result<Link>
$one_vector
{
    let mut top = root;
    'turns: for value in 0..count {
        top = pushed(heap, top, value)?;
    }
    Ok(top)
}
PROGRAM
    add_gets
    echo 'pub mod OldAndNew' >> "$crate/proofs/Lib.antt"
    cat > "$crate/proofs/OldAndNew.antt" <<'PROOF'
-- A new vector beside the old one, which is then given up: each has a hold of its own.
use Rattle.std.proofs.Common.{◌≡◌, ℕ, ◌+◌, ◌<◌, ◌≤◌, [], ◌∷◌, refl, arith}
use Rattle.node_heap.specs.Forms.{cell}
use Rattle.node_heap.specs.Heap.{Heap, holds_at, one_at}
use Rattle.node_heap.specs.Calls.{Adds, Unchanged, Answered}
use Rattle.rrb_core.proofs.LinkCounts.{count-one, one-held, one-same}

module _ {T : Type 0} where
  -- a call that spent a new cell: the new vector is held once more, and every other link as often as before
  pub spent : {a b c d : Heap T} {link new n m : ℕ} {value : T} → Unchanged a b → Adds b c link (cell value) → Answered c d (link ∷ []) new n m → (k : ℕ) → holds_at d k ≡ holds_at a k + one_at new k
  spent {a} {b} {c} {d} {link} {new} same adds answered k =
      let added : holds_at c k + 0 ≡ holds_at b k + one_at link k = adds.holds k in
      omega (arith, same.holds k, added, answered.holds k, count-one k link)

  pub one-within : (a : Heap T) (root k : ℕ) → 0 < holds_at a root → one_at root k ≤ holds_at a k
  one-within a root k held = omega (arith, count-one k root, one-held root 0 (holds_at a) held k)

  pub old-held : (a b : Heap T) (root new : ℕ) → 0 < holds_at a root → ((k : ℕ) → holds_at b k ≡ holds_at a k + one_at new k) → 0 < holds_at b root
  old-held a b root new held more = omega (arith, held, more root)

  -- where both are the same, it is held twice
  pub new-held : (a b : Heap T) (root new : ℕ) → 0 < holds_at a root → ((k : ℕ) → holds_at b k ≡ holds_at a k + one_at new k) → one_at root new < holds_at b new
  new-held a b root new held more = omega (arith, more new, one-same new new refl, one-within a root new held)
PROOF
    add_spent pushed push
    prove_turns pushes
}

# prove_turns FUNCTION..: the invariants of loops `'turns` that make one vector after another.
prove_turns() {
    local function
    for function; do
        mkdir -p "$crate/proofs/$function"
        cat > "$crate/proofs/$function/Invariants.antt" <<PROOF
use Rattle.std.proofs.Common.{◌≡◌, ◌<◌}
use Rattle.node_heap.specs.Heap.{holds_at, hold_count}
use Rattle.rrb_core.specs.Vector.{IsGoodVector}
use Rattle.$program.proofs.$function.Given as goal

abbrev pub invariant-turns : goal.invariant-turns
invariant-turns l =
    record {
      good : IsGoodVector l.heap l.top;
      held : 0 < holds_at l.heap l.top;
      count : hold_count l.heap ≡ 1;
    }
PROOF
    done
}

# prove_new FUNCTION CALL MORE USE..: the proofs of a function whose CALL gives a new vector beside the old one, which is
# then given up. MORE proves what the call adds to the holds, and stands on each USE.
prove_new() {
    local function=$1 call=$2 more=$3
    shift 3
    mkdir -p "$crate/proofs/$function"
    printf 'use Rattle.%s\n' "$@" > "$crate/proofs/$function/Answers.antt"
    cat >> "$crate/proofs/$function/Answers.antt" <<PROOF
use Rattle.std.proofs.Common.{◌<◌, arith}
use Rattle.node_heap.specs.Heap.{holds_at, one_at}
use Rattle.$program.proofs.OldAndNew.{old-held, new-held}
use Rattle.$program.proofs.$function.Goals as goal

pub release-requires : goal.release-requires
release-requires c = rw c.from_root.ensures (old-held c.args.heap.now c.$call.new.heap c.args.root c.in_ok-$call.field-0 c.requires.held $more)

left : (c : goal.After-release) → one_at c.from_root.result c.in_ok-$call.field-0 < holds_at c.$call.new.heap c.in_ok-$call.field-0
left c = rw c.from_root.ensures (new-held c.args.heap.now c.$call.new.heap c.args.root c.in_ok-$call.field-0 c.requires.held $more)

pub returns-clause-good : goal.returns-clause-good
returns-clause-good c = rw c.into_root-new.ensures (c.release.ensures.vectors c.in_ok-$call.field-0 (left c) c.in_ok-$call.ensures.good).0

pub returns-clause-held : goal.returns-clause-held
returns-clause-held c = rw c.into_root-new.ensures (omega (arith, c.release.ensures.releases.holds c.in_ok-$call.field-0, left c))
PROOF
}

# add_spent FUNCTION CALL [INDEX]: adds a function whose CALL spends a new cell, at an INDEX if it takes one, with its proofs.
add_spent() {
    local function=$1 call=$2 index=${3:-}
    # The fault of the call is small, and `anyhow::Error` isn't: it would be cleared at each turn.
    local fault=${call^}Fault
    cat >> "$crate/src/main.rt" <<PROGRAM

fn $function(heap: &mut Heap<u32>, root: Link${index:+, $index: u32}, value: u32) -> Result<Link, $fault>
$one_vector
{
    heap.reserve(1, 0)?;
    let cell = heap.cell(value);
    let new = $call(heap, FlexRef::at(root)${index:+, $index}, cell)?.into_root();
    Flex::from_root(root).release(heap);
    Ok(new)
}
PROGRAM
    prove_new "$function" "$call" \
        "(spent c.in_ok-reserve.ensures.rest c.cell-cell.ensures.adds c.in_ok-$call.ensures.answered)" \
        "rrb_core.proofs.Stays.{extended-good}" \
        "rrb_core.proofs.BuildLemmas.{unchanged-good}" \
        "$program.proofs.OldAndNew.{spent}"
    cat >> "$crate/proofs/$function/Answers.antt" <<PROOF

pub $call-requires-clause-good : goal.$call-requires-clause-good
$call-requires-clause-good c =
    rw c.at.ensures (extended-good c.args.root c.cell-cell.ensures.extends (unchanged-good c.args.root c.in_ok-reserve.ensures.rest c.requires.good).0)
PROOF
}

# begin_rust NAME [DEPENDENCY]: begins the Rust program, whose feature `shared` stands for `im_rc`, or for another crate by
# its line in Cargo.toml, with what it measures with.
begin_rust() {
    local dependency=${2:-'im-rc = "15.1"'}
    rust=$work/$1
    built=$rust/target/release/$1
    mkdir -p "$rust/src"
    cat > "$rust/Cargo.toml" <<TOML
[package]
name = "$1"
version = "0.1.0"
edition = "2021"
publish = false

[features]
default = ["shared"]
shared = []

[dependencies]
$dependency

[profile.release]
opt-level = 3
lto = "fat"
codegen-units = 1
TOML
    cat > "$rust/src/measure.rs" <<RUST
//! The clocks, scattered places, and elements with or without a count of their own.

pub const COUNT: u32 = $count;
RUST
    cat >> "$rust/src/measure.rs" <<'RUST'

#[repr(C)]
struct Time {
    seconds: i64,
    nanoseconds: i64,
}

extern "C" {
    fn clock_gettime(clock: i32, time: *mut Time) -> i32;
}

const MONOTONIC: i32 = 1;
const THREAD: i32 = 3;

fn read(clock: i32) -> String {
    let mut time = Time { seconds: 0, nanoseconds: 0 };
    // The call writes one `Time` and keeps nothing.
    if unsafe { clock_gettime(clock, &mut time) } != 0 {
        panic!("no clock");
    }
    format!("{} {}", time.seconds, time.nanoseconds)
}

pub fn tell(phase: &str, sum: usize) {
    println!("{phase} {} {} {sum}", read(MONOTONIC), read(THREAD));
}

/// It stays until its input ends or a line comes, so that the peak of its memory can be read.
pub fn stay() {
    let _ = std::io::stdin().read_line(&mut String::new());
}

pub fn scattered(seed: u32) -> u32 {
    seed.wrapping_mul(1_664_525).wrapping_add(1_013_904_223)
}

pub fn place(seed: u32) -> usize {
    ((seed >> 8) % COUNT) as usize
}

pub trait Element: Clone {
    fn of(value: u32) -> Self;
    fn number(&self) -> u32;
}

impl Element for u32 {
    fn of(value: u32) -> Self {
        value
    }
    fn number(&self) -> u32 {
        *self
    }
}

impl Element for std::rc::Rc<u32> {
    fn of(value: u32) -> Self {
        std::rc::Rc::new(value)
    }
    fn number(&self) -> u32 {
        **self
    }
}
RUST
}

# cargo_builds: whether cargo builds the Rust program with the crate that it depends on.
cargo_builds() {
    local build=(cargo build --release --offline)
    if [ -n "$setup" ]; then
        build+=(--config "$setup/.cargo/config.toml")
    fi
    command -v cargo > /dev/null && (cd "$rust" && CARGO_TARGET_DIR=$rust/target "${build[@]}" > "$work/cargo.log" 2>&1)
}

# say_without [CRATE]: says that the figures of `im_rc`, or of another crate, are left out.
say_without() {
    echo "Cargo does not build with \`${1:-im_rc}\` here: without it. Give the folder of a cargo set-up that has it."
}

# build_without: says so and builds the rest of the Rust program.
build_without() {
    say_without
    mkdir -p "$(dirname "$built")"
    rustc --edition 2021 -A unexpected_cfgs -A dead_code -C opt-level=3 -C codegen-units=1 -o "$built" "$rust/src/main.rs"
}

# add_runs RUN.. PLAIN: adds runs of the Rust program to `runs`, each as `NAME|WORD`: all of them where cargo builds it, and else
# the last, which needs no `im_rc`. Without a Rust compiler there is none.
add_runs() {
    local run
    if ! command -v rustc > /dev/null; then
        echo "There is no Rust compiler here: this repository alone."
        return
    fi
    if ! cargo_builds; then
        build_without
        shift $(($# - 1))
    fi
    for run; do
        runs+=("${run%|*}|$built|${run##*|}")
    done
}

# report ARGUMENT..: runs the Python on its input, which finds shared.py. With BUILD in the environment the bench ends here, and has
# only built what it runs.
report() {
    if [ -z "${BUILD:-}" ]; then
        PYTHONPATH=$top/bench python3 -B - "$@"
    fi
}
