#!/usr/bin/env bash
# Makes and frees ten million rows of the counted heap, and tells the time and the bytes of a row.
#   bench/heap.sh           it is measured beside nothing else, so it needs no cargo
#   bench/heap.sh FOLDER    the folder of a cargo set-up, as the other benches take it; it isn't used here
# COUNT in the environment takes the place of a tenth of these.
# It writes small programs beside links to the crates that they stand on, in a folder of its own that goes when it ends,
# since the gate takes no program outside the listed crates.
set -eu
. "$(dirname -- "$0")/shared.sh"
begin "$@"
rounds=10

take_crates node_heap

# write_program NAME LINKS: a program whose nodes have these links, of `cell` and `top`.
write_program() {
    begin_program "$1" 'node_heap elem_core'
    mkdir "$crate/proofs/round" "$crate/proofs/main"
    cat > "$crate/src/main.rt" <<PROGRAM
#![tactic(auto)]

ghost use Rattle.std.specs.Prelude.{◌≡◌, ◌<◌, ◌^◌, IfOk, OnOk};
ghost use Rattle.node_heap.specs.Heap.{holds_at, hold_count};

use elem_core::NoMemory;
use node_heap::{Head, Heap, Link};

const ROWS: u32 = $count;

fn main(rt: HostRuntime) -> Result<(), NoMemory> {
    let mut heap: Heap<u32> = Heap::new(rt.alloc());
    for turn in 0..$rounds {
        let _ = turn;
        round(&mut heap)?;
    }
    Ok(())
}

fn round(heap: &mut Heap<u32>) -> Result<(), NoMemory>
    requires { hold_count heap.old ≡ 0 }
    ensures { OnOk result (hold_count heap.new ≡ 0) }
{
    heap.reserve(${3}, ROWS as usize)?;
    let mut top = first(heap)?;
    for value in 0..ROWS {
        top = above(heap, top, value)?;
    }
    heap.release(top);
    Ok(())
}

fn first(heap: &mut Heap<u32>) -> Result<Link, NoMemory>
    requires few { hold_count heap.old ≡ 0 }
    ensures held { IfOk result (λ link. 0 < holds_at heap.new link) }
    ensures count { OnOk result (hold_count heap.new ≡ 1) }
{
    heap.reserve(1, 0)?;
    Ok(heap.cell(0))
}

fn above(heap: &mut Heap<u32>, top: Link, value: u32) -> Result<Link, NoMemory>
    requires held { 0 < holds_at heap.old top }
    requires few { hold_count heap.old ≡ 1 }
    ensures held { IfOk result (λ link. 0 < holds_at heap.new link) }
    ensures count { OnOk result (hold_count heap.new ≡ 1) }
{
    heap.reserve(1, 1)?;
    $2
}
PROGRAM
    cat > "$crate/proofs/main/Invariants.antt" <<PROOF
use Rattle.std.proofs.Common.{◌≡◌}
use Rattle.node_heap.specs.Heap.{hold_count}
use Rattle.$1.proofs.main.Given as goal

abbrev pub invariant-loop-turn : goal.invariant-loop-turn
invariant-loop-turn l = hold_count l.heap ≡ 0
PROOF
    cat > "$crate/proofs/round/Invariants.antt" <<PROOF
use Rattle.std.proofs.Common.{◌≡◌, ◌<◌}
use Rattle.node_heap.specs.Heap.{holds_at, hold_count}
use Rattle.$1.proofs.round.Given as goal

abbrev pub invariant-loop-value : goal.invariant-loop-value
invariant-loop-value l = record {
  held : 0 < holds_at l.heap l.top;
  count : hold_count l.heap ≡ 1;
}
PROOF
}

write_program heap_nodes '{ let _ = value; Ok(heap.node(Head::Chain, \&[top])) }' 1
write_program heap_pairs '{ let cell = heap.cell(value); Ok(heap.node(Head::Chain, \&[cell, top])) }' 'ROWS as usize + 1'
sed -i 's/\\&/\&/g' "$work"/crates/heap_*/src/main.rt

prove_and_build heap_nodes
prove_and_build heap_pairs

report "$work" "$count" "$rounds" <<'PYTHON'
import os, sys, time
work, rows, rounds = sys.argv[1], int(sys.argv[2]), int(sys.argv[3])

def measured(name):
    """The wall seconds and the peak bytes of one run."""
    program = os.path.join(work, "crates", name, "out", name)
    start = time.monotonic()
    child = os.spawnv(os.P_NOWAIT, program, [name])
    _, status, usage = os.wait4(child, 0)
    if status != 0:
        sys.exit(f"{name} ended with {status}")
    return time.monotonic() - start, usage.ru_maxrss * 1024

nodes_time, nodes_bytes = measured("heap_nodes")
pairs_time, pairs_bytes = measured("heap_pairs")
made = rows * rounds
print(f"{made} nodes made and freed in {nodes_time:.2f} s: {nodes_time / made * 1e9:.0f} ns a node, {nodes_bytes / rows:.0f} bytes a node at the peak")
print(f"{made} nodes and {made} cells in {pairs_time:.2f} s: {pairs_time / (2 * made) * 1e9:.0f} ns a row, {(pairs_bytes - nodes_bytes) / rows:.0f} bytes a cell at the peak")
PYTHON
