#!/usr/bin/env bash
# What a load costs, part by part: documents of n, 4n and 16n lines, and of n / 16, n / 4 and n names, are read by `serde_json`
# alone, and then by `pool_from_bytes`, `check` and `load`, and those of version 1 by `check_old` and `carry` between these, best
# of five; beside the Rust crate `serde_json`.
#   bench/loads.sh           where cargo finds `serde_json` by itself, without a download
#   bench/loads.sh FOLDER    with cargo set up as FOLDER/.cargo/config.toml says
# COUNT in the environment takes the place of n, which is 5,000.
# It writes a small program beside links to the crates that it stands on, in a folder of its own, since the gate takes no
# program outside the listed crates. Without cargo or the Rust crate it says so and runs the rest.
set -eu
. "$(dirname -- "$0")/shared.sh"
count=${COUNT:-5000}
turns=5
begin "$@"

# The program over this repository's pools.
take_crates pool_load pool_carry
begin_program load_parts 'pool_load pool_carry pool_check pool_text node_heap elem_core serde_json anyhow'
cat > "$crate/src/main.rt" <<PROGRAM
//! Reads the document of standard input over and over, and tells the clocks before and after each part of a load.
#![tactic(auto)]

ghost use Rattle.pool_text.specs.Rules.{first_rules};
ghost use Rattle.pool_check.specs.Damages.{IsValidBy};

use anyhow::bail;
use elem_core::{CODE_BITS, Text};
use node_heap::Heap;
use pool_carry::{carried_is_valid, carry};
use pool_check::{Checked, Old, check, check_old};
use pool_load::load;
use pool_text::{Damage, FIRST_VERSION, pool_from_bytes};
use serde_json::Value;
use std::alloc::Global;
use std::io;
use std::io::Read;
use std::rt::Clock;
use std::time::CpuClock;

const TURNS: u32 = $turns;

fn main(rt: HostRuntime) -> anyhow::Result<()> {
    let mut text = Vec::new(rt.alloc());
    let mut input = rt.stdin();
    input.read_to_end(&mut text)?;
    // It is run without a document where it is built.
    if text.is_empty() {
        return Ok(());
    }
    for _turn in 0..TURNS {
        read_value(&rt, rt.alloc(), &text)?;
        read_rows(&rt, rt.alloc(), &text)?;
    }
    Ok(())
}

// The JSON value alone. It is dropped after the clocks were read.
fn read_value(rt: &(impl Print + Clock + CpuClock), alloc: Global, text: &[u8]) -> anyhow::Result<()> {
    tell(rt, "start", 0)?;
    let value = Value::from_slice(alloc, text)?;
    tell(rt, "parse", rows_in(&value))?;
    Ok(())
}

// All of a load. The heap is dropped after the clocks were read.
fn read_rows(rt: &(impl Print + Clock + CpuClock), alloc: Global, text: &[u8]) -> anyhow::Result<()> {
    let mut heap: Heap<Text> = Heap::new(alloc);
    tell(rt, "start", 0)?;
    let Ok(checked) = checked_pool(rt, alloc, text) else {
        bail!("not a valid pool");
    };
    let _roots = load(alloc, &mut heap, checked)?;
    tell(rt, "load", heap.live())?;
    Ok(())
}

// The pool that the document stands for, checked.
fn checked_pool(rt: &(impl Print + Clock + CpuClock), alloc: Global, text: &[u8]) -> Result<Checked<Text>, Damage> {
    let pool = pool_from_bytes(alloc, text, CODE_BITS)?;
    tell_part(rt, "pool_from_bytes", pool.rows.as_slice().len())?;
    if pool.version == FIRST_VERSION {
        let old = check_old::<Text>(alloc, pool)?;
        tell_part(rt, "check_old", old.pool().rows.as_slice().len())?;
        carried(rt, alloc, old)
    } else {
        let checked = check(alloc, pool)?;
        tell_part(rt, "check", rows_of(&checked))?;
        Ok(checked)
    }
}

// The pool, carried over and checked.
fn carried(rt: &(impl Print + Clock + CpuClock), alloc: Global, old: Old) -> Result<Checked<Text>, Damage>
    requires { IsValidBy first_rules old }
{
    let pool = carry(alloc, old, CODE_BITS)?;
    tell_part(rt, "carry", pool.rows.as_slice().len())?;
    carried_is_valid();
    let checked = check(alloc, pool)?;
    tell_part(rt, "check", rows_of(&checked))?;
    Ok(checked)
}

// Tells the clocks. Where that fails the run ends as where memory runs out.
fn tell_part(rt: &(impl Print + Clock + CpuClock), part: &str, rows: usize) -> Result<(), Damage> {
    match tell(rt, part, rows) {
        Ok(()) => Ok(()),
        Err(_) => Err(Damage::Memory),
    }
}

fn rows_in(value: &Value) -> usize {
    match value.get("rows") {
        Some(Value::Array(rows)) => rows.len(),
        _ => 0,
    }
}

fn rows_of(checked: &Checked<Text>) -> usize {
    checked.pool().rows.as_slice().len()
}
PROGRAM
add_tell usize
# What the program has to show of a pool by its version.
mkdir -p "$crate/proofs/checked_pool" "$crate/proofs/carried"
cat > "$crate/proofs/checked_pool/Answers.antt" <<'ANSWERS'
use Rattle.std.proofs.Common.{sym, subst, arith}
use Rattle.pool_text.specs.Rules.{first_rules}
use Rattle.pool_check.specs.Damages.{IsValidBy}
use Rattle.pool_check.proofs.Versions.{first-range, first-bits, present-are, present-range, present-bits}
use Rattle.load_parts.proofs.checked_pool.Goals as goal

pub check_old-requires-clause-bits : goal.check_old-requires-clause-bits
check_old-requires-clause-bits g c = first-bits c.in_ok-pool.pool 64 c.in_ok-pool.ensures.bits c.if-pool-eq-FIRST_VERSION.true

pub check_old-requires-clause-rows : goal.check_old-requires-clause-rows
check_old-requires-clause-rows g c = first-range c.in_ok-pool.pool c.in_ok-pool.ensures.rows c.if-pool-eq-FIRST_VERSION.true

pub carried-requires : goal.carried-requires
carried-requires g c = subst (IsValidBy first_rules) (sym c.in_ok-old.ensures.same) c.in_ok-old.ensures.valid

pub check-requires-clause-rules : goal.check-requires-clause-rules
check-requires-clause-rules g c = present-are c.in_ok-pool.pool c.in_ok-pool.ensures.rows c.if-pool-eq-FIRST_VERSION.false

pub check-requires-clause-history : goal.check-requires-clause-history
check-requires-clause-history g c = c.in_ok-pool.ensures.history

pub check-requires-clause-bits : goal.check-requires-clause-bits
check-requires-clause-bits g c = omega (arith, present-bits c.in_ok-pool.pool 64 c.in_ok-pool.ensures.bits c.if-pool-eq-FIRST_VERSION.false)

pub check-requires-clause-rows : goal.check-requires-clause-rows
check-requires-clause-rows g c = present-range c.in_ok-pool.pool c.in_ok-pool.ensures.rows c.if-pool-eq-FIRST_VERSION.false
ANSWERS
cat > "$crate/proofs/carried/Answers.antt" <<'ANSWERS'
use Rattle.std.proofs.Common.{◌≡◌, ap, true, arith}
use Rattle.std.specs.List.{list_all}
use Rattle.pool_text.specs.Rows.{is_in_range}
use Rattle.pool_text.specs.Rules.{first_rules, present_rules, rules_of}
use Rattle.pool_text.specs.declared.pool.Pool.{Pool}
use Rattle.pool_check.specs.Rows.{rows_in_range_by}
use Rattle.pool_check.specs.Damages.{IsValid}
use Rattle.load_parts.proofs.carried.Goals as goal

valid-range : (P : Pool) → IsValid P → list_all is_in_range P.rows ≡ true
unfolding rows_in_range_by
valid-range P valid = valid.in_range

pub check-requires-clause-rules : goal.check-requires-clause-rules
check-requires-clause-rules g c = ap rules_of c.in_ok-pool.ensures.version

pub check-requires-clause-history : goal.check-requires-clause-history
check-requires-clause-history g c =
    record { within = omega (arith, c.in_ok-pool.ensures.history); older = λ _. c.in_ok-pool.ensures.history }

pub check-requires-clause-bits : goal.check-requires-clause-bits
check-requires-clause-bits g c = omega (arith, c.in_ok-pool.ensures.bits)

pub check-requires-clause-rows : goal.check-requires-clause-rows
check-requires-clause-rows g c =
    valid-range c.in_ok-pool.pool (c.carried_is_valid.ensures first_rules present_rules 64 c.args.old c.in_ok-pool.pool (omega (arith)) c.requires c.in_ok-pool.ensures.carried)
ANSWERS

prove_and_build load_parts
readers=("$crate/out/load_parts")

# The same parse by the Rust crate.
begin_rust parses 'serde_json = "1"'
cat > "$rust/src/main.rs" <<RUST
//! Parses the document of standard input over and over, and tells the clocks before and after.

mod measure;

use measure::tell;
use std::io::Read;

fn main() {
    let mut text = Vec::new();
    std::io::stdin().read_to_end(&mut text).expect("a document");
    for _ in 0..$turns {
        tell("start", 0);
        let value: serde_json::Value = serde_json::from_slice(&text).expect("JSON");
        tell("parse", value["rows"].as_array().map_or(0, Vec::len));
    }
}
RUST
if cargo_builds; then
    readers+=("$built")
else
    say_without serde_json
fi

report "$count" "$turns" "$work" "${readers[@]}" <<'PYTHON'
import os, subprocess, sys
from documents import TODAY, document, document_of_names
from shared import spans_of

count, turns, room, readers = int(sys.argv[1]), int(sys.argv[2]), sys.argv[3], sys.argv[4:]
PARTS = ["parse", "pool_from_bytes", "check_old", "carry", "check", "load"]
# Of a document of version 1 these tell the rows of the pool that it is carried over to.
LATER = ["carry", "check", "load"]


def best(reader, rows, version):
    """The least wall and processor seconds of each part over all turns. Each part has to tell so many rows, those behind `carry` as
    many as it made."""
    with open(room + "/document") as given:
        told = subprocess.run([reader], stdin=given, stdout=subprocess.PIPE, text=True)
    lines = [line.split() for line in told.stdout.splitlines()]
    ends = [line for line in lines if line[0] != "start"]
    later = [int(line[5]) for line in ends if version == 1 and line[0] in LATER]
    others = [int(line[5]) for line in ends if version != 1 or line[0] not in LATER]
    if told.returncode != 0 or any(count != rows for count in others) or len(set(later)) > 1:
        sys.exit(f"{reader} didn't read the {rows} rows")
    least = {}
    for (part, *_), span in zip(ends, spans_of(lines)):
        least[part] = tuple(map(min, least.get(part, span), span))
    return {**dict.fromkeys(PARTS, (0, 0)), **least}


# What is made, how much of it at first, and whether in a batch. A name by an edit leaves a map of all names before it.
SHAPES = [
    (document, "lines by edits", count, False), (document, "lines by a batch", 10 * count, True),
    (document_of_names, "names by edits", count // 16, False), (document_of_names, "names by a batch", count, True),
]
figures = []
for make, shape, least, in_batch in SHAPES:
    for n in (least, 4 * least, 16 * least):
        for version in (TODAY, 1):
            text, rows = make(n, in_batch, version)
            with open(room + "/document", "w") as out:
                out.write(text)
            name = f"{n:,} {shape}" + (", version 1" if version == 1 else "")
            figures.append((name, rows, len(text), [best(reader, rows, version) for reader in readers]))

for kind, clock in enumerate(["wall", "processor"]):
    print(f"Seconds of {clock}, best of {turns}, and the sum of the parts behind the parse as a multiple of it:")
    columns = ["document", "rows", "bytes", *PARTS, "sum", "sum/parse"] + ["Rust's parse", "sum/that"] * (len(readers) - 1)
    lines = [columns]
    for name, rows, size, (ours, *others) in figures:
        whole = sum(ours[part][kind] for part in PARTS[1:])
        cells = [name, f"{rows:,}", f"{size:,}", *(f"{ours[part][kind]:.4f}" for part in PARTS), f"{whole:.4f}"]
        cells.append(f"{whole / ours['parse'][kind]:.2f}")
        for other in others:
            parse = other["parse"][kind]
            cells += [f"{parse:.4f}", f"{whole / parse:.2f}"]
        lines.append(cells)
    widths = [max(map(len, column)) for column in zip(*lines)]
    for line in lines:
        print("  ".join(cell.rjust(width) for cell, width in zip(line, widths)))
PYTHON
