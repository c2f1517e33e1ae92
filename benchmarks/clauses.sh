#!/usr/bin/env bash
# Adds 10 million clauses of three literals to a store, and prints the time that passed, the processor time and the
# peak memory.
set -euo pipefail
cd "$(dirname "$0")/.."
source benchmarks/program.sh

new_program clause_benchmark "clause_store bumpalo" odr_list clause_store
mkdir -p "$program/proofs/add_clauses"
cat > "$program/src/main.rt" <<'CODE'
#![tactic(auto)]

ghost use Rattle.std.specs.Prelude.{◌≤◌};

use bumpalo::Bump;
use clause_store::Memory;
use clause_store::lit::Lit;
use clause_store::store::ClauseStore;
use std::alloc::Global;
use std::io;
use std::time::Instant;

const CLAUSES: u64 = 10_000_000;

fn main(rt: HostRuntime) -> io::Result<()> {
    let start = Instant::now(&rt)?;
    match count_of_clauses(rt.alloc()) {
        Ok(count) => {
            let milliseconds = start.elapsed(&rt)?.as_millis();
            println!(rt; "{count} clauses of three literals in {milliseconds} ms")
        }
        Err(Memory) => println!(rt; "want of memory"),
    }
}

fn count_of_clauses(alloc: Global) -> Result<usize, Memory> {
    let arena = Bump::new(alloc);
    let mut store = ClauseStore::new(alloc, &arena);
    store.fresh()?;
    store.fresh()?;
    store.fresh()?;
    add_clauses(&mut store)?;
    Ok(store.len())
}

fn add_clauses(store: &mut ClauseStore<'_>) -> Result<(), Memory>
    requires { 3 ≤ store.old.vars }
{
    for turn in 0..CLAUSES {
        let positive = turn % 2 == 0;
        let first = Lit { var: 0, positive };
        let second = Lit { var: 1, positive: true };
        let third = Lit { var: 2, positive: !positive };
        store.add(&[first, second, third])?;
    }
    Ok(())
}
CODE
cat > "$program/proofs/Lib.antt" <<'PROOF'
PROOF
cat > "$program/proofs/add_clauses/Invariants.antt" <<'PROOF'
use Rattle.std.proofs.Common.{◌≤◌}
use Rattle.clause_benchmark.proofs.add_clauses.Given as goal

abbrev pub invariant-loop-turn : goal.invariant-loop-turn
invariant-loop-turn l = 3 ≤ l.store.vars
PROOF

build_program
/usr/bin/time --format "processor time: %U s of the program, %S s of the system; peak memory: %M kB" out/clause_benchmark
