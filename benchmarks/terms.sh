#!/usr/bin/env bash
# Adds a million different nodes to a pool, simplifies a term of a million nodes under no rules, and makes the literals of a
# term of 100,000 variables of 8 bits. Prints the elapsed and processor time of each, and the peak memory.
set -euo pipefail
cd "$(dirname "$0")/.."
source benchmarks/program.sh

new_program term_benchmark "odr_list bv_terms bv_rewrite clause_store bit_clauses bumpalo" \
    odr_list bv_terms bv_rewrite clause_store bit_gates bit_clauses
cat > "$program/src/main.rt" <<'CODE'
#![tactic(auto)]

ghost use Rattle.std.specs.Prelude.{◌≡◌, ◌<◌, length, IfOk};
ghost use Rattle.bv_terms.specs.Values.{KeepsTerms, width_at};

use bit_clauses::Memory;
use bit_clauses::blaster::Blaster;
use bit_clauses::law::nothing_is_known;
use bumpalo::Bump;
use bv_rewrite::rewrite::NoRules;
use bv_rewrite::simplify::simplify;
use bv_terms::node::{BinOp, Node, TermId};
use bv_terms::pool::TermPool;
use clause_store::store::ClauseStore;
use std::alloc::Global;
use std::env;
use std::io;

/// A sum of a term and, again and again, another of its width.
fn chain(pool: &mut TermPool<'_>, term: TermId, other: TermId, count: u32) -> Result<TermId, Memory>
    requires inside { term.number < length pool.old }
    requires other_inside { other.number < length pool.old }
    requires width { width_at pool.old term.number ≡ width_at pool.old other.number }
    ensures inside { IfOk result (λ id. id.number < length pool.new) }
    ensures older { KeepsTerms pool.old pool.new }
{
    let mut sum = term;
    for i in 0..count {
        sum = pool.add(Node::Bin { op: BinOp::Add, left: sum, right: other })?;
    }
    Ok(sum)
}

/// The exclusive or of a term of 8 bits and so many variables.
fn variables(pool: &mut TermPool<'_>, term: TermId, count: u32) -> Result<TermId, Memory>
    requires inside { term.number < length pool.old }
    requires width { width_at pool.old term.number ≡ 8 }
    ensures inside { IfOk result (λ id. id.number < length pool.new) }
    ensures older { KeepsTerms pool.old pool.new }
{
    let mut sum = term;
    for number in 0..count {
        let variable = pool.add(Node::Var { width: 8, number })?;
        sum = pool.add(Node::Bin { op: BinOp::Xor, left: sum, right: variable })?;
    }
    Ok(sum)
}

fn nodes(alloc: Global, simplified: bool) -> Result<usize, Memory> {
    let arena = Bump::new(alloc);
    let mut pool = TermPool::new(alloc, &arena);
    let left = pool.add(Node::Var { width: 32, number: 0 })?;
    let right = pool.add(Node::Var { width: 32, number: 1 })?;
    let sum = chain(&mut pool, left, right, 1_000_000)?;
    if simplified {
        return Ok(simplify(alloc, &mut pool, sum, &NoRules)?.number);
    }
    Ok(sum.number)
}

fn literals(alloc: Global) -> Result<usize, Memory> {
    let arena = Bump::new(alloc);
    let mut pool = TermPool::new(alloc, &arena);
    let first = pool.add(Node::Var { width: 8, number: 0 })?;
    let root = variables(&mut pool, first, 100_000)?;
    let mut clauses = ClauseStore::new(alloc, &arena);
    let mut blaster = Blaster::new(alloc);
    nothing_is_known();
    blaster.bits(alloc, &pool, &mut clauses, root)?;
    Ok(clauses.len())
}

fn main(rt: HostRuntime) -> io::Result<()> {
    let word = env::args(&rt)?.nth(1);
    let number = word.and_then(|word| word.parse().ok()).unwrap_or(3u8);
    let found = match number {
        0 => nodes(rt.alloc(), false),
        1 => nodes(rt.alloc(), true),
        2 => literals(rt.alloc()),
        _ => Ok(0),
    };
    match found {
        Ok(found) => println!(rt; "{found}"),
        Err(Memory) => println!(rt; "want of memory"),
    }
}
CODE

mkdir -p "$program/proofs/chain" "$program/proofs/variables"
: > "$program/proofs/Lib.antt"
for function in chain variables; do
    index=$([ "$function" = chain ] && echo i || echo number)
    cat > "$program/proofs/$function/Invariants.antt" <<PROOF
use Rattle.std.proofs.Common.{◌≡◌, ◌<◌, length}
use Rattle.bv_terms.specs.Values.{KeepsTerms, width_at}
use Rattle.term_benchmark.proofs.$function.Given as goal

abbrev pub invariant-loop-$index : goal.invariant-loop-$index
invariant-loop-$index l = record {
  older : KeepsTerms l.fn.pool l.pool;
  inside : l.sum.number < length l.pool;
  width : width_at l.pool l.sum.number ≡ width_at l.fn.pool l.fn.term.number;
}
PROOF
done
build_program
number=0
for work in "a million nodes" "a million nodes, simplified" "100,000 variables"; do
    printf '%s: ' "$work"
    /usr/bin/time --format "%e s elapsed, %U s of processor time; peak memory: %M kB" out/term_benchmark "$number" 2>&1 | paste -sd ';' | sed 's/;/; /'
    number=$((number + 1))
done
