#!/usr/bin/env bash
# Builds the literals of each operation on variables of 32 bits, and prints how many clauses and variables that adds to
# those of the operands, and the processor time and peak memory of 10,000 such circuits made one after another, each with
# a pool, an arena and a store of its own. ByteSelect has a table of 256 bytes.
set -euo pipefail
cd "$(dirname "$0")/.."
source benchmarks/program.sh

new_program bit_benchmark "bv_terms clause_store bit_clauses bumpalo" \
    odr_list bv_terms clause_store bit_gates bit_clauses
cat > "$program/src/main.rt" <<'CODE'
#![tactic(auto)]

ghost use Rattle.std.specs.Prelude.{◌≡◌, ◌<◌, length};
ghost use Rattle.bv_terms.specs.Fitting.{IsFitting};
ghost use Rattle.bv_terms.specs.Shapes.{shape_of};
ghost use Rattle.bv_terms.specs.Values.{width_at};

use bit_clauses::Memory;
use bit_clauses::blaster::Blaster;
use bit_clauses::law::nothing_is_known;
use bumpalo::Bump;
use bv_terms::node::{BinOp, Node, TermId};
use bv_terms::pool::TermPool;
use clause_store::store::ClauseStore;
use std::alloc::Global;
use std::env;
use std::io;

/// How many circuits are made, one after another.
const TIMES: u32 = 10_000;

/// The operation of a number on terms of 32 bits, and of one bit.
fn node_of<'a>(
    pool: &TermPool<'a>,
    number: u8,
    left: TermId,
    right: TermId,
    bit: TermId,
    bytes: &'a [u8],
) -> Node<'a>
    requires left { left.number < length pool.now }
    requires right { right.number < length pool.now }
    requires bit { bit.number < length pool.now }
    requires left_width { width_at pool.now left.number ≡ 32 }
    requires right_width { width_at pool.now right.number ≡ 32 }
    requires bit_width { width_at pool.now bit.number ≡ 1 }
    ensures { IsFitting (width_at pool.now) (length pool.now) (shape_of result) }
{
    match number {
        0 => Node::Bin { op: BinOp::And, left, right },
        1 => Node::Bin { op: BinOp::Or, left, right },
        2 => Node::Bin { op: BinOp::Xor, left, right },
        3 => Node::Bin { op: BinOp::Add, left, right },
        4 => Node::Bin { op: BinOp::Sub, left, right },
        5 => Node::Bin { op: BinOp::Mul, left, right },
        6 => Node::Bin { op: BinOp::Udiv, left, right },
        7 => Node::Bin { op: BinOp::Urem, left, right },
        8 => Node::Bin { op: BinOp::Shl, left, right },
        9 => Node::Bin { op: BinOp::Lshr, left, right },
        10 => Node::Bin { op: BinOp::Ashr, left, right },
        11 => Node::Bin { op: BinOp::Eq, left, right },
        12 => Node::Bin { op: BinOp::Ult, left, right },
        13 => Node::Bin { op: BinOp::Slt, left, right },
        14 => Node::Bin { op: BinOp::Concat, left, right },
        15 => Node::Not(left),
        16 => Node::Neg(left),
        17 => Node::Extract { of: left, high: 15, low: 8 },
        18 => Node::ZeroExtend { of: left, width: 64 },
        19 => Node::SignExtend { of: left, width: 64 },
        20 => Node::Ite { when: bit, yes: left, no: right },
        _ => Node::ByteSelect { first: 0, bytes, index: left },
    }
}

/// The clauses and variables that an operation adds to those of its operands.
fn counts_of(alloc: Global, number: u8) -> Result<(usize, u64), Memory> {
    let arena = Bump::new(alloc);
    let mut pool = TermPool::new(alloc, &arena);
    let mut clauses = ClauseStore::new(alloc, &arena);
    let mut blaster = Blaster::new(alloc);
    nothing_is_known();
    let bytes = pool.table(&[0x5a; 256])?;
    let left = pool.add(Node::Var { width: 32, number: 0 })?;
    let right = pool.add(Node::Var { width: 32, number: 1 })?;
    let bit = pool.add(Node::Var { width: 1, number: 2 })?;
    let node = node_of(&pool, number, left, right, bit, bytes);
    let root = pool.add(node)?;
    blaster.bits(alloc, &pool, &mut clauses, left)?;
    blaster.bits(alloc, &pool, &mut clauses, right)?;
    blaster.bits(alloc, &pool, &mut clauses, bit)?;
    let count = clauses.len();
    let vars = clauses.vars();
    blaster.bits(alloc, &pool, &mut clauses, root)?;
    Ok((clauses.len().saturating_sub(count), clauses.vars().saturating_sub(vars)))
}

fn main(rt: HostRuntime) -> io::Result<()> {
    let word = env::args(&rt)?.nth(1);
    let number = word.and_then(|word| word.parse().ok()).unwrap_or(0);
    let mut counts = (0, 0);
    for _ in 0..TIMES {
        match counts_of(rt.alloc(), number) {
            Ok(found) => counts = found,
            Err(Memory) => return println!(rt; "want of memory"),
        }
    }
    let (clauses, variables) = counts;
    println!(rt; "clauses: {clauses}, variables: {variables}")
}
CODE

mkdir -p "$program/proofs"
: > "$program/proofs/Lib.antt"
build_program
number=0
for operation in And Or Xor Add Sub Mul Udiv Urem Shl Lshr Ashr Eq Ult Slt Concat Not Neg Extract ZeroExtend SignExtend Ite ByteSelect; do
    printf '%s: ' "$operation"
    /usr/bin/time --format "processor time of 10,000: %U s; peak memory: %M kB" out/bit_benchmark "$number" 2>&1 | paste -sd ';' | sed 's/;/; /'
    number=$((number + 1))
done
