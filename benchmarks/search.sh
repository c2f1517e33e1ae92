#!/usr/bin/env bash
# Runs `Solver` on the formulas of benchmarks/formulas.py beside minisat, cadical and picosat, as far as these are installed, and
# prints for each formula and solver the answer (s: an assignment, r: refuted, -: none within 60 s), the processor seconds with
# reading the file, the lines or conflicts, and the peak memory in MB; then the sums over the formulas of each kind. `Solver` is
# given the variables that the formula lists; `check` is the seconds that a second run took longer, which checks its lines. Words
# choose formulas: `benchmarks/search.sh 'orders-*' 'parity-*-u'`.
set -euo pipefail
cd "$(dirname "$0")/.."
source benchmarks/program.sh
top=$PWD

new_program search_benchmark "odr_list clause_store sat_core clause_check bumpalo" \
    odr_list clause_store sat_trail sat_core clause_check
mkdir -p "$program"/proofs/{literals,numbers,derivation}
cat > "$program/src/main.rt" <<'CODE'
#![tactic(auto)]

ghost use Rattle.std.specs.Prelude.{◌≡◌, ◌<◌, All, IfOk};
ghost use Rattle.clause_store.specs.Formula.{IsKnown};

use bumpalo::Bump;
use clause_check::verdict::{Verdict, check};
use clause_store::Memory;
use clause_store::derivation::Derivation;
use clause_store::lit::Lit;
use clause_store::store::ClauseStore;
use sat_core::answer::Answer;
use sat_core::solver::Solver;
use std::alloc::Global;
use std::env;
use std::io;

const MOST_LINES: u64 = 10_000_000;

fn main(rt: HostRuntime) -> io::Result<()> {
    let text = io::read_to_string(rt.alloc(), rt.stdin())?;
    let arena = Bump::new(rt.alloc());
    let mut store = ClauseStore::new(rt.alloc(), &arena);
    let Ok(first) = read(rt.alloc(), &mut store, text.as_str()) else {
        return println!(rt; "want of memory");
    };
    let Ok(answer) = answer_to(rt.alloc(), &store, first.as_slice()) else {
        return println!(rt; "want of memory");
    };
    let checks = env::args(&rt)?.nth(1).is_some();
    match answer {
        Answer::Model(_) => println!(rt; "answer s 0"),
        Answer::Spent(lines) => println!(rt; "answer - {}", lines.len()),
        Answer::Refuted(lines) => {
            let good = !checks || is_refuted(rt.alloc(), &store, &lines);
            println!(rt; "answer {} {}", if good { "r" } else { "-" }, lines.len())
        }
    }
}

/// The answer to the clauses, with these variables decided first.
fn answer_to<'a>(alloc: Global, store: &ClauseStore<'a>, first: &[u64]) -> Result<Answer, Memory> {
    let first = numbers(alloc, store.vars(), first)?;
    let solver = Solver::new(alloc, store, first.as_slice())?;
    solver.solve(alloc, MOST_LINES)
}

/// Whether the lines refute the clauses.
fn is_refuted<'a>(alloc: Global, store: &ClauseStore<'a>, lines: &Derivation) -> bool {
    let Ok(lines) = derivation(alloc, store.vars(), lines) else {
        return false;
    };
    match check(alloc, store, &lines) {
        Ok(verdict) => verdict == Verdict::Refuted,
        Err(_) => false,
    }
}

/// The numbers that are below a bound.
fn numbers(alloc: Global, bound: u64, listed: &[u64]) -> Result<Vec<u64>, Memory>
    ensures { IfOk result (λ all. All (λ x. x < bound) all.items) }
{
    let mut all = Vec::new(alloc);
    for number in listed {
        if *number < bound {
            all.push(*number)?;
        }
    }
    Ok(all)
}

/// The literals whose variables are there.
fn literals(alloc: Global, vars: u64, line: &[Lit]) -> Result<Vec<Lit>, Memory>
    ensures { IfOk result (λ all. IsKnown vars all.items) }
{
    let mut all = Vec::new(alloc);
    for lit in line {
        if lit.var < vars {
            all.push(*lit)?;
        }
    }
    Ok(all)
}

/// The lines, with the literals whose variables are there.
fn derivation(alloc: Global, vars: u64, lines: &Derivation) -> Result<Derivation, Memory>
    ensures { IfOk result (λ all. All (IsKnown vars) all) }
{
    let mut all = Derivation::new(alloc);
    for at in 0..lines.len() {
        let line = literals(alloc, vars, lines.line(at))?;
        all.push(line.as_slice())?;
    }
    Ok(all)
}

/// Reads a formula, and gives the variables that it lists.
fn read(alloc: Global, store: &mut ClauseStore<'_>, text: &str) -> Result<Vec<u64>, Memory> {
    let mut first = Vec::new(alloc);
    for line in text.lines() {
        if let Some(listed) = line.strip_prefix("c first ") {
            list(&mut first, listed)?;
        } else if let Some(counts) = line.strip_prefix("p cnf ") {
            make(store, counts)?;
        } else {
            add(alloc, store, line)?;
        }
    }
    Ok(first)
}

fn list(first: &mut Vec<u64>, words: &str) -> Result<(), Memory> {
    for word in words.split_whitespace() {
        first.push(var_of(word))?;
    }
    Ok(())
}

fn make(store: &mut ClauseStore<'_>, counts: &str) -> Result<(), Memory> {
    let vars = counts.split_whitespace().next().map_or(0, var_of);
    for _ in 0..vars.saturating_add(1) {
        store.fresh()?;
    }
    Ok(())
}

fn add(alloc: Global, store: &mut ClauseStore<'_>, words: &str) -> Result<(), Memory> {
    let mut line = Vec::new(alloc);
    for word in words.split_whitespace() {
        let (positive, digits) = match word.strip_prefix("-") {
            Some(digits) => (false, digits),
            None => (true, word),
        };
        if digits != "0" {
            let var = var_of(digits);
            line.push(Lit { var, positive })?;
        }
    }
    let lits = literals(alloc, store.vars(), line.as_slice())?;
    store.add(lits.as_slice())
}

/// The number of a variable from 0, where the word counts from 1.
fn var_of(word: &str) -> u64 {
    let number: u64 = word.parse().unwrap_or(0);
    number.saturating_sub(1)
}
CODE
echo > "$program/proofs/Lib.antt"
cat > "$program/proofs/numbers/Invariants.antt" <<'PROOF'
use Rattle.std.proofs.Common.{◌<◌}
use Rattle.std.specs.Prelude.{All}
use Rattle.search_benchmark.proofs.numbers.Given as goal

abbrev pub invariant-loop-number : goal.invariant-loop-number
invariant-loop-number l = All (λ x. x < l.bound) l.all.items
PROOF
cat > "$program/proofs/literals/Invariants.antt" <<'PROOF'
use Rattle.std.proofs.Common.{◌<◌}
use Rattle.std.specs.Prelude.{All}
use Rattle.search_benchmark.proofs.literals.Given as goal

abbrev pub invariant-loop-lit : goal.invariant-loop-lit
invariant-loop-lit l = All (λ k. k.var < l.vars) l.all.items
PROOF
cat > "$program/proofs/derivation/Invariants.antt" <<'PROOF'
use Rattle.std.specs.Prelude.{All}
use Rattle.clause_store.specs.Formula.{IsKnown}
use Rattle.search_benchmark.proofs.derivation.Given as goal

abbrev pub invariant-loop-at : goal.invariant-loop-at
invariant-loop-at l = All (IsKnown l.vars) l.all
PROOF

cp "$top"/benchmarks/formulas.py "$folder"
(
    cd "$program"
    touch stdin
)
build_program
python3 "$folder/formulas.py" "$folder/formulas"
python3 "$top/benchmarks/race.py" "$folder/formulas" out/search_benchmark "$@"
