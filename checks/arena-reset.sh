#!/usr/bin/env bash
# A clause can't be used once its arena is reset: the compiler refuses it. No must-fail edit can show this, since a
# borrow error never reaches the prover. The same code without the reset must be accepted.
set -euo pipefail
cd "$(dirname "$0")/.."
folder=$(mktemp -d)
trap 'rm -rf "$folder"' EXIT

mkdir -p "$folder/crates/arena_reset/src"
cp -r crates/odr_list crates/clause_store "$folder/crates/"
rm -rf "$folder"/crates/*/out
cat > "$folder/crates.txt" <<'LIST'
odr_list:
clause_store: odr_list bumpalo
arena_reset: clause_store bumpalo
LIST

# Writes the crate with one line between the last use of the store and the use of the clause.
write_crate() {
    cat > "$folder/crates/arena_reset/src/lib.rt" <<CODE
#![tactic(auto)]

use bumpalo::Bump;
use clause_store::Memory;
use clause_store::lit::Lit;
use clause_store::store::ClauseStore;
use std::alloc::Global;

pub fn literals_of_a_clause(alloc: Global) -> Result<usize, Memory> {
    let mut arena = Bump::new(alloc);
    let mut store = ClauseStore::new(alloc, &arena);
    let var = store.fresh()?;
    store.add(&[Lit { var, positive: true }])?;
    let clause = store.clause(0);
    drop(store);
    $1
    Ok(clause.len())
}
CODE
}

check() {
    (cd "$folder/crates/arena_reset" && rt check) > "$folder/log" 2>&1
}

write_crate ''
if ! check; then
    cat "$folder/log"
    echo "arena-reset: the code without a reset was refused"
    exit 1
fi
write_crate 'let _ = arena.reset();'
if check; then
    echo "arena-reset: a clause was used after its arena's reset, and the compiler accepted it"
    exit 1
fi
if ! grep -q 'error\[borrow-e0502\]' "$folder/log"; then
    cat "$folder/log"
    echo "arena-reset: the use after a reset was refused, but not as a borrow"
    exit 1
fi
echo "arena-reset: a use of a clause after its arena's reset is refused"
