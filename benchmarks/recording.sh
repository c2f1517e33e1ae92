#!/usr/bin/env bash
# Records a run of 245,786 steps of three threads, and replays a schedule of it that changes threads at nearly each
# step; prints the time that passed, the processor time and the peak memory of each.
set -euo pipefail
cd "$(dirname "$0")/../crates/odr"
folder=$(mktemp -d)
trap 'rm -rf "$folder"' EXIT

# The run itself answers that it got no words.
rm -f out/odr
rt run > "$folder/build" 2>&1 || true
odr="$PWD/out/odr"
[ -x "$odr" ] || { cat "$folder/build"; exit 1; }
cd "$folder"

# Two workers of 24,576 rounds each, which add to one cell without a lock.
cat > loop.s <<'CODE'
la a0, work
li a1, 0
li a7, 3
ecall
la a0, work
ecall
li a0, 1
li a7, 4
ecall
li a0, 2
ecall
li a0, 0
li a7, 1
ecall
work: la s0, cell
lui s1, 6
loop: lw s2, 0(s0)
addi s2, s2, 1
sw s2, 0(s0)
addi s1, s1, -1
bne s1, zero, loop
li a7, 2
ecall
.data
cell: .word 0
CODE

# Each worker takes 122,885 steps. The first ends and is joined before the second ends, as in the recording.
{
    echo "0 8"
    for ((step = 1; step < 122885; step++)); do printf '1 1\n2 1\n'; done
    printf '1 1\n0 3\n2 1\n0 5\n'
} > loop.sched

measured() {
    /usr/bin/time --format "$1: %e s; processor time: %U s of the program, %S s of the system; peak memory: %M kB" \
        "$odr" "${@:2}"
}

"$odr" asm loop.s loop
measured record record loop loop.log --limit 250000
measured replay replay loop loop.log loop.sched
