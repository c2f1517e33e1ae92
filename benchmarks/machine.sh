#!/usr/bin/env bash
# Steps the machine through a loop of two loads, two stores, an addition and a branch, and prints for two numbers of
# steps the time that passed, the steps in a second of the processor, and the peak memory, which is to be the same.
set -euo pipefail
cd "$(dirname "$0")/.."
source benchmarks/program.sh

new_program machine_benchmark "elf_image guest_machine guest_programs" \
    odr_list rv32_decode elf_image odr_log rv_model guest_mem guest_calls guest_machine guest_programs
cat > "$program/src/main.rt" <<'CODE'
#![tactic(auto)]

use elf_image::image::Image;
use guest_machine::machine::Machine;
use guest_programs::logs::HELLO_FILE;
use std::env;
use std::io;
use std::time::Instant;

/// The loop, from 0x10000 on.
const WORDS: [u32; 8] = [
    0x001005b7, // lui a1, 0x100
    0x0005a503, // lw a0, 0(a1)
    0x00150513, // addi a0, a0, 1
    0x00a5a023, // sw a0, 0(a1)
    0x0045c603, // lbu a2, 4(a1)
    0x00a582a3, // sb a0, 5(a1)
    0xfe0606e3, // beq a2, zero, -20
    0x00000073, // ecall
];

/// The file of the loop, with 64 bytes of data.
fn loop_file() -> [u8; 151] {
    let mut file = HELLO_FILE;
    file[104] = 64;
    for (number, word) in WORDS.iter().enumerate() {
        let bytes = word.to_le_bytes();
        for (place, byte) in bytes.iter().enumerate() {
            file[116 + 4 * number + place] = *byte;
        }
    }
    file
}

/// Steps thread 0 so many times, as long as it may; the answer is the number of steps.
fn run(machine: &mut Machine<'_>, steps: u64) -> u64 {
    for done in 0..steps {
        if !machine.enabled(0) || machine.retired(0) >= 0xffff_fff0 {
            return done;
        }
        let _note = machine.step(0);
    }
    steps
}

fn main(rt: HostRuntime) -> io::Result<()> {
    let word = env::args(&rt)?.nth(1);
    let steps = word.and_then(|word| word.parse().ok()).unwrap_or(0);
    let Ok(image) = Image::read(rt.alloc(), &loop_file()) else {
        return println!(rt; "no image");
    };
    let Ok(mut machine) = Machine::load(rt.alloc(), &image, Vec::new(rt.alloc())) else {
        return println!(rt; "want of memory");
    };
    let start = Instant::now(&rt)?;
    let done = run(&mut machine, steps);
    let milliseconds = start.elapsed(&rt)?.as_millis();
    println!(rt; "{done} steps in {milliseconds} ms")
}
CODE
build_program
for steps in 5000000 50000000; do
    /usr/bin/time --format "%U %S %M" out/machine_benchmark "$steps" 2> used
    awk -v steps="$steps" '{ printf "processor time: %s s of the program, %s s of the system, %.1f million steps a second; peak memory: %s kB\n", $1, $2, steps / ($1 + $2 + 0.001) / 1e6, $3 }' used
done
