#!/usr/bin/env bash
# Follows recorded runs of eight threads and 250,000 steps as terms: loops with one access of each thread, loops behind 64
# accesses of each thread, and loops in which each fourth step calls. Prints for each how many steps, accesses and nodes there
# are, the time that following took, and the processor time and peak memory of the program, in which the recording is too.
set -euo pipefail
cd "$(dirname "$0")/.."
source benchmarks/program.sh

new_program path_benchmark "odr_limits odr_list elf_image odr_log rv_model trace_path happens_before bv_terms bv_rewrite recorder path_exec guest_programs guest_runs bumpalo" \
    odr_limits odr_list rv32_decode elf_image odr_log rv_model guest_mem guest_calls guest_machine guest_sched recorder trace_path \
    guided_walk happens_before walk_lists walk_flow walk_facts walk_notes step_order plain_machine plain_walk guest_programs \
    guest_runs bv_terms bv_rewrite step_terms thread_terms access_terms call_terms path_exec
cat > "$program/src/main.rt" <<'CODE'
#![tactic(auto)]

ghost use Rattle.std.specs.Prelude.{IfOk, OnOk};
ghost use Rattle.odr_log.specs.Grammar.{IsValid};
ghost use Rattle.rv_model.specs.CallsFit.{CallsFit};
ghost use Rattle.trace_path.specs.Traced.{IsTraced};

use bumpalo::Bump;
use bv_rewrite::rewrite::NoRules;
use bv_terms::node::Node;
use bv_terms::pool::TermPool;
use elf_image::image::Image;
use guest_programs::programs::Program;
use guest_runs::files::program_file;
use guest_runs::logged::Logged;
use guest_runs::no_run::NoRun;
use happens_before::order::Order;
use odr_log::log::Log;
use path_exec::Paths;
use recorder::record_run;
use std::alloc::Global;
use std::env;
use std::io;
use std::time::Instant;
use trace_path::Traces;

/// Eight threads with one access each.
const FEW: Program = Program {
    words: &[
        0x00300893, // li a7, 3
        0x00700413, // li s0, 7
        0x00010537, // spawn: lui a0, 0x10
        0x02050513, // addi a0, a0, 32
        0x00000593, // li a1, 0
        0x00000073, // ecall
        0xfff40413, // addi s0, s0, -1
        0xfe0416e3, // bne s0, zero, spawn
        0x001004b7, // lui s1, 0x100
        0x0004a903, // lw s2, 0(s1)
        0x00198993, // loop: addi s3, s3, 1
        0x002a0a13, // addi s4, s4, 2
        0x01498ab3, // add s5, s3, s4
        0xfe000ae3, // beq zero, zero, loop
    ],
    data: &[0; 8],
};

/// Eight threads with 64 accesses each, and a loop over what they read.
const MANY: Program = Program {
    words: &[
        0x00300893, // li a7, 3
        0x00700413, // li s0, 7
        0x00010537, // spawn: lui a0, 0x10
        0x02050513, // addi a0, a0, 32
        0x00000593, // li a1, 0
        0x00000073, // ecall
        0xfff40413, // addi s0, s0, -1
        0xfe0416e3, // bne s0, zero, spawn
        0x001004b7, // lui s1, 0x100
        0x02000b13, // li s6, 32
        0x0004a903, // read: lw s2, 0(s1)
        0x012989b3, // add s3, s3, s2
        0x0134a223, // sw s3, 4(s1)
        0xfffb0b13, // addi s6, s6, -1
        0xfe0b18e3, // bne s6, zero, read
        0x013a0a33, // loop: add s4, s4, s3
        0x001a8a93, // addi s5, s5, 1
        0x015a4bb3, // xor s7, s4, s5
        0xfe000ae3, // beq zero, zero, loop
    ],
    data: &[0; 8],
};

/// Eight threads that yield in each fourth step.
const CALLS: Program = Program {
    words: &[
        0x00300893, // li a7, 3
        0x00700413, // li s0, 7
        0x00010537, // spawn: lui a0, 0x10
        0x02050513, // addi a0, a0, 32
        0x00000593, // li a1, 0
        0x00000073, // ecall
        0xfff40413, // addi s0, s0, -1
        0xfe0416e3, // bne s0, zero, spawn
        0x00b00893, // li a7, 11
        0x00198993, // loop: addi s3, s3, 1
        0x002a0a13, // addi s4, s4, 2
        0x00000073, // ecall
        0xfe000ae3, // beq zero, zero, loop
    ],
    data: &[0; 8],
};

fn program_of(number: u8) -> Program {
    match number {
        0 => FEW,
        1 => MANY,
        _ => CALLS,
    }
}

fn image_of(alloc: Global, program: Program) -> Result<Image, NoRun> {
    let file = program_file(alloc, program)?;
    match Image::read(alloc, file.as_slice()) {
        Ok(image) => Ok(image),
        Err(_) => Err(NoRun::File),
    }
}

/// The log of 250,000 steps.
fn log_of(alloc: Global, image: &Image) -> Result<Log, NoRun>
    ensures { IfOk result IsValid }
{
    let recorded = record_run(alloc, image, Vec::new(alloc), 42, 250_000)?;
    Ok(recorded.log)
}

fn record(alloc: Global, program: Program) -> Result<Logged, NoRun>
    ensures valid { IfOk result (λ logged. IsValid logged.log) }
    ensures traced { IfOk result (λ logged. IsTraced logged.image logged.log logged.traces) }
{
    let image = image_of(alloc, program)?;
    let log = log_of(alloc, &image)?;
    match Traces::build(alloc, &image, &log)? {
        Some(traces) => Ok(Logged { image, log, traces }),
        None => Err(NoRun::Walk),
    }
}

/// What a log's paths have.
#[derive(Clone, Copy)]
struct Counts {
    steps: u64,
    accesses: usize,
    nodes: usize,
}

fn steps_of(log: &Log) -> u64 {
    let mut steps = 0u64;
    for thread in log.threads.as_slice() {
        steps = steps.saturating_add(u64::from(thread.steps));
    }
    steps
}

/// The calls of a log fit.
fn calls_fit(alloc: Global, log: &Log) -> Result<(), NoRun>
    ensures { OnOk result (CallsFit log.now) }
{
    match Order::new(alloc, log)? {
        Some(_order) => Ok(()),
        None => Err(NoRun::Log),
    }
}

fn follow(alloc: Global, logged: &Logged) -> Result<Counts, NoRun>
    requires valid { IsValid logged.now.log }
    requires traced { IsTraced logged.now.image logged.now.log logged.now.traces }
    requires fits { CallsFit logged.now.log }
{
    let arena = Bump::new(alloc);
    let mut pool = TermPool::new(alloc, &arena);
    let paths = Paths::run(
        alloc,
        &mut pool,
        &NoRules,
        &logged.image,
        &logged.traces,
        &logged.log,
    )?;
    let last = pool.add(Node::Var { width: 2, number: 0 })?;
    Ok(Counts {
        steps: steps_of(&logged.log),
        accesses: paths.accesses.len(),
        nodes: last.number,
    })
}

fn recorded(alloc: Global, number: u8) -> Result<Logged, NoRun>
    ensures valid { IfOk result (λ logged. IsValid logged.log) }
    ensures traced { IfOk result (λ logged. IsTraced logged.image logged.log logged.traces) }
    ensures fits { IfOk result (λ logged. CallsFit logged.log) }
{
    let logged = record(alloc, program_of(number))?;
    calls_fit(alloc, &logged.log)?;
    Ok(logged)
}

fn main(rt: HostRuntime) -> io::Result<()> {
    let word = env::args(&rt)?.nth(1);
    let number = word.and_then(|word| word.parse().ok()).unwrap_or(0u8);
    let Ok(logged) = recorded(rt.alloc(), number) else {
        return println!(rt; "no log");
    };
    let start = Instant::now(&rt)?;
    let Ok(counts) = follow(rt.alloc(), &logged) else {
        return println!(rt; "want of memory");
    };
    let milliseconds = start.elapsed(&rt)?.as_millis();
    let Counts { steps, accesses, nodes } = counts;
    println!(rt; "{steps} steps, {accesses} accesses, {nodes} nodes, followed in {milliseconds} ms")
}
CODE
build_program
number=0
for work in "few accesses" "512 accesses" "a call in each fourth step"; do
    printf '%s: ' "$work"
    /usr/bin/time --format "program: %e s elapsed, %U s of processor time; peak memory: %M kB" out/path_benchmark "$number" 2>&1 | paste -sd ';' | sed 's/;/; /'
    number=$((number + 1))
done
