#!/usr/bin/env bash
# Finds the accesses that need an order in lists of words that are read and written, of eight threads that no call orders:
# 512 at one place, 512 at different places, 512 without a place, and 2,048 at one place; and 2,048 at one place whose order
# the calls of the log tell, so that each byte is seen. Prints how many accesses are ordered and how many bytes are seen, the
# processor time and the peak memory.
set -euo pipefail
cd "$(dirname "$0")/.."
source benchmarks/program.sh

new_program race_benchmark "odr_list odr_log happens_before race_set" \
    odr_limits odr_list rv32_decode elf_image odr_log rv_model clause_store order_clauses happens_before order_vars race_set
cat > "$program/src/main.rt" <<'CODE'
#![tactic(auto)]

ghost use Rattle.std.specs.Prelude.{◌<◌};

use happens_before::order::Order;
use odr_list::list::List;
use odr_list::memory::Memory;
use odr_log::log::{Call, CallRec, End, Log, Pos, ThreadLog};
use race_set::race_set::{RaceSet, open_accesses};
use race_set::shape::{AccessShape, Span};
use std::alloc::Global;
use std::env;
use std::io;

/// Where the accesses are.
#[derive(Clone, Copy, PartialEq)]
enum Places {
    One,
    Different,
    Unknown,
}

/// The steps of each thread.
const STEPS: u32 = 1024;

/// The step of an access, round the threads.
fn step_of(number: u32) -> u32
    ensures low { 0 < result }
    ensures high { result < 1000 }
{
    9 + number / 8 % 300 * 3
}

fn shape_of(number: u32, places: Places) -> AccessShape {
    let place = match places {
        Places::One => Some(Span { first: 0x10_0000, len: 4 }),
        Places::Different => Some(Span { first: number % 0x10_0000 * 4, len: 4 }),
        Places::Unknown => None,
    };
    AccessShape {
        pos: Pos {
            thread: (number % 8) as u8,
            step: step_of(number),
        },
        reads: true,
        writes: true,
        place,
        link: None,
    }
}

/// The call of thread 0 that makes the thread after this one.
fn spawn_after(thread: u8) -> CallRec
    requires { thread < 7 }
{
    CallRec {
        tid: 0,
        at: u32::from(thread),
        call: Call::Spawn {
            entry: 0x1_0000,
            child: Some(thread + 1),
        },
    }
}

fn yield_at(number: u32, at: u32) -> CallRec {
    CallRec {
        tid: (number % 8) as u8,
        at,
        call: Call::Yield,
    }
}

/// Thread 0 makes the seven others; where calls order the accesses, each has one before it and one behind it.
fn calls_of(alloc: Global, accesses: u32, with_calls: bool) -> Result<List<CallRec>, Memory> {
    let mut calls = List::new(alloc);
    for thread in 0u8..7 {
        calls.push(spawn_after(thread))?;
    }
    if with_calls {
        for number in 0..accesses {
            calls.push(yield_at(number, step_of(number) - 1))?;
            calls.push(yield_at(number, step_of(number) + 1))?;
        }
    }
    Ok(calls)
}

fn log_of(alloc: Global, accesses: u32, with_calls: bool) -> Result<Log, Memory> {
    let mut threads = List::new(alloc);
    for _ in 0..8 {
        threads.push(ThreadLog {
            steps: STEPS,
            path: List::new(alloc),
        })?;
    }
    Ok(Log {
        version: 1,
        threads,
        calls: calls_of(alloc, accesses, with_calls)?,
        end: End::Cut,
    })
}

fn races_of(alloc: Global, accesses: u32, places: Places, with_calls: bool) -> Result<Option<RaceSet>, Memory> {
    let log = log_of(alloc, accesses, with_calls)?;
    let Some(order) = Order::new(alloc, &log)? else {
        return Ok(None);
    };
    let mut shapes = Vec::new(alloc);
    for number in 0..accesses {
        shapes.push(shape_of(number, places))?;
    }
    Ok(Some(open_accesses(alloc, &order, shapes.as_slice())?))
}

fn main(rt: HostRuntime) -> io::Result<()> {
    let word = env::args(&rt)?.nth(1);
    let number = word.and_then(|word| word.parse().ok()).unwrap_or(5u8);
    let found = match number {
        0 => races_of(rt.alloc(), 512, Places::One, false),
        1 => races_of(rt.alloc(), 512, Places::Different, false),
        2 => races_of(rt.alloc(), 512, Places::Unknown, false),
        3 => races_of(rt.alloc(), 2048, Places::One, false),
        4 => races_of(rt.alloc(), 2048, Places::One, true),
        _ => Ok(None),
    };
    match found {
        Ok(Some(set)) => println!(rt; "{} ordered, {} bytes seen", set.ordered.len(), set.seen.len()),
        Ok(None) => println!(rt; "the calls don't fit"),
        Err(Memory) => println!(rt; "want of memory"),
    }
}
CODE
build_program
number=0
for work in "512 at one place" "512 at different places" "512 without a place" "2,048 at one place" "2,048 at one place in order"; do
    printf '%s: ' "$work"
    /usr/bin/time --format "%e s elapsed, %U s of processor time; peak memory: %M kB" out/race_benchmark "$number" 2>&1 | paste -sd ';' | sed 's/;/; /'
    number=$((number + 1))
done
