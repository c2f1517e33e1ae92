#!/usr/bin/env bash
# Reads and writes logs of nearly as many bytes as a log file may have, and prints for each the megabytes in a second of
# processor time and the peak memory, in which the bytes themselves count. In the first each of 250,000 steps writes 256
# bytes, about the most that a recording has. The others have small parts alone, as a file may and no recording does.
set -euo pipefail
cd "$(dirname "$0")/.."
source benchmarks/program.sh

new_program log_benchmark odr_log odr_list odr_log
cat > "$program/src/main.rt" <<'CODE'
#![tactic(auto)]

ghost use Rattle.odr_log.specs.Grammar.{IsValid};

use odr_log::log::Log;
use odr_log::{read_log, write_log};
use std::alloc::{AllocError, Global};
use std::env;
use std::io;

/// A log of one thread: how often its path has some items, how many these are, and their bytes; how often a call is
/// made, and its bytes before a text of so many bytes.
#[derive(Clone, Copy)]
struct Shape {
    pieces: u32,
    items: u32,
    path: &'static [u8],
    calls: u32,
    call: &'static [u8],
    text: usize,
}

const EMPTY: Shape = Shape {
    pieces: 0,
    items: 0,
    path: &[],
    calls: 0,
    call: &[],
    text: 0,
};

fn shape_of(name: &str) -> Shape {
    match name {
        "writes" => Shape {
            calls: 250_000,
            call: &[0, 1, 2, 3, 0, 0x08, 0x00, 0x01],
            text: 256,
            ..EMPTY
        },
        "branches" => Shape {
            pieces: 8_380_000,
            items: 8,
            path: &[0, 1, 1, 0, 1, 0, 0, 1],
            ..EMPTY
        },
        "jumps" => Shape {
            pieces: 13_400_000,
            items: 1,
            path: &[2, 0x40, 0, 1, 0],
            ..EMPTY
        },
        "yields" => Shape {
            calls: 11_180_000,
            call: &[0, 1, 2, 3, 0, 0x0b],
            ..EMPTY
        },
        _ => EMPTY,
    }
}

fn repeat(bytes: &mut Vec<u8>, count: u32, piece: &[u8]) -> Result<(), AllocError> {
    for _ in 0..count {
        bytes.extend_from_slice(piece)?;
    }
    Ok(())
}

fn bytes_of(alloc: Global, shape: &Shape) -> Result<Vec<u8>, AllocError> {
    let mut call = shape.call.to_vec(alloc)?;
    call.extend_from_slice(&[0x2a; 256][..shape.text.min(256)])?;
    let mut bytes = b"ODRL\x01\x01".to_vec(alloc)?;
    bytes.extend_from_slice(&250_000_u32.to_le_bytes())?;
    bytes.extend_from_slice(&shape.pieces.saturating_mul(shape.items).to_le_bytes())?;
    repeat(&mut bytes, shape.pieces, shape.path)?;
    bytes.extend_from_slice(&shape.calls.to_le_bytes())?;
    repeat(&mut bytes, shape.calls, call.as_slice())?;
    bytes.push(0)?;
    Ok(bytes)
}

fn read_often(alloc: Global, bytes: &[u8], times: u32) -> Option<()> {
    for _ in 0..times {
        let _log = read_log(alloc, bytes).ok()?;
    }
    Some(())
}

fn write_often(alloc: Global, log: &Log, times: u32) -> Option<()>
    requires { IsValid log.now }
{
    for _ in 0..times {
        let _bytes = write_log(alloc, log).ok()?;
    }
    Some(())
}

/// Reads the bytes once and then so many times more, and writes the log so many times. The answer is whether the log
/// has these bytes, where it was written.
fn run(alloc: Global, bytes: &[u8], reads: u32, writes: u32) -> Option<bool> {
    let log = read_log(alloc, bytes).ok()?;
    read_often(alloc, bytes, reads)?;
    if writes == 0 {
        return Some(true);
    }
    let is_same = write_log(alloc, &log).ok()?.as_slice() == bytes;
    write_often(alloc, &log, writes - 1)?;
    Some(is_same)
}

fn main(rt: HostRuntime) -> io::Result<()> {
    let mut words = env::args(&rt)?.skip(1);
    let name = words.next();
    let reads = words.next().and_then(|word| word.parse().ok()).unwrap_or(0);
    let writes = words.next().and_then(|word| word.parse().ok()).unwrap_or(0);
    let shape = shape_of(name.as_deref().unwrap_or(""));
    let Ok(bytes) = bytes_of(rt.alloc(), &shape) else {
        return println!(rt; "want of memory");
    };
    match run(rt.alloc(), bytes.as_slice(), reads, writes) {
        Some(true) => println!(rt; "{}", bytes.len()),
        _ => println!(rt; "0"),
    }
}
CODE
build_program

# The processor time of a run in seconds, its peak memory in kB, and the number of bytes.
measured() {
    /usr/bin/time --format "%U %S %M" --output used out/log_benchmark "$@" > bytes
    awk '{ printf "%.2f %d ", $1 + $2, $3 }' used
    cat bytes
}

for name in writes branches jumps yields; do
    read -r once read_peak bytes < <(measured "$name" 0 0)
    read -r read _ _ < <(measured "$name" 5 0)
    read -r first write_peak _ < <(measured "$name" 0 1)
    read -r written _ _ < <(measured "$name" 0 6)
    awk -v name="$name" -v bytes="$bytes" -v read="$read" -v once="$once" -v read_peak="$read_peak" \
        -v written="$written" -v first="$first" -v write_peak="$write_peak" 'BEGIN {
        five = 5 * bytes / 1e6
        printf "%s, %.1f MB: ", name, bytes / 1e6
        printf "read_log %.0f MB/s, peak memory %.0f MB; ", five / (read - once + 0.001), read_peak / 1000
        printf "write_log %.0f MB/s, peak memory %.0f MB\n", five / (written - first + 0.001), write_peak / 1000
    }'
done
