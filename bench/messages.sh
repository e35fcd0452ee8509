#!/usr/bin/env bash
# Measures what reading requests costs by the size of the pieces and by the number of messages, in a program that it
# writes into a folder of its own. Usage: bench/messages.sh. It proves and builds the program first, which takes some
# minutes. Never a gate.
set -euo pipefail
root=$(cd "$(dirname "$0")/.." && pwd)
room=$(mktemp -d)
trap 'rm -rf "$room"' EXIT

mkdir -p "$room/crates"
cp "$root/HANDLES" "$room/"
for crate in rs_path rs_request rs_reply rs_wire; do
    mkdir "$room/crates/$crate"
    for part in src specs proofs; do
        if [ -d "$root/crates/$crate/$part" ]; then cp -r "$root/crates/$crate/$part" "$room/crates/$crate/"; fi
    done
done
{ grep -E '^rs_(path|request|reply|wire)\b' "$root/crates.txt"; echo 'wire_bench: rs_path rs_request rs_wire'; } >"$room/crates.txt"
git -C "$room" init -q
bench="$room/crates/wire_bench"
mkdir -p "$bench/src" "$bench/specs" "$bench/proofs/drain" "$bench/proofs/read_all"
touch "$bench/specs/Lib.antt" "$bench/proofs/Lib.antt"

cat >"$bench/proofs/drain/Invariants.antt" <<'ANTT'
use Rattle.std.proofs.Common.{◌≡◌, ◌^◌, ◌<◌}
use Rattle.rs_request.specs.Readers.{fed_count}
use Rattle.wire_bench.proofs.drain.Given as goal

abbrev pub invariant-loop : goal.invariant-loop
invariant-loop l = fed_count l.fn.reader < 2 ^ 64 → fed_count l.reader ≡ fed_count l.fn.reader
ANTT

cat >"$bench/proofs/read_all/Invariants.antt" <<'ANTT'
use Rattle.std.proofs.Common.{◌≡◌, ◌-◌, ◌≤◌, length}
use Rattle.rs_request.specs.Readers.{fed_count}
use Rattle.wire_bench.proofs.read_all.Given as goal

abbrev pub invariant-loop-fed : goal.invariant-loop-fed
invariant-loop-fed l = record { fed : fed_count l.reader ≡ l.fed; within : l.fed ≤ length l.input }

abbrev pub decreases-loop-fed : goal.decreases-loop-fed
decreases-loop-fed l = length l.input - l.fed
ANTT

cat >"$bench/src/main.rt" <<'RATTLE'
// Measures what reading requests costs, by the size of the pieces and by the number of messages.
#![tactic(auto)]

ghost use Rattle.std.specs.Prelude.{◌≡◌, ◌^◌, ◌<◌};
ghost use Rattle.rs_request.specs.Readers.{fed_count};

use rs_wire::{NextFault, RequestReader, Step};
use std::alloc::{AllocError, Global};
use std::io;
use std::io::Print;
use std::rt::Clock;
use std::time::Instant;

// What was read: messages, and the bytes of their bodies.
#[derive(Clone, Copy)]
struct Tally {
    messages: u64,
    body: u64,
}

fn count(tally: &mut Tally, body: usize) {
    tally.messages = tally.messages.saturating_add(1);
    tally.body = tally.body.saturating_add(body as u64);
}

// Takes all that the reader has, and says whether it goes on.
fn drain(reader: &mut RequestReader, tally: &mut Tally) -> bool
    ensures { fed_count reader.old < 2 ^ 64 → fed_count reader.new ≡ fed_count reader.old }
{
    for _ in 0..u64::MAX {
        match reader.next() {
            Ok(Step::More) => return true,
            Ok(Step::Interim) => {}
            Ok(Step::Message(message)) => count(tally, message.body.as_slice().len()),
            Err(NextFault::Wire(_)) => return false,
            Err(NextFault::NoMemory) => return false,
        }
    }
    false
}

// Reads the input in pieces of so many bytes.
fn read_all(alloc: Global, input: &[u8], size: usize) -> Tally {
    let mut tally = Tally {
        messages: 0,
        body: 0,
    };
    let mut reader = RequestReader::new(alloc);
    let mut fed = 0;
    while fed < input.len() {
        let rest = &input[fed..];
        let count = if size == 0 || rest.len() < size {
            rest.len()
        } else {
            size
        };
        if reader.feed(&rest[..count]).is_err() {
            return tally;
        }
        fed += count;
        if !drain(&mut reader, &mut tally) {
            return tally;
        }
    }
    tally
}

// The nanoseconds that it took to read the input so often, each time by a new reader, and what was read in all.
fn time<R: Clock>(
    rt: &R,
    alloc: Global,
    input: &[u8],
    size: usize,
    times: u32,
) -> io::Result<(u128, Tally)> {
    let mut all = Tally {
        messages: 0,
        body: 0,
    };
    let start = Instant::now(rt)?;
    for _ in 0..times {
        let tally = read_all(alloc, input, size);
        all.messages = all.messages.saturating_add(tally.messages);
        all.body = all.body.saturating_add(tally.body);
    }
    Ok((start.elapsed(rt)?.as_nanos(), all))
}

fn report<R: Clock + Print>(
    rt: &R,
    alloc: Global,
    name: &str,
    input: &[u8],
    size: usize,
    times: u32,
) -> io::Result<()> {
    let (took, tally) = time(rt, alloc, input, size, times)?;
    let messages = tally.messages;
    let body = tally.body;
    println!(rt; "{name}|{size}|{took}|{messages}|{body}")?;
    Ok(())
}

// A request with a body of so many bytes, by its length.
fn by_length(alloc: Global, body: usize) -> Result<Vec<u8>, AllocError>
    requires { body < 2 ^ 32 }
{
    let mut text = Vec::new(alloc);
    let head = format!(in alloc; "PUT /x HTTP/1.1\r\nHost: h\r\nContent-Length: {body}\r\n\r\n")?;
    text.extend_from_slice(head.as_bytes())?;
    let whole = text.len() + body;
    text.resize(whole, b'a')?;
    Ok(text)
}

// A request with a body of so many chunks of 4 KiB.
fn by_chunks(alloc: Global, chunks: usize) -> Result<Vec<u8>, AllocError> {
    let mut text = Vec::new(alloc);
    text.extend_from_slice(b"PUT /x HTTP/1.1\r\nHost: h\r\nTransfer-Encoding: chunked\r\n\r\n")?;
    let mut chunk = Vec::from_slice(alloc, b"1000\r\n")?;
    chunk.resize(4_102, b'a')?;
    chunk.extend_from_slice(b"\r\n")?;
    for _ in 0..chunks {
        text.extend_from_slice(chunk.as_slice())?;
    }
    text.extend_from_slice(b"0\r\n\r\n")?;
    Ok(text)
}

// So many requests of two kinds, one after another.
fn small(alloc: Global, messages: u64) -> Result<Vec<u8>, AllocError> {
    let mut text = Vec::new(alloc);
    for i in 0..messages {
        if i % 2 == 0 {
            text.extend_from_slice(b"GET /x HTTP/1.1\r\nHost: h\r\n\r\n")?;
        } else {
            text.extend_from_slice(
                b"PUT /x HTTP/1.1\r\nHost: h\r\nContent-Length: 5\r\n\r\nhello",
            )?;
        }
    }
    Ok(text)
}

// A request with a head of so many bytes, or a few less.
fn long_head(alloc: Global, bytes: usize) -> Result<Vec<u8>, AllocError> {
    let mut text = Vec::new(alloc);
    text.extend_from_slice(b"GET /x HTTP/1.1\r\nHost: h\r\nA: ")?;
    text.resize(bytes, b'a')?;
    text.extend_from_slice(b"\r\n\r\n")?;
    Ok(text)
}

fn main(rt: HostRuntime) -> io::Result<()> {
    let alloc = rt.alloc();
    let input = by_length(alloc, 67_108_864)?;
    for _ in 0..7 {
        report(&rt, alloc, "64 MiB by length", input.as_slice(), 0, 1)?;
        report(&rt, alloc, "64 MiB by length", input.as_slice(), 1_024, 1)?;
    }
    let input = by_chunks(alloc, 16_384)?;
    for _ in 0..7 {
        report(&rt, alloc, "64 MiB in chunks", input.as_slice(), 0, 1)?;
        report(&rt, alloc, "64 MiB in chunks", input.as_slice(), 1_024, 1)?;
    }
    let few = small(alloc, 1_000)?;
    let many = small(alloc, 1_000_000)?;
    for _ in 0..7 {
        report(&rt, alloc, "1,000 messages, 1,000 times", few.as_slice(), 0, 1_000)?;
        report(&rt, alloc, "1,000,000 messages", many.as_slice(), 0, 1)?;
    }
    let input = long_head(alloc, 16_000)?;
    for _ in 0..7 {
        report(&rt, alloc, "a head of 16,000 bytes, 100 times", input.as_slice(), 0, 100)?;
        report(&rt, alloc, "a head of 16,000 bytes, 100 times", input.as_slice(), 1, 100)?;
    }
    Ok(())
}
RATTLE

cd "$bench"
rt run >"$room/log" 2>&1 || { tail -n 20 "$room/log"; exit 1; }
# The median and the least of each kind: nanoseconds in all, and for each message.
grep -E '^[^|]+\|[0-9]+\|[0-9]+\|[0-9]+\|[0-9]+$' "$room/log" | sort -t'|' -k1,1 -k2,2n -k3,3n |
    awk -F'|' 'function show() { if (n) printf "%s, %s: median %d ns, least %d ns of %d; %d messages, least %d ns a message; %d bytes of bodies\n", name, size ? "pieces of " size : "one piece", at[int((n + 1) / 2)], at[1], n, count, count ? at[1] / count : 0, bytes }
        $1 != name || $2 != size { show(); name = $1; size = $2; n = 0 } { at[++n] = $3; count = $4; bytes = $5 } END { show() }'
