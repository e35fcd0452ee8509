#!/usr/bin/env bash
# Measures a turn of the lock against std's Mutex on the same work, in a program that it writes into a folder of its own.
# Usage: bench/turn.sh. It proves and builds the program first, which takes some minutes. Never a gate.
set -euo pipefail
root=$(cd "$(dirname "$0")/.." && pwd)
room=$(mktemp -d)
trap 'rm -rf "$room"' EXIT

mkdir -p "$room/crates"
cp "$root/HANDLES" "$room/"
for crate in rs_path rs_turn; do
    mkdir "$room/crates/$crate"
    cp -r "$root/crates/$crate/src" "$root/crates/$crate/specs" "$root/crates/$crate/proofs" "$room/crates/$crate/"
done
{ grep -E '^rs_(path|turn)\b' "$root/crates.txt"; echo 'turn_bench: rs_path rs_turn'; } >"$room/crates.txt"
git -C "$room" init -q
bench="$room/crates/turn_bench"
mkdir -p "$bench/src" "$bench/specs" "$bench/proofs/by_lock"
touch "$bench/specs/Lib.antt" "$bench/proofs/Lib.antt"

cat >"$bench/proofs/by_lock/Invariants.antt" <<'ANTT'
use Rattle.std.proofs.Common.{◌≡◌}
use Rattle.turn_bench.proofs.by_lock.Given as goal

abbrev pub invariant-loop : goal.invariant-loop
invariant-loop g l = l.seat.lock ≡ l.lock
ANTT

cat >"$bench/src/main.rt" <<'RATTLE'
// Measures a turn of the lock against std's Mutex on the same work.
#![tactic(auto)]

ghost use Rattle.std.specs.Prelude.{◌≡◌, ◌+◌, ◌-◌, ◌^◌, cond, nat_lt};

use rs_turn::{Deed, Held, Seat, TurnLock};
use std::alloc::Global;
use std::io;
use std::io::Print;
use std::rt::Clock;
use std::sync::{Mutex, Wait};
use std::thread::{Threads, join};
use std::time::Instant;

#[derive(Drop)]
struct Work {
    state: u64,
    count: u64,
}

// Scrambles the number so often.
fn scramble(state: u64, rounds: u32) -> u64 {
    let mut s = state;
    for _ in 0..rounds {
        s ^= s << 13;
        s ^= s >> 7;
        s ^= s << 17;
    }
    s
}

fn step(work: &mut Work, rounds: u32) -> u64
    ensures { work.new.count ≡ cond (nat_lt work.old.count (2 ^ 64 - 1)) (work.old.count + 1) work.old.count }
{
    work.state = scramble(work.state, rounds);
    if work.count < u64::MAX {
        work.count += 1;
    }
    work.state
}

impl Held for Work {
    ghost use Rattle.std.specs.Prelude.{◌≡◌, length};

    type What = ();

    type Basis = ();

    ghost stands = { λ c h. c.count ≡ length h };

    ghost basis = { λ _. tt };

    ghost faults = { λ _. 0 };

    fn len(&self) -> u64 {
        self.count
    }
}

#[derive(Drop)]
struct Grind {
    rounds: u32,
}

impl Deed<Work> for Grind {
    ghost use Rattle.std.specs.Prelude.{false, Some};

    type Answer = u64;

    ghost adds = { λ _ _ _. Some tt };

    ghost shows = { λ _ _ _ _ _ _ _. Unit {0} };

    ghost is_failed = { λ _. false };

    fn act(&mut self, value: &mut Work, _who: u64) -> u64 {
        step(value, self.rounds)
    }

    fn failed(_answer: &u64) -> bool {
        false
    }
}

fn by_lock<R: Wait>(rt: &R, lock: &TurnLock<Work>, mut seat: Seat<Work>, turns: u32, rounds: u32)
    requires { seat.lock ≡ lock.now }
{
    let mut deed = Grind { rounds };
    for _ in 0..turns {
        lock.with_turn(rt, &mut seat, &mut deed);
    }
}

fn two_by_lock<R: Threads + Wait + Sync>(
    rt: &R,
    lock: &TurnLock<Work>,
    mut seat: Seat<Work>,
    turns: u32,
    rounds: u32,
)
    requires { seat.lock ≡ lock.now }
{
    let Ok(other) = lock.seat(&mut seat) else {
        return;
    };
    join(
        rt,
        move ||
            requires { seat.lock ≡ lock.now }
        { by_lock(rt, lock, seat, turns, rounds) },
        move ||
            requires { other.lock ≡ lock.now }
        { by_lock(rt, lock, other, turns, rounds) },
    );
}

fn four_by_lock<R: Threads + Wait + Sync>(
    rt: &R,
    lock: &TurnLock<Work>,
    mut seat: Seat<Work>,
    turns: u32,
    rounds: u32,
)
    requires { seat.lock ≡ lock.now }
{
    let Ok(other) = lock.seat(&mut seat) else {
        return;
    };
    join(
        rt,
        move ||
            requires { seat.lock ≡ lock.now }
        { two_by_lock(rt, lock, seat, turns, rounds) },
        move ||
            requires { other.lock ≡ lock.now }
        { two_by_lock(rt, lock, other, turns, rounds) },
    );
}

fn eight_by_lock<R: Threads + Wait + Sync>(
    rt: &R,
    lock: &TurnLock<Work>,
    mut seat: Seat<Work>,
    turns: u32,
    rounds: u32,
)
    requires { seat.lock ≡ lock.now }
{
    let Ok(other) = lock.seat(&mut seat) else {
        return;
    };
    join(
        rt,
        move ||
            requires { seat.lock ≡ lock.now }
        { four_by_lock(rt, lock, seat, turns, rounds) },
        move ||
            requires { other.lock ≡ lock.now }
        { four_by_lock(rt, lock, other, turns, rounds) },
    );
}

fn by_mutex<R: Wait>(rt: &R, lock: &Mutex<Work>, turns: u32, rounds: u32) {
    for _ in 0..turns {
        step(&mut lock.lock(rt), rounds);
    }
}

fn two_by_mutex<R: Threads + Wait + Sync>(rt: &R, lock: &Mutex<Work>, turns: u32, rounds: u32) {
    join(
        rt,
        || by_mutex(rt, lock, turns, rounds),
        || by_mutex(rt, lock, turns, rounds),
    );
}

fn four_by_mutex<R: Threads + Wait + Sync>(rt: &R, lock: &Mutex<Work>, turns: u32, rounds: u32) {
    join(
        rt,
        || two_by_mutex(rt, lock, turns, rounds),
        || two_by_mutex(rt, lock, turns, rounds),
    );
}

fn eight_by_mutex<R: Threads + Wait + Sync>(rt: &R, lock: &Mutex<Work>, turns: u32, rounds: u32) {
    join(
        rt,
        || four_by_mutex(rt, lock, turns, rounds),
        || four_by_mutex(rt, lock, turns, rounds),
    );
}

fn fresh() -> Work
    ensures { result.count ≡ 0 }
{
    Work {
        state: 88172645463325252,
        count: 0,
    }
}

// The nanoseconds that the turns took.
fn lock_time<R: Threads + Wait + Clock + Sync>(
    rt: &R,
    alloc: Global,
    eight: bool,
    turns: u32,
    rounds: u32,
) -> io::Result<u128> {
    let Ok((lock, seat)) = TurnLock::new(alloc, fresh()) else {
        return Ok(0);
    };
    let start = Instant::now(rt)?;
    if eight {
        eight_by_lock(rt, &lock, seat, turns, rounds);
    } else {
        by_lock(rt, &lock, seat, turns, rounds);
    }
    Ok(start.elapsed(rt)?.as_nanos())
}

fn mutex_time<R: Threads + Wait + Clock + Sync>(
    rt: &R,
    eight: bool,
    turns: u32,
    rounds: u32,
) -> io::Result<u128> {
    let lock = Mutex::new(fresh());
    let start = Instant::now(rt)?;
    if eight {
        eight_by_mutex(rt, &lock, turns, rounds);
    } else {
        by_mutex(rt, &lock, turns, rounds);
    }
    Ok(start.elapsed(rt)?.as_nanos())
}

fn alone<R: Clock>(rt: &R, rounds: u32) -> io::Result<u128> {
    let mut work = fresh();
    let start = Instant::now(rt)?;
    let mut all = 0;
    for _ in 0..1000 {
        all ^= step(&mut work, rounds);
    }
    let took = start.elapsed(rt)?.as_nanos();
    Ok(if all == 1 { 0 } else { took })
}

fn compare<R: Threads + Wait + Clock + Print + Sync>(
    rt: &R,
    alloc: Global,
    name: &str,
    eight: bool,
    turns: u32,
    rounds: u32,
) -> io::Result<()> {
    let a = lock_time(rt, alloc, eight, turns, rounds)?;
    let b = mutex_time(rt, eight, turns, rounds)?;
    println!(rt; "{name}: lock {a} ns, Mutex {b} ns for {turns} turns a thread")?;
    Ok(())
}

fn main(rt: HostRuntime) -> io::Result<()> {
    let work = alone(&rt, 20_000)?;
    println!(rt; "the work alone, 1000 turns: {work} ns")?;
    for _ in 0..9 {
        compare(&rt, rt.alloc(), "8 threads, long work", true, 500, 20_000)?;
    }
    for _ in 0..5 {
        compare(&rt, rt.alloc(), "1 thread, no work", false, 1_000_000, 1)?;
    }
    for _ in 0..5 {
        compare(&rt, rt.alloc(), "8 threads, no work", true, 20_000, 1)?;
    }
    Ok(())
}
RATTLE

cd "$bench"
rt run >"$room/log" 2>&1 || { tail -n 20 "$room/log"; exit 1; }
grep -E '^(the work|[0-9]+ threads?)' "$room/log"
# The median of the ratios, kind by kind.
grep -E '^[0-9]+ threads?' "$room/log" | sed -E 's/^(.*): lock ([0-9]+) ns, Mutex ([0-9]+) ns.*/\1|\2|\3/' | sort -t'|' -k1,1 |
    awk -F'|' '{ print $1 "|" $2 / $3 }' | sort -t'|' -k1,1 -k2,2n |
    awk -F'|' 'function show() { if (n) print kind ": the lock takes " at[int((n + 1) / 2)] " of the Mutex (median of " n ")" }
        $1 != kind { show(); kind = $1; n = 0 } { at[++n] = $2 } END { show() }'
