#!/usr/bin/env bash
# Measures accepted Puts of 1 KiB through one user's state, whose rows are in a database file, against SQLite's own
# appends of the same rows, and opening a file of rows. Usage: bench/rows.sh [PUTS [ROWS]], 20,000 Puts a round and 100,000
# rows if not given. All Puts go to one path, over the tree of rs_plain, which scans its lists: what is measured is a turn and its row,
# and not a tree of many documents. The files lie in a new folder below TMPDIR, or /tmp. It wants python3 with its sqlite3,
# and proves and builds a program first, which takes some minutes. Never a gate.
set -euo pipefail
python3 -c 'import sqlite3'
puts=${1:-20000}
rows=${2:-100000}
root=$(cd "$(dirname "$0")/.." && pwd)
room=$(mktemp -d)
trap 'rm -rf "$room"' EXIT

mkdir -p "$room/crates"
cp "$root/HANDLES" "$room/"
crates='rs_path rs_face rs_scope rs_record rs_rules rs_plain rs_user rs_sqlite'
for crate in $crates; do
    mkdir "$room/crates/$crate"
    for part in src specs proofs; do
        if [ -d "$root/crates/$crate/$part" ]; then
            cp -r "$root/crates/$crate/$part" "$room/crates/$crate/"
        fi
    done
    grep -E "^$crate\b" "$root/crates.txt" >>"$room/crates.txt"
done
echo "rows_bench: $crates sqlite" >>"$room/crates.txt"
git -C "$room" init -q
bench="$room/crates/rows_bench"
mkdir -p "$bench/src" "$bench/specs" "$bench/proofs/put_all"
touch "$bench/specs/Lib.antt" "$bench/proofs/Lib.antt"

cat >"$bench/proofs/put_all/Invariants.antt" <<'ANTT'
use Rattle.std.proofs.Common.{◌≡◌}
use Rattle.rs_rules.specs.Histories.{History}
use Rattle.rs_user.specs.Standing.{StandsFor}
use Rattle.rows_bench.proofs.put_all.Given as goal

abbrev pub invariant-loop : goal.invariant-loop
invariant-loop g l =
    ((h : History) × StandsFor g.T.Tree.stands l.state h) × (g.K.Keeper.row_count l.keeper ≡ l.state.rows)
ANTT

cat >"$bench/src/main.rt" <<'RATTLE'
// Measures Puts through a user's state over a database file, and opening such a file.
//     put COUNT   opens rows.db, which has no token yet or isn't there, grants one, and makes so many Puts to one path
//     open        opens rows.db
#![tactic(auto)]

ghost use Rattle.std.specs.Prelude.{◌≡◌, ◌≤◌, true, length, IfOk};
ghost use Rattle.rs_rules.specs.Histories.{History};
ghost use Rattle.rs_rules.specs.Requests.{is_within_limit};
ghost use Rattle.rs_user.specs.Standing.{StandsFor};

use rs_face::Keeper;
use rs_path::{Bytes, Kind, Path};
use rs_plain::PlainTree;
use rs_rules::{Call, Cond, Pass, Reply, Request, Tree};
use rs_scope::{Method, Scopes, Token};
use rs_sqlite::SqlKeeper;
use rs_user::UserState;
use sqlite::{Connection, File, FileStore};
use std::alloc::Global;
use std::env::Env;
use std::io::Print;
use std::process::ExitCode;
use std::rt::Clock;
use std::time::Instant;

const NO_MEMORY: &str = "no memory";

const NO_CLOCK: &str = "no clock";

type Fault = &'static str;

type FileRows = SqlKeeper<FileStore<File>>;

// ---- the file

fn open_rows(rt: &HostRuntime) -> Result<FileRows, Fault> {
    let Ok(connection) = Connection::open(rt, "rows.db") else {
        return Err("the file isn't opened");
    };
    match SqlKeeper::open(connection) {
        Ok(keeper) => Ok(keeper),
        Err(_) => Err("the table isn't opened"),
    }
}

fn close_rows(keeper: FileRows) -> Result<(), Fault> {
    match keeper.into_connection().close() {
        Ok(()) => Ok(()),
        Err(_) => Err("the file isn't closed"),
    }
}

// ---- the requests

fn token() -> Token {
    Token::of_words(0x0001_0203_0405_0607, 0x0809_0A0B_0C0D_0E0F)
}

fn grant_request(alloc: Global) -> Result<Request, Fault>
    ensures short { IfOk result (λ request. is_within_limit request ≡ true) }
{
    match Scopes::read(alloc, b"*:rw") {
        Ok(scopes) => Ok(Request::Grant {
            token: token(),
            scopes,
        }),
        Err(_) => Err(NO_MEMORY),
    }
}

// A body of so many bytes.
fn body_of(alloc: Global, size: usize) -> Result<Bytes, Fault>
    ensures length { IfOk result (λ body. length body ≡ size) }
{
    let mut list = Vec::new(alloc);
    match list.resize(size, b'a') {
        Ok(()) => Ok(Bytes::of(list)),
        Err(_) => Err(NO_MEMORY),
    }
}

fn put_request(alloc: Global, size: usize) -> Result<Request, Fault>
    requires short { size ≤ 1024 }
    ensures short { IfOk result (λ request. is_within_limit request ≡ true) }
{
    let Ok(path) = Path::read_plain(alloc, b"/notes/x") else {
        return Err(NO_MEMORY);
    };
    let Ok(Some(kind)) = Kind::read(alloc, b"text/plain") else {
        return Err(NO_MEMORY);
    };
    let body = body_of(alloc, size)?;
    Ok(Request::Store(Call {
        method: Method::Put,
        path,
        pass: Pass::Known(token()),
        if_match: Cond::Missing,
        if_none: Cond::Missing,
        kind,
        body,
    }))
}

// ---- the turns

fn is_accepted(reply: &Reply) -> bool {
    match reply {
        Reply::Stored { .. } | Reply::Granted => true,
        _ => false,
    }
}

// Makes a turn, whose request has to be accepted.
fn turn<K: Keeper, T: Tree>(
    state: &mut UserState<T>,
    keeper: &mut K,
    request: &Request,
) -> Result<(), Fault>
    requires stands { (h : History) × StandsFor T.stands state.old h }
    requires rows { K.row_count keeper.old ≡ state.old.rows }
    requires body { is_within_limit request.now ≡ true }
    ensures stands { (h : History) × StandsFor T.stands state.new h }
    ensures rows { K.row_count keeper.new ≡ state.new.rows }
{
    match state.turn(keeper, 1, request) {
        Ok(turn) if is_accepted(&turn.reply) => Ok(()),
        Ok(_) => Err("a request isn't accepted"),
        Err(_) => Err(NO_MEMORY),
    }
}

// Makes so many turns on the same request.
fn put_all<K: Keeper, T: Tree>(
    state: &mut UserState<T>,
    keeper: &mut K,
    request: &Request,
    count: u32,
) -> Result<(), Fault>
    requires stands { (h : History) × StandsFor T.stands state.old h }
    requires rows { K.row_count keeper.old ≡ state.old.rows }
    requires body { is_within_limit request.now ≡ true }
{
    for _ in 0..count {
        turn(state, keeper, request)?;
    }
    Ok(())
}

// Grants the token, and then makes so many Puts: the nanoseconds that the Puts took.
fn grant_and_put<R: Clock, K: Keeper, T: Tree>(
    rt: &R,
    alloc: Global,
    state: &mut UserState<T>,
    keeper: &mut K,
    count: u32,
) -> Result<u128, Fault>
    requires stands { (h : History) × StandsFor T.stands state.old h }
    requires rows { K.row_count keeper.old ≡ state.old.rows }
{
    let grant = grant_request(alloc)?;
    let put = put_request(alloc, 1024)?;
    turn(state, keeper, &grant)?;
    let start = begin(rt)?;
    put_all(state, keeper, &put, count)?;
    taken(rt, start)
}

// ---- the clock

fn begin<R: Clock>(rt: &R) -> Result<Instant, Fault> {
    match Instant::now(rt) {
        Ok(start) => Ok(start),
        Err(_) => Err(NO_CLOCK),
    }
}

// The nanoseconds since the start.
fn taken<R: Clock>(rt: &R, start: Instant) -> Result<u128, Fault> {
    match start.elapsed(rt) {
        Ok(time) => Ok(time.as_nanos()),
        Err(_) => Err(NO_CLOCK),
    }
}

// ---- the commands

// The state of the rows, and the nanoseconds that it took to open it.
fn open_state<R: Clock, K: Keeper, T: Tree>(
    rt: &R,
    alloc: Global,
    keeper: &mut K,
) -> Result<(UserState<T>, u128), Fault>
    ensures stands { IfOk result (λ opened. (h : History) × StandsFor T.stands opened.0 h) }
    ensures rows { IfOk result (λ opened. opened.0.rows ≡ K.row_count keeper.new) }
{
    let start = begin(rt)?;
    match UserState::<T>::open(alloc, keeper, u64::MAX) {
        Ok(state) => {
            let took = taken(rt, start)?;
            Ok((state, took))
        }
        Err(_) => Err("the rows aren't opened"),
    }
}

fn put_into<R: Clock, K: Keeper>(
    rt: &R,
    alloc: Global,
    keeper: &mut K,
    count: u32,
) -> Result<(u128, u64), Fault> {
    let (mut state, _) = open_state::<_, _, PlainTree>(rt, alloc, keeper)?;
    let took = grant_and_put(rt, alloc, &mut state, keeper, count)?;
    Ok((took, state.len()))
}

fn put(rt: &HostRuntime, count: u32) -> Result<(), Fault> {
    let mut keeper = open_rows(rt)?;
    let (took, len) = put_into(rt, rt.alloc(), &mut keeper, count)?;
    close_rows(keeper)?;
    let _ = println!(rt; "put|{count}|{took}|{len}");
    Ok(())
}

fn open(rt: &HostRuntime) -> Result<(), Fault> {
    let start = begin(rt)?;
    let mut keeper = open_rows(rt)?;
    let file = taken(rt, start)?;
    let (state, rows) = open_state::<_, _, PlainTree>(rt, rt.alloc(), &mut keeper)?;
    let len = state.len();
    close_rows(keeper)?;
    let _ = println!(rt; "open|{file}|{rows}|{len}");
    Ok(())
}

// The word with this index, if there is one of at most 16 bytes.
fn word<E: Env>(env: &E, alloc: Global, index: usize) -> Result<String, Fault> {
    let mut room = [0u8; 16];
    let Ok(count) = env.arg(index, &mut room) else {
        return Err("there are the commands `put COUNT` and `open`");
    };
    match String::from_utf8_lossy(alloc, &room[..count]) {
        Ok(word) => Ok(word),
        Err(_) => Err(NO_MEMORY),
    }
}

fn run(rt: &HostRuntime) -> Result<(), Fault> {
    let command = word(rt, rt.alloc(), 1)?;
    if command.as_str() == "open" {
        return open(rt);
    }
    let count = word(rt, rt.alloc(), 2)?;
    match count.as_str().parse::<u32>() {
        Ok(count) => put(rt, count),
        Err(_) => Err("no number"),
    }
}

fn main(rt: HostRuntime) -> ExitCode {
    match run(&rt) {
        Ok(()) => ExitCode::SUCCESS,
        Err(fault) => {
            let _ = println!(rt; "{fault}");
            ExitCode::FAILURE
        }
    }
}
RATTLE

cat >"$room/measure.py" <<'PYTHON'
# Runs the program and SQLite in turn, in the folder that it is run in.
import hashlib, os, sqlite3, statistics, subprocess, sys, time

program, puts, rows = sys.argv[1], int(sys.argv[2]), int(sys.argv[3])
TABLE = "CREATE TABLE IF NOT EXISTS kept(n INTEGER PRIMARY KEY, bytes BLOB NOT NULL)"
INSERT = "INSERT INTO kept(n, bytes) VALUES (?, ?)"
ROUNDS = 5


# A text or a body behind its length, in so many bytes.
def sized(bytes_, size):
    return len(bytes_).to_bytes(size, "big") + bytes_


# The rows of docs/FORMATS.md.
token = bytes(range(16))
body = b"a" * 1024
document = sized(b"/notes/x", 2) + sized(b"text/plain", 1) + sized(body, 4)
grant = b"\x01\x03" + token + sized(b"*:rw", 2)
put_by_nobody = b"\x01\x01" + document
put_by_token = b"\x02\x01" + token + hashlib.sha256(body).digest() + document


def say(text):
    print(text, flush=True)


def load():
    return "load " + " ".join(open("/proc/loadavg").read().split()[:3])


def remove():
    for end in ("", "-wal", "-shm", "-journal"):
        if os.path.exists("rows.db" + end):
            os.remove("rows.db" + end)


def database():
    connection = sqlite3.connect("rows.db", isolation_level=None)
    assert connection.execute("PRAGMA journal_mode=WAL").fetchone()[0] == "wal"
    connection.execute("PRAGMA synchronous=FULL")
    connection.execute(TABLE)
    return connection


# What the program prints behind its first word, as numbers.
def run(*words):
    done = subprocess.run([program, *words], stdout=subprocess.PIPE, text=True)
    cells = done.stdout.strip().split("|")
    if done.returncode != 0 or cells[0] != words[0]:
        sys.exit(f"{words[0]}: status {done.returncode}: {done.stdout}")
    return [int(cell) for cell in cells[1:]]


# Puts a second, into a new file, which is looked at afterwards.
def state_rate():
    remove()
    count, took, length = run("put", str(puts))
    assert (count, length) == (puts, puts + 1)
    look()
    return puts / (took / 1e9)


# SQLite's own appends of the same rows a second, into a new file.
def sqlite_rate():
    remove()
    connection = database()
    connection.execute(INSERT, (1, grant))
    start = time.perf_counter_ns()
    for n in range(2, puts + 2):
        connection.execute(INSERT, (n, put_by_token))
    took = time.perf_counter_ns() - start
    connection.close()
    return puts / (took / 1e9)


# The file that the program made is whole and has just the rows of what was asked.
def look():
    connection = sqlite3.connect("rows.db")
    whole = connection.execute("PRAGMA integrity_check").fetchall() == [("ok",)]
    found = connection.execute("SELECT n, bytes FROM kept ORDER BY n").fetchall()
    connection.close()
    wanted = [(1, grant)] + [(n, put_by_token) for n in range(2, puts + 2)]
    if not whole or found != wanted:
        sys.exit(f"integrity_check {'passed' if whole else 'failed'}; {len(found)} rows, as wanted: {found == wanted}")


# Writes of a page a second over one that is there, each with a sync of its own.
def sync_rate():
    with open("pages", "w+b", buffering=0) as file:
        file.write(bytes(4096 * 1000))
        os.fsync(file.fileno())
        start = time.perf_counter_ns()
        for number in range(puts):
            os.pwrite(file.fileno(), bytes(4096), 4096 * (number % 1000))
            os.fdatasync(file.fileno())
        took = time.perf_counter_ns() - start
    os.remove("pages")
    return puts / (took / 1e9)


# A file with a Grant and Puts by nobody.
def make_rows():
    remove()
    connection = database()
    connection.execute("BEGIN")
    connection.execute(INSERT, (1, grant))
    connection.executemany(INSERT, ((n, put_by_nobody) for n in range(2, rows + 1)))
    connection.execute("COMMIT")
    connection.close()
    return os.path.getsize("rows.db")


def listed(numbers, form):
    return ", ".join(form.format(number) for number in numbers)


disk = subprocess.run(["df", "--output=fstype", "."], stdout=subprocess.PIPE, text=True).stdout.split()[-1]
say(f"{time.strftime('%Y-%m-%d %H:%M', time.gmtime())} UTC, {os.cpu_count()} processors, SQLite {sqlite3.sqlite_version} by Python's sqlite3, file system {disk}, {load()}")

say(f"a page of 4 KiB written and synced by itself: {sync_rate():.0f} a second")
ours, theirs = [], []
for number in range(ROUNDS):
    pair = [(ours, state_rate), (theirs, sqlite_rate)]
    for rates, measure in pair if number % 2 == 0 else reversed(pair):
        rates.append(measure())
say(f"each file that the program made has passed integrity_check, and had the {puts + 1} rows of the Grant and the Puts")
say(f"Puts of 1 KiB to one path by UserState::turn over SqlKeeper, {puts} a round: {listed(ours, '{:.0f}')} a second")
say(f"appends of the same rows of {len(put_by_token)} bytes by SQLite, WAL, synchronous FULL: {listed(theirs, '{:.0f}')} a second")
median = statistics.median(ours), statistics.median(theirs)
say(f"medians: {median[0]:.0f} and {median[1]:.0f} a second, ratio {median[0] / median[1]:.2f}; {load()}")

size = make_rows()
opened = [run("open") for _ in range(ROUNDS)]
assert all(length == rows for _, _, length in opened)
by_file = [file / 1e9 for file, _, _ in opened]
by_state = [state / 1e9 for _, state, _ in opened]
say(f"opening {rows} rows, a Grant and Puts of 1 KiB to one path, {size} bytes: the file {listed(by_file, '{:.2f}')} s, UserState::open {listed(by_state, '{:.2f}')} s")
say(f"medians: the file {statistics.median(by_file):.2f} s, UserState::open {statistics.median(by_state):.2f} s; {load()}")
PYTHON

cd "$bench"
rt run -- put 1 >"$room/log" 2>&1 || { tail -n 20 "$room/log"; exit 1; }
grep '^logic=' "$room/log" || true
mkdir "$room/data"
cd "$room/data"
python3 "$room/measure.py" "$bench/out/rows_bench" "$puts" "$rows"
