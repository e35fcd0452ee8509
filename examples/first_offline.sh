#!/usr/bin/env bash
# Edits documents without a network: connects a client to an account, writes, reads, lists and removes documents in its journal, and
# prints what the journal says. Usage: examples/first_offline.sh [PROGRAM]; without PROGRAM, a whole path, it is built with the kit's
# rt, in which the crates are proved.
set -eu
here=$(cd "$(dirname "$0")" && pwd)
program=${1:-}
if [ -z "$program" ]; then
  (cd "$here/../crates/rs" && rt run -- --version) >&2
  program=$(cd "$here/../crates/rs/out" && pwd)/rs
fi
room=$(mktemp -d)
trap 'rm -rf "$room"' EXIT
cd "$room"

rs() {
  echo "\$ rs $*"
  "$program" "$@" || echo "(status $?)"
}

rs connect http://localhost/storage/alice T notes:rw
echo hello | rs put /notes/x text/plain
rs get /notes/x
rs put /notes/x/y text/plain < /dev/null 2>&1
rs put /mail/z text/plain < /dev/null 2>&1
rs ls /notes/
rs status
rs rm /notes/x
rs ls /notes/
