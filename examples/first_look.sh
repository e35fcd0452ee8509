#!/usr/bin/env bash
# Builds rs with the kit's rt, in which the crates below are proved, and pipes four requests through it in a new folder: a PUT, a
# GET of the folder, a GET that is still what the client has, and a GET without a token. Then it grants a token and revokes it.
set -eu
here=$(cd "$(dirname "$0")" && pwd)
(cd "$here/../crates/rs" && rt run -- --version) >&2
program=$(cd "$here/../crates/rs/out" && pwd)/rs
room=$(mktemp -d)
trap 'rm -rf "$room"' EXIT
cd "$room"
cat "$here/put.http" "$here/get_folder.http" "$here/get_unchanged.http" "$here/get_without_a_token.http" |
    "$program" pipe alice 000102030405060708090a0b0c0d0e0f '*:rw'
"$program" revoke "$("$program" grant notes:rw)"
