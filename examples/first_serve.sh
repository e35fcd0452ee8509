#!/usr/bin/env bash
# Starts the server on a loopback port with one user, and does by curl what an app in a browser does: it finds the storage, gets a
# token through the page's form, writes a document, reads it, asks again by its version, and lists the folder. Then the server is
# stopped. Usage: examples/first_serve.sh [PORT [PROGRAM]]; without PROGRAM, a whole path, it is built with the kit's rt, in which the
# crates are proved.
set -eu
port=${1:-18080}
here=$(cd "$(dirname "$0")" && pwd)
program=${2:-}
if [ -z "$program" ]; then
  (cd "$here/../crates/rs" && rt run -- --version) >&2
  program=$(cd "$here/../crates/rs/out" && pwd)/rs
fi
room=$(mktemp -d)
server=
end() {
  [ -z "$server" ] || kill "$server" 2>/dev/null || true
  rm -rf "$room"
}
trap end EXIT
cd "$room"

# Only numbers of this example differ from examples/rs.toml.
sed "s#:8080#:$port#" "$here/rs.toml" > rs.toml
"$program" serve --config rs.toml --workers 8 2> log &
server=$!
for _ in $(seq 100); do
  grep -q listening log && break
  sleep 0.1
done
cat log >&2
at=http://localhost:$port

echo '-- the storage of alice@localhost'
curl -s "$at/.well-known/webfinger?resource=acct:alice@localhost:$port"
echo
echo '-- the page, sent with the password'
location=$(curl -s -o /dev/null -w '%{redirect_url}' "$at/oauth/alice" \
  --data-urlencode response_type=token --data-urlencode client_id=http://app.example --data-urlencode redirect_uri=http://app.example/ \
  --data-urlencode scope=notes:rw --data-urlencode state=s --data-urlencode 'password=open sesame' --data-urlencode choice=allow)
token=$(printf '%s' "$location" | sed 's/.*access_token=\([0-9a-f]*\).*/\1/')
echo "${location%%access_token*}access_token=..."
echo '-- a document is written and read'
curl -s -o /dev/null -w '%{http_code}\n' -X PUT -H "Authorization: Bearer $token" -H 'Content-Type: text/plain' --data-binary hello "$at/storage/alice/notes/x"
curl -s -H "Authorization: Bearer $token" "$at/storage/alice/notes/x"
echo
echo '-- by its version'
version=$(curl -s -D - -o /dev/null -H "Authorization: Bearer $token" "$at/storage/alice/notes/x" | tr -d '\r' | sed -n 's/^ETag: //p')
curl -s -o /dev/null -w "%{http_code} for $version\n" -H "Authorization: Bearer $token" -H "If-None-Match: $version" "$at/storage/alice/notes/x"
echo '-- the folder'
curl -s -H "Authorization: Bearer $token" "$at/storage/alice/notes/"
echo
