#!/usr/bin/env bash
# Serves a journal, runs a client of two rounds, and changes the journal in between. Ends with the client's status.
set -u
cd "$(dirname "$0")/.." || exit 1
source try/common.sh

readonly LIST=MALWARE/ANY_PLATFORM/URL
folder=$(mktemp -d)
server=
trap '[ -n "$server" ] && kill "$server" 2> /dev/null; rm -rf "$folder"' EXIT

port=$(free_port)

: > "$folder/printed"
cp demo/journal "$folder/lists"
bin/sblistd serve --journal "$folder/lists" --listen "127.0.0.1:$port" --connections 2 --wait 5 &
server=$!
sleep 1
echo "A client of two rounds. It waits for up to 60 seconds before its first request."
bin/sbupdate run --store "$folder/store" --server "127.0.0.1:$port" --rounds 2 "$LIST" > >(tee "$folder/printed") &
client=$!
while kill -0 "$client" 2> /dev/null && ! grep -q '^round 1 ' "$folder/printed"; do sleep 0.2; done
echo "The journal gains a change."
printf 'change %s 1 0\n+%064d\n' "$LIST" 7 >> "$folder/lists"
wait "$client"
status=$?
wait "$server"
server=
echo "status $status"
exit "$status"
