#!/usr/bin/env bash
# Drives the built sblistd over loopback with curl: updates, look-ups, each refusal that a client can bring about, clients that
# stall, and many connections. Prints a line for each step, and ends with status 1 at the first that is not as it should be.
#
# Clients that stall or send a byte a second hold nobody up. It takes some minutes.
set -u
cd "$(dirname "$0")/.." || exit 1
source try/common.sh

if ! command -v curl > /dev/null; then
  echo "try-http: curl is not installed, so nothing was tried"
  exit 0
fi

readonly LIST=MALWARE/ANY_PLATFORM/URL
readonly MANY=1000
folder=$(mktemp -d)
server=
trap '[ -n "$server" ] && kill "$server" 2> /dev/null; rm -rf "$folder"' EXIT

fail() {
  echo "try-http: $1"
  exit 1
}

# starts a server for so many connections, or without a number
serve() {
  port=$(free_port)
  bin/sblistd serve --journal "$folder/journal" --listen "127.0.0.1:$port" ${1:+--connections "$1"} > "$folder/printed" &
  server=$!
  url="http://127.0.0.1:$port/v4/threatListUpdates:fetch"
}

# serves lists over both kinds of requests, and says where finds come in
serve_finds() {
  serve "$1"
  finds="http://127.0.0.1:$port/v4/fullHashes:find"
}

# what a request is answered: its status
status_of() {
  curl --silent --retry 20 --retry-connrefused --retry-delay 1 --max-time 100 --output "$folder/body" --write-out '%{http_code}' "$@"
}

expect() {
  local step=$1 wanted=$2 found
  shift 2
  found=$(status_of "$@")
  [ "$found" = "$wanted" ] || fail "$step: $found in place of $wanted"
  echo "$step: $found"
}

ended() {
  wait "$server" || fail "the server ended with status $?"
  server=
}

hash() {
  printf '%s%056d' "$1" 0
}

printf 'sblist 1 0000000000000001\nlist %s 4\nchange %s 2 0\n+%s\n+%s\n' \
  "$LIST" "$LIST" "$(hash 31323334)" "$(hash 35363738)" > "$folder/journal"
request='{"listUpdateRequests":[{"threatType":"MALWARE","platformType":"ANY_PLATFORM","threatEntryType":"URL"}]}'

# ---- a generated load

bin/sblistd generate 300 7 > "$folder/generated" || fail "no journal was generated"
[ "$(bin/sblistd exercise 65536 0)" = "$(bin/sblistd exercise 65536 0)" ] || fail "an exercise prints another line at a second run"
told=$(bin/sblistd exercise 300 7)
kept=$folder/kept
mv "$folder/journal" "$kept"
mv "$folder/generated" "$folder/journal"
serve 1
expect "a fetch of a generated list" 200 --data "$request" "$url"
ended
mv "$kept" "$folder/journal"
python3 - "$folder/body" "$told" << 'END' || fail "an exercise tells another set than a server of the same journal: $told"
import base64, json, sys
with open(sys.argv[1], encoding="ascii") as body:
    update = json.load(body)["listUpdateResponses"][0]
raw = base64.b64decode(update["additions"][0]["rawHashes"]["rawHashes"])
digest = base64.b64decode(update["checksum"]["sha256"]).hex()
told = sys.argv[2]
sys.exit(f" {len(raw) // 4} entries," not in told or not told.endswith(f"checksum {digest}"))
END
echo "$told"

# ---- one of each answer

serve 9
expect "a fetch" 200 --data "$request" "$url"
grep -q '"rawHashes":"MTIzNDU2Nzg="' "$folder/body" || fail "a fetch: its body is $(< "$folder/body")"
printf 'change %s 0 1\n-%s\n' "$LIST" "$(hash 35363738)" >> "$folder/journal"
expect "a fetch after a change of the journal" 200 --data "$request" "$url"
grep -q '"rawHashes":"MTIzNA=="' "$folder/body" || fail "a fetch after a change: its body is $(< "$folder/body")"
expect "another path" 404 --data "$request" "http://127.0.0.1:$port/v4/nothing"
expect "another method" 405 "$url"
expect "a body in chunks, without a length" 411 --header 'Transfer-Encoding: chunked' --data "$request" "$url"
expect "a body that is no message" 400 --data '[' "$url"
expect "a list that is not declared" 200 --data "${request/MALWARE/SOCIAL_ENGINEERING}" "$url"
[ "$(< "$folder/body")" = '{"minimumWaitDuration":"1800s"}' ] || fail "a list that is not declared: its body is $(< "$folder/body")"
head -c 1048577 /dev/zero > "$folder/long"
expect "a body that is too long" 413 --header 'Expect:' --data-binary "@$folder/long" "$url"
expect "a head that is too long" 431 --header "X-Long: $(head -c 17000 /dev/zero | tr '\0' x)" --data "$request" "$url"
ended
cat > "$folder/wanted" <<'END'
connection 1 answered 200
connection 2 answered 200
connection 3 answered 404
connection 4 answered 405
connection 5 answered 411
connection 6 answered 400 not-json
connection 7 answered 200
connection 8 answered 413
connection 9 answered 431
END
diff "$folder/wanted" "$folder/printed" || fail "the server printed other lines"
echo "the server printed a line for each connection"

# ---- look-ups, and the names of the lists

# a look-up of these URLs in the list
look_up() {
  local items= asked
  for asked in "$@"; do items+="${items:+,}{\"url\":\"$asked\"}"; done
  echo "{\"threatInfo\":{\"threatTypes\":[\"MALWARE\"],\"platformTypes\":[\"ANY_PLATFORM\"],\"threatEntryTypes\":[\"URL\"],\"threatEntries\":[$items]}}"
}

# the answer to one of whose URLs this one alone is listed
match_of() {
  echo "{\"matches\":[{\"cacheDuration\":\"300s\",\"platformType\":\"ANY_PLATFORM\",\"threat\":{\"url\":\"$1\"},\
\"threatEntryType\":\"URL\",\"threatType\":\"MALWARE\"}]}"
}

# a request that is answered with this body
expect_body() {
  local step=$1 wanted=$2
  shift 2
  expect "$step" 200 "$@"
  [ "$(< "$folder/body")" = "$wanted" ] || fail "$step: its body is $(< "$folder/body")"
}

# a method that a path does not answer: the response names the one that it does
expect_allowed() {
  local step=$1 wanted=$2
  shift 2
  expect "$step" 405 --dump-header "$folder/head" "$@"
  tr -d '\r' < "$folder/head" | grep -qx "Allow: $wanted" || fail "$step: its head is $(< "$folder/head")"
}

cp "$folder/journal" "$kept"
printf 'sblist 1 0000000000000001\nlist %s 4\nchange %s 1 0\n+%s\n' "$LIST" "$LIST" "$(hash_of bad.example/)" > "$folder/journal"
listed=http://bad.example/a/b.html
both=$(look_up "$listed" http://odd.example/)
serve 9
lists="http://127.0.0.1:$port/v4/threatLists"
matches="http://127.0.0.1:$port/v4/threatMatches:find"
expect_body "the names of the lists" '{"threatLists":[{"platformType":"ANY_PLATFORM","threatEntryType":"URL","threatType":"MALWARE"}]}' "$lists"
expect_body "a look-up of a URL whose host is listed, and of another" "$(match_of "$listed")" --data "$both" "$matches?key=a"
[ "$(bin/sblistd answer --journal "$folder/journal" --kind lookup <<< "$both")" = "$(< "$folder/body")" ] \
  || fail "sblistd answer prints another answer to a look-up"
expect_body "a look-up of a URL that is not listed" '{}' --data "$(look_up http://odd.example/)" "$matches"
printf 'change %s 1 1\n+%s\n-%s\n' "$LIST" "$(hash_of odd.example/)" "$(hash_of bad.example/)" >> "$folder/journal"
expect_body "a look-up of both after a change of the journal" "$(match_of http://odd.example/)" --data "$both" "$matches"
# shellcheck disable=SC2046
expect "a look-up of 501 URLs" 400 --data "$(look_up $(seq 501))" "$matches"
expect_allowed "GET of look-ups" POST "$matches"
expect_allowed "PUT of look-ups" POST --request PUT --data '{}' "$matches"
expect_allowed "POST to the names of the lists" GET --data '{}' "$lists"
expect_allowed "HEAD of the names of the lists" GET --head "$lists"
ended
cat > "$folder/wanted" <<'END'
connection 1 answered 200
connection 2 answered 200
connection 3 answered 200
connection 4 answered 200
connection 5 answered 400 too-many-items 501
connection 6 answered 405
connection 7 answered 405
connection 8 answered 405
connection 9 answered 405
END
diff "$folder/wanted" "$folder/printed" || fail "the server printed other lines for look-ups"
cp "$kept" "$folder/journal"

# ---- both requests of GNOME Web 43.1, at a server of three of its lists and at one of none

gnome_client='"client":{"clientId":"Epiphany","clientVersion":"43.1"}'
gnome_lists=(MALWARE/LINUX/URL SOCIAL_ENGINEERING/ANY_PLATFORM/URL UNWANTED_SOFTWARE/LINUX/URL MALWARE/LINUX/IP_RANGE)

# what GNOME Web sends for updates, with the states of its first lists. One that it does not hold has null
gnome_fetch() {
  local items= list threat platform entry state
  for list in "${gnome_lists[@]}"; do
    IFS=/ read -r threat platform entry <<< "$list"
    state=null
    [ $# -eq 0 ] || { state="\"$1\""; shift; }
    items+="${items:+,}{\"threatType\":\"$threat\",\"platformType\":\"$platform\",\"threatEntryType\":\"$entry\",\"state\":$state,"
    items+='"constraints":{"maxUpdateEntries":0,"maxDatabaseEntries":0,"region":null,"supportedCompressions":["RAW","RICE"]}}'
  done
  echo "{$gnome_client,\"listUpdateRequests\":[$items]}"
}

# what it sends for full hashes, with so many states, and null for the last list
gnome_find() {
  local states= state
  for state in "$@"; do states+="\"$state\","; done
  echo "{$gnome_client,\"clientStates\":[${states}null],\"threatInfo\":{\"threatTypes\":[\"MALWARE\",\"UNWANTED_SOFTWARE\",\"SOCIAL_ENGINEERING\"],\
\"platformTypes\":[\"LINUX\",\"ANY_PLATFORM\"],\"threatEntryTypes\":[\"URL\",\"IP_RANGE\"],\"threatEntries\":[{\"hash\":\"MTIzNA==\"}]},\"apiClient\":null}"
}

# the new states of the updates in the last answer, which is of these lists in this order and kind
states_of() {
  python3 - "$folder/body" "$@" << 'END' || fail "$1: the answer to GNOME Web is $(< "$folder/body")"
import json, sys
with open(sys.argv[1], encoding="ascii") as body:
    answer = json.load(body)
kind, names = sys.argv[2], sys.argv[3:]
items = answer.get("listUpdateResponses", [])
found = ["/".join(one[field] for field in ("threatType", "platformType", "threatEntryType")) for one in items]
if found != names or any(one["responseType"] != kind for one in items) or answer.get("minimumWaitDuration") != "1800s":
    sys.exit(1)
print(*(one["newClientState"] for one in items))
END
}

cp "$folder/journal" "$kept"
printf 'sblist 1 0000000000000001\n' > "$folder/journal"
printf 'list %s 4\n' "${gnome_lists[@]:0:3}" >> "$folder/journal"
printf 'change %s 1 0\n+%s\n' "${gnome_lists[0]}" "$(hash 31323334)" >> "$folder/journal"
serve_finds 3
expect "a first fetch of GNOME Web" 200 --header 'Content-Type: application/json' --data "$(gnome_fetch)" "$url?key=a"
states=$(states_of FULL_UPDATE "${gnome_lists[@]:0:3}") || fail "$states"
# shellcheck disable=SC2086
expect "its next fetch" 200 --header 'Content-Type: application/json' --data "$(gnome_fetch $states)" "$url?key=a"
[ "$(states_of PARTIAL_UPDATE "${gnome_lists[@]:0:3}")" = "$states" ] || fail "its next fetch: the answer is $(< "$folder/body")"
# shellcheck disable=SC2086
expect "a find of GNOME Web" 200 --header 'Content-Type: application/json' --data "$(gnome_find $states)" "$finds?key=a"
grep -q '"threat":{"hash":"MTIzNAAAAA' "$folder/body" || fail "a find of GNOME Web: its body is $(< "$folder/body")"
grep -q minimumWaitDuration "$folder/body" && fail "a find of GNOME Web: its answer holds finds back: $(< "$folder/body")"
ended
cp "$kept" "$folder/journal"
serve_finds 2
expect "a fetch of GNOME Web from a server of a list for any platform" 200 --data "$(gnome_fetch)" "$url"
[[ "$(< "$folder/body")" == *'"newClientState":"AQAAAAAAAAABAAAAAAAAAAIBBgE=","platformType":"LINUX"'*'"minimumWaitDuration":"1800s"}' ]] \
    || fail "a fetch for LINUX: its body is $(< "$folder/body")"
expect "a find of GNOME Web with no state" 200 --data "$(gnome_find)" "$finds"
ended

# ---- clients that stall

serve 4
sleep 1
( exec 3<> "/dev/tcp/127.0.0.1/$port" && printf 'POST /v4' >&3 && sleep 100 ) &
stalling=$!
sleep 1
start=$SECONDS
expect "a fetch behind a client that stalls" 200 --data "$request" "$url"
echo "  it waited $((SECONDS - start)) seconds"
kill "$stalling" 2> /dev/null
( exec 3<> "/dev/tcp/127.0.0.1/$port" && while printf 'x' >&3; do sleep 1; done ) 2> /dev/null &
slow=$!
sleep 1
start=$SECONDS
expect "a fetch behind a client that sends a byte a second" 200 --data "$request" "$url"
echo "  it waited $((SECONDS - start)) seconds"
kill "$slow" 2> /dev/null
ended
[ "$(grep -c 'answered 200' "$folder/printed")" = 2 ] || fail "the server printed $(< "$folder/printed")"

# ---- many connections

serve "$MANY"
sleep 1
answered=0
start=$SECONDS
for _ in $(seq "$MANY"); do
  [ "$(status_of --data "$request" "$url")" = 200 ] && answered=$((answered + 1))
done
[ "$answered" = "$MANY" ] || fail "$answered of $MANY connections were answered"
ended
echo "$MANY connections one after another, in $((SECONDS - start)) seconds"

# ---- connections without a number, at an address of eight groups

# the memory that the server holds, in kB
held() {
  awk '/^VmRSS/ { print $2 }' "/proc/$server/status"
}

# so many fetches, of which each has to be answered
fetches() {
  local answered=0
  for _ in $(seq "$1"); do
    [ "$(status_of --data "$request" "$url")" = 200 ] && answered=$((answered + 1))
  done
  [ "$answered" = "$1" ] || fail "$answered of $1 connections were answered"
}

serve ""
fetches 100
before=$(held)
fetches 2900
after=$(held)
kill -0 "$server" || fail "the server without a number of connections ended"
[ "$after" -le $((before + before / 100)) ] || fail "it held $before kB after 100 connections, and $after kB after 3000"
kill "$server"
wait "$server" 2> /dev/null
server=
echo "3000 connections of a server without a number: it held $before kB after 100 of them, and $after kB after the last"

port=$(free_port)
bin/sblistd serve --journal "$folder/journal" --listen "[::1]:$port" --connections 1 > "$folder/printed" &
server=$!
expect "a fetch at [::1]" 200 --data "$request" "http://[::1]:$port/v4/threatListUpdates:fetch"
ended

# ---- what the programs say on standard error before they end

# the line that stands on standard error, and nothing beside it
told() {
  [ "$(wc -l < "$folder/said")" = 1 ] && grep -qF -- "$2" "$folder/said" || fail "$1: it said: $(< "$folder/said")"
  echo "$1: $(sed "s#$folder/##" "$folder/said")"
}

# runs a program that ends with a status and says a line
ends() {
  local step=$1 wanted=$2 line=$3 status
  shift 3
  timeout 20 "$@" < /dev/null 2> "$folder/said"
  status=$?
  [ "$status" = "$wanted" ] || fail "$step: status $status in place of $wanted"
  told "$step" "$line"
}

# a server that answers a fetch, and whose journal is changed before the next
changed() {
  local step=$1 line=$2 status
  shift 2
  cp "$folder/first" "$folder/journal"
  serve 9 2> "$folder/said"
  expect "a fetch before the journal $step" 200 --data "$request" "$url"
  "$@"
  curl --silent --max-time 10 --output "$folder/body" --data "$request" "$url"
  wait "$server"
  status=$?
  server=
  [ "$status" = 2 ] || fail "the journal $step: status $status in place of 2"
  told "the journal $step" "$line"
}

cp "$folder/journal" "$folder/first"
{ cat "$folder/first"; sed 1,2d "$folder/first"; } > "$folder/longer"
sed 's/31323334/41424344/' "$folder/longer" > "$folder/another"
port=$(free_port)
listen=(--listen "127.0.0.1:$port" --connections 1)
ends "no journal" 2 "cannot be opened: No such file or directory" bin/sblistd serve --journal "$folder/absent" "${listen[@]}"
ends "a folder as journal" 2 "is no regular file" bin/sblistd serve --journal "$folder" "${listen[@]}"
changed "is cut" "is shorter than what was read of it" truncate --size=-1 "$folder/journal"
changed "is replaced" "was replaced by another file" mv "$folder/longer" "$folder/journal"
changed "is copied over" "has other text where it was read" cp "$folder/another" "$folder/journal"
cp "$folder/first" "$folder/journal"
serve 1
sleep 1
ends "a port in use" 9 "cannot be had: Address already in use" \
  bin/sblistd serve --journal "$folder/absent" --listen "127.0.0.1:$port" --connections 1
expect "a fetch from the one that has it" 200 --data "$request" "$url"
ended
ends "an address of another machine" 9 "cannot be had: Cannot assign requested address" \
  bin/sblistd serve --journal "$folder/journal" --listen 192.0.2.1:8080 --connections 1
answer=(bin/sblistd answer --journal "$folder/journal" --kind fetch)
printf '%s' "$request" > "$folder/request"
ends "a closed output" 3 "standard output cannot be written: Bad file descriptor" \
  bash -c 'exec "${@:2}" < "$1" >&-' - "$folder/request" "${answer[@]}"
ends "a full output" 3 "standard output cannot be written: No space left on device" \
  bash -c 'exec "${@:2}" < "$1" > /dev/full' - "$folder/request" "${answer[@]}"
ends "a journal as store" 4 "does not begin as one" \
  bin/sbupdate run --store "$folder/journal" --server 127.0.0.1:1 --rounds 1 "$LIST"
cmp "$folder/first" "$folder/journal" || fail "the journal was changed"
[ ! -e "$folder/journal.lock" ] || fail "the journal has a lock"

# ---- words that ask about a program, and a quiet run

version=$(sed -n 's/^## \[\([0-9.]*\)\].*/\1/p' CHANGELOG.md | head -1)
for program in sbupdate sbcheck sblistd sbjournal sbmirror sbproxy; do
  [ "$("bin/$program" --version)" = "$program $version" ] || fail "the version of $program is $("bin/$program" --version)"
  [ "$("bin/$program" --help | head -1)" = "usage: $program COMMAND" ] || fail "$program --help prints $("bin/$program" --help)"
  "bin/$program" -h > "$folder/help" || fail "$program -h ended with status $?"
  cmp -s "$folder/help" <("bin/$program" --help) || fail "-h and --help of $program differ"
done
echo "each program tells its version, $version, and its usage"
ends "a version that cannot be written" 3 "standard output cannot be written: No space left on device" \
  bash -c 'exec "$@" > /dev/full' - bin/sblistd --version
port=$(free_port)
bin/sblistd serve --journal "$folder/journal" --listen "127.0.0.1:$port" --connections 2 --quiet > "$folder/printed" &
server=$!
expect "a fetch from a quiet server" 200 --data "$request" "http://127.0.0.1:$port/v4/threatListUpdates:fetch"
expect "what it has no answer to" 404 "http://127.0.0.1:$port/other"
ended
[ ! -s "$folder/printed" ] || fail "a quiet server printed $(< "$folder/printed")"
