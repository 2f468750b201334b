#!/usr/bin/env bash
# Judges URLs against the built sblistd over loopback, with no wait between finds, by the lists that the built sbupdate keeps: one
# that is listed, one of which the prefix alone is listed, one that was removed, one that never was, and a line that is none.
#
# sbupdate waits up to 60 seconds before its first request, at random, and so does sbcheck before its first find: together up to
# two minutes.
set -u
cd "$(dirname "$0")/.." || exit 1
source try/common.sh

readonly LIST=MALWARE/ANY_PLATFORM/URL
folder=$(mktemp -d)
started=()
trap 'kill "${started[@]}" 2> /dev/null; rm -rf "$folder"' EXIT

# judges the lines of its input: the report into `report`, and the status into `status`
judge() {
  report=$(bin/sbcheck judge --store "$folder/store" --server "127.0.0.1:$port" "$@" "$LIST" 2> "$folder/said")
  status=$?
}

# sees that the last report and its status are these
is() {
  local step=$1 wanted=$2
  [ "$status" = "$wanted" ] || fail "$step: status $status in place of $wanted: $report $(< "$folder/said")"
  [ "$report" = "$3" ] || fail "$step: it printed: $report"
  echo "$step: status $status"
}

# ---- a list with bad.example/, with the prefix of odd.example/, and once with gone.example/

odd=$(hash_of odd.example/)
{
  printf 'sblist 1 %016x\nlist %s 4\n' 1 "$LIST"
  printf 'change %s 3 0\n+%s\n+%s\n+%s%056d\n' "$LIST" "$(hash_of bad.example/)" "$(hash_of gone.example/)" "${odd:0:8}" 0
  printf 'change %s 0 1\n-%s\n' "$LIST" "$(hash_of gone.example/)"
} > "$folder/journal"
port=$(free_port)
bin/sblistd serve --journal "$folder/journal" --listen "127.0.0.1:$port" > "$folder/printed" &
started+=($!)
sleep 1
bin/sbupdate run --store "$folder/store" --server "127.0.0.1:$port" --rounds 1 "$LIST" > "$folder/run" ||
  fail "the run that keeps the list ended with status $?: $(< "$folder/run")"
cp "$folder/store" "$folder/kept"

# ---- verdicts

urls='http://bad.example/a/b.html
http://odd.example
http://gone.example/
fine.example
http:///x'
judge <<< "$urls"
is "URLs that are judged" 20 "1 unsafe 0 $LIST http://bad.example/a/b.html
2 safe 0 http://odd.example/
3 safe 0 http://gone.example/
4 safe 0 http://fine.example/
5 refused no-host
checked 5: 3 safe, 1 unsafe, 0 undecided, 1 refused"
grep -c answered "$folder/printed" | grep -qx 3 || fail "three connections were to be answered: $(< "$folder/printed")"
cmp "$folder/kept" "$folder/store" || fail "a run that judges changed the store"

judge --patience 0 <<< "http://gone.example/"
is "a URL that begins no session" 0 "1 safe 0 http://gone.example/
checked 1: 1 safe, 0 unsafe, 0 undecided, 0 refused"
judge --patience 0 < /dev/null
is "no URL" 0 "checked 0: 0 safe, 0 unsafe, 0 undecided, 0 refused"

truncate --size=30 "$folder/store"
judge --patience 0 <<< "http://bad.example/"
is "a store that is cut" 0 "store ignored: shape 30
1 safe 0 http://bad.example/
checked 1: 1 safe, 0 unsafe, 0 undecided, 0 refused"
[ "$(stat -c %s "$folder/store")" = 30 ] || fail "a run that judges replaced a store"

cp "$folder/journal" "$folder/store"
judge --patience 0 <<< "http://bad.example/"
is "a file that is no store" 4 ""
grep -qF "does not begin as one" "$folder/said" || fail "a file that is no store: it said: $(< "$folder/said")"
