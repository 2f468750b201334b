#!/usr/bin/env bash
# Makes lists of small feeds that it writes itself, by deploy/sync-feed with the filters of docs/FEEDS.md, from the download to the
# verdict of a client: URLs with comments and CR LF, a hosts file, CSV and domains. Then a feed that lost a line and got one, one
# that is empty, one with a line that is no URL, two runs at once, an append that was killed, a journal with little room, which is
# told anew, and a list that is full, of which a feed replaces half.
#
# sbupdate waits up to 60 seconds before its first request, at random, and so does sbcheck before its first find: together up to
# three minutes.
set -u
cd "$(dirname "$0")/.." || exit 1
source try/common.sh

for tool in curl flock python3; do
  command -v "$tool" > /dev/null || { echo "try-feeds: $tool is not installed, so nothing was tried"; exit 0; }
done

readonly URLS=MALWARE/ANY_PLATFORM/URL HOSTS=UNWANTED_SOFTWARE/ANY_PLATFORM/URL
readonly CSV=SOCIAL_ENGINEERING/ANY_PLATFORM/URL DOMAINS=POTENTIALLY_HARMFUL_APPLICATION/ANY_PLATFORM/URL
folder=$(mktemp -d)
journal=$folder/lists
started=()
trap 'kill "${started[@]}" 2> /dev/null; rm -rf "$folder"' EXIT
export PATH="$PWD/bin:$PATH"

# one sync: what it printed into `said`, and its status into `status`
sync_feed() {
  said=$(deploy/sync-feed "$journal" "$@" 2>&1)
  status=$?
}

# sees that the last sync ended with a status and printed a text, of which * stands for anything
is() {
  local step=$1 wanted=$2
  [ "$status" = "$wanted" ] || fail "$step: status $status in place of $wanted: $said"
  # shellcheck disable=SC2053
  [[ "$said" = $3 ]] || fail "$step: it printed: $said"
  echo "$step: status $status"
}

# ---- feeds, each as its publisher writes it

mkdir "$folder/feeds"
printf '# URLs that were reported\r\n\r\nhttp://a.example/x.exe\r\nhttp://A.example:80/y/../z.exe\r\n' > "$folder/feeds/urls"
printf '# hosts\n127.0.0.1 localhost\n0.0.0.0 0.0.0.0\n0.0.0.0 ads.b.example\n0.0.0.0 track.b.example\n' > "$folder/feeds/hosts"
printf 'id,url,verified\n7,http://c.example/login?next=1,yes\n8,"http://d.example/a,b",yes\n' > "$folder/feeds/csv"
printf 'e.example\nf.example\n' > "$folder/feeds/domains"
web=$(free_port)
python3 -m http.server --bind 127.0.0.1 --directory "$folder/feeds" "$web" > /dev/null 2>&1 &
started+=($!)
sleep 1

sbjournal new "$URLS" "$HOSTS" "$CSV" "$DOMAINS" > "$journal" || fail "no journal was made"
readonly HOSTS_FILTER='awk '\''$1 == "0.0.0.0" && $2 != "0.0.0.0" { print $2 }'\'
readonly CSV_FILTER='python3 -c '\''import csv, sys; [print(row[1]) for row in list(csv.reader(sys.stdin))[1:]]'\'
for filter in "$HOSTS_FILTER" "$CSV_FILTER"; do
  grep -qF "\`$filter\`" docs/FEEDS.md || fail "docs/FEEDS.md has another filter than $filter"
done
sync_feed "$URLS" "http://127.0.0.1:$web/urls"
is "URLs with comments" 0 "*: 2 came, 0 went; 1 changes, 65535 left; 2 hash lines, 2097150 left; 0 bytes *"
sync_feed "$HOSTS" "http://127.0.0.1:$web/hosts" "$HOSTS_FILTER"
is "a hosts file" 0 "*: 2 came, 0 went; 2 changes, *"
sync_feed "$CSV" "http://127.0.0.1:$web/csv" "$CSV_FILTER"
is "CSV" 0 "*: 2 came, 0 went; 3 changes, *"
sync_feed "$DOMAINS" "http://127.0.0.1:$web/domains"
is "domains" 0 "*: 2 came, 0 went; 4 changes, *"
sync_feed "$DOMAINS" "http://127.0.0.1:$web/domains"
is "the same feed again" 0 "*: nothing is new"
printf 'f.example\ng.example\n' > "$folder/feeds/domains"
sync_feed "$DOMAINS" "http://127.0.0.1:$web/domains"
is "a feed that changed" 0 "*: 1 came, 1 went; 5 changes, *"

# ---- what stops an import

before=$(sha256sum < "$journal")
: > "$folder/feeds/none"
sync_feed "$URLS" "http://127.0.0.1:$web/none"
is "a feed that is empty" 21 "*nothing is appended*empty"
printf 'http://a.example/x.exe\nhttp:///\n' > "$folder/feeds/bad"
sync_feed "$URLS" "http://127.0.0.1:$web/bad"
is "a line that is no URL" 21 "*nothing is appended*2 refused no-host"
sync_feed MALWARE/LINUX/URL "http://127.0.0.1:$web/urls"
is "a list that the journal does not declare" 7 "*nothing is appended*journal unknown-list"
sync_feed "$URLS" "http://127.0.0.1:$web/absent"
[ "$status" != 0 ] || fail "a feed that is absent was taken: $said"
echo "a feed that is absent: status $status"
[ "$(sha256sum < "$journal")" = "$before" ] || fail "a sync that was refused changed the journal"

# ---- verdicts of a client

port=$(free_port)
bin/sblistd serve --journal "$journal" --listen "127.0.0.1:$port" --hold > "$folder/printed" &
started+=($!)
sleep 1
bin/sbupdate run --store "$folder/store" --server "127.0.0.1:$port" --rounds 1 "$URLS" "$HOSTS" "$CSV" "$DOMAINS" > "$folder/run" ||
  fail "the run that keeps the lists ended with status $?: $(< "$folder/run")"
urls='http://a.example/z.exe
http://a.example/
https://ads.b.example/banner
c.example/login?next=1
d.example/a,b
www.f.example/any/page
e.example'
report=$(bin/sbcheck judge --store "$folder/store" --server "127.0.0.1:$port" "$URLS" "$HOSTS" "$CSV" "$DOMAINS" 2> "$folder/said" <<< "$urls")
[ "$?" = 20 ] || fail "the verdicts: $report $(< "$folder/said")"
[ "$report" = "1 unsafe 0 $URLS http://a.example/z.exe
2 safe 0 http://a.example/
3 unsafe 0 $HOSTS https://ads.b.example/banner
4 unsafe 0 $CSV http://c.example/login?next=1
5 unsafe 0 $CSV http://d.example/a,b
6 unsafe 0 $DOMAINS http://www.f.example/any/page
7 safe 0 http://e.example/
checked 7: 2 safe, 5 unsafe, 0 undecided, 0 refused" ] || fail "the verdicts: $report"
echo "verdicts of a client: status 20"

# ---- two runs at once, and an append that was killed

(
  exec 9> "$journal.lock"
  flock 9
  sleep 3
) &
sleep 1
sync_feed "$DOMAINS" "http://127.0.0.1:$web/domains"
is "a run beside another" 75 "*another run is at *"
wait "$!"
printf 'change %s 1 0\n+12' "$DOMAINS" >> "$journal"
printf 'h.example\n' > "$folder/feeds/domains"
sync_feed "$DOMAINS" "http://127.0.0.1:$web/domains"
is "an append that was killed" 7 "*nothing is appended*journal line *"
rest=$(sbjournal check < "$journal" | sed -n 's/.*; \([0-9]*\) bytes of a record that has not ended$/\1/p')
truncate --size="-$rest" "$journal"
sync_feed "$DOMAINS" "http://127.0.0.1:$web/domains"
is "the same once the front of the record was cut off" 0 "*: 1 came, 2 went; 6 changes, *"

# ---- a journal with little room

sbjournal new "$DOMAINS" > "$folder/full"
python3 - "$DOMAINS" >> "$folder/full" <<'END'
import hashlib, sys
for number in range(59_000):
    digest = hashlib.sha256(b"n%d.example/" % (number // 2)).hexdigest()
    print(f"change {sys.argv[1]} {'1 0' if number % 2 == 0 else '0 1'}\n{'+' if number % 2 == 0 else '-'}{digest}")
END
journal=$folder/full
sync_feed "$DOMAINS" "http://127.0.0.1:$web/domains"
is "a journal with little room" 0 "*1 came, 0 went; 59001 changes, 6535 left; *less than a tenth*"

# ---- the same journal told anew: the server ends as it is replaced, and a client of the new one has the same verdicts

port=$(free_port)
bin/sblistd serve --journal "$journal" --listen "127.0.0.1:$port" > "$folder/printed" 2> "$folder/said" &
server=$!
sleep 1
flock "$journal.lock" sh -c 'sbjournal compact < "$1" > "$1.new" && mv "$1.new" "$1"' sh "$journal" || fail "the journal was not told anew"
[ "$(sbjournal check < "$journal")" = "$DOMAINS 4, 1 hashes, 1 prefixes
1 changes, 65535 left; 1 hash lines, 2097151 left; 0 bytes of a record that has not ended" ] || fail "told anew: $(sbjournal check < "$journal")"
curl --silent --max-time 10 "http://127.0.0.1:$port/v4/threatLists" > /dev/null
wait "$server"
[ "$?" = 2 ] || fail "the server of a journal that was replaced: $(< "$folder/said")"
bin/sblistd serve --journal "$journal" --listen "127.0.0.1:$port" > "$folder/printed" &
started+=($!)
sleep 1
bin/sbupdate run --store "$folder/anew" --server "127.0.0.1:$port" --rounds 1 "$DOMAINS" > "$folder/run" ||
  fail "the run of a journal that was told anew ended with status $?: $(< "$folder/run")"
report=$(bin/sbcheck judge --store "$folder/anew" --server "127.0.0.1:$port" "$DOMAINS" 2> "$folder/said" <<< 'h.example/a')
[ "$report" = "1 unsafe 0 $DOMAINS http://h.example/a
checked 1: 0 safe, 1 unsafe, 0 undecided, 0 refused" ] || fail "the verdict over a journal that was told anew: $report"
sync_feed "$DOMAINS" "http://127.0.0.1:$web/domains"
is "a journal that was told anew" 0 "*: nothing is new"

# ---- a list that is full: removals make the room that additions need, up to the last hash line

sbjournal new "$DOMAINS" > "$folder/whole"
journal=$folder/whole
seq -f 'n%.0f.example' 1 1048576 > "$folder/feeds/many"
sync_feed "$DOMAINS" "http://127.0.0.1:$web/many"
is "1,048,576 domains" 0 "*: 1048576 came, 0 went; 1024 changes, *; 1048576 hash lines, 1048576 left; *"
seq -f 'n%.0f.example' 524289 1572864 > "$folder/feeds/many"
sync_feed "$DOMAINS" "http://127.0.0.1:$web/many"
is "half of them others" 0 "*: 524288 came, 524288 went; 2048 changes, *; 2097152 hash lines, 0 left; *less than a tenth*"
sbjournal compact < "$journal" > "$folder/lasting" || fail "a full journal was not told anew"
cmp -s <(sbjournal check < "$journal" | head -n 1) <(sbjournal check < "$folder/lasting" | head -n 1) || fail "a full journal told anew: $(sbjournal check < "$folder/lasting")"
journal=$folder/lasting
sync_feed "$DOMAINS" "http://127.0.0.1:$web/many"
is "the same once the journal was told anew" 0 "*: nothing is new"
seq -f 'n%.0f.example' 1 1048577 > "$folder/feeds/many"
sync_feed "$DOMAINS" "http://127.0.0.1:$web/many"
is "one domain too many" 7 "*nothing is appended*journal too-many *"
