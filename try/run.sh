#!/usr/bin/env bash
# Kills clients in mid-run. The built sblistd serves a journal that grows, with no wait between rounds, and 50 built clients run
# beside each other over loopback, each with a store of its own. Each is ended by SIGKILL, SIGTERM or SIGINT, by turns, at a seeded
# moment, from its start to after its last save: every other within 75 seconds of its start, and the others soon after their first round. Then the next
# run of each has to read its store or name why not, and to end with the server's set.
#
# A client waits up to 60 seconds before its first request, at random. So the clients are killed within 75 seconds, and the
# next runs take up to 60. Then what is not one of the gate's tests: pipes in the place of files, closed descriptors, two clients
# with one store, a file that appears at the path of a store, and when a store is flushed, which takes up to two minutes more:
# together less than five minutes.
set -u
cd "$(dirname "$0")/.." || exit 1
source try/common.sh

readonly LIST=MALWARE/ANY_PLATFORM/URL
readonly CLIENTS=50
readonly ROUNDS=(3 1024) # of every other client
readonly LATEST=75000 # milliseconds from the start within which a client of few rounds is killed
readonly SOON=1500 # milliseconds from its first round within which one of many is
readonly SIGNALS=(KILL TERM INT) # by turns
readonly SEED=20
folder=$(mktemp -d)
started=()
trap 'kill "${started[@]}" 2> /dev/null; rm -rf "$folder"' EXIT

# the next of the numbers that the seed gives: below its argument, into `drawn`
state=$SEED
draw() {
  state=$((state * 6364136223846793005 + 1442695040888963407))
  drawn=$((((state >> 33) & 0x3fffffff) % $1))
}

# ---- the server: version V of its list has counts[V] prefixes

version=0
counts=(0)
# appends one change: a host comes, and with every third one the host before it goes
grow() {
  local gone=
  version=$((version + 1))
  counts[version]=$((counts[version - 1] + 1))
  if [ $((version % 3)) = 0 ]; then
    gone="-$(hash_of "h$((version - 1)).example/")"$'\n'
    counts[version]=$((counts[version] - 1))
  fi
  printf 'change %s 1 %s\n+%s\n%s' "$LIST" "$([ -n "$gone" ] && echo 1 || echo 0)" \
    "$(hash_of "h$version.example/")" "$gone" >> "$folder/journal"
}

printf 'sblist 1 %016x\nlist %s 4\n' 1 "$LIST" > "$folder/journal"
for _ in $(seq 20); do grow; done
port=$(free_port)
bin/sblistd serve --journal "$folder/journal" --listen "127.0.0.1:$port" --connections 1000000 --wait 0 > "$folder/printed" &
started+=($!)
sleep 1

# ---- the clients, each killed at its moment

client() {
  local number=$1 moment=$2 pid
  # a shell has its background programs ignore SIGINT
  env --default-signal=INT bin/sbupdate run --store "$folder/store-$number" --server "127.0.0.1:$port" --rounds "${ROUNDS[number % 2]}" \
    "$LIST" > "$folder/first-$number" &
  pid=$!
  if [ $((number % 2)) = 1 ]; then
    while [ ! -s "$folder/first-$number" ] && kill -0 "$pid" 2> /dev/null; do sleep 0.05; done
    moment=$((moment % SOON))
  fi
  sleep "$(printf '%d.%03d' $((moment / 1000)) $((moment % 1000)))"
  kill "-${SIGNALS[number % 3]}" "$pid" 2> /dev/null
  wait "$pid"
  echo $? > "$folder/status-$number"
}

start=$SECONDS
for number in $(seq "$CLIENTS"); do
  draw "$LATEST"
  client "$number" "$drawn" 2> /dev/null &
  clients[number]=$!
done
while [ $((SECONDS - start)) -le $((LATEST / 1000)) ]; do
  grow
  sleep 0.5
done
wait "${clients[@]}"
waiting=0 within=0 ended=0
for number in $(seq "$CLIENTS"); do
  if [ "$(< "$folder/status-$number")" -le 128 ]; then
    ended=$((ended + 1))
  elif [ -s "$folder/first-$number" ]; then
    within=$((within + 1))
  else
    waiting=$((waiting + 1))
  fi
done
echo "$CLIENTS clients: $waiting killed before their first round, $within in mid-run, $ended after their last save"

# ---- the store that each left, seen by a run that reaches no server, and the next run of each

# a store whose end is lacking is no store: every tenth is cut
cut=0
for number in $(seq 10 10 "$CLIENTS"); do
  if [ -e "$folder/store-$number" ]; then
    truncate --size=-1 "$folder/store-$number"
    cut=$((cut + 1))
  fi
done

runs=()
for number in $(seq "$CLIENTS"); do
  if [ -e "$folder/store-$number" ]; then
    cp "$folder/store-$number" "$folder/copy-$number"
    bin/sbupdate run --store "$folder/copy-$number" --server 127.0.0.1:1 --rounds 1 "$LIST" > "$folder/kept-$number" &
    runs+=($!)
    started+=($!)
  fi
done
start=$SECONDS
for number in $(seq "$CLIENTS"); do
  bin/sbupdate run --store "$folder/store-$number" --server "127.0.0.1:$port" --rounds 1 "$LIST" > "$folder/next-$number" &
  next[number]=$!
  started+=($!)
done
wanted="list $LIST ${counts[version]} $(printf '01%016x%016x010601' 1 "$version")"
for number in $(seq "$CLIENTS"); do
  wait "${next[number]}" || fail "the next run of client $number ended with status $?: $(< "$folder/next-$number")"
  [ "$(tail -n 1 "$folder/next-$number")" = "$wanted" ] || fail "the next run of client $number ended otherwise: $(< "$folder/next-$number")"
done
took=$((SECONDS - start))
[ "${#runs[@]}" = 0 ] || wait "${runs[@]}"

without=0 read=0 named=0
for number in $(seq "$CLIENTS"); do
  if [ ! -e "$folder/copy-$number" ]; then
    without=$((without + 1))
  elif grep '^store ignored: ' "$folder/next-$number" > "$folder/cause"; then
    named=$((named + 1))
  else
    # what was read is the server's list at the version that its token names
    line=$(tail -n 1 "$folder/kept-$number")
    token=${line##* }
    at=$((16#${token:18:16}))
    [ "$line" = "list $LIST ${counts[at]-none} $(printf '01%016x%016x010601' 1 "$at")" ] ||
      fail "client $number kept what the server never had: $(< "$folder/kept-$number")"
    read=$((read + 1))
  fi
done
[ "$named" -ge "$cut" ] || fail "$named of $cut stores that were cut are named"
echo "the next runs, within $took seconds: $read read a store, $named named why it is none, $without had none yet"
echo "  $cut stores were cut by hand; each store that was read is the server's list at the version of its token"
echo "all $CLIENTS end with the server's newest set:"
echo "  $wanted"

# ---- pipes, and descriptors that are closed at the start

# runs a program that ends with a status and says a line, and waits for nothing
ends() {
  local step=$1 wanted=$2 line=$3 status
  shift 3
  timeout 20 "$@" > "$folder/out" 2> "$folder/said"
  status=$?
  [ "$status" = "$wanted" ] || fail "$step: status $status in place of $wanted"
  [ -z "$line" ] || grep -qF -- "$line" "$folder/said" || fail "$step: it said: $(< "$folder/said")"
  echo "$step: ${line:-as ever}"
}

mkfifo "$folder/pipe"
answer=(bin/sblistd answer --journal "$folder/journal" --kind fetch)
run=(bin/sbupdate run --server "127.0.0.1:$port" --rounds 1)
request='{"listUpdateRequests":[{"threatType":"MALWARE","platformType":"ANY_PLATFORM","threatEntryType":"URL"}]}'
printf '%s' "$request" > "$folder/request"
ends "a pipe as journal" 2 "is no regular file" bin/sblistd answer --journal "$folder/pipe" --kind fetch
ends "a pipe as store" 4 "is no regular file" "${run[@]}" --store "$folder/pipe" "$LIST"
ends "a closed input" 2 "standard input cannot be read: Bad file descriptor" bash -c 'exec "$@" <&-' - "${answer[@]}"
ends "a closed output" 3 "standard output cannot be written: Bad file descriptor" \
  bash -c 'exec "${@:2}" < "$1" >&-' - "$folder/request" "${answer[@]}"
ends "a closed standard error" 0 "" bash -c 'exec "${@:2}" < "$1" 2>&-' - "$folder/request" "${answer[@]}"
ends "all closed" 2 "" bash -c 'exec "$@" <&- >&- 2>&-' - "${answer[@]}"

# ---- two clients with one store, and a file that appears at its path

"${run[@]}" --store "$folder/one" "$LIST" > "$folder/first-one" 2> "$folder/said-one" &
first=$!
started+=("$first")
sleep 1
ends "a second client with one store" 4 "is held by another program" "${run[@]}" --store "$folder/one" "$LIST"
"${run[@]}" --store "$folder/late" "$LIST" > "$folder/first-late" 2> "$folder/said-late" &
late=$!
started+=("$late")
sleep 1
cp "$folder/journal" "$folder/late"
wait "$first" || fail "the first client with one store ended with status $?: $(< "$folder/said-one")"
wait "$late"
status=$?
[ "$status" = 4 ] || fail "a journal that appears at the path of a store: status $status in place of 4"
grep -qF "does not begin as one" "$folder/said-late" || fail "a journal that appears: it said: $(< "$folder/said-late")"
cmp "$folder/journal" "$folder/late" || fail "a journal that appeared at the path of a store was replaced"
echo "a journal that appears at the path of a store stays"

# ---- a server that is ended while it hears a request and while a client does not take its answer

for signal in TERM INT; do
  port_of_ended=$(free_port)
  env --default-signal=INT bin/sblistd serve --journal "$folder/journal" --listen "127.0.0.1:$port_of_ended" > "$folder/printed-ended" &
  ended=$!
  started+=("$ended")
  for _ in $(seq 100); do
    exec 3<> "/dev/tcp/127.0.0.1/$port_of_ended" && break
    sleep 0.05
  done 2> /dev/null
  exec 4<> "/dev/tcp/127.0.0.1/$port_of_ended"
  printf 'POST /v4/threatListUpdates:fetch HTTP/1.1\r\nContent-Length: 100\r\n\r\n{' >&3
  printf 'POST /v4/threatListUpdates:fetch HTTP/1.1\r\nContent-Length: %d\r\n\r\n%s' "${#request}" "$request" >&4
  sleep 0.3
  kill "-$signal" "$ended"
  begun=$SECONDS
  wait "$ended"
  status=$?
  [ "$status" -gt 128 ] || fail "a server that SIG$signal ends: status $status"
  [ $((SECONDS - begun)) -le 1 ] || fail "a server that SIG$signal ends took $((SECONDS - begun)) seconds"
  [ -z "$(timeout 5 cat <&3)" ] || fail "a request that was not whole had an answer"
  timeout 5 cat <&4 > "$folder/answer" || fail "the connection of a server that was ended stays"
  exec 3>&- 4>&-
  [ ! -s "$folder/answer" ] || head -n 1 "$folder/answer" | grep -q '^HTTP/1.1 200 ' || fail "it answered: $(< "$folder/answer")"
  echo "a server that SIG$signal ends is gone at once, and its connections are cut"
done

# ---- a store is flushed before and after it is renamed

if ! command -v strace > /dev/null; then
  echo "try-run: strace is not installed, so when a store is flushed was not seen"
  exit 0
fi
strace -f -o "$folder/trace" -e trace=fsync,rename,renameat,renameat2 "${run[@]}" --store "$folder/traced" "$LIST" > "$folder/out" ||
  fail "the client under strace ended with status $?"
calls=$(grep -oE '(fsync|rename)' "$folder/trace" | tr '\n' ' ')
[ "$calls" = "fsync rename fsync " ] || fail "a store is replaced by $calls"
echo "a store is flushed, renamed, and its folder is flushed"
