#!/usr/bin/env bash
# Puts nginx with deploy/nginx-server.conf before a built sblistd, and nginx with deploy/nginx-client.conf before the client
# programs, with a certificate of its own: a run, a find, what is too long, readers and senders that are slow, more connections
# than one peer may have, a server that is away and comes back, and a root that is not trusted. Prints a line for each step, and
# ends with status 1 at the first that is not as it should be.
#
# sbupdate waits up to 60 seconds before its first request, at random, and so does sbcheck before its first find: up to three
# minutes.
set -u
cd "$(dirname "$0")/.." || exit 1
source try/common.sh
PATH=$PATH:/usr/sbin

for tool in nginx openssl curl; do
  command -v "$tool" > /dev/null || { echo "try-front: $tool is not installed, so nothing was tried"; exit 0; }
done

readonly LIST=MALWARE/ANY_PLATFORM/URL NAME=lists.example HOSTS=${HOSTS:-60000}
folder=$(mktemp -d)
started=()
trap 'kill "${started[@]}" 2> /dev/null; wait 2> /dev/null; rm -rf "$folder"' EXIT

fail() {
  echo "try-front: $1"
  [ -s "$folder/nginx.log" ] && tail -n 3 "$folder/nginx.log"
  exit 1
}

# ---- certificates, and what runs

# a root of this name, and a certificate for the server from it
certify() {
  openssl req -x509 -newkey ec -pkeyopt ec_paramgen_curve:prime256v1 -nodes -days 2 -subj "/CN=$1" \
    -keyout "$folder/$1.key" -out "$folder/$1.crt" 2> /dev/null || fail "openssl makes no root"
  openssl req -newkey ec -pkeyopt ec_paramgen_curve:prime256v1 -nodes -subj "/CN=$NAME" \
    -keyout "$folder/$1-server.key" -out "$folder/request" 2> /dev/null || fail "openssl makes no key"
  printf 'subjectAltName=DNS:%s\n' "$NAME" > "$folder/names"
  openssl x509 -req -in "$folder/request" -CA "$folder/$1.crt" -CAkey "$folder/$1.key" -CAcreateserial -days 2 \
    -extfile "$folder/names" -out "$folder/$1-server.crt" 2> /dev/null || fail "openssl makes no certificate"
}

# nginx with a file of deploy/, in which these words of sed put other ports and paths
front() {
  local name=$1 file=$2
  shift 2
  mkdir "$folder/$name"
  sed "$@" "deploy/$file" > "$folder/$name/front.conf"
  settings_of_nginx "$folder/$name" "$folder/nginx.log" "$folder/$name/front.conf" 'daemon off; ' > "$folder/$name/nginx.conf"
  nginx -q -t -c "$folder/$name/nginx.conf" 2> "$folder/said" || fail "nginx does not take deploy/$file: $(< "$folder/said")"
  nginx -c "$folder/$name/nginx.conf" 2> /dev/null &
  started+=($!)
}

serve() {
  bin/sblistd serve --journal "$folder/journal" --listen "127.0.0.1:$plain" >> "$folder/printed" &
  server=$!
  started+=("$server")
}


# the status that a request to a path is answered with
expect() {
  local step=$1 wanted=$2 path=$3 found
  shift 3
  found=$(curl "${known[@]}" --output "$folder/body" --write-out '%{http_code}' "$@" "https://$NAME:$tls/v4/$path")
  [ "$found" = "$wanted" ] || fail "$step: $found in place of $wanted"
  echo "$step: $found"
}

# how many connections the server has told of
told() {
  wc -l < "$folder/printed"
}

certify own
certify other
plain=$(free_port)
tls=$(free_port)
client=$(free_port)
doubting=$(free_port)
# the front is asked by the name that its certificate has
known=(--silent --cacert "$folder/own.crt" --resolve "$NAME:$tls:127.0.0.1" --max-time 60)
bin/sbjournal new "$LIST" > "$folder/journal" || fail "no journal was made"
{ echo bad.example; for number in $(seq "$HOSTS"); do echo "n$number.example"; done; } |
  bin/sbjournal sync "$LIST" --journal "$folder/journal" > "$folder/change" || fail "no change was made"
cat "$folder/change" >> "$folder/journal"
: > "$folder/printed"
serve
front server nginx-server.conf -e "s#listen 443#listen 127.0.0.1:$tls#; s#listen \[::\]:443#listen [::1]:$tls#" \
  -e "s#127.0.0.1:8080#127.0.0.1:$plain#" -e "s#/var/log/nginx/#$folder/#" -e "s#/etc/nginx/$NAME#$folder/own-server#"
front client nginx-client.conf -e "s#127.0.0.1:8090#127.0.0.1:$client#; s#https://$NAME#https://127.0.0.1:$tls#" \
  -e "s#/etc/ssl/certs/ca-certificates.crt#$folder/own.crt#"
front doubting nginx-client.conf -e "s#127.0.0.1:8090#127.0.0.1:$doubting#; s#https://$NAME#https://127.0.0.1:$tls#" \
  -e "s#/etc/ssl/certs/ca-certificates.crt#$folder/other.crt#"
sleep 2

# ---- a client of a root that is not trusted runs beside the other

bin/sbupdate run --store "$folder/none" --server "127.0.0.1:$doubting" --rounds 1 "$LIST" > "$folder/refused" 2>&1 &
doubter=$!
bin/sbupdate run --store "$folder/store" --server "127.0.0.1:$client" --rounds 1 "$LIST" > "$folder/run" ||
  fail "a run over TLS ended with status $?: $(< "$folder/run")"
grep -q "^round 1 $LIST installed $((HOSTS + 1))$" "$folder/run" || fail "a run over TLS: $(< "$folder/run")"
echo "a run over TLS: status 0"
report=$(bin/sbcheck judge --store "$folder/store" --server "127.0.0.1:$client" "$LIST" <<< http://bad.example/a)
[ "$?" = 20 ] || fail "a find over TLS: $report"
echo "a find over TLS: status 20"
wait "$doubter"
[ "$?" = 5 ] && grep -q '^round 1 at [0-9]* failed status 502$' "$folder/refused" && [ ! -e "$folder/none" ] ||
  fail "a certificate of another root: $(< "$folder/refused")"
echo "a certificate of another root is refused: status 5, $(sed -n 's/^round 1 at [0-9]* //p' "$folder/refused")"

# ---- requests

item='{"threatType":"MALWARE","platformType":"ANY_PLATFORM","threatEntryType":"URL"}'
fetch="{\"listUpdateRequests\":[$item]}"
expect "the names of the lists" 200 threatLists --compressed --dump-header "$folder/head"
grep -qi '^content-encoding:' "$folder/head" && fail "an answer is compressed: $(< "$folder/head")"
digest=$(openssl dgst -sha256 -binary "$folder/body" | base64)
grep -qiF "content-digest: sha-256=:$digest:" "$folder/head" || fail "the digest is not that of the body: $(< "$folder/head")"
expect "a whole list for one who takes compressed answers" 200 threatListUpdates:fetch --header 'Accept-Encoding: gzip' --data "$fetch"
[ "$(head -c 1 "$folder/body")" = '{' ] || fail "the answer is compressed"
expect "a request in chunks" 200 threatListUpdates:fetch --header 'Transfer-Encoding: chunked' --data "$fetch"
# shellcheck disable=SC2046
expect "a request with seventy fields" 200 threatLists $(for number in $(seq 70); do echo "--header X-$number:1"; done)
sleep 1
before=$(told)
head -c 1048577 /dev/zero > "$folder/long"
expect "a body that is too long" 413 threatListUpdates:fetch --header 'Expect:' --data-binary "@$folder/long"
expect "a head that is too long" 400 threatLists --header "X-Long: $(head -c 15000 /dev/zero | tr '\0' x)"
expect "a target that is too long" 414 "threatLists?$(head -c 9000 /dev/zero | tr '\0' x)"
[ "$(told)" = "$before" ] || fail "what is too long came to the server"

# ---- a slow reader, slow senders, and more connections than one peer may have

eight="{\"listUpdateRequests\":[$item$(printf ",$item%.0s" {1..7})]}"
(
  set -o pipefail
  curl "${known[@]}" --data "$eight" "https://$NAME:$tls/v4/threatListUpdates:fetch" | { sleep 8; cat; } > "$folder/slow"
) &
reader=$!
for _ in $(seq 50); do [ "$(told)" != "$before" ] && break; sleep 0.1; done
expect "a request beside a slow reader" 200 threatLists --max-time 1
sleep 1
[ "$(told)" = $((before + 2)) ] && [ ! -s "$folder/slow" ] || fail "the server waits for the slow reader"
wait "$reader" || fail "the slow reader has no answer"
size=$(stat -c %s "$folder/slow")
[ "$size" -gt $((HOSTS * 32)) ] || fail "the slow reader has $size bytes"
echo "the slow reader has $size bytes"
mkfifo "$folder/nothing"
exec 8<> "$folder/nothing"
senders=()
for _ in $(seq 20); do
  curl "${known[@]}" --output /dev/null --upload-file - --request POST "https://$NAME:$tls/v4/fullHashes:find" <&8 &
  senders+=($!)
done
started+=("${senders[@]}")
sleep 3
expect "a connection more than one peer may have" 429 threatLists
before=$(told)
kill "${senders[@]}" 2> /dev/null
wait "${senders[@]}" 2> /dev/null
sleep 1
expect "a connection once they have gone" 200 threatLists
[ "$(told)" = $((before + 1)) ] || fail "slow senders came to the server"

# ---- a server that is away, and comes back with one more host

kill "$server"
wait "$server" 2> /dev/null
expect "a request while the server is away" 502 threatLists
printf '+worse.example\n-n1.example\n-n2.example\n' | bin/sbjournal change "$LIST" --size 4 > "$folder/change"
cat "$folder/change" >> "$folder/journal"
serve
sleep 2
expect "a request once it is back" 200 threatLists
bin/sbupdate run --store "$folder/store" --server "127.0.0.1:$client" --rounds 1 "$LIST" > "$folder/run" ||
  fail "a run after that ended with status $?: $(< "$folder/run")"
grep -q "^round 1 $LIST installed $HOSTS$" "$folder/run" || fail "a run after that: $(< "$folder/run")"
echo "a run after that: status 0"

refused=0
for _ in $(seq 40); do
  [ "$(curl "${known[@]}" --output /dev/null --write-out '%{http_code}' "https://$NAME:$tls/v4/threatListUpdates:fetch")" = 429 ] &&
    refused=$((refused + 1))
done
[ "$refused" -ge 5 ] && [ "$refused" -le 15 ] || fail "$refused of 40 requests for updates at once are refused"
echo "$refused of 40 requests for updates at once are refused"

grep -q 'GET /v4/threatLists 200' "$folder/lists.log" || fail "the log of the front is $(head -n 3 "$folder/lists.log")"
grep -q 'xxx' "$folder/lists.log" && fail "the log of the front has what stands behind a ?"
echo "the front logged $(wc -l < "$folder/lists.log") requests"
