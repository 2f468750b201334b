#!/usr/bin/env bash
# Holds the units of deploy/systemd to `systemd-analyze verify`, and to an exposure of at most 2.0 by `systemd-analyze security`.
# If systemd runs, one is root and nothing of this project is installed, it starts them with the user of deploy/sysusers.d, and
# removes both in the end: a list server, a mirror, a proxy and a client of it, a feed, a journal that is replaced, and words that are no command line.
# Else it says which part it left out. It ends with status 1 at the first step that is not as it should be.
#
# sbupdate, sbmirror and sbproxy wait up to 60 seconds before their first request, at random: up to four minutes.
set -u
cd "$(dirname "$0")/.." || exit 1
source try/common.sh

command -v systemd-analyze > /dev/null || { echo "try-units: systemd is not installed, so nothing was tried"; exit 0; }

readonly UNITS=(sblistd.service sbmirror.service sbproxy.service sbupdate@try.service sbjournal@try.service sbjournal@try.timer)
readonly LIST=MALWARE/ANY_PLATFORM/URL STATE=/var/lib/kestrelplumb
folder=$(mktemp -d)
placed=
trap 'finish' EXIT

fail() {
  echo "try-units: $1"
  [ -z "$placed" ] || journalctl --no-pager --lines 20 --unit sblistd --unit sbmirror --unit sbproxy --unit 'sbupdate@*' --unit 'sbjournal@*'
  exit 1
}

finish() {
  if [ -n "$placed" ]; then
    systemctl stop sblistd.service sbmirror.service sbproxy.service 'sbupdate@*.service' 'sbjournal@*.service'
    systemctl reset-failed 'sbupdate@*.service' 'sbjournal@*.service' 2> /dev/null
    rm -f /run/systemd/system/sb{listd.service,mirror.service,proxy.service,update@.service,journal@.service,journal@.timer}
    rm -rf /run/systemd/system/sb{listd,mirror,proxy,update@,journal@}.service.d "$STATE" "$placed"
    systemctl daemon-reload
    userdel kestrelplumb
  fi
  rm -rf "$folder"
}

# ---- what systemd says of them

mkdir -p "$folder/root/usr/lib/systemd"
for units in /usr/lib/systemd/system /lib/systemd/system; do
  [ -d "$units" ] && cp -r "$units" "$folder/root/usr/lib/systemd/" && break
done
make -s install DESTDIR="$folder/root" PREFIX=/usr > /dev/null || fail "make install ended with status $?"
for unit in "${UNITS[@]}"; do
  systemd-analyze verify --man=no --root="$folder/root" "$unit" > "$folder/said" 2>&1 || fail "$unit: $(< "$folder/said")"
  grep -E 'sblistd|sbmirror|sbproxy|sbupdate|sbjournal' "$folder/said" && fail "systemd has something against $unit"
  echo "$unit: systemd takes it"
done
for unit in "$folder"/root/usr/lib/systemd/system/sb*.service; do
  systemd-analyze security --offline=yes --threshold=20 --no-pager "$unit" > "$folder/said" 2>&1 ||
    fail "$(basename "$unit"): $(tail -n 1 "$folder/said")"
  tail -n 1 "$folder/said" | sed 's/^[^O]*//; s/\([0-9]\.[0-9]\).*/\1/'
done

# ---- what becomes of them once they are started

if [ ! -d /run/systemd/system ] || [ "$(id -u)" != 0 ]; then
  echo "try-units: systemd does not run here, or this is not root, so no unit was started"
  exit 0
fi
if [ -e "$STATE" ] || getent passwd kestrelplumb > /dev/null || systemctl cat sblistd.service > /dev/null 2>&1; then
  echo "try-units: kestrelplumb is installed here already, so no unit was started"
  exit 0
fi

# waits until a unit has printed such a line since this began
printed() {
  local unit=$1 line=$2
  for _ in $(seq 240); do
    journalctl --no-pager --quiet --output cat --since "@$began" --unit "$unit" | grep -qE -- "$line" && return
    sleep 0.5
  done
  fail "$unit has not printed: $line"
}

# asks the server for the names of its lists
ask() {
  (exec 3<> "/dev/tcp/127.0.0.1/$port" && printf 'GET /v4/threatLists HTTP/1.1\r\nHost: a\r\n\r\n' >&3 && timeout 5 cat <&3) 2> /dev/null
}

answered() {
  for _ in $(seq 40); do
    ask | grep -q MALWARE && return
    sleep 0.5
  done
  fail "the server does not answer"
}

# a journal with these hosts, put where the server reads it
put_journal() {
  bin/sbjournal new "$LIST" > "$folder/journal" || fail "no journal was made"
  printf '%s\n' "$@" | bin/sbjournal sync "$LIST" --journal "$folder/journal" > "$folder/change" || fail "no change was made"
  cat "$folder/change" >> "$folder/journal"
  chmod 666 "$folder/journal"
  mv "$folder/journal" "$STATE/journal"
}

began=$(date +%s)
port=$(free_port)
placed=$(mktemp -d /var/lib/kestrelplumb-try.XXXXXX)
chmod 755 "$placed"
make -s install PREFIX="$placed" SYSCONFDIR="$placed/etc" UNITDIR=/run/systemd/system > /dev/null || fail "make install ended with status $?"
for unit in sblistd sbmirror sbproxy sbupdate@ sbjournal@; do
  mkdir -p "/run/systemd/system/$unit.service.d"
  printf '[Service]\nEnvironment=PATH=%s:/usr/local/bin:/usr/bin:/bin\n' "$placed/bin" > "/run/systemd/system/$unit.service.d/try.conf"
done
printf 'JOURNAL=%s/journal\nLISTEN=127.0.0.1:%s\nOPTIONS=--wait 20\n' "$STATE" "$port" > "$placed/etc/default/sblistd"
printf 'SERVER=127.0.0.1:%s\nLISTS="%s"\n' "$port" "$LIST" > "$placed/etc/default/sbupdate"
printf 'LISTS=\n' > "$placed/etc/default/sbupdate-wrong"
printf 'SERVER=127.0.0.1:%s\nLISTEN=127.0.0.1:0\nLISTS="%s"\nOPTIONS=\n' "$port" "$LIST" > "$placed/etc/default/sbmirror"
cp "$placed/etc/default/sbmirror" "$placed/etc/default/sbproxy"
# (the filter is the one that docs/FEEDS.md has for a hosts file)
{ printf 'LIST=%s\nURL=file://%s/feed\n' "$LIST" "$placed"; grep '^FILTER=' docs/FEEDS.md; } > "$placed/etc/default/sbjournal-try"
systemd-sysusers "$PWD/deploy/sysusers.d/kestrelplumb.conf" || fail "systemd-sysusers ended with status $?"
systemctl daemon-reload

systemctl start sblistd.service 'sbupdate@wrong.service' || fail "systemctl start ended with status $?"
printed sblistd.service 'cannot be opened'
put_journal a.example b.example
answered
echo "the server waits for its journal, and answers"
for _ in $(seq 20); do
  [ "$(systemctl is-active sbupdate@wrong.service)" = failed ] && break
  sleep 0.5
done
[ "$(systemctl show --property NRestarts,ExecMainStatus --value sbupdate@wrong.service | sort | tr '\n' ' ')" = "0 1 " ] ||
  fail "words that are no command line: $(systemctl show --property NRestarts,ExecMainStatus sbupdate@wrong.service)"
echo "words that are no command line: status 1, and not started again"

systemctl start sbmirror.service sbproxy.service sbupdate@try.service || fail "systemctl start ended with status $?"
printed sbupdate@try.service "^round 1 $LIST installed 2$"
printed sbupdate@try.service "^round 2 at [0-9]* ok$"
echo "a client keeps the list"
printed sbmirror.service '^sbmirror: the address 127.0.0.1:0 is 127.0.0.1:[0-9]*$'
printed sbmirror.service "^round 1 $LIST installed 2$"
printed sbmirror.service "^round 1 saved$"
echo "a mirror keeps the list"
printed sbproxy.service '^sbproxy: the address 127.0.0.1:0 is 127.0.0.1:[0-9]*$'
printed sbproxy.service "^round 1 $LIST installed 2$"
printed sbproxy.service "^round 1 saved$"
echo "a proxy keeps the list"

before=$(systemctl show --property NRestarts --value sblistd.service)
put_journal a.example b.example c.example
ask > /dev/null
printed sblistd.service 'was replaced by another file'
answered
[ "$(systemctl show --property NRestarts --value sblistd.service)" -gt "$before" ] || fail "the server was not started again"
printed sbupdate@try.service "^round [0-9]* $LIST installed 3$"
echo "the journal was replaced: the server ended with status 2 and serves the new one, and the client goes on"

printf '0.0.0.0 %s.example\n' a b c d > "$placed/feed"
systemctl start sbjournal@try.service || fail "a feed: status $?"
printed sbjournal@try.service '1 came, 0 went'
printed sbupdate@try.service "^round [0-9]* $LIST installed 4$"
echo "a feed was taken, and the client has it"
