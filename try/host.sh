#!/usr/bin/env bash
# Runs the commands that README has under "On a new host", from the package to a client's verdict over TLS, and sees that the last
# one prints what stands there. It needs no systemd and no rights: paths are below a folder of its own, ports are others, and stand-ins
# take the place of apt-get, which unpacks the package, of systemctl, which runs what a unit names with its files of defaults or
# nginx with the files of conf.d, and of install, which leaves the owner out.
#
# A minute goes by before the client has its lists, and up to one more before its first find.
set -u
cd "$(dirname "$0")/.." || exit 1
source try/common.sh
PATH=$PATH:/usr/sbin

for tool in nginx openssl curl flock dpkg-deb; do
  command -v "$tool" > /dev/null || { echo "try-front: $tool is not installed, so the commands of README were not tried"; exit 0; }
done

folder=$(mktemp -d)
root=$folder/root
mkdir -p "$folder/stand" "$folder/work" "$root"/{etc/nginx/conf.d,srv,var/lib/kestrelplumb,var/log/nginx}
: > "$folder/started"
trap 'finish' EXIT

finish() {
  while read -r one; do kill "$one" 2> /dev/null; done < "$folder/started"
  sleep 1
  rm -rf "$folder"
}

fail() {
  echo "try-front: $1"
  tail -n 5 "$folder"/*.log 2> /dev/null
  exit 1
}

# what puts other paths, ports and an address for the name into a text
plain=$(free_port)
tls=$(free_port)
client=$(free_port)
cat > "$folder/moved.sed" << END_OF_SED
s#/(etc|usr|var|srv)/#$root/\1/#g
s#127\.0\.0\.1:8080#127.0.0.1:$plain#g
s#127\.0\.0\.1:8090#127.0.0.1:$client#g
s#listen 443#listen 127.0.0.1:$tls#
s#listen \[::\]:443#listen [::1]:$tls#
s#https://lists\.example#https://127.0.0.1:$tls#
END_OF_SED

# ---- stand-ins

cat > "$folder/stand/apt-get" << END_OF_APT
#!/usr/bin/env bash
set -eu
for word in "\$@"; do
  case \$word in *.deb) dpkg-deb -x "\$word" "$root" ;; esac
done
sed -E -i -f "$folder/moved.sed" "$root"/etc/default/* "$root"/usr/lib/systemd/system/sb* "$root"/usr/share/kestrelplumb/*.conf
END_OF_APT

cat > "$folder/stand/install" << END_OF_INSTALL
#!/usr/bin/env bash
words=()
while [ \$# -gt 0 ]; do
  case \$1 in -o | -g) shift ;; *) words+=("\$1") ;; esac
  shift
done
exec $(command -v install) "\${words[@]}"
END_OF_INSTALL

cat > "$folder/stand/systemctl" << END_OF_SYSTEMCTL
#!/usr/bin/env bash
set -eu
run() {
  local unit=\$1 file=\$1 instance= line
  case \$unit in *@*.*) instance=\${unit#*@}; instance=\${instance%.*}; file=\${unit%%@*}@.\${unit##*.} ;; esac
  file=$root/usr/lib/systemd/system/\$file
  [ -f "\$file" ] || { echo "systemctl: no unit \$unit" >&2; return 5; }
  case \$unit in *.timer) return ;; esac
  set -a
  for line in \$(sed -n 's/^EnvironmentFile=-\{0,1\}//p' "\$file"); do
    line=\${line//%i/\$instance}
    [ ! -f "\$line" ] || source "\$line"
  done
  set +a
  export STATE_DIRECTORY=$root/var/lib/kestrelplumb
  line=\$(sed -n 's/^ExecStart=//p' "\$file")
  line=\$(sed -E 's/(\\\$\{[A-Z_]+\}[^ ]*)/"\1"/g' <<< "\${line//%i/\$instance}")
  if grep -q '^Type=oneshot' "\$file"; then
    (set +u; eval "\$line")
  else
    (set +u; eval "exec \$line") > "$folder/\$unit.log" 2>&1 &
    echo \$! >> "$folder/started"
  fi
}
command=\$1
shift
if [ "\$command \$*" = "reload nginx" ]; then
  if [ -f "$folder/nginx.pid" ]; then
    nginx -c "$folder/nginx.conf" -s reload 2> "$folder/reload.log"
  else
    nginx -c "$folder/nginx.conf" 2> "$folder/reload.log"
    cat "$folder/nginx.pid" >> "$folder/started"
  fi
  sleep 1
else
  for unit in "\$@"; do [ "\$unit" = --now ] || run "\$unit"; done
  sleep 2
fi
END_OF_SYSTEMCTL
chmod +x "$folder"/stand/*
settings_of_nginx "$folder" "$folder/nginx.log" "$root/etc/nginx/conf.d/*.conf" > "$folder/nginx.conf"

# ---- the commands

python3 tools/deb.py build "$folder/work" > "$folder/deb.log" 2>&1 || fail "no package was made"
mapfile -t commands < <(sed -n '/^## On a new host$/,/^## /p' README.md | sed -n '/^```sh$/,/^```$/p' | sed '/^```/d')
[ "${#commands[@]}" -ge 2 ] && [ "${#commands[@]}" -le 12 ] || fail "README has ${#commands[@]} commands for a new host"
last=$((${#commands[@]} - 1))
export PATH="$folder/stand:$root/usr/bin:$PATH"
for at in "${!commands[@]}"; do
  echo "\$ ${commands[at]}"
  (cd "$folder/work" && bash -c "$(sed -E -f "$folder/moved.sed" <<< "${commands[at]}")") > "$folder/printed" 2> "$folder/said.log" < /dev/null
  status=$?
  wanted=0
  [ "$at" != "$last" ] || wanted=20
  [ "$status" = "$wanted" ] || fail "it ended with status $status: $(< "$folder/printed")"
done
verdict=$(sed -n 's/^The last one prints `\([^`]*\)`.*/\1/p' README.md)
grep -qxF -- "$verdict" "$folder/printed" || fail "README says '$verdict', and it printed: $(< "$folder/printed")"
cat "$folder/printed"
echo "the commands of README lead from the package to a verdict over TLS"
