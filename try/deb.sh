#!/usr/bin/env bash
# Makes the Debian package of bin/ twice, in two folders, under other settings, and sees that it is the same. Then it is unpacked,
# and the programs there run without the kit and the repository: the stored run of each, and its usage text. The pages are found,
# no symbol is of a later version than the package asks for, and each file of `make install` is in it. If one is root, dpkg also
# installs and removes it on a copy of this machine's files that goes when the script ends. It says which part it left out, and
# ends with status 1 at the first step that is not as it should be.
set -u
cd "$(dirname "$0")/.." || exit 1

for tool in dpkg-deb git; do
  command -v "$tool" > /dev/null || { echo "try-deb: $tool is not installed, so nothing was tried"; exit 0; }
done
folder=$(mktemp -d)
trap 'rm -rf "$folder"' EXIT
readonly PROGRAMS=(sblistd sbupdate sbcheck sbjournal sbmirror sbproxy)

fail() {
  echo "try-deb: $1"
  exit 1
}

# ---- the same package

python3 tools/deb.py release "$folder/one" > "$folder/said" 2>&1 || fail "$(< "$folder/said")"
package=$(basename "$(head -n 1 "$folder/said")")
git clone --quiet --shared . "$folder/clone" || fail "no clone was made"
git ls-files -z --cached --others --exclude-standard | tar --null --files-from=- -cf - | tar -C "$folder/clone" -xf -
cp -r bin "$folder/clone/bin"
(
  umask 077
  export TZ=Asia/Tokyo LC_ALL=C
  find "$folder/clone" -type f -exec touch -d '1 day ago' {} +
  cd "$folder/clone" && python3 tools/deb.py release "$folder/two"
) > "$folder/said" 2>&1 || fail "in another folder: $(< "$folder/said")"
for made in "$folder"/one/*; do
  cmp -s "$made" "$folder/two/$(basename "$made")" || fail "in another folder $(basename "$made") is another"
done
(cd "$folder/one" && sha256sum --quiet --check SHA256SUMS) || fail "SHA256SUMS is wrong"
echo "made in two folders it is the same: $(grep "$package" "$folder/one/SHA256SUMS")"

# ---- what is in it

root=$folder/root
dpkg-deb --raw-extract "$folder/one/$package" "$root" || fail "it cannot be unpacked"
mv "$root/DEBIAN" "$folder/control"
dpkg-deb --contents "$folder/one/$package" | awk '{ print $2 }' | sort -u > "$folder/owners"
[ "$(< "$folder/owners")" = root/root ] || fail "its files are of $(< "$folder/owners")"
make -s install DESTDIR="$folder/installed" PREFIX=/usr > /dev/null || fail "make install ended with status $?"
(cd "$folder/installed" && find . -type f) | sort > "$folder/names"
while read -r name; do
  if [ -f "$root/$name.gz" ]; then
    gzip -dc "$root/$name.gz" | cmp -s - "$folder/installed/$name" || fail "$name.gz is another"
  else
    cmp -s "$root/$name" "$folder/installed/$name" || fail "it has no $name, or another"
  fi
done < "$folder/names"
(cd "$root" && md5sum --quiet --check "$folder/control/md5sums") || fail "md5sums is wrong"
(cd "$root" && find etc -type f | sort | sed 's#^#/#') | cmp -s - "$folder/control/conffiles" || fail "conffiles: $(< "$folder/control/conffiles")"
for script in postinst prerm postrm; do
  [ -x "$folder/control/$script" ] && sh -n "$folder/control/$script" || fail "$script is no shell script"
done
echo "it has all $(wc -l < "$folder/names") files of make install, and these conffiles: $(paste -sd ' ' "$folder/control/conffiles")"
sed 's/^/  /' "$folder/control/control"

# ---- what it asks for

least=$(sed -n 's/^Depends: libc6 (>= \([0-9.]*\)).*/\1/p' "$folder/control/control")
if command -v objdump > /dev/null; then
  for program in "${PROGRAMS[@]}"; do
    [ "$(objdump -p "$root/usr/bin/$program" | awk '$1 == "NEEDED" { print $2 }')" = libc.so.6 ] || fail "$program needs more than libc.so.6"
    objdump -T "$root/usr/bin/$program" | grep -o 'GLIBC_[0-9.]*' | sort -u | sed 's/GLIBC_//'
  done | sort -u > "$folder/versions"
  greatest=$(sort -V "$folder/versions" | tail -n 1)
  [ "$greatest" = "$least" ] || fail "it asks for $least, and a symbol is of $greatest"
  echo "objdump finds symbols of glibc up to $greatest, which is what it asks for"
else
  echo "try-deb: objdump is not installed, so the symbols of the programs were not looked at"
fi

# ---- the programs, without the kit and the repository

mkdir "$folder/away"
# runs a program of the package where nothing else is
away() {
  (cd "$folder/away" && env -i PATH=/usr/bin:/bin "$root/usr/bin/$1" "${@:2}")
}

for program in "${PROGRAMS[@]}"; do
  usage=$(away "$program")
  [ "$?" = 1 ] && grep -q "^usage: $program COMMAND$" <<< "$usage" || fail "$program without words: $usage"
  rm -rf "$folder/away"
  mkdir "$folder/away"
  [ ! -d "crates/$program/data" ] || cp crates/"$program"/data/* "$folder/away/"
  mapfile -t words < "crates/$program/args"
  input=crates/$program/stdin
  [ -f "$input" ] || input=/dev/null
  away "$program" "${words[@]}" < "$input" > "$folder/printed"
  cmp -s "$folder/printed" "crates/$program/stdout" || fail "$program ${words[*]}: $(< "$folder/printed")"
  echo "$program runs: ${words[*]}"
done

# ---- its pages and completions

if command -v man > /dev/null; then
  for program in "${PROGRAMS[@]}"; do
    [ "$(MANPATH=$root/usr/share/man man --where "$program")" = "$root/usr/share/man/man1/$program.1.gz" ] || fail "man finds no page of $program"
    MANPAGER='cat' man --warnings "$root/usr/share/man/man1/$program.1.gz" > "$folder/page" 2> "$folder/said" && [ ! -s "$folder/said" ] ||
      fail "the page of $program: $(< "$folder/said")"
  done
  echo "man finds the page of each program, and has nothing against it"
else
  echo "try-deb: man is not installed, so the pages were not looked at"
fi

# ---- what dpkg does with it

cat > "$folder/dpkg.sh" <<'END_OF_DPKG'
set -e
mount --make-rprivate /
mount -t tmpfs over "$1/over"
mkdir "$1/over/upper" "$1/over/work" "$1/over/root"
mount -t overlay over -o "lowerdir=/,upperdir=$1/over/upper,workdir=$1/over/work" "$1/over/root"
mount --bind /proc "$1/over/root/proc"
mount --bind /dev "$1/over/root/dev"
cp "$2" "$1/over/root/package.deb"
exec chroot "$1/over/root" sh -e /dev/fd/3 3<<'END_OF_INSIDE'
export DEBIAN_FRONTEND=noninteractive
dpkg --install /package.deb
getent passwd kestrelplumb
[ "$(stat -c '%U %a' /var/lib/kestrelplumb)" = "kestrelplumb 755" ]
sbcheck vectors
echo 'LISTEN=127.0.0.1:9999' >> /etc/default/sblistd
dpkg --install /package.deb
grep -q 9999 /etc/default/sblistd
touch /var/lib/kestrelplumb/journal
dpkg --remove kestrelplumb
[ ! -e /usr/bin/sblistd ] && grep -q 9999 /etc/default/sblistd
dpkg --purge kestrelplumb
[ ! -e /etc/default/sblistd ] && [ -e /var/lib/kestrelplumb/journal ]
END_OF_INSIDE
END_OF_DPKG
mkdir "$folder/over"
if [ "$(id -u)" != 0 ] || ! unshare --mount --ipc --uts true 2> /dev/null; then
  echo "try-deb: this is not root, so dpkg did not install it"
elif dpkg --status kestrelplumb > /dev/null 2>&1; then
  echo "try-deb: kestrelplumb is installed here already, so dpkg did not install it"
else
  unshare --mount --ipc --uts bash "$folder/dpkg.sh" "$folder" "$folder/one/$package" > "$folder/said" 2>&1 || fail "dpkg: $(< "$folder/said")"
  echo "dpkg installs it with its user, keeps a default that was changed, and leaves the state when it removes it"
fi
