#!/usr/bin/env python3
"""Makes a Debian package of the programs of bin/ and of what `make install` copies, with dpkg-deb alone.

    deb.py build FOLDER      writes kestrelplumb_VERSION_amd64.deb
    deb.py release FOLDER    writes it, kestrelplumb-VERSION-linux-amd64.tar.gz of `make install`, and SHA256SUMS of both
    deb.py check             fails if deploy/copyright lacks a crate of the kit that the programs use, or README.md the package

VERSION is the first heading of CHANGELOG.md. The package depends on the libraries that the programs name, by the greatest
versions of their symbols. All times are SOURCE_DATE_EPOCH, or the moment of the commit if that is not given, and owners, modes
and order do not depend on who makes it: two packages of one bin/ are the same bytes.
"""

import hashlib
import os
import re
import shutil
import struct
import subprocess
import sys
import tarfile
import tempfile

REPOSITORY = os.path.dirname(os.path.dirname(os.path.abspath(__file__)))
SCRIPTS = os.path.join(REPOSITORY, "deploy", "debian")
NAME, ARCHITECTURE = "kestrelplumb", "amd64"

CONTROL = """\
Package: kestrelplumb
Version: {version}
Architecture: amd64
Maintainer: Kestrelplumb maintainers <maintainers@users.noreply.kestrelplumb.example>
Installed-Size: {size}
Depends: {depends}
Recommends: curl
Suggests: nginx-light | nginx
Section: net
Priority: optional
Description: Safe Browsing v4 list server and client
 Safe Browsing v4 keeps lists of unsafe URLs as short prefixes of SHA-256
 hashes. sbjournal makes such lists from feeds of URLs, sblistd serves them,
 sbmirror serves them on, sbupdate keeps copies of them current, sbcheck
 judges URLs by them, and sbproxy looks URLs up for programs beside it.
 .
 The programs run on processors of x86-64-v2; on others they end with status
 127 as they start. They are proved, as docs/PROMISES.md of the sources says.
"""

# what a program may be linked with, and the Debian package that has it
LIBRARIES = {"libc.so.6": "libc6", "ld-linux-x86-64.so.2": "libc6"}
# versions of symbols that are no number
ODD_VERSIONS = {"GLIBC_ABI_DT_RELR": (2, 36)}
# what the maintainer scripts call
OF_SCRIPTS = ["passwd"]


class Fault(Exception):
    """Why no package can be made."""


def read(path):
    with open(os.path.join(REPOSITORY, path), encoding="utf-8") as file:
        return file.read()


def output_of(*words):
    """What a command prints, or nothing if it is not there or fails."""
    try:
        done = subprocess.run(words, cwd=REPOSITORY, capture_output=True, text=True, check=False)
    except OSError:
        return ""
    return done.stdout.strip() if done.returncode == 0 else ""


def version():
    found = re.search(r"^## \[?([^\]\s]+)", read("CHANGELOG.md"), re.M)
    if not found or not re.fullmatch(r"\d+\.\d+\.\d+", found[1]):
        raise Fault("the first heading of CHANGELOG.md is no version")
    return found[1]


def moment():
    """The moment that each file has."""
    given = os.environ.get("SOURCE_DATE_EPOCH") or output_of("git", "log", "-1", "--format=%ct")
    if not given.isdigit():
        raise Fault("there is no commit, and SOURCE_DATE_EPOCH is not given")
    return int(given)


# ---- what the programs need


def text_at(data, at):
    return data[at : data.index(b"\0", at)].decode("ascii")


def needs_of(data):
    """The libraries that an ELF file names, and the versions of their symbols: pairs of a library and a version."""
    if data[:6] != b"\x7fELF\x02\x01" or struct.unpack_from("<H", data, 18)[0] != 62:
        raise Fault("it is no ELF file for x86-64")
    start, size, count = struct.unpack_from("<Q", data, 32)[0], *struct.unpack_from("<HH", data, 54)
    heads = [struct.unpack_from("<IIQQQQ", data, start + size * number) for number in range(count)]
    loads = [(address, offset, length) for kind, _, offset, address, _, length in heads if kind == 1]

    def placed(address):
        for begins, offset, length in loads:
            if begins <= address < begins + length:
                return address - begins + offset
        raise Fault("its dynamic section leads nowhere")

    tags = []
    for kind, _, offset, _, _, length in heads:
        if kind == 2:
            tags += struct.iter_unpack("<qQ", data[offset : offset + length])
    values = dict(reversed(tags))
    if 5 not in values:
        return [], []
    texts = placed(values[5])
    libraries = [text_at(data, texts + value) for tag, value in tags if tag == 1]
    versions, at = [], placed(values[0x6FFFFFFE]) if values.get(0x6FFFFFFF) else 0
    for _ in range(values.get(0x6FFFFFFF, 0)):
        _, entries, library, first, following = struct.unpack_from("<HHIII", data, at)
        entry = at + first
        for _ in range(entries):
            _, _, _, name, next_one = struct.unpack_from("<IHHII", data, entry)
            versions.append((text_at(data, texts + library), text_at(data, texts + name)))
            entry += next_one
        at += following
    return libraries, versions


def number_of(name):
    found = re.fullmatch(r"GLIBC_(\d+(?:\.\d+)*)", name)
    if found:
        return tuple(map(int, found[1].split(".")))
    if name not in ODD_VERSIONS:
        raise Fault(f"its symbols have a version {name}, which no release of the library promises")
    return ODD_VERSIONS[name]


def depends_of(paths):
    least = {}
    for path in paths:
        try:
            with open(path, "rb") as file:
                libraries, versions = needs_of(file.read())
            for library in [*libraries, *(it for it, _ in versions)]:
                if library not in LIBRARIES:
                    raise Fault(f"it needs {library}, for which no package is known")
                least.setdefault(LIBRARIES[library], (0,))
            for library, name in versions:
                least[LIBRARIES[library]] = max(least[LIBRARIES[library]], number_of(name))
        except (Fault, struct.error) as fault:
            raise Fault(f"bin/{os.path.basename(path)}: {fault}") from fault
    named = [f"{package} (>= {'.'.join(map(str, least[package]))})" for package in sorted(least)]
    return ", ".join(named + OF_SCRIPTS)


# ---- the package


def installed(folder, prefix):
    """Puts what `make install` copies below a folder."""
    done = subprocess.run(["make", "-s", "install", f"DESTDIR={folder}", f"PREFIX={prefix}"], cwd=REPOSITORY, capture_output=True, text=True)
    if done.returncode:
        raise Fault(f"make install: {(done.stdout + done.stderr).strip()}")


def files_below(folder):
    """Each file and folder below one, in order, without the control files of a package."""
    for at, folders, files in os.walk(folder):
        folders[:] = sorted(it for it in folders if os.path.join(at, it) != os.path.join(folder, "DEBIAN"))
        yield from (os.path.join(at, it) for it in sorted(folders + files))


def zipped(path):
    subprocess.run(["gzip", "-9n", path], check=True)


def put(path, text, mode=0o644):
    os.makedirs(os.path.dirname(path), exist_ok=True)
    with open(path, "w", encoding="utf-8") as file:
        file.write(text)
    os.chmod(path, mode)


def proved_with():
    """Which kit and which commit the programs were proved with, if that is known."""
    kit, commit = output_of("rt", "version"), output_of("git", "rev-parse", "HEAD")
    changed = output_of("git", "status", "--porcelain", "--untracked-files=no", "--", "crates", "crates.txt", "HANDLES")
    lines = [f"Kit: {kit.splitlines()[0]}"] if kit else []
    lines += [f"Commit: {commit}{' and changes' if changed else ''}"] if commit else []
    return "".join(f" .\n {line}\n" if not at else f" {line}\n" for at, line in enumerate(lines))


def settle(folder, at):
    """Gives each file and folder the moment, and the mode that its kind has."""
    for path in [folder, *(os.path.join(place, it) for place, folders, files in os.walk(folder) for it in folders + files)]:
        runs = os.path.isdir(path) or os.stat(path).st_mode & 0o100
        os.chmod(path, 0o755 if runs else 0o644)
        os.utime(path, (at, at))


def build(folder):
    """Writes the package, and answers its path."""
    if not shutil.which("dpkg-deb"):
        raise Fault("dpkg-deb is not installed")
    at, number = moment(), version()
    made = os.path.join(os.path.abspath(folder), f"{NAME}_{number}_{ARCHITECTURE}.deb")
    with tempfile.TemporaryDirectory(prefix="deb-") as room:
        stage = os.path.join(room, "stage")
        installed(stage, "/usr")
        programs = [os.path.join(stage, "usr", "bin", it) for it in sorted(os.listdir(os.path.join(stage, "usr", "bin")))]
        depends = depends_of(programs)
        for page in sorted(os.listdir(os.path.join(stage, "usr", "share", "man", "man1"))):
            zipped(os.path.join(stage, "usr", "share", "man", "man1", page))
        changes = os.path.join(stage, "usr", "share", "doc", NAME, "changelog")
        put(changes, read("CHANGELOG.md"))
        zipped(changes)
        # (as dpkg counts: each file to the next KiB, and one for each folder)
        size = sum(1 if os.path.isdir(it) else -(-os.path.getsize(it) // 1024) for it in files_below(stage))
        control = os.path.join(stage, "DEBIAN")
        put(os.path.join(control, "control"), CONTROL.format(version=number, size=size, depends=depends) + proved_with())
        sums, kept = [], []
        for path in files_below(stage):
            name = os.path.relpath(path, stage)
            if os.path.isfile(path):
                with open(path, "rb") as file:
                    sums.append(f"{hashlib.md5(file.read()).hexdigest()}  {name}\n")
                kept += [f"/{name}\n"] if name.startswith("etc/") else []
        put(os.path.join(control, "md5sums"), "".join(sums))
        put(os.path.join(control, "conffiles"), "".join(kept))
        for script in ("postinst", "prerm", "postrm"):
            put(os.path.join(control, script), read(f"deploy/debian/{script}"), 0o755)
        settle(stage, at)
        os.makedirs(folder, exist_ok=True)
        environment = {**os.environ, "SOURCE_DATE_EPOCH": str(at), "DPKG_DEB_THREADS_MAX": "1"}
        words = ["dpkg-deb", "--root-owner-group", "--uniform-compression", "-Zxz", "-z6", "--build", stage, made]
        done = subprocess.run(words, env=environment, capture_output=True, text=True, check=False)
        if done.returncode:
            raise Fault(f"dpkg-deb: {done.stderr.strip()}")
    return made


def bundle(folder):
    """Writes a tar of what `make install` copies, and answers its path."""
    at = moment()
    made = os.path.join(os.path.abspath(folder), f"{NAME}-{version()}-linux-{ARCHITECTURE}.tar")
    with tempfile.TemporaryDirectory(prefix="tar-") as room:
        installed(room, "/usr/local")
        settle(room, at)

        def plain(entry):
            entry.uid = entry.gid = 0
            entry.uname = entry.gname = "root"
            entry.mtime = at
            return entry

        with tarfile.open(made, "w", format=tarfile.GNU_FORMAT) as tar:
            # (folders are left out, so that those of the machine keep their owners and modes)
            for path in filter(os.path.isfile, files_below(room)):
                tar.add(path, os.path.relpath(path, room), recursive=False, filter=plain)
    if os.path.exists(made + ".gz"):
        os.remove(made + ".gz")
    zipped(made)
    return made + ".gz"


def unnamed():
    """The crates of the kit that the programs use and deploy/copyright does not name."""
    with open(os.path.join(REPOSITORY, "crates.txt"), encoding="utf-8") as file:
        lines = [it for it in map(str.strip, file) if it and not it.startswith("#")]
    uses = {line.partition(":")[0].split()[0]: line.partition(":")[2].split() for line in lines}
    programs = re.search(r"^PROGRAMS := (.*)$", read("Makefile"), re.M)[1].split()
    found, new = set(), list(programs)
    while new:
        one = new.pop()
        if one not in found:
            found.add(one)
            new += uses.get(one, [])
    text = read("deploy/copyright")
    return sorted(it for it in found - set(uses) if not re.search(rf"\b{it}\b", text))


def check():
    missing = unnamed()
    for name in missing:
        print(f"deb: deploy/copyright does not name the crate {name}, which the programs have in them", file=sys.stderr)
    package = f"{NAME}_{version()}_{ARCHITECTURE}.deb"
    if package not in read("README.md"):
        missing.append(package)
        print(f"deb: README.md does not name the package {package}", file=sys.stderr)
    if not missing:
        print("deb: each crate of the kit is named in deploy/copyright, and README.md names the package", file=sys.stderr)
    return 1 if missing else 0


def main(words):
    if words == ["check"]:
        try:
            return check()
        except Fault as fault:
            print(f"deb: {fault}", file=sys.stderr)
            return 1
    if len(words) != 2 or words[0] not in ("build", "release"):
        print(__doc__, file=sys.stderr)
        return 2
    try:
        os.makedirs(words[1], exist_ok=True)
        made = [build(words[1])] + ([bundle(words[1])] if words[0] == "release" else [])
    except Fault as fault:
        print(f"deb: {fault}", file=sys.stderr)
        return 1
    if words[0] == "release":
        with open(os.path.join(words[1], "SHA256SUMS"), "w", encoding="ascii") as sums:
            for path in made:
                with open(path, "rb") as file:
                    sums.write(f"{hashlib.sha256(file.read()).hexdigest()}  {os.path.basename(path)}\n")
    print("\n".join(made))
    return 0


if __name__ == "__main__":
    sys.exit(main(sys.argv[1:]))
