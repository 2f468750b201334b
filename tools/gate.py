#!/usr/bin/env python3
"""Runs the gate, `rt ci`, and says what each crate cost of it, or says what each function of a crate costs.

    gate.py [WORD..]
    gate.py functions NAME [--test] [--above SECONDS]

`rt ci` prints no times. The first form looks at its processes twice a second, and adds up what each has taken of the processors,
by crate and by what it did: the proof of the crate, that of its tests, and its wrong bodies. What lies between the last look at
a process and its end is lost, so the sums are a little low; the last line has what the system counted for all.
Words are handed on to `rt ci`. The status is that of `rt ci`.

The second form proves one crate from nothing, or its tests, over the libraries that were built last below `crates/*/out`, and prints
what each function took, in seconds of processor time, the dearest first. The prover checks a function in several modules, and
those of what it calls first, so this looks at the modules as they come, and shares out what was taken since the last look.
"""

import os
import re
import resource
import shutil
import subprocess
import sys
import tempfile
import threading
import time

REPOSITORY = os.path.dirname(os.path.dirname(os.path.abspath(__file__)))
TICKS = os.sysconf("SC_CLK_TCK")
KINDS = ("proof", "tests", "edits", "rest")


def stat_of(pid):
    """A process's parent, when it began, and the seconds of processor time that it has taken itself."""
    try:
        with open(f"/proc/{pid}/stat", encoding="utf-8", errors="replace") as file:
            words = file.read().rpartition(")")[2].split()
    except OSError:
        return None
    return int(words[1]), int(words[19]), (int(words[11]) + int(words[12])) / TICKS


def words_of(pid):
    try:
        with open(f"/proc/{pid}/cmdline", encoding="utf-8", errors="replace") as file:
            return file.read().split("\0")
    except OSError:
        return []


def named(words):
    """The crate and the kind of a process by its words, or None where they do not say so."""
    if "--crate-name" not in words[:-1]:
        return None
    name = words[words.index("--crate-name") + 1]
    if any("rt-edits-" in it or "rt-edit-" in it or "/rt-edit" in it for it in words):
        return name, "edits"
    return name, "tests" if "--test" in words else "proof"


class Costs:
    """What the processes below one have taken, by crate and kind."""

    def __init__(self, top):
        self.top = top
        self.of = {}
        self.taken = {}

    def look(self):
        stats = {}
        for pid in os.listdir("/proc"):
            if pid.isdigit():
                stats[int(pid)] = stat_of(pid)
        stats = {pid: it for pid, it in stats.items() if it}
        for pid, (_, began, seconds) in stats.items():
            if self.is_below(pid, stats):
                self.taken[pid, began] = seconds
                if (pid, began) not in self.of or self.of[pid, began] is None:
                    self.of[pid, began] = self.kind_of(pid, stats)

    def is_below(self, pid, stats):
        while pid in stats and pid != self.top:
            pid = stats[pid][0]
        return pid == self.top

    def kind_of(self, pid, stats):
        """Its own, or that of the nearest process above it that says one."""
        while pid in stats and pid != self.top:
            found = named(words_of(pid))
            if found:
                return found
            pid = stats[pid][0]
        return None

    def by_crate(self):
        rows = {}
        for key, seconds in self.taken.items():
            name, kind = self.of.get(key) or ("(programs, tests that run, linking)", "rest")
            row = rows.setdefault(name, dict.fromkeys(KINDS, 0.0))
            row[kind] += seconds
        return rows


def watch(costs, is_over):
    while not is_over.wait(0.5):
        costs.look()


def table(rows):
    lines = ["| crate | proof | tests | edits | rest | in all, s |", "|---|---|---|---|---|---|"]
    for name, row in sorted(rows.items(), key=lambda it: -sum(it[1].values())):
        cells = [f"{row[kind]:.0f}" if row[kind] >= 0.5 else "" for kind in KINDS]
        lines.append(f"| {name} | {' | '.join(cells)} | {sum(row.values()):.0f} |")
    whole = [f"{sum(row[kind] for row in rows.values()) / 60:.1f}" for kind in KINDS]
    lines.append(f"| all, min | {' | '.join(whole)} | {sum(sum(row.values()) for row in rows.values()) / 60:.1f} |")
    return "\n".join(lines)


def libraries():
    """What each crate of the repository stands on, as crates.txt has it."""
    uses = {}
    with open(os.path.join(REPOSITORY, "crates.txt"), encoding="utf-8") as file:
        for line in file:
            name, colon, rest = line.partition(":")
            if colon and not line.startswith("#"):
                uses[name.split()[0]] = rest.split()
    return uses


def built(name):
    return os.path.join(REPOSITORY, "crates", name, "out", "rlib")


def words_of_check(name, is_test):
    """The words of the prover for one crate, as `rt` gives them, with a line for each function."""
    kit = os.path.dirname(os.path.dirname(os.path.realpath(shutil.which("rt"))))
    uses, below = libraries(), []
    new = [name]
    while new:
        new = [it for one in new for it in uses[one] if it in uses and it not in below]
        below += dict.fromkeys(new)
    folder = os.path.join(REPOSITORY, "crates", name)
    root = "src/main.rt" if os.path.isfile(os.path.join(folder, "src", "main.rt")) else "src/lib.rt"
    words = [os.path.join(kit, "bin", "rattle"), "check", "--crate-name", name, root]
    for it in ["std", *(it for it in uses[name] if it not in uses)]:
        words += ["--extern", f"{it}={kit}/rlibs/{it}.rlib"]
    words += ["-L", f"dependency={kit}/rlibs"]
    for it in uses[name]:
        words += ["--extern", f"{it}={built(it)}/{it}.rlib"] if it in uses else []
    for it in below:
        words += ["-L", f"dependency={built(it)}"]
    words += ["--antt-project", f"{kit}/rattle/logic/antt-project.json", "--logic-built", f"{kit}/logic_built"]
    words += ["--jobs", "1", "--progress", "--links", f"{name}=", *["--test"] * is_test]
    return words, folder, [it for it in below if not os.path.isdir(built(it))]


def family(top):
    """The processes at and below one."""
    parents = {}
    for pid in os.listdir("/proc"):
        found = stat_of(pid) if pid.isdigit() else None
        if found:
            parents[int(pid)] = found[0]
    for pid in parents:
        at = pid
        while at in parents and at != top:
            at = parents[at]
        if at == top:
            yield pid


def taken_by(top):
    """The seconds of processor time of a process and of those below it, with the ended ones."""
    total = 0
    for pid in family(top):
        try:
            with open(f"/proc/{pid}/stat", encoding="utf-8", errors="replace") as file:
                total += sum(map(int, file.read().rpartition(")")[2].split()[11:15]))
        except OSError:
            pass
    return total / TICKS


def modules_in(folder):
    """The checked modules that the prover has written so far, with their sizes."""
    return {it.name: it.stat().st_size for at, _, _ in os.walk(folder) for it in os.scandir(at) if it.is_file()}


def look_at_modules(ran, folder, rows):
    """Shares out what was taken between two looks among the modules that came between them, by their sizes."""
    known, before = {}, 0.0
    while True:
        is_over = ran.poll() is not None
        try:
            now, found = taken_by(ran.pid), modules_in(folder)
        except FileNotFoundError:
            continue
        new = {name: size for name, size in found.items() if name not in known}
        if new and now > before:
            total = sum(new.values()) or 1
            # what was taken before the first module came is the price of loading
            rows += [(name, (now - before) * size / total) for name, size in new.items()] if known else [("", now)]
            known, before = found, now
        if is_over:
            return
        time.sleep(0.1)


def function_of(module, name, functions):
    """Whose module it is, by its path: that of the function with the longest path that begins it."""
    path = re.sub(rf"^Rattle-{name}[-.]proofs\.", "", module)
    owners = [it for it in functions if path.startswith(it.replace("::", ".") + ".")]
    return max(owners, key=len, default=None)


def prove_in(folder, words, crate_folder, rows):
    """Runs the prover, which writes its modules into a folder: the functions that it names, its last line, and its status."""
    functions, last = [], ""
    given = {"cwd": crate_folder, "stdout": subprocess.PIPE, "stderr": subprocess.STDOUT, "text": True, "errors": "replace"}
    with subprocess.Popen([*words, "--incremental", folder], **given) as ran:
        watcher = threading.Thread(target=look_at_modules, args=(ran, folder, rows))
        watcher.start()
        for line in ran.stdout:
            found = re.match(r"checked \w+::(\S+), \d+ of \d+", line)
            last = line.rstrip() or last
            if found:
                functions.append(found[1])
            elif ": error" in line or line.startswith("error"):
                print(line.rstrip())
        watcher.join()
    return functions, last, ran.returncode


def functions(name, is_test, above):
    if name not in libraries():
        print(f"{name} is no crate of crates.txt", file=sys.stderr)
        return 2
    words, folder, missing = words_of_check(name, is_test)
    if missing:
        print(f"these were not built: {', '.join(missing)}", file=sys.stderr)
        return 2
    rows, taken, rest = [], {}, 0.0
    with tempfile.TemporaryDirectory(prefix="functions-") as room:
        names, last, status = prove_in(room, words, folder, rows)
    for module, seconds in rows:
        owner = function_of(module, name, names)
        if owner is None:
            rest += seconds
        else:
            taken[owner] = taken.get(owner, 0.0) + seconds
    for function, seconds in sorted(taken.items(), key=lambda it: -it[1]):
        if seconds >= above:
            print(f"{seconds:7.1f} {function}")
    print(f"{rest:7.1f} loading, definitions, lemmas and types")
    print(f"{rest + sum(taken.values()):7.1f} in all, {len(names)} functions")
    print(last)
    return status


def read_functions(words):
    """The words behind `functions`: a crate, and whether its tests are meant, and from how many seconds on a function is told."""
    above = 0.5
    if "--above" in words[:-1]:
        at = words.index("--above")
        above = float(words[at + 1])
        words = words[:at] + words[at + 2 :]
    names = [it for it in words if it != "--test"]
    if len(names) != 1:
        print(__doc__, file=sys.stderr)
        return 2
    return functions(names[0], "--test" in words, above)


def main(words):
    if words[:1] == ["functions"]:
        return read_functions(words[1:])
    began = time.monotonic()
    gate = subprocess.Popen(["rt", "ci", *words], cwd=REPOSITORY)
    costs, is_over = Costs(gate.pid), threading.Event()
    watcher = threading.Thread(target=watch, args=(costs, is_over))
    watcher.start()
    status = gate.wait()
    is_over.set()
    watcher.join()
    took = resource.getrusage(resource.RUSAGE_CHILDREN)
    print(table(costs.by_crate()))
    print(
        f"{(time.monotonic() - began) / 60:.1f} minutes of clock, "
        f"{(took.ru_utime + took.ru_stime) / 60:.1f} processor minutes, {os.cpu_count()} processors, "
        f"load {', '.join(f'{it:.1f}' for it in os.getloadavg())}"
    )
    return status


if __name__ == "__main__":
    sys.exit(main(sys.argv[1:]))
