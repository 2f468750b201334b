#!/usr/bin/env python3
"""Runs the sessions of README.md, and compares what they print with what stands there.

A session is what stands between fences that are marked `console`. A line that begins with `$ ` is given to a shell, and the
lines below it, up to the next such line, are what has to be printed before that one is given. All sessions run in a clean
clone of the committed tree, with the programs of bin/ beside it. Moments (`at` and 13 digits) are not compared, and the
ports of the sessions are others that nobody listens at. Prints each session, and fails at the first line that differs.
"""

import difflib
import os
import queue
import re
import shutil
import socket
import subprocess
import sys
import tempfile
import threading
import time

REPOSITORY = os.path.dirname(os.path.dirname(os.path.abspath(__file__)))
PROGRAMS = ("sbupdate", "sbcheck", "sblistd", "sbjournal", "sbmirror", "sbproxy")
PORTS = ("8080", "8081")
# a client waits for up to 60 seconds before its first request, and two may do so one after the other
LONGEST = 150
QUIET = 0.5
MOMENT = re.compile(r"\bat \d{13}\b")


def sessions_of(text):
    """Each session as its steps: a command, and the lines that it has to print."""
    for block in re.findall(r"^```console\n(.*?)^```", text, re.M | re.S):
        steps = []
        for line in block.splitlines():
            if line.startswith("$ "):
                steps.append((line[2:], []))
            else:
                steps[-1][1].append(line)
        yield steps


def free_port():
    with socket.socket() as one:
        one.bind(("127.0.0.1", 0))
        return str(one.getsockname()[1])


def free_ports():
    """A free port for each of the sessions, no two alike."""
    found = []
    while len(found) < len(PORTS):
        port = free_port()
        if port not in found:
            found.append(port)
    return found


class Shell:
    """A shell that is given one command after the other, and whose lines are gathered as they come."""

    def __init__(self, folder):
        self.lines = queue.Queue()
        self.process = subprocess.Popen(
            ["bash"], cwd=folder, stdin=subprocess.PIPE, stdout=subprocess.PIPE, stderr=subprocess.STDOUT, text=True, start_new_session=True
        )
        threading.Thread(target=self.gather, daemon=True).start()

    def gather(self):
        for line in self.process.stdout:
            self.lines.put(line.rstrip("\n"))

    def give(self, command):
        self.process.stdin.write(command + "\n")
        self.process.stdin.flush()

    def take(self, count):
        """So many lines, or those that come in time, and any that come at once after them."""
        found, end = [], time.monotonic() + LONGEST
        while True:
            left = end - time.monotonic() if len(found) < count else QUIET
            try:
                found.append(self.lines.get(timeout=max(left, 0.01)))
            except queue.Empty:
                return found

    def end(self):
        self.process.stdin.close()
        try:
            self.process.wait(timeout=LONGEST)
        except subprocess.TimeoutExpired:
            pass
        try:
            os.killpg(self.process.pid, 9)
        except ProcessLookupError:
            pass


def shown(line):
    return MOMENT.sub("at MOMENT", line)


def with_ports(text, old, new):
    for one, other in zip(old, new):
        text = text.replace(one, other)
    return text


def run(steps, folder, ports):
    """Whether a session prints what it is to print."""
    shell = Shell(folder)
    try:
        for command, wanted in steps:
            print(f"$ {command}", flush=True)
            shell.give(with_ports(command, PORTS, ports))
            found = [shown(with_ports(it, ports, PORTS)) for it in shell.take(len(wanted))]
            wanted = list(map(shown, wanted))
            if found != wanted:
                print("\n".join(difflib.unified_diff(wanted, found, "README.md", "printed", lineterm="")))
                return False
            print("\n".join(found), end="\n" if found else "", flush=True)
    finally:
        shell.end()
    return True


def main():
    missing = [it for it in PROGRAMS if not os.path.isfile(os.path.join(REPOSITORY, "bin", it))]
    if missing:
        print(f"try-readme: bin/ has no {', '.join(missing)}", file=sys.stderr)
        return 1
    with open(os.path.join(REPOSITORY, "README.md"), encoding="utf-8") as file:
        sessions = list(sessions_of(file.read()))
    with tempfile.TemporaryDirectory(prefix="readme-") as room:
        clone = os.path.join(room, "clone")
        subprocess.run(["git", "clone", "--quiet", REPOSITORY, clone], check=True)
        shutil.copytree(os.path.join(REPOSITORY, "bin"), os.path.join(clone, "bin"))
        for steps in sessions:
            if not run(steps, clone, free_ports()):
                print("try-readme: a session prints something else", file=sys.stderr)
                return 1
    print(f"all {len(sessions)} sessions of README.md print what stands there")
    return 0


if __name__ == "__main__":
    sys.exit(main())
