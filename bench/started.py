"""A program that serves, for the scripts that measure it."""

import re
import subprocess


class Started:
    """A run of `serve` with these words, which is ended with the block."""

    def __init__(self, words):
        self.ran = subprocess.Popen(words, stdout=subprocess.DEVNULL, stderr=subprocess.PIPE, text=True)
        line = self.ran.stderr.readline()
        found = re.search(r":(\d+)$", line.strip())
        if not found:
            self.ran.kill()
            raise SystemExit(f"the server did not tell its port: {line!r}")
        self.port = int(found[1])

    def __enter__(self):
        return self

    def __exit__(self, *_):
        self.ran.kill()
        self.ran.wait()
        self.ran.stderr.close()
