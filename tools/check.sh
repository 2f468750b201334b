#!/usr/bin/env bash
# The checks of the repository's own. They take seconds, and prove nothing.
cd "$(dirname "$0")/.." || exit 1
status=0
python3 tools/wrong_bodies.py check || status=1
python3 tools/check_crates.py || status=1
python3 tools/check_documents.py || status=1
python3 tools/man_pages.py check || status=1
python3 tools/completions.py check || status=1
python3 tools/deb.py check || status=1
exit "$status"
