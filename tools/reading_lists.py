#!/usr/bin/env python3
"""Which definitions one has to read to know what a clause says.

For each clause of the top calls this goes from the clause's words, by the `use` lines of the files in `specs/`, to every
definition that these words stand for, and to those that these cite. What comes of it stands in docs/READING.md between
two markers: for each clause the files, each after those that it cites, with how many lines of it the clause takes
(comments above a definition included), of how many it has.

A name that a file passes on (`pub use`) is the definition of the file that it comes from. Types and constants of `src/`
(imports of `declared`) and definitions of the toolchain's crates are not followed; the latter are named by their crates.
A name that a definition binds in sight, as a parameter with its type, is not taken for a definition of that name; one
that it binds otherwise is, so a list may name a little too much.

    reading_lists.py            prints the lists
    reading_lists.py --write    puts them into docs/READING.md
    reading_lists.py --check    fails where docs/READING.md has others
"""

import os
import re
import sys
import textwrap

REPOSITORY = os.path.dirname(os.path.dirname(os.path.abspath(__file__)))
CRATES = os.path.join(REPOSITORY, "crates")
PAGE = os.path.join(REPOSITORY, "docs", "READING.md")
BEGIN = "<!-- tools/reading_lists.py writes what follows -->"
END = "<!-- tools/reading_lists.py wrote what stands above -->"
CALLS = (
    ("run_client", "sb_client", "src/client.rt"),
    ("run_server", "sb_service", "src/service.rt"),
    ("serve_connection", "sb_service", "src/connection.rt"),
    ("run_journal", "journal_run", "src/run.rt"),
    ("run_mirror", "sb_mirror", "src/mirror.rt"),
    ("run_proxy", "sb_proxy", "src/proxy.rt"),
    ("answer_mirror", "mirror_places", "src/answering.rt"),
    ("follow", "mirror_places", "src/following.rt"),
)

USE = re.compile(r"^(?:ghost |pub )?use Rattle\.([\w.]+?)(?:\.\{([^}]*)\}| as (\w+))?;?\s*$", re.M)
DECLARED = re.compile(r"^(?:abbrev |unfoldable |infixl \d+ )*(?:pub )?(?:abbrev |record |data )?([^\s:({]+)")
BEGINS = re.compile(r"^(?:abbrev|unfoldable|pub)\b")
WORD = re.compile(r"(?<![\w.'])[A-Za-z_][\w']*|◌?>>=◌?")
OF_FILE = re.compile(r"(?<![\w.'])[a-z_]\w*\.[A-Za-z_][\w']*")


def text_of(path):
    with open(path, encoding="utf-8") as file:
        return file.read()


class Spec:
    """A file of definitions: what its imports mean, and its definitions with their lines and words."""

    def __init__(self, crate, module):
        self.name = f"{crate}/specs/{module.replace('.', '/')}.antt"
        text = text_of(os.path.join(CRATES, self.name))
        lines = text.split("\n")
        self.lines = len(text.splitlines())
        self.imports = imports_of(text)
        self.passed_on = set(imports_of("\n".join(line for line in lines if line.startswith("pub use"))))
        self.definitions, self.constructors = {}, {}
        starts = [at for at, line in enumerate(lines) if BEGINS.match(line) and not line.startswith(("pub mod", "pub use"))]
        tops = [self.top(lines, at) for at in starts]
        for number, at in enumerate(starts):
            end = tops[number + 1] if number + 1 < len(starts) else len(lines)
            body = [line for line in lines[at:end]]
            while body and (not body[-1].strip() or body[-1].startswith("--")):
                body.pop()
            name = DECLARED.match(lines[at])[1]
            if name.startswith("◌"):
                name = name.strip("◌")
            self.definitions[name] = (at - tops[number] + len(body), words_in("\n".join(body)))
            if re.match(r"^pub data", lines[at]):
                for line in body[1:]:
                    found = re.match(r"^  (\w+) :", line)
                    if found:
                        self.constructors[found[1]] = name

    @staticmethod
    def top(lines, at):
        """Where the comment above a definition begins."""
        while at > 0 and (lines[at - 1].startswith("--") or lines[at - 1].startswith("infixl")):
            at -= 1
        return at


def words_in(text):
    """The names that stand in a text, but for comments, fields and what is bound in sight."""
    text = re.sub(r"--.*", "", text)
    text = re.sub(r'"[^"]*"', '""', text)
    bound = set()
    for found in re.finditer(r"[({]([\w' ]+) :", text):
        bound.update(found[1].split())
    for found in re.finditer(r"λ ([\w' ]+)\.", text):
        bound.update(found[1].split())
    bound.update(re.findall(r"^  pub ([\w']+) :", text, re.M))
    return ({it.strip("◌") for it in WORD.findall(text)} - bound) | set(OF_FILE.findall(text))


def imports_of(text):
    """What each imported name stands for: the crate, the file and the name there."""
    imports = {}
    for path, names, alias in USE.findall(text):
        parts = path.split(".")
        if "specs" not in parts:
            continue
        at = parts.index("specs")
        crate, module = ".".join(parts[:at]), parts[at + 1 :]
        if alias:
            imports[alias + "."] = (crate, module, "")
            continue
        for name in filter(None, map(str.strip, names.split(","))):
            known, _, renamed = name.partition(" as ")
            imports[(renamed or known).strip().strip("◌")] = (crate, module, known.strip().strip("◌"))
    return imports


class Reader:
    """Follows words to definitions, over all files."""

    def __init__(self):
        self.specs = {}

    def spec(self, crate, module):
        key = (crate, module)
        if key not in self.specs:
            path = os.path.join(CRATES, crate, "specs", module.replace(".", "/") + ".antt")
            self.specs[key] = Spec(crate, module) if os.path.isfile(path) else None
        return self.specs[key]

    def target(self, crate, module, name):
        """The definition that an import names: of a file of the repository, or None; and the toolchain's crate."""
        if not os.path.isdir(os.path.join(CRATES, crate)):
            return None, crate
        if not module or module[0] == "declared":
            return None, None
        spec = self.spec(crate, module[0])
        if spec is None:
            return None, None
        if len(module) > 1 and module[1] in spec.definitions:
            return (crate, module[0], module[1]), None
        if name in spec.definitions:
            return (crate, module[0], name), None
        if name in spec.constructors:
            return (crate, module[0], spec.constructors[name]), None
        if name in spec.passed_on:
            return self.target(*spec.imports[name])
        return None, None

    def of_file(self, word, imports):
        """What a name after the name of a file stands for."""
        file, _, name = word.partition(".")
        if file + "." not in imports:
            return []
        crate, module, _ = imports[file + "."]
        to, _ = self.target(crate, module, name)
        return [to] if to else []

    def cited(self, key):
        """The definitions that one cites, and the crates of the toolchain."""
        crate, module, name = key
        spec = self.spec(crate, module)
        found, kit = [], set()
        for word in sorted(spec.definitions[name][1]):
            if "." in word:
                found += self.of_file(word, spec.imports)
            elif word in spec.definitions:
                if word != name:
                    found.append((crate, module, word))
            elif word in spec.constructors:
                found.append((crate, module, spec.constructors[word]))
            elif word in spec.imports:
                to, outside = self.target(*spec.imports[word])
                if to:
                    found.append(to)
                elif outside:
                    kit.add(outside)
        return found, kit

    def closure(self, words, imports):
        new, kit = [], set()
        for word in sorted(words):
            if word in imports:
                to, outside = self.target(*imports[word])
                if to:
                    new.append(to)
                elif outside:
                    kit.add(outside)
        found, edges = set(), {}
        while new:
            key = new.pop()
            if key in found:
                continue
            found.add(key)
            cites, outside = self.cited(key)
            kit |= outside
            edges[key] = cites
            new += cites
        return found, edges, kit


def in_order(found, edges, places):
    """The files, each after those that it cites where files do not cite each other, else by the order of crates.txt."""
    files = sorted({key[:2] for key in found}, key=lambda it: (places[it[0]], it[1]))
    cites = {it: set() for it in files}
    for key, others in edges.items():
        cites[key[:2]].update(it[:2] for it in others if it[:2] != key[:2])
    ordered, seen = [], set()

    def put(file):
        if file in seen:
            return
        seen.add(file)
        for other in sorted(cites[file], key=lambda it: (places[it[0]], it[1])):
            put(other)
        ordered.append(file)

    for file in files:
        put(file)
    return ordered


def clauses_of(path, function):
    """The clauses of a function with their texts, in order."""
    text = text_of(path)
    at = re.search(rf"^pub fn {function}\b", text, re.M).start()
    text = text[at : text.index("\n{\n", at)]
    text = re.sub(r"^\s*//.*$", "", text, flags=re.M)
    clauses = []
    for found in re.finditer(r"ensures (\w+)? ?\{", text):
        depth, end = 1, found.end()
        while depth:
            depth += {"{": 1, "}": -1}.get(text[end], 0)
            end += 1
        clauses.append((found[1] or "the one clause", text[found.end() : end - 1]))
    return clauses


def crates_in_order():
    with open(os.path.join(REPOSITORY, "crates.txt"), encoding="utf-8") as file:
        lines = [it.strip() for it in file if it.strip() and not it.startswith("#")]
    return {line.split(":")[0].split()[0]: place for place, line in enumerate(lines)}


def wrapped(text):
    return textwrap.fill(text, 120, subsequent_indent="  ", break_long_words=False, break_on_hyphens=False)


def lists():
    reader, places, out = Reader(), crates_in_order(), []
    for function, crate, source in CALLS:
        path = os.path.join(CRATES, crate, source)
        imports = imports_of(text_of(path))
        out += [f"## What the clauses of `{function}` take", ""]
        same = {}
        for name, text in clauses_of(path, function):
            found, edges, kit = reader.closure(words_in(text), imports)
            if not found:
                out.append(f"- `{name}`: nothing but itself.")
                continue
            parts, lines = [], 0
            for file in in_order(found, edges, places):
                spec = reader.spec(*file)
                taken = sum(spec.definitions[key[2]][0] for key in found if key[:2] == file)
                lines += taken
                parts.append(f"`{spec.name}` {taken} of {spec.lines}")
            of_kit = f"; of the toolchain {', '.join(f'`{it}`' for it in sorted(kit))}" if kit else ""
            what = "; ".join(parts) + of_kit
            if what in same:
                out.append(f"- `{name}`: the same as `{same[what]}`.")
                continue
            same[what] = name
            files = "1 file" if len(parts) == 1 else f"{len(parts)} files"
            counts = f"{len(found)} definitions in {files}, {lines:,} lines" if len(found) > 1 else f"1 definition, {lines} lines"
            out.append(wrapped(f"- `{name}`: {counts}. {what}."))
        out.append("")
    return "\n".join(out)


def parts_of(page):
    if page.count(BEGIN) != 1 or page.count(END) != 1:
        raise ValueError(f"docs/READING.md has not each of the two markers once: {BEGIN}, {END}")
    front, _, rest = page.partition(BEGIN)
    middle, _, back = rest.partition(END)
    return front, middle, back


def faults():
    """Why the page is stale, or nothing."""
    try:
        middle = parts_of(text_of(PAGE))[1]
    except ValueError as fault:
        return [str(fault)]
    if middle.strip() != lists().strip():
        return ["docs/READING.md: what one has to read is stale; python3 tools/reading_lists.py --write"]
    return []


def main(words):
    if words == ["--check"]:
        found = faults()
        for fault in found:
            print(fault, file=sys.stderr)
        return 1 if found else 0
    if words == ["--write"]:
        front, _, back = parts_of(text_of(PAGE))
        with open(PAGE, "w", encoding="utf-8") as file:
            file.write(f"{front}{BEGIN}\n\n{lists()}\n{END}{back}")
        return 0
    if words:
        print(__doc__, file=sys.stderr)
        return 2
    print(lists())
    return 0


if __name__ == "__main__":
    sys.exit(main(sys.argv[1:]))
