#!/usr/bin/env python3
"""Checks that the documents name what stands. Needs nothing but this tree and Python, and takes seconds.

CONTRIBUTING.md, "Documents", says which words in backquotes are looked at. What stands between fences is not, nor what
has a word in capitals as `crates/NAME/src/`. Prints each fault with its file, and fails where there is one.
"""

import functools
import glob
import os
import re
import sys

import reading_lists

REPOSITORY = reading_lists.REPOSITORY
CRATES = reading_lists.CRATES
README, PROMISES, FORMATS = "README.md", "docs/PROMISES.md", "docs/FORMATS.md"
ARCHITECTURE, DECISIONS = "docs/ARCHITECTURE.md", "docs/DECISIONS.md"
PAGES = [README, "CONTRIBUTING.md", "SECURITY.md", "CHANGELOG.md"]

# where every plain word in backquotes has to be one of the code, and where options and statuses are looked at
OF_CODE = (PROMISES,)
OF_OPTIONS = (README, FORMATS, "SECURITY.md", "CHANGELOG.md")
NO_OPTIONS = {"--help", "--name"}

MOST_WORDS, MOST_COLUMNS = 12, 120
ENDINGS = ("antt", "rt", "py", "sh", "md", "jsonl", "edit", "txt", "service", "timer")

# each end: the crate that defines its statuses (`IsStatus` and its like), and the section of the page of formats with them
ENDS = {
    "the client": ("sb_client", "Words and statuses of the client programs"),
    "the server": ("sb_service", "The list server"),
    "the maker": ("journal_run", "The program that makes journals"),
    "the mirror": ("sb_mirror", "The program that mirrors lists"),
    "the proxy": ("sb_proxy", "The program that looks URLs up"),
}
PROGRAMS = {
    "sbupdate": "the client",
    "sbcheck": "the client",
    "sblistd": "the server",
    "sbjournal": "the maker",
    "sbmirror": "the mirror",
    "sbproxy": "the proxy",
}

DECLARES = r"\b(?:fn|struct|enum|trait|type|const|static|mod)\s+{}\b|^\s*{}(?:\(|,|\s*\{{|\s*=|$)|pub use [^;]*\b{}\b"


def text_of(path):
    return reading_lists.text_of(os.path.join(REPOSITORY, path))


class Page:
    """A document: its text without fences, its headings, and its words in backquotes."""

    def __init__(self, path):
        self.path = path
        self.whole = text_of(path)
        self.text = re.sub(r"^( *)```.*?^\1```", "", self.whole, flags=re.M | re.S)
        self.headings = re.findall(r"^#+ (.*)$", self.text, re.M)
        joined = re.sub(r"\n(?!\n|\s*[-*|#]|\s*\d+\. )\s*", " ", self.text)
        self.paragraphs = joined.split("\n")
        self.spans = [it for line in self.paragraphs for it in re.findall(r"`([^`]+)`", line)]

    def section(self, heading):
        """The text under a heading, up to the next of its rank or above."""
        found = re.search(rf"^(#+) {re.escape(heading)}$", self.text, re.M)
        if not found:
            return None
        rest = self.text[found.end() :]
        end = re.search(rf"^#{{1,{len(found[1])}}} ", rest, re.M)
        return rest[: end.start()] if end else rest


def anchor(heading):
    heading = re.sub(r"\[([^\]]*)\]\([^)]*\)", r"\1", heading).lower()
    return re.sub(r"[^\w\- ]", "", heading).replace(" ", "-")


@functools.lru_cache(maxsize=None)
def anchors_of(path):
    return set(map(anchor, Page(path).headings))


def cells_of(line):
    return [it.strip() for it in line.strip().strip("|").split("|")]


def tables_of(text):
    """Each table as its lines of cells, the heads first."""
    for block in re.findall(r"(?:^\|.*\n)+", text + "\n", re.M):
        lines = block.strip().split("\n")
        yield [cells_of(lines[0]), *(cells_of(it) for it in lines[2:])]


class Code:
    """What the crates declare."""

    def __init__(self):
        self.crates = sorted(it for it in os.listdir(CRATES) if os.path.isdir(os.path.join(CRATES, it, "src")))
        self.sources = {it: self.texts(it, "src", "rt") for it in self.crates}
        specs = {it: self.texts(it, "specs", "antt") for it in self.crates}
        self.words = set(self.crates)
        for crate in self.crates:
            self.words.update(re.findall(r"\w+", self.sources[crate]), re.findall(r"[\w']+", specs[crate]))
        for path in glob.glob(os.path.join(CRATES, "*", "s*", "*.*")):
            self.words.add(os.path.splitext(os.path.basename(path))[0])
        self.words.update(re.findall(r"[\w-]+", text_of("crates.txt")))
        self.files = {os.path.basename(it) for folder in ("crates", "tools", "try", "compare", "bench", "demo", "deploy", "docs", "man") for it in self.walk(folder)}
        self.files.update(os.listdir(REPOSITORY))
        self.clauses = {}
        for crate in self.crates:
            self.gather(crate)

    @staticmethod
    def texts(crate, folder, ending):
        paths = sorted(glob.glob(os.path.join(CRATES, crate, folder, f"*.{ending}")))
        return "\n".join(map(reading_lists.text_of, paths))

    @staticmethod
    def walk(folder):
        for at, folders, files in os.walk(os.path.join(REPOSITORY, folder)):
            folders[:] = [it for it in folders if it != "out"]
            yield from (os.path.join(at, it) for it in files)

    def gather(self, crate):
        """The clauses of each function of a crate, by its name."""
        for found in re.finditer(r"^ *(?:pub(?:\(crate\))? )?fn (\w+)(.*?)(?:^ *\{|;$)", self.sources[crate], re.M | re.S):
            names = set(re.findall(r"^ *(?:ensures|requires) (\w+) \{", found[2], re.M))
            self.clauses.setdefault((crate, found[1]), set()).update(names)

    def declares(self, crate, name):
        pattern = DECLARES.format(name, name, name)
        return re.search(pattern, self.sources[crate], re.M) is not None

    def clauses_of(self, call):
        """The clauses of a call as a document names it, or None where it is none."""
        parts = call.split("::")
        crates = [parts[0]] if parts[0] in self.crates else self.crates
        known = [self.clauses[(it, parts[-1])] for it in crates if (it, parts[-1]) in self.clauses]
        return set().union(*known) if known else None


def stands(path):
    """Whether a path that a document names leads to something, from the top, from crates/ or from some crate."""
    path = path.rstrip("/")
    wanted = [path, f"crates/{path}", f"crates/*/{path}"]
    if path.startswith("specs/") and "." not in path:
        wanted.append(f"crates/*/{path}.antt")
    return any(glob.glob(os.path.join(REPOSITORY, it)) for it in wanted)


def faults_of_links(page):
    for target in re.findall(r"\]\(([^)\s]+)\)", page.text):
        if re.match(r"\w+:", target):
            continue
        path, _, section = target.partition("#")
        full = os.path.normpath(os.path.join(os.path.dirname(page.path), path)) if path else page.path
        if not os.path.exists(os.path.join(REPOSITORY, full)):
            yield f"a link leads to {target}, which is not there"
        elif section and section not in anchors_of(full):
            yield f"a link leads to {target}, and {full} has no such heading"


def fault_of_span(span, code, targets):
    """Why a word in backquotes names nothing that stands, or None."""
    if re.search(r"\b[A-Z]{4,}\b|\.\.|…", span) and "::" not in span:
        return None
    if re.fullmatch(r"make [a-z-]+( .*)?", span):
        target = span.split()[1]
        return None if target in targets else f"the Makefile has no target {target}"
    if re.fullmatch(r"[\w.*-]+(/[\w.*-]+)+/?", span):
        first = span.split("/")[0]
        known = first in code.crates or first in ("crates", "deploy", "docs", "tools", "try", "compare", "bench", "demo", "man", "specs", "src", "proofs")
        if known and not stands(span):
            return f"no file {span}"
        return None
    if re.fullmatch(rf"[\w-]+\.(?:{'|'.join(ENDINGS)})", span):
        return None if span in code.files else f"no file {span}"
    if re.fullmatch(r"\w+(::\w+)+", span):
        parts = span.split("::")
        if parts[0] in code.crates:
            missing = [it for it in parts[1:] if not code.declares(parts[0], it)]
            return f"{parts[0]} declares no {missing[0]}" if missing else None
        if parts[0][0].isupper() and not any(code.declares(it, parts[0]) and code.declares(it, parts[-1]) for it in code.crates):
            return f"no crate declares {span}"
    return None


def faults_of_names(page, code, targets):
    for span in dict.fromkeys(page.spans):
        fault = fault_of_span(span, code, targets)
        if fault:
            yield fault
        elif page.path in OF_CODE and re.fullmatch(r"[A-Za-z_]\w{3,}", span) and span not in code.words and not span.isupper():
            yield f"no word {span} stands in the crates"


def faults_of_clauses(page, code):
    """Names in brackets after a call, or behind it and a colon, are its clauses."""
    pattern = r"`([\w:]+)`(?: \(|: )((?:`[a-z]\w*`(?:, | and )?)+)"
    for line in page.paragraphs:
        for call, names in re.findall(pattern, line):
            known = code.clauses_of(call)
            if known is None:
                continue
            for name in re.findall(r"`(\w+)`", names):
                if name not in known:
                    yield f"{call} has no clause {name}"


def faults_of_claims(readme, code):
    """Each claim under *What is proved* names a clause of a call."""
    for claim in re.findall(r"^- .*(?:\n  .*)*", readme.section("What is proved") or "", re.M):
        calls = re.findall(r"`([\w:]+)`\s\(`\w+`", claim)
        if not any(code.clauses_of(it) for it in calls):
            yield f"a claim names no clause: {claim[:40]}.."


def faults_of_clause_lists(page, code):
    for heading in page.headings:
        found = re.fullmatch(r"The clauses of `(\w+)`", heading)
        if not found:
            continue
        named = set()
        for line in page.section(heading).split("\n"):
            front = re.match(r"- ((?:`\w+`(?:, )?)+):", line)
            if front:
                named.update(re.findall(r"`(\w+)`", front[1]))
        known = (code.clauses_of(found[1]) or set())
        for name in sorted(known ^ named):
            yield f'"{heading}" {"lacks" if name in known else "has, and the call has not,"} {name}'


def known_options():
    """The options in the shapes of the commands, as the definitions of any crate have them."""
    texts = (Code.texts(it, "specs", "antt") for it in os.listdir(CRATES))
    named = {f"--{it}" for text in texts for it in re.findall(r'\b(?:needed|optional|flag) \(codes "([a-z-]+)"\)', text)}
    return named | set(re.findall(r'bytes_eq word \(codes "(--[a-z]+)"\)', Code.texts("sb_words", "specs", "antt")))


def statuses_of(end):
    text = Code.texts(ENDS[end][0], "specs", "antt")
    found = re.search(r"^Is(?:Server|JournalRun|Mirror|Proxy)?Status status =(.*?)(?:^\S|\Z)", text, re.M | re.S)
    return set(map(int, re.findall(r"status ≡ (\d+)", found[1]))) if found else set()


def faults_of_options(pages):
    known = known_options()
    for page in pages:
        if page.path not in OF_OPTIONS:
            continue
        named = {it for span in page.spans for it in re.findall(r"(?<!\S)--[a-z][a-z-]*", span)}
        for option in sorted(named - known - NO_OPTIONS):
            yield page.path, f"no program has the option {option}"
        if page.path in (README, FORMATS):
            for option in sorted(known - named):
                yield page.path, f"the option {option} is not told of"


def faults_of_statuses(formats, readme):
    for end, (_, heading) in ENDS.items():
        section, known = formats.section(heading), statuses_of(end)
        if section is None:
            yield FORMATS, f"no section {heading}"
            continue
        tables = [it for it in tables_of(section) if it[0][0].startswith("Status")]
        named = {int(row[0]) for table in tables for row in table[1:] if row[0].isdigit()}
        for status in sorted(known ^ named):
            yield FORMATS, f'"{heading}" {"lacks" if status in known else "has, and no definition has,"} the status {status}'
        named = set()
        for table in tables_of(readme.text):
            if table[0][:2] == ["Program", "Status"]:
                for row in table[1:]:
                    if row[0] == "each" or any(PROGRAMS.get(it) == end for it in re.findall(r"`(\w+)`", row[0])):
                        named.add(int(row[1]))
        for status in sorted(known ^ named):
            yield README, f'the statuses of {end} {"lack" if status in known else "have, and no definition has,"} {status}'


def faults_of_form(readme):
    for number, line in enumerate(readme.whole.split("\n"), 1):
        if line.startswith("|"):
            for cell in cells_of(line):
                if len(cell.split()) > MOST_WORDS:
                    yield f"line {number} has a cell of {len(cell.split())} words; {MOST_WORDS} are the most"
    for line in readme.text.split("\n"):
        if len(line) > MOST_COLUMNS and not line.startswith("|"):
            yield f"a line has {len(line)} columns; {MOST_COLUMNS} are the most: {line[:40]}.."


def faults_of_sections(formats):
    """Each section of the page of formats is among the subjects above the first, and begins with its standard and the files
    that hold it."""
    subjects, *sections = re.split(r"^## ", formats.text, flags=re.M)
    for section in sections:
        heading, _, rest = section.partition("\n")
        if f"](#{anchor(heading)})" not in subjects:
            yield f'"{heading}" is not among the subjects'
        front = rest.strip().split("\n\n")[0]
        if not front.startswith("*Standard: ") or not re.search(r"(?:Definitions?|Code):\s", front):
            yield f'"{heading}" does not begin with its standard and the files of its definitions'


def faults_of_quotes(page):
    """What stands between fences that are marked `rust` is quoted from a file that the page names, word for word."""
    quotes = re.findall(r"^```rust\n(.*?)^```", page.whole, re.M | re.S)
    named = [it for it in page.spans if it.startswith("crates/") and it.endswith(".rt") and stands(it)]
    texts = [text_of(it) for it in named]
    for quote in quotes:
        if texts and not any(quote in it for it in texts):
            yield f"no named file has what is quoted: {quote.strip().splitlines()[0].strip()}"


def faults_of_crates(page):
    for crate in reading_lists.crates_in_order():
        if f"`{crate}`" not in page.text:
            yield f"the crate {crate} is not told of"


def faults():
    code, pages = Code(), []
    for path in [*PAGES, *sorted(glob.glob(os.path.join(REPOSITORY, "docs", "**", "*.md"), recursive=True)), *sorted(glob.glob(os.path.join(CRATES, "*", "*.md")))]:
        pages.append(Page(os.path.relpath(path, REPOSITORY) if os.path.isabs(path) else path))
    by_path = {it.path: it for it in pages}
    targets = set(re.findall(r"^([a-z-]+):", text_of("Makefile"), re.M))
    for page in pages:
        found = [*faults_of_links(page), *faults_of_names(page, code, targets), *faults_of_quotes(page)]
        if page.path in (README, PROMISES):
            found += faults_of_clauses(page, code)
        yield from ((page.path, it) for it in found)
    yield from ((README, it) for it in faults_of_claims(by_path[README], code))
    yield from ((PROMISES, it) for it in faults_of_clause_lists(by_path[PROMISES], code))
    yield from ((FORMATS, it) for it in faults_of_sections(by_path[FORMATS]))
    yield from faults_of_options(pages)
    yield from faults_of_statuses(by_path[FORMATS], by_path[README])
    yield from ((README, it) for it in faults_of_form(by_path[README]))
    yield from ((ARCHITECTURE, it) for it in faults_of_crates(by_path[ARCHITECTURE]))


def main():
    found = list(dict.fromkeys(faults()))
    for path, fault in found:
        print(f"documents: {path}: {fault}", file=sys.stderr)
    for fault in reading_lists.faults():
        print(f"documents: {fault}", file=sys.stderr)
        found.append(fault)
    if not found:
        print("documents: what they name stands", file=sys.stderr)
    return 1 if found else 0


if __name__ == "__main__":
    sys.exit(main())
