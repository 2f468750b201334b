#!/usr/bin/env python3
"""Makes the man pages of the programs, man/PROGRAM.1, of what stands elsewhere.

    man_pages.py write    writes them
    man_pages.py check    fails where one is another, and where what they are made of does not fit together

NAME is the first line of a program's `main.rt`, SYNOPSIS and COMMANDS are its usage text as the code has it, DESCRIPTION
is what README begins with and what NOTES has of the program, OPTIONS, OUTPUT, EXIT STATUS, FILES and DIAGNOSTICS are tables
of docs/FORMATS.md, and EXAMPLES are those steps of README's sessions that run the program. The date and the version are those
of the first heading of CHANGELOG.md.

A table of options begins with "Option of" and the commands that have them, one of statuses with "Status of", and one of files
with "File of". A column of printed lines, or of causes in them, has a head that ends with "of" and the commands that print
them, and the column beside it that is no number says what they mean. A command of which another program has the name too stands there
behind its program, as `sbmirror serve`. A table of what stands on standard error begins with
"Said of" and its object, and ends with the programs that say it. Each command of a usage text has exactly one table of statuses, and
at least one column of lines unless it is in WITHOUT_LINES; its tables of options have each option of its line once, and they may
have more that a command takes. docs/FORMATS.md has each usage text, word for word, and README.md has of each program the statuses
of its commands.
"""

import os
import re
import sys

import check_documents
import reading_lists

REPOSITORY = reading_lists.REPOSITORY
README, FORMATS = check_documents.README, check_documents.FORMATS
MAN = os.path.join(REPOSITORY, "man")

# each program: the crate and the constant that have its usage text
PROGRAMS = {
    "sblistd": ("sb_service", "USAGE"),
    "sbupdate": ("sb_client", "UPDATE_USAGE"),
    "sbcheck": ("sb_client", "CHECK_USAGE"),
    "sbjournal": ("journal_run", "USAGE"),
    "sbmirror": ("sb_mirror", "USAGE"),
    "sbproxy": ("sb_proxy", "USAGE"),
}

# the programs whose commands have the names of others' commands
BEHIND_PROGRAM = ("sbmirror", "sbproxy")

# a session reads files of the repository; whoever installed the programs has others
OTHER_NAMES = {"demo/journal": "lists", "demo/request.json": "request", "demo/recording.jsonl": "recording", "bin/": ""}
LONGEST_LINE = 120
WIDEST_USAGE = 100

# what asks about a program itself, each as the only word after its name
ASKING = ("--help", "-h", "--version")

# commands that print a form which has a section of its own, or what they read
WITHOUT_LINES = {
    "generate": "a journal, or a URL a line.",
    "new": "the first lines of a journal.",
    "compact": "a whole journal: `sblist 2 EPOCH`, a line `list LIST SIZE` for each list, and records of additions alone.",
    "sync": "records of a journal, which are to be appended to it: `change LIST A R`, A lines `+HASH` and R lines `-HASH`.",
    "change": "records of a journal, which are to be appended to it: `change LIST A R`, A lines `+HASH` and R lines `-HASH`.",
}

# what a page says of its program beside what all pages say
NOTES = {
    "sblistd": [
        "`serve` speaks plain HTTP: before a public server put a front that ends TLS. It answers one request a connection, one after the "
        "other, and waits for all its peers at once. It ends with 2 at the next connection once its journal is no longer what it "
        "read, so only append to a journal; other content is another journal with another epoch, for which the server is started anew.",
        "SIGTERM and SIGINT end it at once: answers under way are cut, and a client asks again after its back-off. A run with "
        "`--connections` that has had them all sends what it has answered for at most 10 seconds more, and ends.",
    ],
    "sbupdate": [
        "`run` waits for up to 60 seconds, at random, before its first request, then between rounds as long as the server bids, and "
        "after a failure 15 minutes to a day. It goes on until it has made its rounds, or is killed: a killed one leaves the old store "
        "or the new one. It speaks plain HTTP: let it talk to a front on its own machine that reaches the server over TLS.",
        "SIGTERM and SIGINT end it at once. The store is the old or the new one then, and the last line of its output may be cut.",
    ],
    "sbcheck": [
        "`judge` reads its input to the end, looks each URL up in the lists of the store, and asks the server if a prefix is listed. "
        "Before its first question it waits for up to 60 seconds, at random, so give it many URLs at once. Without a store, or with one "
        "that is ignored, nothing is listed, so each URL is safe.",
        "A verdict of `judge --update` goes by the lists that its check saw, and not by those that the run brings. URLs are checked in "
        "milliseconds, and the first round waits for up to a minute: a short input is judged by the lists of the store, and without a "
        "store each of its URLs is safe. Let `sbupdate run` keep the lists first.",
        "Undecided is not safe: judge the URL again, and until then warn of it. It speaks plain HTTP: let it talk to a front on its own "
        "machine that reaches the server over TLS.",
        "SIGTERM and SIGINT end it at once. The store of `judge --update` is the old or the new one then, and the last line of its output "
        "may be cut.",
    ],
    "sbjournal": [
        "No command changes a file: whoever runs it appends what it writes, once `check` has read the journal with it. A feed that was "
        "cut to nothing clears no list: an input without a URL is refused unless `--empty` is given.",
        "SIGTERM and SIGINT end it at once, and what it wrote may be cut: append it only if the status is 0.",
    ],
    "sbmirror": [
        "`serve` is a client of one server, and serves what it holds to further clients, with state tokens of its own. It keeps the store "
        "that it is given as `sbupdate run` does, and waits for up to 60 seconds, at random, before its first request. No update waits for "
        "its server: a fetch is answered at once from the lists that it holds, and a find waits for its own answer alone, for 5 seconds at most "
        "before it is passed on.",
        "With each start it draws a new epoch, so each client then gets its lists whole. While a list was never fetched, fetches have no item "
        "for it, and clients keep what they have. It speaks plain HTTP to both sides: before a public mirror put a front that ends TLS.",
        "SIGTERM and SIGINT end it at once: answers under way are cut, and a client asks again after its back-off. The store is the old or the new "
        "one then.",
    ],
    "sbproxy": [
        "`serve` keeps its lists as `sbupdate run` does, and answers look-ups of URLs from them, by the Lookup API: a POST of "
        "`/v4/threatMatches:find` with at most 500 URLs. It asks its server only where a prefix of a URL stands on a list, by prefixes of hashes "
        "alone, one find at a time for all who wait. A look-up that needs no find is answered at once, also while the server is asked, slow or away.",
        "A 503 says that nothing is known of some URL: a list was not fetched yet, or the server cannot be asked in time. It does not say that the "
        "URL is safe. A look-up without URLs is answered 200 once each list of its types was fetched. A list that the server does not have keeps its "
        "types at 503: each round tells it, as `round 1 LIST not-answered`. A find that failed bars further ones for 15 minutes and more.",
        "It waits for up to 60 seconds, at random, before its first round, and so before its first find. Its server may give no `--find-wait`: as long as that "
        "lasts, no hit is decided. It speaks plain HTTP to both sides: let it talk to a front on its own machine that reaches the server over TLS, and let no "
        "other machine ask it.",
        "SIGTERM and SIGINT end it at once: answers under way are cut. The store is the old or the new one then, and a further run begins with it.",
    ],
}


class Fault(Exception):
    """Why no page can be made."""


def text_of(path):
    return reading_lists.text_of(os.path.join(REPOSITORY, path))


def literal_of(crate, name):
    """A constant text of a crate, as the program has it."""
    source = check_documents.Code.texts(crate, "src", "rt")
    found = re.search(rf'^pub const {name}: &str =\s*"((?:[^"\\]|\\.)*)";', source, re.M | re.S)
    if not found:
        raise Fault(f"{crate} has no constant text {name}")
    joined = re.sub(r"\\\n\s*", "", found[1])
    return re.sub(r"\\(.)", lambda it: {"n": "\n"}.get(it[1], it[1]), joined)


class Command:
    """A command of a usage text: its line, which goes on with lines that begin with a bracket, and the sentence below it."""

    def __init__(self, line):
        self.line, self.sentence = line, ""
        program, self.name = line.split()[:2]
        # what the tables of docs/FORMATS.md call it
        self.key = f"{program} {self.name}" if program in BEHIND_PROGRAM else self.name

    @property
    def options(self):
        return {found[1]: found[2] for found in re.finditer(r"(--[a-z-]+)(?: ([^\s\]-][^\s\]]*))?", self.line)}


def entries_of(program, usage):
    """The entries of a usage text: `usage: PROGRAM COMMAND`, an empty line, and for each its line and its sentence. The last says what
    may be asked about the program itself."""
    first, *rest = usage.rstrip("\n").split("\n")
    if first != f"usage: {program} COMMAND" or not rest or rest[0]:
        raise Fault(f"the usage text of {program} does not begin with its line and an empty one")
    commands = []
    for line in rest[1:]:
        if re.match(rf"  {program} \S", line):
            commands.append(Command(line.strip()))
        elif re.match(r" {6}\[", line) and commands and not commands[-1].sentence:
            commands[-1].line += f" {line.strip()}"
        elif re.match(r" {6}\S", line) and commands:
            commands[-1].sentence = f"{commands[-1].sentence} {line.strip()}".strip()
        else:
            raise Fault(f"the usage text of {program} has a line that is no command and no sentence: {line}")
        if len(line) > WIDEST_USAGE:
            raise Fault(f"the usage text of {program} has a line of more than {WIDEST_USAGE} columns: {line}")
    for command in commands:
        if not command.sentence:
            raise Fault(f"the usage text of {program} says nothing of {command.name}")
    if not commands or commands[-1].line != f"{program} {' | '.join(ASKING)}":
        raise Fault(f"the usage text of {program} does not end with {' | '.join(ASKING)}")
    return commands


def commands_of(program, usage):
    """The commands of a usage text."""
    return entries_of(program, usage)[:-1]


class Tables:
    """The tables of options, statuses and files, printed lines and what stands on standard error, by the commands or programs that
    their heads name."""

    def __init__(self, page):
        self.options, self.statuses, self.files, self.lines, self.said, self.helps = [], [], [], [], [], []
        for table in check_documents.tables_of(page.text):
            head = table[0][0]
            for begins, tables in (("Option of ", self.options), ("Status of ", self.statuses), ("File of ", self.files)):
                if head.startswith(begins):
                    tables.append((re.findall(r"`([\w-]+(?: \w+)?)`", head), table[1:]))
            object_of = re.fullmatch(r"Said of (.*), by (`\w+`(?:, | and |`\w+`)*)", head)
            if object_of:
                self.said.append((object_of[1], re.findall(r"`(\w+)`", object_of[2]), table[1:]))
            if table[0] == ["The line has", "So"]:
                self.helps = table[1:]
            self.gather_lines(table)

    def gather_lines(self, table):
        """A column of printed lines or causes, with the column that says what they mean."""
        for at, head in enumerate(table[0]):
            found = re.fullmatch(r"((?:Line|Cause|FAULT)\b.*?),? of ((?:`[\w ]+`|, | and )+)", head)
            if found:
                other = next(it for it in range(len(table[0])) if it != at and table[0][it] not in ("Order", "Number"))
                rows = [(row[at], row[other]) for row in table[1:]]
                self.lines.append((found[1], re.findall(r"`([\w ]+)`", found[2]), rows))

    def lines_for(self, names):
        for name in names:
            if name not in WITHOUT_LINES and not any(name in of for head, of, _ in self.lines if head.startswith("Line")):
                raise Fault(f"{FORMATS} has no table of the lines of {name}")
        return [it for it in self.lines if any(name in it[1] for name in names)]

    def statuses_for(self, names):
        """The tables of these commands, in order."""
        for name in names:
            count = sum(name in of for of, _ in self.statuses)
            if count != 1:
                raise Fault(f"{FORMATS} has {count} tables of statuses for the command {name}")
        return [it for it in self.statuses if any(name in it[0] for name in names)]

    def options_for(self, commands):
        known = check_documents.known_options()
        for command in commands:
            named = [row[0].strip("`") for of, table in self.options if command.key in of for row in table]
            for option in sorted(set(named) | set(command.options)):
                if named.count(option) != 1:
                    raise Fault(f"{FORMATS} tells {named.count(option)} times of the option {option} of {command.name}")
                if option not in command.options and option not in known:
                    raise Fault(f"{FORMATS} tells of {option}, which {command.name} does not take")
        names = [it.key for it in commands]
        return [it for it in self.options if any(name in it[0] for name in names)]


def escaped(text):
    """Text for the formatter, whose hyphens and quotes can be copied from the page."""
    return text.replace("\\", "\\e").replace("-", "\\-").replace("'", "\\(aq").replace("`", "\\(ga")


def plain(text):
    """Markdown in a line: words in backquotes and in stars are bold, a link is its heading in quotes."""
    text = re.sub(r"<code>(.*?)</code>", r"`\1`", text).replace("&#124;", "|")
    text = re.sub(r"\[([^\]]*)\]\([^)]*\)", r'"\1"', text)
    parts = re.split(r"`([^`]*)`|\*\*([^*]*)\*\*", text)
    out = ""
    for at in range(0, len(parts), 3):
        out += escaped(parts[at])
        bold = parts[at + 1] or parts[at + 2] if at + 2 < len(parts) else None
        if bold:
            out += f"\\fB{escaped(bold)}\\fP"
    return out


def of_line(line):
    """A command line: what is typed is bold, what stands for something is slanted, and a bracket is not broken."""

    def word(one):
        found = re.fullmatch(r"([\[(|]*)([^\[\]()|.]+(?:\|[^\[\]()|.]+)*)([\])|.]*)", one)
        if not found:
            return escaped(one)
        font = "I" if re.fullmatch(r"[A-Z][A-Z:|]*", found[2]) else "B"
        return f"{found[1]}\\f{font}{escaped(found[2])}\\fP{found[3]}"

    out, depth = [], 0
    for one in line.split():
        gap = "\\ " if depth else " "
        depth += one.count("[") - one.count("]")
        out.append((gap if out else "") + word(one))
    return re.sub(r"(\\fB\\-\\-[^ ]*?\\fP) (\\fI)", r"\1\\ \2", "".join(out))


def sentence(text):
    """A cell as a sentence of its own."""
    return text[:1].upper() + text[1:] + ("" if text.endswith(".") else ".")


def option_lines(tables, commands):
    placed = {name: value for command in commands for name, value in command.options.items()}
    for of, rows in tables:
        known = [it.name for it in commands if it.key in of]
        yield f".SS \"{joined(known)}\""
        for row in rows:
            name = row[0].strip("`")
            value = f" \\fI{escaped(placed[name])}\\fP" if placed.get(name) else ""
            yield from (".TP", f"\\fB{escaped(name)}\\fP{value}")
            yield plain(sentence(row[1]))
            yield "It is needed." if row[2] == "refused" else f"Where it is not given: {plain(row[2])}."


def status_lines(tables, names):
    for of, rows in tables:
        yield f".SS \"{joined(it.split()[-1] for it in of if it in names)}\""
        for row in rows:
            yield from (".TP", f"\\fB{row[0]}\\fP", plain(sentence(row[1])))
            if len(row) > 2 and row[2]:
                yield f"Printed: {plain(row[2])}."


def joined(names):
    """Names as a sentence has them: with commas, and "and" before the last."""
    *front, last = names
    return f"{', '.join(front)} and {last}" if front else last


def output_lines(tables, commands):
    """What each command prints, and then the causes that stand in these lines."""
    names = [it.key for it in commands]
    for name in names:
        if name in WITHOUT_LINES:
            yield from (f".SS \"{name}\"", plain(sentence(WITHOUT_LINES[name])))
    for first in (True, False):
        for head, of, rows in tables:
            if head.startswith("Line") != first:
                continue
            known = joined(it.split()[-1] for it in of if it in names)
            what = head.replace("Line", "Lines", 1) + ", of " if head != "Line" else ""
            yield f".SS \"{plain(what)}{known}\""
            for printed, means in rows:
                yield from (".TP", plain(printed), plain(sentence(means or "the same")))


def file_lines(tables, names):
    for of, rows in tables:
        if any(it in names for it in of):
            for row in rows:
                yield from (".TP", plain(row[0]), plain(sentence(row[1])))


def diagnostic_lines(program, tables):
    """What the program says on standard error, and what helps."""
    phrases = set()
    yield from (
        f"Before a status that says that something could not be read, written or had, one line says why: \\fB{program}: OBJECT WHAT\\fP,",
        "and behind it the words of the system, if it refused something. The objects, and what is said of them:",
    )
    for name, programs, rows in tables.said:
        if program not in programs:
            continue
        yield f".SS \"{name[:1].upper() + name[1:]}\""
        for row in rows:
            phrases.update(re.findall(r"`([^`]+)`", row[0]))
            yield from (".TP", plain(row[0]), plain(sentence(row[1])))
    helps = [row for row in tables.helps if any(said.startswith(it) for it in re.findall(r"`([^`]+)`", row[0]) for said in phrases)]
    if helps:
        yield '.SS "What helps"'
        for row in helps:
            yield from (".TP", plain(row[0]), plain(sentence(row[1])))


def sessions_of(text):
    """Each step of README's sessions: the command, and the lines that it prints before the next one is given."""
    for block in re.findall(r"^```console\n(.*?)^```", text, re.M | re.S):
        steps = []
        for line in block.splitlines():
            if line.startswith("$ "):
                steps.append([line])
            elif steps:
                steps[-1].append(line)
        yield from steps


def example_lines(program, readme):
    steps = [step for step in sessions_of(readme.whole) if f"bin/{program} " in step[0]]
    if any("$list" in line for step in steps for line in step):
        yield from (".PP", "Here \\fB$list\\fP is \\fBMALWARE/ANY_PLATFORM/URL\\fP.")
    for step in steps:
        yield from (".PP", ".nf", ".RS 4")
        for line in step:
            for old, new in OTHER_NAMES.items():
                line = line.replace(old, new)
            cut = line if len(line) <= LONGEST_LINE else f"{line[:LONGEST_LINE - 3]}..."
            yield f"\\&{escaped(cut)}"
        yield from (".RE", ".fi")


def first_paragraph(readme):
    """What README begins with, below its heading."""
    return " ".join(readme.whole.split("\n\n")[1].split())


def sentences(text):
    """Lines for the formatter, one for each sentence."""
    return [plain(it) for it in re.split(r"(?<=[.:]) (?=[A-Z`])", text)]


def version_of(changes):
    """The version and the day of the first heading."""
    found = re.search(r"^## \[(\d+\.\d+\.\d+)\] - (\d{4}-\d\d-\d\d)$", changes, re.M)
    if not found:
        raise Fault("CHANGELOG.md has no heading with a version and its day")
    return found[1], found[2]


def page_of(program, readme, formats):
    crate, constant = PROGRAMS[program]
    *commands, asking = entries_of(program, literal_of(crate, constant))
    names = [it.key for it in commands]
    tables = Tables(formats)
    about = re.match(r"//! (.*)", text_of(f"crates/{program}/src/main.rt"))[1].rstrip(".")
    others = [f"\\fB{it}\\fP(1)" for it in sorted(PROGRAMS) if it != program]
    options = tables.options_for(commands)
    version, date = version_of(text_of("CHANGELOG.md"))
    lines = [
        '.\\" Written by tools/man_pages.py of the usage text, README.md and docs/FORMATS.md.',
        f'.TH {program.upper()} 1 "{date}" "Kestrelplumb {version}" "User Commands"',
        ".nh",
        ".ad l",
        ".SH NAME",
        f"{program} \\- {plain(about[:1].lower() + about[1:])}",
        ".SH SYNOPSIS",
    ]
    for at, command in enumerate([*commands, asking]):
        lines += ([".br"] if at else []) + [of_line(command.line)]
    lines += [".SH DESCRIPTION", *sentences(first_paragraph(readme))]
    for note in NOTES[program]:
        lines += [".PP", *sentences(note)]
    lines += [".SH COMMANDS"]
    for command in commands:
        lines += [".TP", f"\\fB{escaped(command.name)}\\fP", plain(sentence(command.sentence))]
    lines += [".TP", ", ".join(f"\\fB{escaped(it)}\\fP" for it in ASKING), plain(sentence(asking.sentence))]
    if options:
        lines += [".SH OPTIONS", *option_lines(options, commands)]
    lines += [".SH OUTPUT", *output_lines(tables.lines_for(names), commands)]
    lines += [".SH \"EXIT STATUS\"", *status_lines(tables.statuses_for(names), names)]
    lines += [".SH FILES", *file_lines(tables.files, names)]
    lines += [".SH DIAGNOSTICS", *diagnostic_lines(program, tables)]
    examples = list(example_lines(program, readme))
    lines += [".SH EXAMPLES", *examples] if examples else []
    lines += [
        '.SH "SEE ALSO"',
        ", ".join(others),
        ".PP",
        "Headings in quotes are those of \\fBdocs/FORMATS.md\\fP in the sources of Kestrelplumb, which has the formats and the limits.",
        "\\fBREADME.md\\fP there goes through first uses, and \\fBdocs/PROMISES.md\\fP says what is proved.",
    ]
    return "\n".join(lines) + "\n"


def faults_of_quotes(program, formats):
    usage = literal_of(*PROGRAMS[program])
    if f"```text\n{usage}```\n" not in formats.whole:
        yield f"{FORMATS} has not the usage text of {program}, word for word, between fences of its own"


def faults_of_version():
    """The version that the programs tell is that of the first heading of CHANGELOG."""
    told, headed = literal_of("sb_words", "VERSION"), version_of(text_of("CHANGELOG.md"))[0]
    if told != headed:
        yield f"the programs tell the version {told}, and CHANGELOG.md begins with {headed}"


def faults_of_statuses(program, readme, formats):
    """README's table of statuses has for a program those of its commands."""
    names = [it.key for it in commands_of(program, literal_of(*PROGRAMS[program]))]
    wanted = {int(row[0]) for _, rows in Tables(formats).statuses_for(names) for row in rows}
    named = set()
    for table in check_documents.tables_of(readme.text):
        if table[0][:2] == ["Program", "Status"]:
            named |= {int(row[1]) for row in table[1:] if row[0] == "each" or f"`{program}`" in row[0]}
    for status in sorted(wanted ^ named):
        yield f"{README} {'lacks' if status in wanted else 'has, and no command has,'} the status {status} of {program}"


def pages():
    """Each program's page, by its path."""
    readme, formats = check_documents.Page(README), check_documents.Page(FORMATS)
    return {os.path.join(MAN, f"{it}.1"): page_of(it, readme, formats) for it in PROGRAMS}


def faults():
    readme, formats = check_documents.Page(README), check_documents.Page(FORMATS)
    try:
        made = pages()
        yield from faults_of_version()
        for program in PROGRAMS:
            yield from faults_of_quotes(program, formats)
            yield from faults_of_statuses(program, readme, formats)
    except Fault as fault:
        yield str(fault)
        return
    for path, text in made.items():
        name = os.path.relpath(path, REPOSITORY)
        if not os.path.isfile(path):
            yield f"no {name}; python3 tools/man_pages.py write"
        elif reading_lists.text_of(path) != text:
            yield f"{name} is stale; python3 tools/man_pages.py write"
    for name in sorted(set(os.listdir(MAN)) - {os.path.basename(it) for it in made} if os.path.isdir(MAN) else ()):
        yield f"man/{name} is of no program"


def main(words):
    if words == ["check"]:
        found = list(faults())
        for fault in found:
            print(f"man pages: {fault}", file=sys.stderr)
        if not found:
            print("man pages: they are what they are made of", file=sys.stderr)
        return 1 if found else 0
    if words == ["write"]:
        try:
            made = pages()
        except Fault as fault:
            print(f"man pages: {fault}", file=sys.stderr)
            return 1
        os.makedirs(MAN, exist_ok=True)
        for path, text in made.items():
            with open(path, "w", encoding="utf-8") as file:
                file.write(text)
        return 0
    print(__doc__, file=sys.stderr)
    return 2


if __name__ == "__main__":
    sys.exit(main(sys.argv[1:]))
