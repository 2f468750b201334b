#!/usr/bin/env python3
"""Makes the completions of the programs for bash, deploy/completions/PROGRAM, of their usage texts.

    completions.py write    writes them
    completions.py check    fails if one is another, or if bash proposes something else by it

First come the commands of a program, and what asks about it. Behind a command come its options, each until it is given, and if the command takes lists
their names, of the table of docs/FORMATS.md. Behind an option come files, if it takes a PATH, or its words, as those of
`fetch|find|lookup`. Nothing is proposed for a number, an address or a key.
"""

import os
import re
import shlex
import subprocess
import sys

import check_documents
import man_pages
import reading_lists

REPOSITORY = reading_lists.REPOSITORY
FOLDER = os.path.join(REPOSITORY, "deploy", "completions")

TEXT = """\
# Completions of {program} for bash. Written by tools/completions.py of the usage text.
_{program}() {{
  local current=${{COMP_WORDS[COMP_CWORD]}} before=${{COMP_WORDS[COMP_CWORD - 1]}} options=' ' lists= one
  COMPREPLY=()
  if [ "$COMP_CWORD" = 1 ]; then
    mapfile -t COMPREPLY < <(compgen -W '{commands}' -- "$current")
    return
  fi
  # an option, an equals sign and a value are three words to bash
  [ "$before" != = ] || before=${{COMP_WORDS[COMP_CWORD - 2]}}
  [ "$current" != = ] || current=
  case "${{COMP_WORDS[1]}} $before" in
{values}
  esac
  case "${{COMP_WORDS[1]}}" in
{words}
  esac
  for one in "${{COMP_WORDS[@]:2:COMP_CWORD - 2}}"; do
    options=${{options/" $one "/ }}
    lists=${{lists/" $one "/ }}
  done
  [[ $current == -* || $lists != *[A-Z]* ]] || options=
  [[ $current != -* ]] || lists=
  mapfile -t COMPREPLY < <(compgen -W "$options $lists" -- "$current")
}}
complete -F _{program} {program}
"""


def list_names():
    """The names that lists may have, in order."""
    section = check_documents.Page(check_documents.FORMATS).section("List names")
    table = next(it for it in check_documents.tables_of(section) if it[0][0] == "Code")
    threats, platforms, entries = ([row[at].strip("`") for row in table[1:] if row[at]] for at in (1, 2, 3))
    return [f"{threat}/{platform}/{entry}" for threat in threats for platform in platforms for entry in entries]


def commands_of(program):
    return man_pages.commands_of(program, man_pages.literal_of(*man_pages.PROGRAMS[program]))


def takes_lists(command):
    return re.search(r"\bLIST\b", command.line) is not None


def value_lines(commands):
    """What is proposed behind an option that takes a value."""
    cases = {}
    for command in commands:
        for option, value in command.options.items():
            if value == "PATH":
                does = 'compopt -o filenames 2> /dev/null; mapfile -t COMPREPLY < <(compgen -f -- "$current"); return'
            elif value and "|" in value:
                does = f"mapfile -t COMPREPLY < <(compgen -W '{value.replace('|', ' ')}' -- \"$current\"); return"
            elif value:
                does = "return"
            else:
                continue
            cases.setdefault(does, []).append(f"'{command.name} {option}'")
    for does, patterns in cases.items():
        yield f"    {' | '.join(patterns)}) {does} ;;"


def word_lines(commands):
    """The options of each command, and the lists that it may take."""
    lists = " ".join(list_names())
    for command in commands:
        does = [f"options=' {' '.join(command.options)} '"] if command.options else []
        does += [f"lists=' {lists} '"] if takes_lists(command) else []
        if does:
            yield f"    {command.name}) {'; '.join(does)} ;;"


def text_of(program):
    commands = commands_of(program)
    return TEXT.format(
        program=program,
        commands=" ".join([*(it.name for it in commands), *man_pages.ASKING]),
        values="\n".join(value_lines(commands)) or "    *) ;;",
        words="\n".join(word_lines(commands)) or "    *) ;;",
    )


def proposed(program, text, lines):
    """What bash proposes for the last word of each of these lines of words."""
    script = [text]
    for words in lines:
        quoted = " ".join(map(shlex.quote, [program, *words]))
        script.append(f'COMP_WORDS=({quoted}); COMP_CWORD={len(words)}; _{program}; printf "%s " "${{COMPREPLY[@]}}"; echo')
    done = subprocess.run(["bash", "-c", "\n".join(script)], capture_output=True, text=True, cwd=FOLDER)
    return [sorted(line.split()) for line in done.stdout.splitlines()]


def faults_of_proposals(program, text):
    commands = commands_of(program)
    wanted = [([""], [*(it.name for it in commands), *man_pages.ASKING]), (["--"], [it for it in man_pages.ASKING if it[1] == "-"])]
    for command in commands:
        lists = list_names() if takes_lists(command) else []
        wanted.append(([command.name, "-"], list(command.options)))
        wanted.append(([command.name, ""], lists or list(command.options)))
        if lists:
            wanted.append(([command.name, lists[0], "MALWARE/"], [it for it in lists[1:] if it.startswith("MALWARE/")]))
        for option, value in command.options.items():
            rest = [it for it in command.options if it != option]
            words = sorted(value.split("|")) if value and "|" in value else []
            files = os.listdir(FOLDER) if value == "PATH" else []
            if value:
                wanted.append(([command.name, option, ""], words or files))
                wanted.append(([command.name, option, "=", ""], words or files))
                wanted.append(([command.name, option, "x", "-"], rest))
            else:
                wanted.append(([command.name, option, "-"], rest))
    found = proposed(program, text, [words for words, _ in wanted])
    if len(found) != len(wanted):
        yield f"bash does not take the completions of {program}"
    for (words, names), given in zip(wanted, found):
        if given != sorted(names):
            yield f"behind {program} {' '.join(words)} bash proposes {' '.join(given) or 'nothing'}"


def faults():
    made = {it: text_of(it) for it in man_pages.PROGRAMS}
    for program, text in made.items():
        path = os.path.join(FOLDER, program)
        if not os.path.isfile(path):
            yield f"no deploy/completions/{program}; python3 tools/completions.py write"
        elif reading_lists.text_of(path) != text:
            yield f"deploy/completions/{program} is stale; python3 tools/completions.py write"
        else:
            yield from faults_of_proposals(program, text)
    for name in sorted(set(os.listdir(FOLDER)) - set(made) if os.path.isdir(FOLDER) else ()):
        yield f"deploy/completions/{name} is of no program"


def main(words):
    if words not in (["check"], ["write"]):
        print(__doc__, file=sys.stderr)
        return 2
    try:
        if words == ["write"]:
            os.makedirs(FOLDER, exist_ok=True)
            for program in man_pages.PROGRAMS:
                with open(os.path.join(FOLDER, program), "w", encoding="utf-8") as file:
                    file.write(text_of(program))
            return 0
        found = list(faults())
    except man_pages.Fault as fault:
        found = [str(fault)]
    for fault in found:
        print(f"completions: {fault}", file=sys.stderr)
    if not found:
        print("completions: bash proposes what the usage texts have", file=sys.stderr)
    return 1 if found else 0


if __name__ == "__main__":
    sys.exit(main(sys.argv[1:]))
