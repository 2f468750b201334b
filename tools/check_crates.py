#!/usr/bin/env python3
"""Holds the crates to the rules that keep the gate short, as far as a script can.

It fails where a test stands outside the two crates of tests, where there is another crate of tests, where a main has too many
lines, and where the spelling of a message is no `unfoldable` definition. It fails if a function takes more parameters than it may,
a contract has more lines, or a definition takes more parameters, and is not among those of tools/wide_functions.txt,
tools/long_contracts.txt or tools/wide_definitions.txt; it prints the ten greatest of each. It fails where a crate cites a lemma of
another crate of the repository, and where a name of a definition stands in more than one file of specs/ and is not among those of
tools/names_twice.txt. The lists only shrink: it fails too where one of them has what need not stand there.

    check_crates.py
"""

import os
import re
import sys

REPOSITORY = os.path.dirname(os.path.dirname(os.path.abspath(__file__)))
CRATES = os.path.join(REPOSITORY, "crates")
WIDE = os.path.join(REPOSITORY, "tools", "wide_functions.txt")
LONG = os.path.join(REPOSITORY, "tools", "long_contracts.txt")
DEFINED_WIDE = os.path.join(REPOSITORY, "tools", "wide_definitions.txt")
TWICE = os.path.join(REPOSITORY, "tools", "names_twice.txt")
OF_TESTS = ("low_tests", "call_tests")
MOST_LINES = 130
MOST_PARAMETERS = 8
MOST_CONTRACT_LINES = 30
MOST_DEFINED = 9

# as a file of proofs or a `ghost use` names one, and as a tactic of a function does
LEMMAS = re.compile(r"\bRattle\.(?=\w+\.proofs\b)(\w+)|\b(?=\w+::proofs::)(\w+)")
DEFINITION = re.compile(r"(?m)^(?:(?:abbrev|unfoldable|infix[lr]? \d+) )*pub (?:record |data )?(?!mod\b|use\b)([^\s:({]+)")


def lines_of(path):
    with open(path, encoding="utf-8") as file:
        return [it for it in map(str.strip, file) if it and not it.startswith("#")]


def names():
    return [line.partition(":")[0].split()[0] for line in lines_of(os.path.join(REPOSITORY, "crates.txt"))]


def sources(name):
    for at, _, files in os.walk(os.path.join(CRATES, name, "src")):
        for file in sorted(files):
            if file.endswith(".rt"):
                path = os.path.join(at, file)
                with open(path, encoding="utf-8") as text:
                    yield os.path.relpath(path, CRATES), text.read()


def texts(name, folders=("src", "specs", "proofs")):
    """The files of a crate with their texts: code, definitions and proofs."""
    for folder in folders:
        for at, _, files in os.walk(os.path.join(CRATES, name, folder)):
            for file in sorted(files):
                if file.endswith((".rt", ".antt")):
                    path = os.path.join(at, file)
                    with open(path, encoding="utf-8") as text:
                        yield os.path.relpath(path, CRATES), text.read()


def faults_of_lemmas(crates):
    """Where a crate cites lemmas of another, of which it is to cite the clauses and definitions alone."""
    for name in crates:
        for path, text in texts(name):
            for other in dict.fromkeys(first or second for first, second in LEMMAS.findall(text)):
                if other != name and other in crates:
                    yield f"{path} cites lemmas of {other}: what is missing becomes a clause or a law there"


def names_twice(crates):
    """The names of definitions that stand in more than one file of specs/, each with these files."""
    found = {}
    for name in crates:
        for path, text in texts(name, ("specs",)):
            for definition in set(DEFINITION.findall(text)):
                found.setdefault(definition, []).append(path)
    return {definition: paths for definition, paths in found.items() if len(paths) > 1}


def faults_of_names(twice, known):
    for definition in sorted(set(twice) - known):
        yield f"{definition} is defined in {' and '.join(sorted(twice[definition]))}: one thing has one name"
    for definition in sorted(known - set(twice)):
        yield f"tools/names_twice.txt has {definition}, which is defined in one file at most"


def open_spellings(name):
    """The definitions of spellings that open by themselves at each place that cites them."""
    for at, _, files in os.walk(os.path.join(CRATES, name, "specs")):
        for file in sorted(files):
            with open(os.path.join(at, file), encoding="utf-8") as text:
                yield from re.findall(r"(?m)^(?:abbrev )?pub (spelling\w*) ", text.read())


def parameters(text, start):
    """How many parameters stand behind an opening bracket."""
    depth, angle, count, is_empty, before = 1, 0, 1, True, ""
    for char in text[start:]:
        depth += (char in "([{") - (char in ")]}")
        angle += (char == "<") - (char == ">" and before != "-")
        if depth == 0:
            break
        if char == "," and depth == 1 and angle == 0:
            count, is_empty = count + 1, True
        elif not char.isspace():
            is_empty = False
        before = char
    return count - is_empty


def contract_lines(text, start):
    """How many lines the contract of a function has, but for comments: from the first clause to the body, or to the end of what a
    trait asks."""
    depth = 1
    while depth and start < len(text):
        depth += (text[start] in "([{") - (text[start] in ")]}")
        start += 1
    count = 0
    for line in map(str.strip, text[start:].split("\n")):
        is_clause = re.match(r"(requires|ensures)\b", line)
        if line == "{" or not (count or is_clause) and line.endswith(("{", ";")):
            break
        count += bool((count or is_clause) and line and not line.startswith("//"))
        if count and line.endswith("};"):
            break
    return count


def functions(text):
    """The functions of a text that have a name, each with how many parameters it takes and how many lines its contract has."""
    for found in re.finditer(r"\bfn (\w+)\s*(?:<[^({;]*>)?\s*\(", text):
        yield found[1], parameters(text, found.end()), contract_lines(text, found.end())


def groups(text):
    """The names that each bracket at the top of some parameters has before its colon, and how many pieces stand at the top."""
    names, pieces, depth, start, is_piece = 0, 0, 0, 0, False
    for at, char in enumerate(text):
        if char in "([{":
            start = at + 1 if depth == 0 else start
            depth += 1
        elif char in ")]}":
            depth -= 1
            inside = text[start:at]
            names += len(inside.split(":")[0].split()) if depth == 0 and ":" in inside else 0
        if depth == 0 and char.isspace():
            is_piece = False
        elif not is_piece:
            pieces, is_piece = pieces + 1, True
    return names, pieces


def definitions(text):
    """The definitions of a text, each with how many parameters it takes: those of a record stand in its head, which may have several
    lines, and those of another definition before the sign of its first equation."""
    for found in re.finditer(r"(?m)^pub record ([^\s:({]+)((?:.|\n)*?) : Type", text):
        yield found[1], groups(found[2])[0]
    for found in re.finditer(r"(?m)^(?:abbrev|unfoldable) pub ([^\s:({]+) :", text):
        equation = re.search(rf"(?m)^{re.escape(found[1])}((?: [^\n=]*)?) =", text)
        if equation:
            yield found[1], groups(equation[1])[1]


def greatest(counted):
    return ", ".join(f"{name} {count}" for name, count in sorted(counted.items(), key=lambda one: (-one[1], one[0]))[:10])


def faults_above(counted, most, known, file, what):
    """What is above a bound and not listed, and what is listed and not above it."""
    above = {name for name, count in counted.items() if count > most}
    for name in sorted(above - known):
        yield f"{name} {what} ({counted[name]}, of at most {most})"
    for name in sorted(known - above):
        yield f"{file} has {name}, which is within its bound"


def faults_of(name, wide, seen, counted):
    if name.endswith("_tests") and name not in OF_TESTS:
        yield f"{name} is a further crate of tests: rows are data, and what is left goes to {' or '.join(OF_TESTS)}"
    for spelling in open_spellings(name):
        yield f"{name} defines {spelling}, which is to be unfoldable"
    for path, text in sources(name):
        if "#[test]" in text and name not in OF_TESTS:
            yield f"{path} has a test: rows are data, and what is left goes to {' or '.join(OF_TESTS)}"
        lines = text.count("\n")
        if path.endswith("/src/main.rt") and lines > MOST_LINES:
            yield f"{path} has {lines} lines, of at most {MOST_LINES}"
        for function, count, length in functions(text):
            known = f"{name}::{function}"
            counted["functions"][known] = max(count, counted["functions"].get(known, 0))
            counted["contracts"][known] = max(length, counted["contracts"].get(known, 0))
            if count > MOST_PARAMETERS:
                seen.add(f"{name}::{function}")
                if f"{name}::{function}" not in wide:
                    yield f"{path}: {function} takes {count} parameters, of at most {MOST_PARAMETERS}: what several share is one value"


def main():
    wide, seen, crates = set(lines_of(WIDE)), set(), names()
    counted = {"functions": {}, "contracts": {}, "definitions": {}}
    faults = [fault for name in crates for fault in faults_of(name, wide, seen, counted)]
    for name in crates:
        for _, text in texts(name, ("specs",)):
            for definition, count in definitions(text):
                known = f"{name}::{definition}"
                counted["definitions"][known] = max(count, counted["definitions"].get(known, 0))
    faults += faults_above(counted["contracts"], MOST_CONTRACT_LINES, set(lines_of(LONG)), "tools/long_contracts.txt", "has a longer contract")
    faults += faults_above(counted["definitions"], MOST_DEFINED, set(lines_of(DEFINED_WIDE)), "tools/wide_definitions.txt", "takes more parameters")
    faults += [f"tools/wide_functions.txt has {it}, which takes no more than it may" for it in sorted(wide - seen)]
    twice = names_twice(crates)
    faults += [*faults_of_lemmas(crates), *faults_of_names(twice, set(lines_of(TWICE)))]
    for fault in faults:
        print(f"crates: {fault}")
    print(f"crates: {len(seen)} functions take more than {MOST_PARAMETERS} parameters, and {len(twice)} names are defined twice, as listed")
    print(f"crates: most parameters of functions: {greatest(counted['functions'])}")
    print(f"crates: longest contracts: {greatest(counted['contracts'])}")
    print(f"crates: most parameters of definitions: {greatest(counted['definitions'])}")
    return 1 if faults else 0


if __name__ == "__main__":
    sys.exit(main())
