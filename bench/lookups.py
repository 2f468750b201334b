#!/usr/bin/env python3
"""Measures what look-ups at the built `sblistd serve` cost, over a list of 1,048,576 full hashes.

Each request goes over loopback to a server. A row tells the processor time of the server for an answer, user and system, the
least of some rounds; the bytes of the last answer; the peak of the server's memory while they were asked, and what that is above
its memory before; and how many came a second to one client that asks again and again. Every second URL of a request is listed,
and the last answer of a row has to have their matches and no others. A find of one prefix stands beside them, and what
`sbcheck show` takes for the same URLs. The last rows are look-ups of the most bytes that a request may have, in eight lists, of
URLs whose expressions are long: each has thirty, of the bytes of its host, which are escaped.

    lookups.py [--quick]
"""

import argparse
import hashlib
import json
import os
import random
import tempfile

import answers
import bench

LOOKUP = "/v4/threatMatches:find"
HOSTS = 1_024
COUNTS = (1, 50, 500)
MOST_URLS = 500
MOST_URL = 8_192
LINUX = [f"{threat}/LINUX" for threat in ("MALWARE", "SOCIAL_ENGINEERING", "UNWANTED_SOFTWARE")]
LISTS = [answers.LIST, "MALWARE/IOS/URL", *(f"{name}/{entry}" for name in LINUX for entry in ("URL", "EXECUTABLE"))]
# the bytes of an item without its URL, and more than those of a request without its items
AN_ITEM, THE_REST = 12, 1_024


def journal_with_hosts(folder, sizes):
    """The journal of a list that is filled, the last change with the hashes of hosts, and of seven lists that have no hash."""
    journal = answers.Journal(os.path.join(folder, "journal"), LISTS)
    journal.grow([(answers.LIST, answers.A_CHANGE, 0)] * (sizes.full - 1))
    with open(journal.path, "a", encoding="ascii") as file:
        file.write(f"change {answers.LIST} {HOSTS} 0\n")
        file.writelines(f"+{hashlib.sha256(b'h%d.example/' % number).hexdigest()}\n" for number in range(HOSTS))
    journal.version += 1
    return journal


def usual_urls(count):
    """URLs such as pages have, of which every second is of a listed host."""
    numbers = random.Random(bench.SEED + 5)
    listed = (f"http://www.h{numbers.randrange(HOSTS)}.example/news/{place}.html?id={place}" for place in range(count))
    return [url if place % 2 == 0 else bench.usual_url(numbers) for place, url in enumerate(listed)]


def long_urls(count):
    """URLs of as many bytes as fit in a request together. Their bytes are in the host, and each takes three once it is escaped."""
    size = min((answers.MOST_BODY - THE_REST) // count - AN_ITEM, MOST_URL)
    front, end = "http://0.1.2.3.", ".example/1/2/3/4?5"
    return [front + f"{place:03}" + "\x7f" * (size - len(front) - len(end) - 3) + end for place in range(count)]


def lookup(urls, lists=(answers.LIST,)):
    """The body of a look-up of URLs in lists."""
    words = [sorted(set(some)) for some in zip(*(name.split("/") for name in lists))]
    info = dict(zip(("threatTypes", "platformTypes", "threatEntryTypes"), words))
    info["threatEntries"] = [{"url": url} for url in urls]
    return json.dumps({"threatInfo": info}, ensure_ascii=False, separators=(",", ":")).encode("utf-8")


def check_matches(urls, answer):
    """Ends the script if other URLs have a match than those of a listed host."""
    found = [one["threat"]["url"] for one in json.loads(answer).get("matches", [])]
    if found != [url for url in urls if url.startswith("http://www.h")]:
        raise SystemExit(f"lookups: the matches are others: {found[:10]}")


def tell_usual(server, sizes):
    """Look-ups of URLs such as pages have, and a find of one prefix."""
    prefix = hashlib.sha256(b"h0.example/").digest()[:4]
    finds = [answers.find([prefix])] * sizes.repeats
    answers.cost(server, finds, sizes.rounds, anew=False, path=answers.FIND).tell_rate("a find of one prefix")
    for count in COUNTS:
        urls = usual_urls(count)
        bodies = [lookup(urls)] * max(sizes.repeats // count, 4)
        found = answers.cost(server, bodies, sizes.rounds, anew=False, path=LOOKUP)
        check_matches(urls, found.answer)
        found.tell_rate(f"a look-up of {count:,} URL{'s' if count > 1 else ''}")


def tell_shown(folder, sizes):
    """What `sbcheck show` takes for the same URLs, which it prints with their expressions and hashes."""
    paths = [os.path.join(folder, name) for name in ("none", "urls")]
    for path, urls in zip(paths, ([], usual_urls(MOST_URLS))):
        with open(path, "w", encoding="ascii") as file:
            file.writelines(f"{url}\n" for url in urls)
    none, some = bench.least_in_turn([([bench.SBCHECK, "show"], path) for path in paths], 3 * sizes.rounds)
    print(f"  {f'sbcheck show of the same {MOST_URLS} URLs, beside none':<64}{(some - none) * 1e3:9.2f} ms", flush=True)


def tell_long(journal):
    """The dearest look-ups: what they cost, and how long a good client beside them waits."""
    for count in (MOST_URLS, answers.MOST_BODY // MOST_URL):
        urls = long_urls(count)
        answers.tell_dear(journal, f"{count} URLs of {len(urls[0]):,} bytes in eight lists", lookup(urls, LISTS), LOOKUP)


def measure(folder, sizes):
    """Measures all, and prints it."""
    journal = journal_with_hosts(folder, sizes)
    hashes = journal.size() + HOSTS
    print(f"sblistd serve, look-ups over a list of {hashes:,} hashes; processor times of the server for an answer")
    with answers.Server(journal) as server:
        tell_usual(server, sizes)
    tell_shown(folder, sizes)
    tell_long(journal)


def main():
    words = argparse.ArgumentParser(description="Measures what look-ups at sblistd cost.")
    words.add_argument("--quick", action="store_true", help="a small list and few rounds, to see that all runs")
    words = words.parse_args()
    with tempfile.TemporaryDirectory(prefix="lookups-") as folder:
        measure(folder, answers.QUICK if words.quick else answers.Sizes())


if __name__ == "__main__":
    main()
