# Builds the programs, and tries, compares and measures them.
#
# The toolchain builds a program only once it is proved, so the first build proves the programs and what they stand on; a
# later one proves what has changed since. The code is optimised (LLVM, -O3).

SHELL := /bin/bash
LIST := MALWARE/ANY_PLATFORM/URL
PROGRAMS := sbupdate sbcheck sblistd sbjournal sbmirror sbproxy
INSTALLED := sbupdate sbcheck sblistd sbjournal sbmirror sbproxy
BUILT := $(wildcard bin/sbupdate bin/sblistd)

PREFIX ?= /usr/local
SYSCONFDIR ?= /etc
BINDIR ?= $(PREFIX)/bin
MANDIR ?= $(PREFIX)/share/man/man1
DATADIR ?= $(PREFIX)/share/kestrelplumb
DOCDIR ?= $(PREFIX)/share/doc/kestrelplumb
COMPLETIONDIR ?= $(PREFIX)/share/bash-completion/completions
UNITDIR ?= $(PREFIX)/lib/systemd/system
SYSUSERSDIR ?= $(PREFIX)/lib/sysusers.d

UNITS := $(notdir $(wildcard deploy/systemd/*))
DEFAULTS := $(notdir $(wildcard deploy/default/*))
FRONTS := nginx-server.conf nginx-client.conf

# What the units name, as it stands in deploy/, and where it is put
PLACES := -e 's|/usr/bin/|$(BINDIR)/|g' -e 's|/usr/share/kestrelplumb/|$(DATADIR)/|g' -e 's|/etc/default/|$(SYSCONFDIR)/default/|g'

.PHONY: all test check gate wrong-bodies install uninstall demo compare try-http try-run try-feeds try-slow try-memory try-faults try-readme try-mirror try-proxy bench
.PHONY: try-front try-units try-deb try-browser deb release clean

all:
	python3 tools/build.py $(PROGRAMS)

test:
	.ci/run

# The repository's own checks alone, without a proof: wrong bodies, rules for crates, what the documents name, and the man
# pages.
check:
	tools/check.sh

# The gate, and what each crate cost of it.
gate:
	python3 tools/gate.py

# Tries the wrong bodies that the gate leaves alone: those of the crates in NAMES, or all.
wrong-bodies:
	python3 tools/wrong_bodies.py try $(NAMES)

# Copies the programs of bin/, their pages, completions and units, and what else deploy/ has, below PREFIX, which DESTDIR may
# stand before, as packages use it. A file of SYSCONFDIR/default that is there stays as it is. It builds nothing: run make first.
install:
	@for program in $(INSTALLED); do \
	  test -x bin/$$program || { echo "bin/ has no $$program yet: make proves and builds it"; exit 1; }; done
	install -d "$(DESTDIR)$(BINDIR)" "$(DESTDIR)$(MANDIR)" "$(DESTDIR)$(DATADIR)" "$(DESTDIR)$(COMPLETIONDIR)" \
	  "$(DESTDIR)$(UNITDIR)" "$(DESTDIR)$(SYSUSERSDIR)" "$(DESTDIR)$(SYSCONFDIR)/default" "$(DESTDIR)$(DOCDIR)"
	install -m 755 $(INSTALLED:%=bin/%) "$(DESTDIR)$(BINDIR)"
	install -m 644 $(INSTALLED:%=man/%.1) "$(DESTDIR)$(MANDIR)"
	install -m 644 $(INSTALLED:%=deploy/completions/%) "$(DESTDIR)$(COMPLETIONDIR)"
	install -m 755 deploy/sync-feed "$(DESTDIR)$(DATADIR)"
	install -m 644 $(FRONTS:%=deploy/%) "$(DESTDIR)$(DATADIR)"
	install -m 644 deploy/sysusers.d/kestrelplumb.conf "$(DESTDIR)$(SYSUSERSDIR)"
	install -m 644 deploy/copyright "$(DESTDIR)$(DOCDIR)"
	@for unit in $(UNITS); do \
	  echo "deploy/systemd/$$unit to $(DESTDIR)$(UNITDIR)"; \
	  sed $(PLACES) deploy/systemd/$$unit > "$(DESTDIR)$(UNITDIR)/$$unit" && chmod 644 "$(DESTDIR)$(UNITDIR)/$$unit" || exit 1; done
	@for name in $(DEFAULTS); do \
	  test -e "$(DESTDIR)$(SYSCONFDIR)/default/$$name" || install -m 644 deploy/default/$$name "$(DESTDIR)$(SYSCONFDIR)/default" || exit 1; done

# Removes what install copied, but for files of SYSCONFDIR/default that were changed since, and leaves the folders.
uninstall:
	rm -f $(INSTALLED:%="$(DESTDIR)$(BINDIR)/%") $(INSTALLED:%="$(DESTDIR)$(MANDIR)/%.1") $(INSTALLED:%="$(DESTDIR)$(COMPLETIONDIR)/%") \
	  "$(DESTDIR)$(DATADIR)/sync-feed" $(FRONTS:%="$(DESTDIR)$(DATADIR)/%") "$(DESTDIR)$(SYSUSERSDIR)/kestrelplumb.conf" \
	  $(UNITS:%="$(DESTDIR)$(UNITDIR)/%") "$(DESTDIR)$(DOCDIR)/copyright"
	@for name in $(DEFAULTS); do \
	  ! cmp -s deploy/default/$$name "$(DESTDIR)$(SYSCONFDIR)/default/$$name" || rm "$(DESTDIR)$(SYSCONFDIR)/default/$$name"; done

# A Debian package of the programs, in dist/. release makes a tar of make install too, and the SHA-256 of both.
deb: all
	python3 tools/deb.py build dist

release: all
	python3 tools/deb.py release dist

# The recording has an update with a wrong checksum, the same update with the right one, a later one whose
# prefixes come in no order, and a partial one. The first is refused, so the replay ends with status 5. Where the programs
# are built, a server and a client of it run too: up to 66 seconds.
demo:
ifneq ($(words $(BUILT)),2)
	@echo "bin/ has no programs yet: this runs the same code compiled without its proofs. make proves and builds it."
	@cd crates/sbupdate && rt try -- replay $(LIST) < ../../demo/recording.jsonl; status=$$?; \
	  echo "status $$status"; test $$status -eq 5
else
	@bin/sbupdate replay $(LIST) < demo/recording.jsonl; status=$$?; \
	  echo "status $$status"; test $$status -eq 5
	@bash demo/run.sh
endif

# A second program of the same rules, in Python, has to print what the programs print, and what the stored
# cases say. Runs that judge, and what has noise in its bytes, are compared by the program that runs the stored cases.
compare: all
	python3 tools/build.py $(PROGRAMS) stored_cases
	python3 compare/cases.py
	python3 compare/compare.py
	python3 compare/making.py
	python3 compare/noise.py

# Drives sblistd over loopback with curl, and shows what the programs say of what they cannot use.
try-http: all
	bash try/http.sh

# Kills fifty clients in mid-run, and sees that the next run of each comes to the server's set; then pipes, closed
# descriptors, and stores that are held or taken. Last, URLs are judged against a server, and on several threads beside updates.
try-run: all
	bash try/run.sh
	bash try/judge.sh
	python3 try/beside.py

# Makes lists of small feeds by deploy/sync-feed, and sees what a client says of their URLs. Up to three minutes.
try-feeds: all
	bash try/feeds.sh

# Puts nginx with the files of deploy/ before sblistd and before the clients, with a certificate of its own, and then goes by the
# commands that README has for a new host. Up to five minutes.
try-front: all
	bash try/front.sh
	bash try/host.sh

# Points an installed Firefox at sblistd by settings alone, in a network namespace that has lo alone. Up to two minutes.
try-browser: all
	python3 try/browser.py

# Holds the units to systemd-analyze, and if systemd runs and one is root starts them. Up to three minutes.
try-units: all
	bash try/units.sh

# Makes the package twice, unpacks it, and runs what is in it without the kit and without the repository.
try-deb: all
	bash try/deb.sh

# Measures how long good clients of sblistd wait beside slow ones, and fails where one waits for more than a second. Each kind
# and number of peers is kept for a minute, or for SECONDS: it takes twenty to thirty minutes, and at most ten with SECONDS=15.
# The peers of slowhttptest are tried too where that is installed.
try-slow: all
	python3 try/slow.py $(if $(SECONDS),--seconds $(SECONDS))
	python3 try/attack.py $(if $(SECONDS),--seconds $(SECONDS))

# Measures the memory that sbupdate and sblistd take for hostile JSON, and fails where it is more than the limits allow.
try-memory: all
	python3 try/memory.py

# Lets each allocation and each call of the built programs fail, one in each run, where there is a C compiler. Half a minute.
try-faults: all
	python3 try/faults.py

# Runs the sessions of README in a clean clone, with the programs of bin/, and compares what they print. Up to four minutes.
try-readme: all
	python3 try/readme.py

# Puts two mirrors in a row behind sblistd, and twenty clients behind them, while the journal grows and all but the server are killed and
# started again. Then a mirror of a server that says nothing is asked. Up to eight minutes.
try-mirror: all
	python3 try/mirror.py

# Asks a proxy of sblistd for URLs, on several threads and by curl, while the journal grows, and kills it in between. Then proxies of servers
# that say nothing, that trickle, that are away and that have no name are asked, for a minute each. Up to ten minutes.
try-proxy: all
	python3 try/proxy.py

# Times the programs, and looks at publications, which no command shows: a program of its own is proved and built for it.
bench: all
	python3 tools/build.py publication_looks
	python3 bench/bench.py
	python3 bench/lookups.py
	python3 bench/door.py
	python3 bench/workers.py
	python3 bench/mirror.py
	python3 bench/proxy.py

clean:
	rm -rf bin dist
