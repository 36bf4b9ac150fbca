# make: proves and builds ./pma; JOBS=.. says how many processors it may use.  make demo: makes a store that grows.
# make check: the merge gate.  make clean: removes all that was made.
# make install PREFIX=..: the program, its page, manual and format, and the clients.  make uninstall PREFIX=..: removes them.
# make clients: tries the clients on the program, also while it is killed.
# make gate-times: how long the gate's parts take.  make dear-goals: which goals of the proofs cost most, after a check.
# make doc-examples: the examples of README, MANUAL, FORMAT and pma(1).  make doc-names: the names in the documents.
# make promises: the sections of PROMISES that are made of the comments of contracts; make doc-names compares them.
# make trials: wrong bodies of trials/, each of which must be refused.
# make said-twice: functions of a crate that say the same clauses.  make reading CLAUSE=..: what there is to read behind a
# clause of run_words.
# make bench: the processor time of commands beside that of their system calls.
# make faults: each allocation of the program refused in turn.
# make bench-peers RECORDS=.. CSV=.. DISK=..: the program beside SQLite, LMDB and LevelDB, at 60, 10^4 and 10^6 records where
# RECORDS isn't given; numbers into the folder CSV, durable commands in the folder DISK.
# make bench-plots: pictures and tables of docs/BENCHMARKS.md from docs/bench.  make examples: the worked uses of docs/USES.md.

.PHONY: all demo check clean install uninstall gate-times dear-goals said-twice reading doc-examples doc-names promises trials bench \
    faults bench-peers bench-plots examples clients

JOBS ?=
PREFIX ?= /usr/local
CLAUSE ?= headline
RECORDS ?=
CSV ?= bench/out/csv
DISK ?= bench/out

all: pma

# Proves the program with all that it stands on, builds it, and lets it make a store; it fails where any of that fails.
pma: $(shell find crates crates.txt -name out -prune -o -type f -print)
	rm -f pma
	tools/prove.py $(JOBS)
	cp crates/pma_cli/out/pma_cli pma

demo: pma
	rm -f demo.pma
	./pma create-paired demo.pma 4
	printf 'put bolt-m6 140\nput nut-m6 200\nput washer-m6 95\nget nut-m6\nrange b o\nremove bolt-m6\nremove bolt-m6\ncheck\n' | ./pma run demo.pma
	seq -f 'put part-%04g' 1 500 | ./pma run demo.pma | sort | uniq -c
	printf 'check\nrange part-0250 * 3\nprobe part-0250 7\n' | ./pma run demo.pma
	rm -f demo.pma

# Checkouts that a killed `make` left would be refused.
check:
	rm -rf out/make/*/
	.ci/run

clean:
	rm -rf pma demo.pma out crates/*/out bench/out bench/__pycache__ clients/python/__pycache__ clients/python/*/__pycache__
	$(MAKE) -s -C clients/c clean

install: pma
	install -d $(DESTDIR)$(PREFIX)/bin $(DESTDIR)$(PREFIX)/share/man/man1 $(DESTDIR)$(PREFIX)/share/doc/pma
	install -m 755 pma $(DESTDIR)$(PREFIX)/bin/pma
	install -m 644 docs/pma.1 $(DESTDIR)$(PREFIX)/share/man/man1/pma.1
	install -m 644 docs/MANUAL.md docs/FORMAT.md clients/PROTOCOL.md $(DESTDIR)$(PREFIX)/share/doc/pma
	install -d $(DESTDIR)$(PREFIX)/share/pma/python/pma
	install -m 644 clients/python/pma/*.py clients/python/pma/py.typed $(DESTDIR)$(PREFIX)/share/pma/python/pma
	if command -v $(CC) >/dev/null; then $(MAKE) -s -C clients/c install CC='$(CC)' PREFIX='$(PREFIX)' DESTDIR='$(DESTDIR)'; \
	else echo "the C client: left out, since $(CC) isn't there"; fi

uninstall:
	rm -f $(DESTDIR)$(PREFIX)/bin/pma $(DESTDIR)$(PREFIX)/share/man/man1/pma.1
	rm -rf $(DESTDIR)$(PREFIX)/share/doc/pma $(DESTDIR)$(PREFIX)/share/pma
	$(MAKE) -s -C clients/c uninstall PREFIX='$(PREFIX)' DESTDIR='$(DESTDIR)'

gate-times:
	tools/gate-times.sh

dear-goals:
	tools/dear-goals.py

said-twice:
	tools/said-twice.py

reading:
	tools/reading.py . '$(CLAUSE)'

doc-examples: pma
	tools/doc-examples.py ./pma

doc-names:
	tools/doc-names.py
	tools/promises.py --check

promises:
	tools/promises.py

trials:
	tools/trials.sh

bench: pma
	tools/bench.sh ./pma

faults: pma
	tools/faults.sh ./pma

bench-peers: pma
	bench/peers.py --program ./pma --records '$(RECORDS)' --csv '$(CSV)' --disk '$(DISK)'
	bench/clients.py --program ./pma --csv '$(CSV)' --disk '$(DISK)'

bench-plots:
	bench/plots.py docs/bench docs/BENCHMARKS.md

examples: pma
	examples/run.sh ./pma

clients: pma
	clients/run.sh ./pma
