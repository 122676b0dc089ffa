# The commands that the pages name, from the top of the repository. `make try` is the one to begin with.
RADCLOCK = crates/radclock/out/radclock
PREFIX ?= /usr/local
DEST = $(DESTDIR)$(PREFIX)
COMMANDS = radclock collect look pcap

# The main job on the sample, compiled with its contracts tried and nothing proved: about a minute.
try:
	cd crates/radclock && rt try -- replay --reads 6 --back < ../../sample/exchanges.txt

# The gate: every proof from nothing, the edits that must fail, the tests and the stored runs. It sets the built program aside.
check:
	.ci/run

# Proves the program and the libraries below it, and keeps what it built. Where nothing changed it takes a second.
build:
	cd crates/radclock && rt run -- make 7 3 > /dev/null

$(RADCLOCK):
	$(MAKE) build

tools:
	$(MAKE) -C tools/collect

test-tools: tools
	set -e; for tool in tools/*/test_*.py bench/beside/test_*.py; do (cd "$$(dirname "$$tool")" && python3 -m unittest -q "$$(basename "$$tool" .py)"); done

# The built program over the real captures of sample/.
test-samples: $(RADCLOCK)
	python3 tools/test_samples.py

bench: $(RADCLOCK)
	python3 bench/bench.py $(RADCLOCK)

# The program as it was built last (or as it is built now, where the gate has set it aside), the tools, and a page of the manual
# for each. Run `make build` first where the sources have changed.
install: $(RADCLOCK) tools
	install -d $(DEST)/bin $(DEST)/share/man/man1 $(DEST)/lib/radclock/look $(DEST)/lib/radclock/pcap
	install -m 755 $(RADCLOCK) tools/collect/collect $(DEST)/bin
	install -m 644 $(filter-out tools/look/test_%,$(wildcard tools/look/*.py)) $(DEST)/lib/radclock/look
	install -m 644 $(filter-out tools/pcap/test_%,$(wildcard tools/pcap/*.py)) $(DEST)/lib/radclock/pcap
	set -e; for tool in look pcap; do \
		install -m 755 tools/$$tool/$$tool $(DEST)/lib/radclock/$$tool; \
		ln -sf ../lib/radclock/$$tool/$$tool $(DEST)/bin/$$tool; \
	done
	install -m 644 $(COMMANDS:%=docs/man/%.1) $(DEST)/share/man/man1

# Takes away what `make install` laid there.
uninstall:
	rm -f $(COMMANDS:%=$(DEST)/bin/%) $(COMMANDS:%=$(DEST)/share/man/man1/%.1)
	rm -rf $(DEST)/lib/radclock

clean:
	$(MAKE) -C tools/collect clean
	rm -rf crates/*/out

.PHONY: try check build tools test-tools test-samples bench install uninstall clean
