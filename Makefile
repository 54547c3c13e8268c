# make report      an evening's images, loaded one after the other, and who shuts out whom
# make canonical   the canonical form of an example manifest, through a C host
# make examples    builds the C hosts of examples/ and runs each
# make python      target/python/libacon.so, which python/acon.py uses
# make test        the gate: proofs, must-fail edits, tests
# make install     the header, the archive, acon.pc and PROVENANCE, below $(DESTDIR)$(PREFIX); the archive has to be there
# make bench       the library beside serde_json, Python's json and a host's own loading, judging and resolving, and checking beside canonical
#
# ACON_LIB=FILE uses another archive than the one that rt makes (not in `make test`).

.PHONY: report canonical examples python test install bench archive

PREFIX ?= /usr/local

ifdef ACON_LIB
archive:
else
ACON_LIB = target/staticlib/libacon.a
archive:
	tools/build acon
endif

report:
	tools/build roomreport
	target/bin/roomreport < examples/room.txt

GCC = gcc -O2 -std=c11 -Wall -Wextra -Werror -Iinclude

canonical: archive
	@mkdir -p target/examples
	$(GCC) examples/canonical.c $(ACON_LIB) -o target/examples/canonical
	target/examples/canonical examples/manifest.json

examples: archive
	@mkdir -p target/examples
	for name in canonical fault load judge resolve day; do $(GCC) examples/$$name.c $(ACON_LIB) -o target/examples/$$name || exit 1; done
	target/examples/canonical examples/manifest.json
	target/examples/fault
	target/examples/load
	target/examples/judge
	target/examples/resolve
	target/examples/day examples/room.txt examples/names.txt examples/layers.txt

# All of the archive goes in, since nothing in module.c calls it. The linker refuses an archive that is not position independent.
python: archive
	@mkdir -p target/python
	$(GCC) -shared -fPIC python/module.c -Wl,--whole-archive $(ACON_LIB) -Wl,--no-whole-archive -Wl,-z,text -o target/python/libacon.so

test:
	.ci/run

install:
	@ACON_LIB='$(ACON_LIB)' PREFIX='$(PREFIX)' DESTDIR='$(DESTDIR)' tools/install

bench: archive
	tools/build test_bench
	ACON_LIB=$(ACON_LIB) bench/run
