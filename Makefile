# make try               run the sample with nothing proved, in seconds
# make run [LIST=file]   prove and build the program, then run an event list (hex text or bytes)
# make programs          prove and build all programs: target/bin/replay, compare, merges, arbitration, captured,
#                        write_list, read_list
# make test              the gate: every proof, every must-fail edit, every test
# make lib               target/staticlib/libhoefspanker.a for a C host
# make install PREFIX=   the library, its header, its pkg-config file and the programs
# make bench             the library against a plain Rust version
# make clean
LIST ?= examples/sample.hex
PREFIX ?= /usr/local
DESTDIR ?=
PROGRAMS = replay compare merges arbitration captured write_list read_list
BUILT = $(PROGRAMS:%=target/bin/%)
LIBRARY = target/staticlib/libhoefspanker.a
SOURCES = crates.txt $(shell find crates -path '*/out' -prune -o \( -name '*.rt' -o -name '*.antt' \) -print)
VERSION := $(shell sed -n 's/^.define HOEFSPANKER_VERSION "\(.*\)"$$/\1/p' include/hoefspanker.h)

.PHONY: try run programs lib test bench install clean
# Two rt at once would wait for one another.
.NOTPARALLEL:

try:
	@scripts/try

run: target/bin/replay
	@scripts/bytes "$(LIST)" | target/bin/replay

programs: $(BUILT)

lib: $(LIBRARY)

# Programs and library are made again only if a crate has changed.
$(BUILT) target/bin/tour: target/bin/%: $(SOURCES)
	@scripts/prove $*

$(LIBRARY): $(SOURCES)
	@scripts/prove hoefspanker_c

test:
	@scripts/test

bench: $(LIBRARY) target/bin/merges
	host/bench.sh

install: programs lib
	install -d "$(DESTDIR)$(PREFIX)/bin" "$(DESTDIR)$(PREFIX)/include" "$(DESTDIR)$(PREFIX)/lib/pkgconfig"
	install -m 755 $(BUILT) "$(DESTDIR)$(PREFIX)/bin"
	install -m 644 include/hoefspanker.h "$(DESTDIR)$(PREFIX)/include"
	install -m 644 $(LIBRARY) "$(DESTDIR)$(PREFIX)/lib"
	sed -e 's|@PREFIX@|$(PREFIX)|' -e 's|@VERSION@|$(VERSION)|' include/hoefspanker.pc.in >"$(DESTDIR)$(PREFIX)/lib/pkgconfig/hoefspanker.pc"

clean:
	rm -rf target build crates/*/out
