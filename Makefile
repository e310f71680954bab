# make run: a first look. make test: everything, as the gate runs it. make ctest: the edit loop. make soak. make bench. make stack. make map. make figures. make clean.
# make install, make uninstall, [PREFIX=..] [DESTDIR=..]: the kit of a release.

SHELL := /bin/bash
.SHELLFLAGS := -eu -o pipefail -c
.PHONY: help run test ctest soak bench stack map figures setup clean
.DEFAULT_GOAL := help
.NOTPARALLEL: # rt works with all processors by itself

# Outside vectors, bigger than the repository's own, of the calls and of the lister; where a file is not there it is passed over.
VECTORS ?= ../shared/vectors/after-C-13.txt
LISTINGS ?= ../shared/vectors/lister-after-C-14.txt

# Outside vectors of release 4: all stay as they were, but that joined values are clipped, as vectors does with those of an unclipped file. Of
# releases 1, 2 and 3 what they accept stays likewise, but for the rows of fields, which have grown, and that a name is asked with its sub-frame,
# 1, in front of the slot.
BEFORE ?= ../shared/vectors/after-C-14.txt
STORED ?= ../shared/vectors/base.txt ../shared/vectors/after-C-11.txt ../shared/vectors/after-C-16.txt

# The repository's own vectors that the library runs; the reference runs all.
CASES := tests/cases/sheet.txt tests/cases/frame.txt tests/cases/home.txt tests/cases/uplink.txt tests/cases/sixteen.txt tests/cases/lcr.txt \
	tests/cases/clip.txt

# rt compiles for x86-64 on every machine: elsewhere such programs are linked by a cross compiler and run by qemu.
ifeq ($(shell uname -m),x86_64)
CC := gcc
RUN :=
SHIFTS := 16 32 48
PACKAGES := gcc libc6-dev pkgconf
else
CC := x86_64-linux-gnu-gcc
RUN := qemu-x86_64 -L /usr/x86_64-linux-gnu
PACKAGES := gcc-x86-64-linux-gnu libc6-dev-amd64-cross qemu-user pkgconf
run: setup
endif

CFLAGS := -static -O2 -std=c11 -Wall -Wextra -Werror -Iinclude
ARCHIVE := target/staticlib/libummervia.a
TOUR := target/bin/tour
LISTER := target/bin/lister
PICTURE := target/bin/picture
REFERENCE := $(wildcard tests/reference*) tests/implementation.h
SOURCE_FILES := crates.txt crates -type f -not -path '*/out/*'
SOURCES := $(shell find $(SOURCE_FILES))

help:
	@head -n 2 Makefile

run: $(TOUR)
	@$(RUN) $(TOUR)

test:
	@.ci/run

ctest: target/c/calls target/c/values target/c/vectors target/c/loop target/c/random target/c/home target/c/thinned target/c/nan \
	target/c/stack target/c/picture target/c/tour target/c/sizes $(LISTER) $(PICTURE)
	$(RUN) target/c/calls
	$(RUN) target/c/values
	@run() { if [ -f "$$2" ]; then echo "$(RUN) target/c/vectors $$*"; $(RUN) target/c/vectors "$$@"; \
	else echo "vectors: $$2 is not there: skipped"; fi; }; \
	for file in tests/cases/*.txt '$(VECTORS)'; do run reference "$$file"; done; \
	for file in $(CASES) '$(VECTORS)'; do run library "$$file"; done; \
	for by in reference library; do run "$$by" '$(BEFORE)' unclipped; done; \
	for file in $(STORED); do if [ -f "$$file" ]; then \
	grep -Ev '^(read|length|write) ' "$$file" | grep ' => 0 ' | sed -E 's/^(name [^ ]+ [^ ]+) /\1 1 /' > target/c/stored.txt; \
	echo "accepted in $$file:"; run library target/c/stored.txt unclipped; \
	else echo "vectors: $$file is not there: skipped"; fi; done
	$(RUN) target/c/loop
	$(RUN) target/c/random
	$(RUN) target/c/home
	$(RUN) target/c/thinned
	$(RUN) target/c/nan
	$(RUN) target/c/stack small
	tests/lister.sh '$(LISTINGS)' $(RUN) $(LISTER)
	tests/picture.sh $(PICTURE) target/c/picture $(RUN)
	$(RUN) target/c/tour > target/c/tour.txt
	@cmp -s target/c/tour.txt crates/tour/stdout || diff -au target/c/tour.txt crates/tour/stdout
	@echo 'tour: as the plain C has it'
	$(RUN) target/c/sizes examples/example.sheet
	tests/kit.sh $(CC) $(RUN)
	tests/reading.sh
	tests/promises.sh
	tests/map.sh

# The kit: archive, header, pkg-config file, manual page, papers and examples. The header says its release and its calls,
# docs/SPEED.md the stack of each call.
PREFIX ?= /usr/local
ROOT := $(abspath $(PREFIX))
KIT := $(DESTDIR)$(ROOT)
RELEASE := $(shell sed -n 's/^.define UMV_RELEASE "\(.*\)".*/\1/p' include/ummervia.h)
PAGES := $(shell sed -n 's/^uint32_t \(umv_[a-z_]*\).*/\1/p' include/ummervia.h)
MANUAL := $(KIT)/share/man/man3
PAPERS := $(KIT)/share/doc/ummervia

.PHONY: install uninstall
install: $(ARCHIVE)
	@mkdir -p target/kit
	@sed -e 's|@PREFIX@|$(ROOT)|' -e 's|@RELEASE@|$(RELEASE)|' kit/ummervia.pc.in > target/kit/ummervia.pc
	@sed -n 's/^| \(umv_[a-z_]*\) | \([0-9,]*\) | \([0-9,]*\) |$$/.TP 24\n.B \1\n\2 (\3)/p' docs/SPEED.md > target/kit/stack
	@sed -e 's|@RELEASE@|$(RELEASE)|' -e '/^@STACK@$$/{r target/kit/stack' -e 'd}' kit/ummervia.3.in > target/kit/ummervia.3
	install -D -m 644 -t $(KIT)/lib $(ARCHIVE)
	install -D -m 644 -t $(KIT)/include include/ummervia.h
	install -D -m 644 -t $(KIT)/lib/pkgconfig target/kit/ummervia.pc
	install -D -m 644 -t $(MANUAL) target/kit/ummervia.3
	@echo .so man3/ummervia.3 > target/kit/page; \
	for call in $(PAGES); do install -m 644 target/kit/page $(MANUAL)/$$call.3; done
	install -D -m 644 -t $(PAPERS) docs/PROMISES.md docs/SPEED.md
	install -D -m 644 -t $(PAPERS)/examples examples/Makefile examples/*.c examples/*.sheet

# Leaves the folders that others install into.
uninstall:
	rm -f $(KIT)/lib/libummervia.a $(KIT)/include/ummervia.h $(KIT)/lib/pkgconfig/ummervia.pc
	@rm -f $(MANUAL)/ummervia.3 $(PAGES:%=$(MANUAL)/%.3)
	rm -rf $(PAPERS)

# A million random calls, or CALLS, from a new seed, or SEED; then stretches counted on 20,000 sheets, or SHEETS. The first difference of a call ends
# it and says how to repeat it.
soak: setup target/c/random target/c/thinned
	@seed=$(or $(SEED),0x$$(od -An -N8 -tx8 /dev/urandom | tr -d ' ')); \
	$(RUN) target/c/random $$seed $(or $(CALLS),1000000); \
	$(RUN) target/c/thinned $$seed $(or $(SHEETS),20000)

# Instructions, counted: the same table on every machine with these compilers; on x86-64 time too, by programs that have their code at
# different places of a cache line. Beside what setup installs it needs qemu and the machine's own gcc, for the plugin that counts.
BENCHES := target/c/bench $(SHIFTS:%=target/c/bench-%)
bench: setup $(BENCHES)
	@{ command -v qemu-x86_64 && command -v gcc; } > /dev/null || { apt-get update && \
	apt-get install -y --no-upgrade --no-install-recommends qemu-user gcc libc6-dev; }
	@bench/run $(BENCHES)

# Bytes of stack that each call needs, measured: the same table wherever the same archive runs.
stack: setup target/c/stack
	@bench/stack $(RUN) target/c/stack

# The picture of the crates that README.md shows.
map:
	@svg=$$(LC_ALL=C awk -f tests/map.awk crates.txt); echo "$$svg" > docs/map.svg

# The row of docs/landings/README.md for the files as they are.
figures:
	@tests/figures.sh

# Installs only what is missing: asked by linking a program and running it, and by running pkg-config.
setup:
	@mkdir -p target/c; echo 'int main(void) { return 0; }' > target/c/probe.c; \
	try() { $(CC) -static target/c/probe.c -o target/c/probe && $(RUN) target/c/probe && pkg-config --version > /dev/null; }; \
	try 2> /dev/null || { apt-get update && apt-get install -y --no-upgrade --no-install-recommends $(PACKAGES) && try; }

target/c/%: tests/%.c include/ummervia.h $(ARCHIVE)
	@mkdir -p $(@D)
	$(CC) $(CFLAGS) $(filter %.c,$^) $(ARCHIVE) -o $@

target/c/%: examples/%.c include/ummervia.h $(ARCHIVE)
	@mkdir -p $(@D)
	$(CC) $(CFLAGS) $(filter %.c %.a,$^) -o $@

target/c/%: bench/%.c include/ummervia.h $(ARCHIVE)
	@mkdir -p $(@D)
	$(CC) $(CFLAGS) -O3 $(filter %.c %.a,$^) -o $@

target/c/bench-%: bench/bench.c include/ummervia.h $(ARCHIVE) $(REFERENCE)
	@mkdir -p $(@D)
	$(CC) $(CFLAGS) -O3 -DSHIFT=$* $(filter %.c %.a,$^) -o $@

# Linked without the archive, so that nothing of the library is in it.
target/c/tour: tests/tour.c $(REFERENCE)
	@mkdir -p $(@D)
	$(CC) $(CFLAGS) $(filter %.c,$^) -o $@

# What a program has beside the file of its name.
target/c/vectors target/c/loop target/c/random target/c/picture target/c/bench: $(REFERENCE)
target/c/vectors target/c/random: tests/call.c tests/call.h
target/c/random: $(wildcard tests/random-*.c) tests/random.h tests/lent.c tests/lent.h
target/c/random target/c/home target/c/thinned: tests/chance.c tests/chance.h
target/c/home target/c/thinned: tests/small.c tests/small.h
target/c/calls: tests/refusals.c tests/sheets.c tests/sheets.h
target/c/calls target/c/values target/c/loop target/c/home target/c/thinned target/c/nan: tests/check.c tests/check.h
target/c/calls target/c/values target/c/loop target/c/random target/c/thinned: tests/fields.c tests/fields.h

# rt names the archive after its crate.
$(ARCHIVE): $(SOURCES)
	cd crates/ummervia_c && rt lib
	install -D -m 644 crates/ummervia_c/out/libummervia_c.a $@

# A program stays where rt ci or rt run made it last, in out/; where it is older than a source rt run makes it, and runs it as rt ci does.
$(TOUR) $(LISTER) $(PICTURE): target/bin/%: $(SOURCES)
	@made=crates/$*/out/$*; [ -x $$made ] && [ -z "$$(find $(SOURCE_FILES) -newer $$made)" ] || { cd crates/$* && echo "rt run, of $*" && \
	rt run -- $$(cat args 2> /dev/null || true) < $$(ls stdin 2> /dev/null || echo /dev/null) > /dev/null; }
	install -D -m 755 crates/$*/out/$* $@

clean:
	rm -rf target crates/*/out
