# make demo      run the main job on Design A
# make test      prove everything and pass the tests
# make install   stm, its man page, the header, the archive and the designs, under PREFIX (DESTDIR stands before it)
# make uninstall take them away again
# make serve     build build/serve-proved and build/serve-reference
# make bench     print the benchmarks' ratios
# make certify   ask the long rows of designs/rows-refuted.txt again, by cadical's proofs: some 40 minutes, no part of make test
# make runs      write tests/runs/ anew, from the second implementation
# make standin   build build/standin/: the host programs over the second implementation, for tests
# All that is built stands under build/ and the crates' out/ (the prover's own), and nothing of it is committed.

PREFIX = /usr/local
# Both stand unquoted in commands, and the prefix in a program's text, too.
$(if $(word 2,$(PREFIX)),$(error PREFIX has a blank: $(PREFIX)))
$(if $(word 2,$(DESTDIR)),$(error DESTDIR has a blank: $(DESTDIR)))
$(foreach c,& | ; < > ( ) ' " ` * ? [ ] \ !,$(if $(findstring $c,$(PREFIX)$(DESTDIR)),$(error PREFIX or DESTDIR has a $c: $(PREFIX) $(DESTDIR))))
override PREFIX := $(abspath $(PREFIX))
# the program that is installed
STM = build/stm
ARCHIVE = crates/entries/out/libentries.a
PROVED = build/kit crates.txt $(shell find crates -name out -prune -o -print)
CFLAGS = -std=c11 -O2 -Wall -Wextra -Wconversion -Wmissing-prototypes -Werror
SANITIZE = -g -fsanitize=address,undefined -fno-sanitize-recover=all
COMMAND = $(wildcard host/stm/*.c)
FUZZER = $(wildcard host/fuzz/*.c) $(filter-out host/stm/main.c,$(COMMAND))
HEADERS = $(wildcard host/*.h host/stm/*.h host/fuzz/*.h)
STANDIN = $(CARGO_TARGET_DIR)/release/libstandin.a
CARGO = cargo --offline --quiet
export CARGO_TARGET_DIR = $(CURDIR)/build/cargo
export PROVED_ARCHIVE = $(CURDIR)/crates/entries/out

.PHONY: demo test install uninstall serve bench certify runs clean archive standin
.DELETE_ON_ERROR:

# stm exits with 10 where the design is violated
demo: build/stm
	build/stm verdict designs/design-a.stm 0 3; [ $$? = 10 ]

test:
	@tests/run

serve: build/serve-proved build/serve-reference

bench: archive
	@tests/needs cargo
	@$(CARGO) run --release --manifest-path reference/proved/Cargo.toml --bin bench
	@$(CARGO) run --release --manifest-path reference/proved/Cargo.toml --bin bench-formula

certify: build/stm standin
	@tests/certify build/stm

runs: build/serve-reference
	@rm -f tests/runs/*
	@tests/replay --write
	@tests/printer --write

clean:
	rm -rf build crates/*/out

# What a command prints, written to the target only where it differs, so that nothing is built anew without need.
keep = mkdir -p $(@D); { $(1); } > $@.new && { cmp -s $@.new $@ && rm $@.new || mv $@.new $@; }

archive: $(ARCHIVE)

# rt proves what has changed. Folders are listed too, for files that are taken away. Another kit proves all anew.
$(ARCHIVE): $(PROVED)
	@tests/needs rt gcc
	@tests/progress build/archive.log lib entries || { tail -n 20 build/archive.log; exit 1; }
	@touch $@

build/kit: FORCE
	@$(call keep,rt version 2> /dev/null || cat $@ 2> /dev/null || true)

# stm --version tells which archive it was linked with
sum = echo 'const char stm_archive_sha256[] = "'$$(sha256sum < $(1) | cut -d ' ' -f 1)'";'

build/archive-proved.c: $(ARCHIVE)
	@$(call keep,$(call sum,$<))

build/archive-standin.c: $(STANDIN)
	@$(call keep,$(call sum,$<))

# stm looks for designs below the prefix
%.prefix: FORCE
	@$(call keep,echo $(PREFIX))

compile = mkdir -p $(@D) && tests/needs gcc && gcc $(CFLAGS) -DSTM_PREFIX='"$(PREFIX)"' $(1) -o $@ $(filter %.c %.a,$^)

$(STM): $(COMMAND) build/archive-proved.c $(ARCHIVE) $(HEADERS) $(STM).prefix
	@$(call compile)

build/fuzz: $(FUZZER) build/archive-proved.c $(ARCHIVE) $(HEADERS) build/fuzz.prefix
	@$(call compile,$(SANITIZE))

# The host programs over the second implementation.
standin: build/standin/stm build/standin/stm-sanitized build/standin/fuzz

$(STANDIN): FORCE
	@tests/needs cargo gcc
	@$(CARGO) build --release --manifest-path reference/standin/Cargo.toml

build/standin/stm: $(COMMAND) build/archive-standin.c $(STANDIN) $(HEADERS) build/standin/stm.prefix
	@$(call compile)

build/standin/stm-sanitized: $(COMMAND) build/archive-standin.c $(STANDIN) $(HEADERS) build/standin/stm-sanitized.prefix
	@$(call compile,$(SANITIZE))

build/standin/fuzz: $(FUZZER) build/archive-standin.c $(STANDIN) $(HEADERS) build/standin/fuzz.prefix
	@$(call compile,$(SANITIZE))

# the programs, proved and compiled
build/replay build/printer: build/%: $(PROVED)
	@tests/needs rt
	@tests/progress build/$*.log run $* || { tail -n 20 build/$*.log; exit 1; }
	@cp crates/$*/out/$* $@

# serve-proved runs the Replay program and, where a piece is lent, the stm that stand beside it
build/serve-proved: $(ARCHIVE) build/replay build/stm FORCE
	@tests/needs cargo
	@$(CARGO) build --release --manifest-path reference/proved/Cargo.toml --bin serve-proved
	@cp $(CARGO_TARGET_DIR)/release/serve-proved $@

build/serve-reference: FORCE
	@tests/needs cargo
	@mkdir -p build
	@$(CARGO) build --release --manifest-path reference/Cargo.toml
	@cp $(CARGO_TARGET_DIR)/release/serve-reference $@

ROOT = $(DESTDIR)$(PREFIX)

install: $(STM)
	install -d $(addprefix $(ROOT)/,bin include lib/pkgconfig share/man/man1 share/stm/designs)
	install $(STM) $(ROOT)/bin/stm
	install -m 644 host/stm.h $(ROOT)/include/stm.h
	install -m 644 $(ARCHIVE) $(ROOT)/lib/libstm.a
	sed "s|@PREFIX@|$(PREFIX)|; s|@VERSION@|$$($(STM) --version | sed -n 's/^stm //p')|" docs/stm.pc.in > build/stm.pc
	install -m 644 build/stm.pc $(ROOT)/lib/pkgconfig/stm.pc
	sed 's|/usr/local|$(PREFIX)|g' docs/stm.1 > build/stm.1
	install -m 644 build/stm.1 $(ROOT)/share/man/man1/stm.1
	install -m 644 designs/*.stm designs/*.piece designs/rows*.txt $(ROOT)/share/stm/designs

# folders that others use, too, stay
uninstall:
	rm -f $(addprefix $(ROOT)/,bin/stm include/stm.h lib/libstm.a lib/pkgconfig/stm.pc share/man/man1/stm.1)
	rm -f $(addprefix $(ROOT)/share/stm/designs/,*.stm *.piece rows*.txt)
	[ ! -d $(ROOT)/share/stm ] || rmdir --ignore-fail-on-non-empty $(ROOT)/share/stm/designs $(ROOT)/share/stm

FORCE:
