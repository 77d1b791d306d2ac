# make help          this list
# make demo          proves and builds the library, codes a message, sends it through noise, reads it back; finds two of three in a region
# make test          the gate: all proofs, the edits that must be refused, then the library's tests
# make lib           the archive, target/staticlib/libspeltfeather.a
# make dci           the command dci
# make install       header, archive, pkg-config file and the command dci, below PREFIX (/usr/local)
# make uninstall     removes what make install has put there
# make robust        random calls and the boundary, with the sanitizers and valgrind (CALLS=1000000 SEED=1)
# make long          decoding against the second program for some minutes (ROUNDS=60 SEED=1)
# make bench         times coding and decoding against plain C and the second program, or against another archive (BEFORE=old.a)
# make bler          block error rate in white noise: docs/bler.csv, docs/bler.svg (A=40 BLOCKS=400000 SEED=1 TO=docs)
# make false-alarms  how often noise is taken for a message (ROWS=20000000 SEED=1)
SHELL := bash
.SHELLFLAGS := -euo pipefail -c
.ONESHELL:
.DELETE_ON_ERROR:
.PHONY: lib help demo test dci install uninstall robust long bench bler false-alarms

PREFIX ?= /usr/local
VERSION := $(shell sed -n 's/^version = "\(.*\)"/\1/p' rust/Cargo.toml)
ARCHIVE := target/staticlib/libspeltfeather.a
# Where rt leaves it.
BUILT := crates/speltfeather/out/libspeltfeather.a
DCI := rust/target/release/dci
INSTALLED := include/speltfeather.h lib/libspeltfeather.a lib/pkgconfig/speltfeather.pc bin/dci

# Nothing where the toolchain is found; else make says what is needed, in one line, and stops.
RT_NEEDED = $(if $(shell command -v rt),,$(error rt is not on the PATH: the proofs need the Rattle toolchain, \
  rattle-kit-13f))

lib: $(ARCHIVE)

# Proved again whenever a source has changed. What the prover says in full is in target/lib.log.
$(ARCHIVE): crates.txt $(shell find crates -name out -prune -o \( -name '*.rt' -o -name '*.antt' \) -print)
	@$(RT_NEEDED)
	echo "proving and building the library; from nothing this takes some minutes"
	mkdir -p $(@D)
	(rt all check && cd crates/speltfeather && rt lib) 2>&1 | tee target/lib.log | sed -un '/^==/p' ||
	  { cat target/lib.log; exit 1; }
	cp $(BUILT) $@

help:
	@sed -n 's/^# make/make/p' Makefile

demo: lib
	@cd rust
	cargo run --quiet --release -p cli --bin demo

# rt ci passes with edits that cannot be tried; here each must be. Its closing line comes last.
test:
	@$(RT_NEEDED)
	log=$$(mktemp)
	trap 'rm -f "$$log"' EXIT
	rt ci 2>&1 | tee "$$log"
	if grep -q '^rt: ok.*, [0-9]* bad' "$$log"; then echo 'FAILED: edits that cannot be tried'; exit 1; fi
	rm -f $(ARCHIVE)
	make --no-print-directory lib
	(cd rust && cargo test --release)
	tail -n 1 "$$log"

dci: $(DCI)
	@echo "built $(DCI); try: $(DCI) help"

# Cargo leaves the program as it is where nothing has changed that concerns it.
$(DCI): $(ARCHIVE) $(shell find rust/Cargo.* rust/cli/Cargo.toml rust/cli/src rust/channel rust/speltfeather -type f)
	@cd rust
	cargo build --quiet --release --target-dir target -p cli --bin dci
	touch ../$(DCI)

# Where archive and command are built already, neither rt nor cargo is called.
install: $(ARCHIVE) $(DCI)
	@prefix=$$(realpath -m "$(PREFIX)")
	to="$(DESTDIR)$$prefix"
	install -d "$$to/bin" "$$to/include" "$$to/lib/pkgconfig"
	install -m 755 $(DCI) "$$to/bin"
	install -m 644 include/speltfeather.h "$$to/include"
	install -m 644 $(ARCHIVE) "$$to/lib"
	sed -e "s|@PREFIX@|$$prefix|" -e 's|@VERSION@|$(VERSION)|' speltfeather.pc.in > "$$to/lib/pkgconfig/speltfeather.pc"
	printf "installed $$to/%s\n" $(INSTALLED)

uninstall:
	@cd "$(DESTDIR)$$(realpath -m "$(PREFIX)")"
	rm -f $(INSTALLED)

robust: lib
	@cd rust
	robust() { cargo test --quiet --release -p conformance "$$@" -- --nocapture; }
	robust --test random_bytes --test boundary
	if command -v valgrind >/dev/null; then
		watched='target."cfg(all())".runner = ["valgrind", "--quiet", "--error-exitcode=9"]'
		CALLS=20000 robust --test random_bytes --config "$$watched"
	else
		echo 'SKIPPED: valgrind is not installed'
	fi

long: lib
	@cd rust
	cargo test --quiet --release -p conformance --test long -- --ignored --nocapture

bench: lib
	@cd rust
	$(if $(BEFORE),BEFORE="$(abspath $(BEFORE))") cargo run --quiet --release -p bench

bler: TO ?= docs
bler: lib
	@cd rust
	cargo run --quiet --release -p bler -- "$(abspath $(TO))"

false-alarms: lib
	@cd rust
	cargo run --quiet --release -p bler --bin false-alarms
