# run: proves and builds the program `bridge` and rates the sample bridge.
# test: every proof, must-fail edit and program of crates.txt, then the host's tests on what was proved; the last line is the count of
#       `rt ci`, once more.
# install: `tbr`, the C header and the static libraries, to PREFIX.
# bench: the library against its twin in Rust.
# lint: the layout of the Rust files, and no warning of the Rust compiler or its documentation.
SHELL := /bin/bash
.SHELLFLAGS := -euo pipefail -c
.PHONY: run test libraries install bench lint

PREFIX ?= /usr/local
HOST := --offline --manifest-path host/Cargo.toml
# The static libraries that a host links, and of each the crate that makes it: `judgement_c` is `judgement` for C.
ARCHIVES := judgement exports
MADE := $(CURDIR)/host/target/libraries
MAKE_LIBRARIES := \
	for name in judgement_c exports; do \
		(cd "crates/$$name" && rt lib); \
		install -C -D -m 644 "crates/$$name/out/lib$$name.a" "$(MADE)/lib$${name%_c}.a"; \
	done

run:
	cat samples/case-a.tbr samples/case-l.tbv | (cd crates/bridge && rt run)

# What makes the tested code the proved code: `rt ci` leaves in the crates' out/ the programs that it built of what is proved, and
# `rt lib` proves an exporting crate as it compiles it, and so each crate below that is not built yet of these very files. The host's
# build copies from the folder of libraries alone, and again whenever one there is newer. A must-fail edit that cannot be tried is only
# counted by `rt ci`; here it is a failure.
test: lint
	@log=$$(mktemp); trap 'rm -f "$$log"' EXIT; \
	rt ci 2>&1 | tee "$$log"; \
	ok=$$(grep '^rt: ok' "$$log"); \
	count=$$(grep -oE '^[0-9]+ passed, [0-9]+ failed' "$$log" | tail -n 1); \
	if [[ $$ok =~ ,\ ([1-9][0-9]*)\ bad ]]; then echo "$${count%,*}, $${BASH_REMATCH[1]} failed"; exit 1; fi; \
	$(MAKE_LIBRARIES); \
	TBR_LIB_DIR="$(MADE)" cargo test --release $(HOST); \
	echo "$$count"

# The libraries that TBR_LIB_DIR names are taken as they are; else they are made.
libraries:
	@if [ -z "$(TBR_LIB_DIR)" ]; then $(MAKE_LIBRARIES); fi

install: libraries
	@folder="$(or $(TBR_LIB_DIR),$(MADE))"; \
	TBR_LIB_DIR="$$folder" cargo build --release $(HOST) --bin tbr; \
	install -D -m 755 host/target/release/tbr "$(DESTDIR)$(PREFIX)/bin/tbr"; \
	install -D -m 644 -t "$(DESTDIR)$(PREFIX)/include" host/include/tbr.h; \
	install -D -m 644 -t "$(DESTDIR)$(PREFIX)/lib" $(ARCHIVES:%="$$folder"/lib%.a)

bench:
	cargo bench $(HOST)

# Nothing is linked here, so no library is made: TBR_LIB_DIR is set to nothing. The warnings are looked for in a folder of their own,
# so that the builds beside it stay as they are. rustfmt and clippy are asked where they are installed. The layout of the Rattle files
# is looked at by `rt ci`.
LINT := TBR_LIB_DIR= CARGO_TARGET_DIR=host/target/lint
lint:
	@if cargo fmt --version >/dev/null 2>&1; then cargo fmt --all --check --manifest-path host/Cargo.toml; fi
	$(LINT) RUSTFLAGS=-Dwarnings cargo check --quiet --workspace --all-targets $(HOST)
	$(LINT) RUSTDOCFLAGS=-Dwarnings cargo doc --quiet --workspace --no-deps $(HOST)
	@if cargo clippy --version >/dev/null 2>&1; then $(LINT) RUSTFLAGS=-Dwarnings cargo clippy --quiet --workspace --all-targets $(HOST); fi
