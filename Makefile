# Driftwicket: the two commands are `make demo` and `make test`. A target with two marks behind it is listed by `make help`.
.PHONY: help demo test lib first second rust layout kit cargo install reproducible clean
# `make test` asks for its parts in their order.
.NOTPARALLEL:

# Nothing is taken from a network, and little is said.
cargo = cargo --quiet --offline --locked

# How often the second program does everything: `make second TIMES=100` for many more comparisons.
TIMES = 4

# Where `make install` puts the library; DESTDIR stands before it, for packages.
PREFIX = /usr/local
version = $(shell sed -n 's/^version = "\(.*\)"/\1/p' rust/Cargo.toml)

help: ## this list
	@echo "make demo and make test are the two commands; README.md says what each needs."
	@awk -F ':.*## ' '/^[a-z]+:.*## / { printf "  make %-13s %s\n", $$1, $$2 }' Makefile

# Prove the library and wicket, run its demonstration, and show what it wrote: tools/prove has held that to crates/wicket/stdout.
# A line that is longer than the screen is cut, and says so by its end.
demo: kit ## prove the library and wicket, and show the papers' packets, a receiver and every refusal
	@echo "Proving the library and wicket, and running its demonstration (some minutes the first time) ..."
	@tools/alone tools/prove wicket
	@echo "Proved. crates/wicket/data/demo is a script of calls: the packets of RFC 9001 and of the version 2 draft, a receiver"
	@echo "through loss, repeats, late packets and rubbish, each refusal, and wrong calls. It wrote:"
	@echo
	@sed -E 's/^(.{116}).{5,}$$/\1 .../' crates/wicket/stdout
	@echo
	@tools/wicket-status
	@echo "A call of your own: tools/wicket keys 1 8394c8f03e515708 client"

# The gate: the names that the documents cite, the library against the second program and from Rust; then every proof, every
# edit that must be refused, every program and the layout. `rt ci` stays the last command: its last line is the verdict.
# What it passed on this machine it keeps, and proves from nothing only what has changed since, and what stands above that.
test: kit cargo layout lib second rust ## the gate: everything, from nothing
	@echo "Proving every crate, trying every edit, running every program ..."
	@tools/alone tools/gate

# The static library for C and for Rust, for the machine at hand. Its header is include/driftwicket.h.
lib: ## build/libdriftwicket.a, the library for C and Rust; nothing is done where it is current
	@tools/library

first: lib ## a first use in C, examples/first.c, built and run
	@$(CC) -std=c99 -Wall -Wextra -Werror -pedantic -Iinclude examples/first.c build/libdriftwicket.a -o build/first
	@build/first

# What stands beside the library links the archive just built, and none that is named from outside.
second rust: export DRIFTWICKET_LIB_DIR = $(CURDIR)/build

# The second program: its own rules by the papers' vectors, and then every entry point of the library by its rules.
second: cargo lib ## every entry point against an independent second program (TIMES=100 for more)
	@echo "Testing the second program's own rules ..."
	@cd second && $(cargo) test --lib --target-dir ../build/second
	@cd second && $(cargo) run --release --target-dir ../build/second -- $(TIMES)

rust: cargo lib ## the library from Rust: its tests and the examples of its documents
	@echo "Testing the library from Rust ..."
	@cd rust && $(cargo) test --target-dir ../build/rust

layout: kit ## whether the names that the documents cite are there, and the contracts in our form
	@echo "Checking the names that the documents cite ..."
	@tools/trace

# What is missing is said before anything is made.
kit:
	@tools/kit

cargo:
	@command -v cargo >/dev/null || { echo "make second and make rust need Rust: 'cargo' is not on the path." >&2; exit 1; }

install: lib ## the library, its header and a file for pkg-config, to PREFIX (/usr/local)
	@install -d "$(DESTDIR)$(PREFIX)/include" "$(DESTDIR)$(PREFIX)/lib/pkgconfig"
	@install -m 644 include/driftwicket.h "$(DESTDIR)$(PREFIX)/include"
	@install -m 644 build/libdriftwicket.a "$(DESTDIR)$(PREFIX)/lib"
	@sed -e 's,@PREFIX@,$(PREFIX),' -e 's,@VERSION@,$(version),' include/driftwicket.pc.in > build/driftwicket.pc
	@install -m 644 build/driftwicket.pc "$(DESTDIR)$(PREFIX)/lib/pkgconfig"
	@echo "Driftwicket $(version) is installed: cc yours.c \$$(pkg-config --cflags --libs driftwicket)"

# No part of the gate.
reproducible: ## make the archive in another folder too, and compare the two byte for byte
	@tools/reproducible

# The library's speed beside OpenSSL's: docs/BENCH.md. No part of the gate. What is missing is said before the library is
# proved.
.PHONY: bench bench-needs
bench: bench-needs lib ## the library's speed beside OpenSSL's, where that is installed
	@tools/bench

bench-needs:
	@tools/bench --needs

# The library against programs that share nothing with it, ngtcp2, quic-go and tshark: interop/README.md. What is missing is
# said before the library is proved.
.PHONY: interop interop-needs
interop: interop-needs lib ## the library against ngtcp2, quic-go and tshark, where they are installed
	@echo "Exchanging packets with other programs, and letting tshark read them ..."
	@interop/run

interop-needs:
	@interop/run --needs

clean: ## remove all that was made
	@rm -rf build crates/*/out second/target rust/target
