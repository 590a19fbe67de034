#: make shelf      build the program and run it on an example stream of commands
#: make test       prove every crate, try every must-fail edit, run every test; the gate
#: make library    the static library for C, target/staticlib/librowstore.a
#: make example    a host in C, built and run
#: make tour       a program in Rattle that opens two small stores and reads them
#: make host       the tests that link the library, without the must-fail edits
#: make bench      the time of each call, beside plain Rust
#: make inspect FILE=records [PLACES=places] [SVG=picture.svg]
#:                 a picture of a store whose records, and places, were saved to files
#: make install [PREFIX=/usr/local] [DESTDIR=]
#:                 header, library, pkg-config file and manual page; make uninstall takes them away
#: make clean      remove all that was built
SHELL := bash
.SHELLFLAGS := -euo pipefail -c
.DELETE_ON_ERROR:
.PHONY: shelf program library example test host tools hosted bench inspect tour install uninstall clean help FORCE

archive := target/staticlib/librowstore.a
# What is made where no file tells it by its time.
made := target/made

# All files that a crate and those that it leans on are proved and built from; with the folders, so that a file that is gone is seen too.
parts_of = $(wildcard $(foreach crate,$(shell scripts/below $(1)),$(addprefix crates/$(crate)/,src specs proofs)))
files_of = crates.txt $(shell find $(call parts_of,$(1)))

shelf: program
	@target/bin/shelf <crates/shelf/stdin

program: target/bin/shelf

tour: target/bin/tour
	@target/bin/tour

target/bin/shelf: $(call files_of,shelf)
target/bin/tour: $(call files_of,tour)
target/bin/shelf target/bin/tour: $(made)/kit
	@scripts/prove run $(@F)

library: $(archive)

$(archive): $(made)/kit $(call files_of,rowstore)
	@scripts/prove lib rowstore

# The kit's version; the file is written only if it is another one.
$(made)/kit: FORCE
	@scripts/need rt
	@mkdir -p $(@D); rt version | cmp -s - $@ || rt version >$@

example: library
	@scripts/need gcc
	@mkdir -p target/example
	@gcc -std=c11 -Wall -Wextra -Werror -O2 -Iinclude example/host.c $(archive) -o target/example/host
	@target/example/host

test:
	@scripts/gate

# The tests that call the static library or the program, from Rust and from C.
host: library program
	@$(MAKE) --no-print-directory hosted

host_tools := cargo gcc g++ nm objdump size diff cmp
tools:
	@scripts/need rt $(host_tools)

hosted:
	@scripts/need $(host_tools)
	@cd host && cargo test --features linked -- --nocapture
	@example/check.sh
	@example/installed.sh

bench: library
	@scripts/need cargo gcc
	@cd host && cargo run --release --features linked --bin bench

# The picture of a store: FILE has its records; PLACES, if given, its places; SVG, if given, is the picture to write.
inspect:
	@scripts/need cargo gcc
	@cargo run --quiet --release --manifest-path host/Cargo.toml --bin inspect -- \
		$(if $(FILE),'$(FILE)') $(if $(PLACES),--places '$(PLACES)') $(if $(SVG),--svg '$(SVG)')

PREFIX ?= /usr/local
prefix := $(abspath $(PREFIX))
root := $(DESTDIR)$(prefix)
manual := $(root)/share/man/man3
version := $(shell sed -n 's/^.define ROWSTORE_VERSION //p' include/rowstore.h)
# Each call's manual page leads to the one for all.
calls := $(filter rowstore_%,$(shell grep -o 'uint8_t rowstore_[a-z_]*' include/rowstore.h))
call_pages := $(calls:%=$(manual)/%.3)
installed := $(addprefix $(root)/,include/rowstore.h lib/librowstore.a lib/pkgconfig/rowstore.pc share/doc/rowstore/LAYOUT.md) $(manual)/rowstore.3 $(call_pages)
filled := sed -e 's|@PREFIX@|$(prefix)|' -e 's|@VERSION@|$(version)|'
put := install -D -m 644

install: library
	@$(put) include/rowstore.h $(root)/include/rowstore.h
	@$(put) $(archive) $(root)/lib/librowstore.a
	@$(put) docs/LAYOUT.md $(root)/share/doc/rowstore/LAYOUT.md
	@$(filled) packaging/rowstore.pc.in | $(put) /dev/stdin $(root)/lib/pkgconfig/rowstore.pc
	@$(filled) packaging/rowstore.3 | $(put) /dev/stdin $(manual)/rowstore.3
	@for page in $(call_pages); do echo '.so man3/rowstore.3' | $(put) /dev/stdin $$page; done
	@printf 'installed %s\n' $(installed)

uninstall:
	@rm -f $(installed)
	@printf 'removed %s\n' $(installed)

clean:
	rm -rf target host/target crates/*/out

help:
	@sed -n 's/^#: //p' $(MAKEFILE_LIST)
