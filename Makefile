# make lib       proves the library and writes it with its header to dist/, where it is not there or older than a source
# make callers   the acceptance cases from C, Rust and Python; Python also compares with the oracle
# make plain     the plain Rust programs of the benchmark do the same job: their output is the stored expected output
# make bench     speed beside the same job in plain Rust, as ratios; with BEFORE=FOLDER, an earlier checkout in which
#                `make bench` has run, also beside its library and program
# make install   library, header, pkg-config file, programs and manual, PREFIX=/usr/local
# make test      everything
PREFIX ?= /usr/local
# The first number, which is also the shared library's, is raised where a struct or a function's arguments change, the
# second where a result changes or a function is added.
VERSION = 4.8.0
SONAME = libwallcheck.so.$(firstword $(subst ., ,$(VERSION)))
SHARED = libwallcheck.so.$(VERSION)
# What is installed, each with a script of its name.
PROGRAMS = schedule pack unpack choose
# What is timed as a whole program, in this order. choose is not: it answers once, in the time that it takes to start a process.
TIMED = schedule pack unpack
FUNCTIONS = wallcheck_edition wallcheck_line wallcheck_line_taken wallcheck_line_into wallcheck_row wallcheck_row_into \
	wallcheck_minimum_load_line wallcheck_minimum_load_line_into wallcheck_minimum_load_row wallcheck_minimum_load_row_into \
	wallcheck_range_lines wallcheck_range_rows wallcheck_choose \
	wallcheck_archive_count wallcheck_archive_write wallcheck_archive_read
BUILD = build
ifeq ($(origin CC),default)
CC = gcc
endif
CARGO_ENV = CC="$(CC)" WALLCHECK_LIB_DIR=$(CURDIR)/dist CARGO_TARGET_DIR=$(CURDIR)/$(BUILD)/cargo
# The folders too: a file that is removed changes its folder.
SOURCES := $(shell find crates/ -mindepth 2 \( -name must-fail -o -name out \) -prune -o \( -type d -o -name '*.rt' -o -name '*.antt' \) -print)

.PHONY: lib callers plain bench install test clean

lib: dist/libwallcheck.so

dist/libwallcheck.so: $(SOURCES) crates.txt include/wallcheck.h Makefile
	@rm -rf dist && mkdir -p dist $(BUILD) && touch $(BUILD)/started
	@cd crates/c_interface && flock $(CURDIR)/$(BUILD)/lock rt lib >$(CURDIR)/$(BUILD)/staticlib.log 2>&1 || { cat $(CURDIR)/$(BUILD)/staticlib.log; exit 1; }
	@cp crates/c_interface/out/libc_interface.a dist/libwallcheck.a
	@cp include/wallcheck.h dist/
	@echo '{ global: $(FUNCTIONS:=;) local: *; };' >$(BUILD)/exports.map
	@$(CC) -shared -Wl,--version-script=$(BUILD)/exports.map -Wl,-soname,$(SONAME) \
		-Wl,--whole-archive dist/libwallcheck.a -Wl,--no-whole-archive -o dist/$(SHARED)
	@touch -r $(BUILD)/started dist/$(SHARED) # a source that was changed meanwhile is newer
	@ln dist/$(SHARED) dist/$(SONAME) # no symbolic links here, which rt ci refuses
	@ln dist/$(SHARED) dist/libwallcheck.so

callers: lib
	@$(CC) -std=c11 -O2 -Wall -Wextra -Werror -Iinclude callers/c/acceptance.c dist/libwallcheck.a -o $(BUILD)/acceptance
	@$(BUILD)/acceptance $(addprefix callers/,cases.txt rows.txt minimum_load_lines.txt minimum_load_rows.txt \
		range_lines.txt range_rows.txt choices.txt archive_texts.txt archive_blocks.txt)
	@$(CARGO_ENV) cargo run --quiet --release --offline --manifest-path callers/rust/Cargo.toml --bin acceptance
	@python3 callers/python/compare.py dist/libwallcheck.so
	@test "$$(nm -D --defined-only dist/libwallcheck.so | awk '{print $$3}' | sort | tr '\n' ' ')" = "$(sort $(FUNCTIONS)) "
	@echo "exports: $(words $(FUNCTIONS)) functions"

plain:
	@$(CARGO_ENV) cargo build --quiet --release --offline --manifest-path bench/Cargo.toml
	@for job in $(PROGRAMS); do for program in simple fast; do \
		$(BUILD)/cargo/release/$$program $$job <crates/$$job/stdin >$(BUILD)/$$program.out 2>$(BUILD)/$$program.told && \
			cmp $(BUILD)/$$program.out crates/$$job/stdout || { cat $(BUILD)/$$program.told; exit 1; }; \
	done; done
	@echo "plain Rust: both print the stored expected output of all four programs"

bench: lib plain
	@for program in $(PROGRAMS); do ./$$program </dev/null >/dev/null || exit 1; done
	@$(CARGO_ENV) cargo build --quiet --release --offline --features library --manifest-path bench/Cargo.toml
	@WALLCHECK_BEFORE="$(BEFORE)" $(BUILD)/cargo/release/bench $(foreach program,$(TIMED),crates/$(program)/out/$(program))

install: lib
	@for program in $(PROGRAMS); do ./$$program </dev/null >/dev/null || exit 1; done
	install -d $(addprefix $(DESTDIR)$(PREFIX)/,bin include lib/pkgconfig libexec/wallcheck share/doc/wallcheck)
	install -m 644 dist/libwallcheck.a $(DESTDIR)$(PREFIX)/lib/
	install -m 755 dist/$(SHARED) $(DESTDIR)$(PREFIX)/lib/
	ln -sf $(SHARED) $(DESTDIR)$(PREFIX)/lib/$(SONAME)
	ln -sf $(SONAME) $(DESTDIR)$(PREFIX)/lib/libwallcheck.so
	install -m 644 include/wallcheck.h $(DESTDIR)$(PREFIX)/include/
	sed -e 's,@PREFIX@,$(PREFIX),' -e 's,@VERSION@,$(VERSION),' wallcheck.pc.in >$(DESTDIR)$(PREFIX)/lib/pkgconfig/wallcheck.pc
	for program in $(PROGRAMS); do \
		install -m 755 crates/$$program/out/$$program $(DESTDIR)$(PREFIX)/libexec/wallcheck/ && \
		install -m 755 $$program $(DESTDIR)$(PREFIX)/bin/wallcheck-$$program || exit 1; \
	done
	install -m 644 docs/MANUAL.md $(DESTDIR)$(PREFIX)/share/doc/wallcheck/

test:
	./test

clean:
	rm -rf $(BUILD) dist crates/*/out
