# The demonstration, the tests and the measurements, each with its set-up, from a fresh clone; and what is installed.
.PHONY: demo test bench library install install-files uninstall

demo: library
	cd rust && cargo build --quiet --release --offline
	rust/target/release/hmsr demo

test:
	.ci/run

bench: library
	cd rust && cargo bench --offline

# Proves the library's crates, where that is not done yet, and puts target/staticlib/libhmsr.a in place.
library:
	cd crates/hmsr && rt lib
	install -D -m 644 crates/hmsr/out/libhmsr.a target/staticlib/libhmsr.a

# Where things are installed, a relative PREFIX being taken from here; DESTDIR comes before it where a package is made.
PREFIX = /usr/local
DESTDIR =
# What was built.
LIBRARY = target/staticlib/libhmsr.a
PROGRAM = rust/target/release/hmsr
VERSION = $(shell sed -n 's/^version = "\(.*\)"$$/\1/p' rust/Cargo.toml)

INSTALLED = include/hmsr.h lib/libhmsr.a lib/pkgconfig/hmsr.pc bin/hmsr share/man/man1/hmsr.1
absolute = $(if $(filter /%,$(PREFIX)),,$(CURDIR)/)$(PREFIX)
root = $(DESTDIR)$(absolute)
fill = sed -e 's|@PREFIX@|$(absolute)|' -e 's|@VERSION@|$(VERSION)|'

install: library
	cd rust && cargo build --quiet --release --offline
	$(MAKE) --no-print-directory install-files

# Puts in place what is built already.
install-files:
	install -d $(foreach file,$(INSTALLED),"$(root)/$(dir $(file))")
	install -m 644 include/hmsr.h "$(root)/include/hmsr.h"
	install -m 644 "$(LIBRARY)" "$(root)/lib/libhmsr.a"
	install -m 755 "$(PROGRAM)" "$(root)/bin/hmsr"
	$(fill) install/hmsr.pc.in >"$(root)/lib/pkgconfig/hmsr.pc"
	$(fill) install/hmsr.1.in >"$(root)/share/man/man1/hmsr.1"
	chmod 644 "$(root)/lib/pkgconfig/hmsr.pc" "$(root)/share/man/man1/hmsr.1"

# Takes away the same files, and no directory.
uninstall:
	rm -f $(foreach file,$(INSTALLED),"$(root)/$(file)")
