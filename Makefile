# Building and installing. `make` proves and builds what is installed; `make install PREFIX=/usr/local DESTDIR=` puts it there:
# the command, the programs listing and replay, the C library with its header and pkg-config file, the manual page, completions for
# three shells, examples and documents. `make uninstall` takes it away again.
PREFIX ?= /usr/local
DESTDIR ?=
BINDIR ?= $(PREFIX)/bin
LIBDIR ?= $(PREFIX)/lib
INCLUDEDIR ?= $(PREFIX)/include
DATADIR ?= $(PREFIX)/share
MANDIR ?= $(DATADIR)/man

VERSION := $(shell sed -n 's/^.define WALBRYTS_VERSION "\([^"]*\)".*/\1/p' include/walbryts.h)
PROGRAMS := $(foreach name,walbryts listing replay,crates/$(name)/out/$(name))
LIBRARY := crates/exports/out/libexports.a
EXAMPLES := $(wildcard examples/*.v examples/*.in)
DOCUMENTS := README.md CHANGELOG.md $(wildcard docs/*.md)

.PHONY: all check install uninstall

all:
	cd crates/walbryts && rt run -- --version
	cd crates/listing && rt run </dev/null
	cd crates/replay && rt run </dev/null
	cd crates/exports && rt lib

# The gate: proofs from nothing, must-fail edits, programs, tests.
check:
	.ci/run

install: | $(PROGRAMS) $(LIBRARY)
	install -d "$(DESTDIR)$(BINDIR)" "$(DESTDIR)$(LIBDIR)/walbryts" "$(DESTDIR)$(LIBDIR)/pkgconfig" "$(DESTDIR)$(INCLUDEDIR)"
	install -d "$(DESTDIR)$(MANDIR)/man1" "$(DESTDIR)$(DATADIR)/walbryts/examples" "$(DESTDIR)$(DATADIR)/doc/walbryts"
	install -d "$(DESTDIR)$(DATADIR)/bash-completion/completions" "$(DESTDIR)$(DATADIR)/zsh/site-functions"
	install -d "$(DESTDIR)$(DATADIR)/fish/vendor_completions.d"
	install -m 755 crates/walbryts/out/walbryts "$(DESTDIR)$(LIBDIR)/walbryts/walbryts"
	sed -e '/^# ---- the program/,/^# ----$$/c program=$(LIBDIR)/walbryts/walbryts' walbryts >"$(DESTDIR)$(BINDIR)/walbryts"
	chmod 755 "$(DESTDIR)$(BINDIR)/walbryts"
	install -m 755 crates/listing/out/listing "$(DESTDIR)$(BINDIR)/walbryts-listing"
	install -m 755 crates/replay/out/replay "$(DESTDIR)$(BINDIR)/walbryts-replay"
	install -m 644 $(LIBRARY) "$(DESTDIR)$(LIBDIR)/libwalbryts.a"
	install -m 644 include/walbryts.h "$(DESTDIR)$(INCLUDEDIR)/walbryts.h"
	sed -e 's|@INCLUDEDIR@|$(INCLUDEDIR)|' -e 's|@LIBDIR@|$(LIBDIR)|' -e 's|@VERSION@|$(VERSION)|' packaging/walbryts.pc.in \
	    >"$(DESTDIR)$(LIBDIR)/pkgconfig/walbryts.pc"
	sed 's|@VERSION@|$(VERSION)|' packaging/walbryts.1 >"$(DESTDIR)$(MANDIR)/man1/walbryts.1"
	install -m 644 packaging/walbryts.bash "$(DESTDIR)$(DATADIR)/bash-completion/completions/walbryts"
	install -m 644 packaging/_walbryts "$(DESTDIR)$(DATADIR)/zsh/site-functions/_walbryts"
	install -m 644 packaging/walbryts.fish "$(DESTDIR)$(DATADIR)/fish/vendor_completions.d/walbryts.fish"
	install -m 644 $(EXAMPLES) "$(DESTDIR)$(DATADIR)/walbryts/examples"
	install -m 644 $(DOCUMENTS) "$(DESTDIR)$(DATADIR)/doc/walbryts"

$(PROGRAMS) $(LIBRARY):
	@echo "$@ isn't there: make builds it first" >&2; exit 1

uninstall:
	rm -f "$(DESTDIR)$(BINDIR)/walbryts" "$(DESTDIR)$(BINDIR)/walbryts-listing" "$(DESTDIR)$(BINDIR)/walbryts-replay"
	rm -f "$(DESTDIR)$(LIBDIR)/libwalbryts.a" "$(DESTDIR)$(LIBDIR)/pkgconfig/walbryts.pc" "$(DESTDIR)$(INCLUDEDIR)/walbryts.h"
	rm -f "$(DESTDIR)$(MANDIR)/man1/walbryts.1" "$(DESTDIR)$(DATADIR)/bash-completion/completions/walbryts"
	rm -f "$(DESTDIR)$(DATADIR)/zsh/site-functions/_walbryts" "$(DESTDIR)$(DATADIR)/fish/vendor_completions.d/walbryts.fish"
	rm -rf "$(DESTDIR)$(LIBDIR)/walbryts" "$(DESTDIR)$(DATADIR)/walbryts" "$(DESTDIR)$(DATADIR)/doc/walbryts"
