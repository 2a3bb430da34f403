# The library for C programs, and the programs with their man pages: make, make install [PREFIX=..] [DESTDIR=..], make uninstall,
# make check (the gate). Archive and programs are built, and so proved, where a file of the crates is newer; that needs the Rattle
# toolchain (rt).
VERSION = 0.10.0
PREFIX = /usr/local
INCLUDEDIR = $(PREFIX)/include
LIBDIR = $(PREFIX)/lib
BINDIR = $(PREFIX)/bin
MANDIR = $(PREFIX)/share/man

ARCHIVE = target/libhasfandur.a
# its members, each a crate that is compiled by itself: a loop that framings share is then made for each of them
MEMBERS = hasfandur hasfandur_dlc hasfandur_kiss hasfandur_conversion hasfandur_sheet
# each has a page docs/man/NAME.1
PROGRAMS = list_level0 list_level1 list_kiss qaft_to_kiss qaft_to_kiss_level1 kiss_to_qaft kiss_to_qaft_level1 line_sheet
BUILT = $(PROGRAMS:%=target/bin/%)
SOURCES = crates.txt $(shell find crates -name out -prune -o -name '*.rt' -print -o -name '*.antt' -print)

HEADER_AT = $(DESTDIR)$(INCLUDEDIR)/hasfandur.h
ARCHIVE_AT = $(DESTDIR)$(LIBDIR)/libhasfandur.a
PC_AT = $(DESTDIR)$(LIBDIR)/pkgconfig/hasfandur.pc
BIN_AT = $(DESTDIR)$(BINDIR)
MAN_AT = $(DESTDIR)$(MANDIR)/man1

all: $(ARCHIVE) $(BUILT)

# its members are named in this file
$(ARCHIVE): $(SOURCES) Makefile
	set -e; for member in $(MEMBERS); do echo "== $$member"; (cd crates/$$member && rt lib); done
	mkdir -p $(dir $@)
	rm -f $@
	printf '%s\n' 'create $@' $(foreach member,$(MEMBERS),'addlib crates/$(member)/out/lib$(member).a') save end | ar -M

# rt builds a program and runs it: here on nothing, and what it prints is let go
$(BUILT) &: $(SOURCES)
	mkdir -p target/bin
	set -e; for program in $(PROGRAMS); do echo "== $$program"; (cd crates/$$program && rt run </dev/null >/dev/null); cp crates/$$program/out/$$program target/bin/; done

install: $(ARCHIVE) $(BUILT)
	install -d $(dir $(HEADER_AT)) $(dir $(PC_AT)) $(BIN_AT) $(MAN_AT)
	install -m 644 include/hasfandur.h $(HEADER_AT)
	install -m 644 $(ARCHIVE) $(ARCHIVE_AT)
	sed -e 's|@VERSION@|$(VERSION)|' -e 's|@PREFIX@|$(abspath $(PREFIX))|' \
	    -e 's|@INCLUDEDIR@|$(abspath $(INCLUDEDIR))|' -e 's|@LIBDIR@|$(abspath $(LIBDIR))|' hasfandur.pc.in >$(PC_AT)
	chmod 644 $(PC_AT)
	install -m 755 $(BUILT) $(BIN_AT)
	install -m 644 $(PROGRAMS:%=docs/man/%.1) $(MAN_AT)

uninstall:
	rm -f $(HEADER_AT) $(ARCHIVE_AT) $(PC_AT) $(PROGRAMS:%=$(BIN_AT)/%) $(PROGRAMS:%=$(MAN_AT)/%.1)

check:
	bash .ci/run

.PHONY: all install uninstall check
# rt shares the work out itself
.NOTPARALLEL:
.DELETE_ON_ERROR:
