# make            proves the library and builds the archive target/staticlib/libdergamoyne.a (tools/archive; the first time it takes many
#                 minutes), and the program target/tools/dergamoyne-heap, which looks into a saved heap
# make check      tests the library from C, and the program
# make example    builds the examples list, objects, spare, why and midway of examples/c in target/c and runs them
# make install    installs headers, archive, program, pkg-config file and manual pages under PREFIX (/usr/local unless you set it);
#                 DESTDIR is put before it
# make uninstall  removes them again
# .ci/run is the gate, which proves and tests everything.
PREFIX ?= /usr/local
BINDIR ?= $(PREFIX)/bin
INCLUDEDIR ?= $(PREFIX)/include
LIBDIR ?= $(PREFIX)/lib
MANDIR ?= $(PREFIX)/share/man
INSTALL ?= install
CFLAGS ?= -O2

archive = target/staticlib/libdergamoyne.a
version = $(shell sed -n 's/^.define DERGAMOYNE_VERSION_TEXT "\(.*\)"/\1/p' include/dergamoyne.h)
sources = $(shell find crates -name out -prune -o -name '*.rt' -print -o -name '*.antt' -print) crates.txt tools/archive

tool = target/tools/dergamoyne-heap
page_parts = target/tools/page_parts.h

all: $(archive) $(tool)

$(archive): $(sources)
	tools/archive
	touch $@

$(page_parts): tools/embed.awk tools/page.css tools/page.js
	mkdir -p target/tools
	awk -f tools/embed.awk tools/page.css tools/page.js >$@

$(tool): $(archive) $(page_parts) $(wildcard tools/*.c tools/*.h include/*.h)
	$(CC) -std=c99 $(CPPFLAGS) $(CFLAGS) -Iinclude -Itarget/tools -o $@ tools/*.c $(archive) $(LDFLAGS)

check: $(archive)
	bash tests/c/run
	bash tests/tool/run

example: $(archive)
	bash examples/c/run list
	bash examples/c/run objects
	bash examples/c/run spare
	bash examples/c/run why
	bash examples/c/run midway

target/dergamoyne.pc: docs/dergamoyne.pc.in include/dergamoyne.h Makefile
	mkdir -p target
	sed -e 's|@PREFIX@|$(PREFIX)|' -e 's|@INCLUDEDIR@|$(INCLUDEDIR)|' -e 's|@LIBDIR@|$(LIBDIR)|' -e 's|@VERSION@|$(version)|' $< >$@

install: $(archive) $(tool)
	rm -f target/dergamoyne.pc
	$(MAKE) target/dergamoyne.pc
	$(INSTALL) -d $(DESTDIR)$(BINDIR) $(DESTDIR)$(INCLUDEDIR) $(DESTDIR)$(LIBDIR)/pkgconfig $(DESTDIR)$(MANDIR)/man1 $(DESTDIR)$(MANDIR)/man3
	$(INSTALL) -m 755 $(tool) $(DESTDIR)$(BINDIR)
	$(INSTALL) -m 644 include/dergamoyne.h include/dergamoyne_heap.h $(DESTDIR)$(INCLUDEDIR)
	$(INSTALL) -m 644 $(archive) $(DESTDIR)$(LIBDIR)
	$(INSTALL) -m 644 target/dergamoyne.pc $(DESTDIR)$(LIBDIR)/pkgconfig
	$(INSTALL) -m 644 docs/dergamoyne-heap.1 $(DESTDIR)$(MANDIR)/man1
	$(INSTALL) -m 644 docs/dergamoyne.3 $(DESTDIR)$(MANDIR)/man3

uninstall:
	rm -f $(DESTDIR)$(BINDIR)/dergamoyne-heap $(DESTDIR)$(MANDIR)/man1/dergamoyne-heap.1 \
	    $(DESTDIR)$(INCLUDEDIR)/dergamoyne.h $(DESTDIR)$(INCLUDEDIR)/dergamoyne_heap.h $(DESTDIR)$(LIBDIR)/libdergamoyne.a \
	    $(DESTDIR)$(LIBDIR)/pkgconfig/dergamoyne.pc $(DESTDIR)$(MANDIR)/man3/dergamoyne.3

.PHONY: all check example install uninstall
