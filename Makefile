# The freezer box for a system: the library for C hosts, its header, and the programs.
#
#   make             proves and builds what is not built yet; it needs rt, and some seven minutes on two cores the first time
#   make install     copies it below PREFIX, /usr/local if none is given, and all of it below DESTDIR where that is given. What is built
#                    already is not built again, so that root may install what a user has built
#   make uninstall   removes what install has copied
#
# The folders below PREFIX have their usual names, bindir, libdir, includedir and mandir, and may be given too; box looks for its program in
# bindir's ../libexec/freezerbox.

# Each has a page, docs/NAME.1. So has box, a wrapper, which runs its program TOOL and exits with the status that it tells.
PROGRAMS = boxrun
TOOL = box_tool

PREFIX ?= /usr/local
prefix = $(PREFIX)
exec_prefix = $(prefix)
bindir = $(exec_prefix)/bin
libexecdir = $(exec_prefix)/libexec
libdir = $(exec_prefix)/lib
pkgconfigdir = $(libdir)/pkgconfig
includedir = $(prefix)/include
mandir = $(prefix)/share/man
INSTALL = install

LIBRARY = target/staticlib/libfreezerbox.a
VERSION := $(shell awk '/define BOX_VERSION_(MAJOR|MINOR|PATCH) / { printf "%s%s", dot, $$3; dot = "." }' include/box.h)
SOURCES := crates.txt $(shell find $(wildcard crates/*/src crates/*/specs crates/*/proofs))

# The header has a folder of its own, since other libraries have a box.h too; a host may say "box.h", as in this repository, or <freezerbox/box.h>.
headers = $(includedir)/freezerbox

all: $(LIBRARY) $(PROGRAMS:%=target/bin/%) target/bin/$(TOOL)

$(LIBRARY): target/staticlib/libhost.a
	cp $< $@

# What stands below is proved first, crate after crate; rt leaves as it is what has not changed.
target/staticlib/libhost.a: $(SOURCES)
	cd crates/host && rt lib
	mkdir -p $(@D)
	cp crates/host/out/libhost.a $@

# rt builds a program as it runs it: here to no purpose. What it tells comes on standard error.
$(PROGRAMS:%=target/bin/%) target/bin/$(TOOL): target/bin/%: $(SOURCES)
	cd crates/$* && rt run -- --version </dev/null 2>&1 >/dev/null
	mkdir -p $(@D)
	cp crates/$*/out/$* $@

install: all
	$(INSTALL) -d "$(DESTDIR)$(bindir)" "$(DESTDIR)$(libdir)" "$(DESTDIR)$(pkgconfigdir)" "$(DESTDIR)$(headers)" "$(DESTDIR)$(mandir)/man1"
	$(INSTALL) -m 755 $(PROGRAMS:%=target/bin/%) scripts/box "$(DESTDIR)$(bindir)"
	$(INSTALL) -d "$(DESTDIR)$(libexecdir)/freezerbox"
	$(INSTALL) -m 755 target/bin/$(TOOL) "$(DESTDIR)$(libexecdir)/freezerbox"
	$(INSTALL) -m 644 $(PROGRAMS:%=docs/%.1) docs/box.1 "$(DESTDIR)$(mandir)/man1"
	$(INSTALL) -m 644 $(LIBRARY) "$(DESTDIR)$(libdir)"
	$(INSTALL) -m 644 include/box.h "$(DESTDIR)$(headers)"
	sed -e 's|@prefix@|$(prefix)|' \
	    -e 's|@exec_prefix@|$(exec_prefix:$(prefix)=$${prefix})|' \
	    -e 's|@libdir@|$(libdir:$(exec_prefix)/%=$${exec_prefix}/%)|' \
	    -e 's|@includedir@|$(includedir:$(prefix)/%=$${prefix}/%)|' \
	    -e 's|@version@|$(VERSION)|' include/freezerbox.pc.in >"$(DESTDIR)$(pkgconfigdir)/freezerbox.pc"
	chmod 644 "$(DESTDIR)$(pkgconfigdir)/freezerbox.pc"

# The folders that others use too stay.
uninstall:
	rm -f $(PROGRAMS:%="$(DESTDIR)$(bindir)/%") $(PROGRAMS:%="$(DESTDIR)$(mandir)/man1/%.1")
	rm -f "$(DESTDIR)$(bindir)/box" "$(DESTDIR)$(mandir)/man1/box.1" "$(DESTDIR)$(libexecdir)/freezerbox/$(TOOL)"
	rm -f "$(DESTDIR)$(libdir)/libfreezerbox.a" "$(DESTDIR)$(pkgconfigdir)/freezerbox.pc" "$(DESTDIR)$(headers)/box.h"
	test ! -d "$(DESTDIR)$(headers)" || rmdir "$(DESTDIR)$(headers)"
	test ! -d "$(DESTDIR)$(libexecdir)/freezerbox" || rmdir "$(DESTDIR)$(libexecdir)/freezerbox"

.PHONY: all install uninstall
# One rt at a time: they write in one folder.
.NOTPARALLEL:
