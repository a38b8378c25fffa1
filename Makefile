# The C library and the programs, built and installed.
#
#   make            the library and the programs, proved once for all of them; some minutes the first time
#   make lib        the library alone, target/libflehwella.a and target/libflehwella.so
#   make install    PREFIX=/usr/local by default; DESTDIR is put before every path
#   make uninstall  takes out what install put in
#   make dist       an archive below target/dist that runs wherever it is unpacked, without the prover
#   make deb        the same as a Debian package
#   make check      the gate
#
# The library and the programs are x86-64 code, and so is the prover that makes them.
# An installed tree may be moved: what lies in it finds the rest by the way from itself.

PREFIX = /usr/local
prefix := $(shell realpath -ms "$(PREFIX)")
includedir = $(prefix)/include
libdir = $(prefix)/lib
libexecdir = $(prefix)/libexec
bindir = $(prefix)/bin
datadir = $(prefix)/share
mandir = $(datadir)/man
docdir = $(datadir)/doc/flehwella

VERSION := $(shell cat VERSION)
PROGRAMS = daylist mkday
# What a command runs beside its own program, and has no command itself.
PARTS = dates
INSTALL = install
LIBRARY = target/libflehwella.a
SHARED = libflehwella.so
SONAME = $(SHARED).$(firstword $(subst ., ,$(VERSION)))

# The way from a folder to another: $(call way,FROM,TO).
way = $(shell realpath -ms --relative-to="$(1)" "$(2)")

all:
	@tools/built $(PROGRAMS) $(PARTS) library

lib:
	@tools/built library

programs:
	@tools/built $(PROGRAMS) $(PARTS)

install: install-library install-docs install-programs

install-library: lib
	$(INSTALL) -d "$(DESTDIR)$(includedir)" "$(DESTDIR)$(libdir)/pkgconfig" "$(DESTDIR)$(mandir)/man3"
	$(INSTALL) -m 644 include/flehwella.h "$(DESTDIR)$(includedir)/"
	$(INSTALL) -m 644 $(LIBRARY) "$(DESTDIR)$(libdir)/"
	$(INSTALL) -m 644 target/$(SHARED) "$(DESTDIR)$(libdir)/$(SHARED).$(VERSION)"
	ln -sf $(SHARED).$(VERSION) "$(DESTDIR)$(libdir)/$(SONAME)"
	ln -sf $(SONAME) "$(DESTDIR)$(libdir)/$(SHARED)"
	sed -e 's|@prefix@|$(call way,$(libdir)/pkgconfig,$(prefix))|' -e 's|@version@|$(VERSION)|' \
		-e 's|@includedir@|$(call way,$(libdir)/pkgconfig,$(includedir))|' \
		flehwella.pc.in >"$(DESTDIR)$(libdir)/pkgconfig/flehwella.pc"
	chmod 644 "$(DESTDIR)$(libdir)/pkgconfig/flehwella.pc"
	$(INSTALL) -m 644 man/flehwella_check.3 "$(DESTDIR)$(mandir)/man3/"

# A program is proved code and lies in libexec; the command around it, which has the help and the exit status, is told the way there.
data_there = "$$here/$(call way,$(bindir),$(datadir))/flehwella
install-programs: programs
	$(INSTALL) -d "$(DESTDIR)$(bindir)" "$(DESTDIR)$(libexecdir)/flehwella" "$(DESTDIR)$(mandir)/man1" "$(DESTDIR)$(datadir)/flehwella"
	$(INSTALL) -m 644 docs/refusals.txt "$(DESTDIR)$(datadir)/flehwella/"
	sed -e 's|^version=.*|version=$(VERSION)|' -e 's|^refusals=.*|refusals=$(data_there)/refusals.txt"|' -e 's|^build() .*|build() { :; }|' \
		-e 's|^program() .*|program() { exec "$$here/$(call way,$(bindir),$(libexecdir))/flehwella/$$1"; }|' \
		tools/command.sh >"$(DESTDIR)$(datadir)/flehwella/command.sh"
	chmod 644 "$(DESTDIR)$(datadir)/flehwella/command.sh"
	for name in $(PROGRAMS) $(PARTS); do \
		$(INSTALL) -m 755 target/bin/$$name "$(DESTDIR)$(libexecdir)/flehwella/" || exit; \
	done
	for name in $(PROGRAMS); do \
		sed -e 's|^\. .*|. $(data_there)/command.sh"|' $$name >"$(DESTDIR)$(bindir)/$$name" && \
		chmod 755 "$(DESTDIR)$(bindir)/$$name" && \
		$(INSTALL) -m 644 man/$$name.1 "$(DESTDIR)$(mandir)/man1/" || exit; \
	done

# The page and what a buyer's part of it names, as they lie here.
install-docs:
	$(INSTALL) -d "$(DESTDIR)$(docdir)/docs" "$(DESTDIR)$(docdir)/examples"
	$(INSTALL) -m 644 README.md CHANGELOG.md "$(DESTDIR)$(docdir)/"
	$(INSTALL) -m 644 docs/TEXT.md "$(DESTDIR)$(docdir)/docs/"
	$(INSTALL) -m 644 examples/* "$(DESTDIR)$(docdir)/examples/"

uninstall:
	rm -f "$(DESTDIR)$(includedir)/flehwella.h" "$(DESTDIR)$(libdir)/libflehwella.a" "$(DESTDIR)$(libdir)/pkgconfig/flehwella.pc" \
		"$(DESTDIR)$(libdir)/$(SHARED)" "$(DESTDIR)$(libdir)/$(SONAME)" "$(DESTDIR)$(libdir)/$(SHARED).$(VERSION)" \
		"$(DESTDIR)$(mandir)/man3/flehwella_check.3"
	for name in $(PROGRAMS); do \
		rm -f "$(DESTDIR)$(bindir)/$$name" "$(DESTDIR)$(mandir)/man1/$$name.1"; \
	done
	for name in $(PROGRAMS) $(PARTS); do \
		rm -f "$(DESTDIR)$(libexecdir)/flehwella/$$name"; \
	done
	rm -f "$(DESTDIR)$(datadir)/flehwella/command.sh" "$(DESTDIR)$(datadir)/flehwella/refusals.txt"
	rm -rf "$(DESTDIR)$(docdir)"
	-rmdir "$(DESTDIR)$(libexecdir)/flehwella" "$(DESTDIR)$(datadir)/flehwella"

dist: all
	@tools/pack archive

deb: all
	@tools/pack deb

check:
	.ci/run

.PHONY: all lib programs install install-library install-docs install-programs uninstall dist deb check
