# make            what is installed: the front, the shared library, the five programs; proved, compiled and linked by front/build
# make front      target/front/wazelpunt alone          make shared    target/front/libwazelpunt.so, with its links
# make archive    target/staticlib/libwazelpunt.a       make programs  target/bin/{listing,judging,rewriting,importing,charting}
# make install    puts it all below PREFIX (/usr/local); DESTDIR, if given, stands before every path
# make uninstall  takes it away from there again        make clean     removes target/front; what is proved stays
# CC, CFLAGS and LDFLAGS go to the compiler. GNU make.
PREFIX = /usr/local
BINDIR = $(PREFIX)/bin
LIBDIR = $(PREFIX)/lib
INCLUDEDIR = $(PREFIX)/include
DATADIR = $(PREFIX)/share
MANDIR = $(DATADIR)/man
DESTDIR =
LDCONFIG = ldconfig

VERSION := $(shell sed -n 's/^.define WAZELPUNT_VERSION "\([0-9][0-9.]*\)".*/\1/p' include/wazelpunt.h)
SONAME = libwazelpunt.so.$(firstword $(subst ., ,$(VERSION)))
SHARED = libwazelpunt.so.$(VERSION)
# The programs' own names would be too general among all commands of a machine.
PROGRAMS = listing judging rewriting importing charting

# A path as sed takes it for what it puts in.
quoted = $(subst |,\|,$(subst &,\&,$(subst \,\\,$(1))))

all:
	front/build front shared programs

archive front shared programs:
	front/build $@

install: all
	install -d "$(DESTDIR)$(BINDIR)" "$(DESTDIR)$(LIBDIR)/pkgconfig" "$(DESTDIR)$(INCLUDEDIR)" "$(DESTDIR)$(MANDIR)/man1"
	install -d "$(DESTDIR)$(DATADIR)/wazelpunt/examples" "$(DESTDIR)$(DATADIR)/wazelpunt/python"
	install -m 755 target/front/wazelpunt "$(DESTDIR)$(BINDIR)/wazelpunt"
	for program in $(PROGRAMS); do install -m 755 "target/bin/$$program" "$(DESTDIR)$(BINDIR)/wazelpunt-$$program" || exit; done
	install -m 644 target/staticlib/libwazelpunt.a "target/front/$(SHARED)" "$(DESTDIR)$(LIBDIR)"
	ln -sf "$(SHARED)" "$(DESTDIR)$(LIBDIR)/$(SONAME)"
	ln -sf "$(SONAME)" "$(DESTDIR)$(LIBDIR)/libwazelpunt.so"
	install -m 644 include/wazelpunt.h "$(DESTDIR)$(INCLUDEDIR)"
	install -m 644 front/wazelpunt.pc.in "$(DESTDIR)$(LIBDIR)/pkgconfig/wazelpunt.pc"
	sed -i -e 's|@PREFIX@|$(call quoted,$(PREFIX))|' -e 's|@LIBDIR@|$(call quoted,$(LIBDIR))|' \
	    -e 's|@INCLUDEDIR@|$(call quoted,$(INCLUDEDIR))|' -e 's|@VERSION@|$(VERSION)|' "$(DESTDIR)$(LIBDIR)/pkgconfig/wazelpunt.pc"
	install -m 644 front/wazelpunt.1 "$(DESTDIR)$(MANDIR)/man1"
	install -m 644 examples/*.sheet examples/*.patches examples/*.stl examples/*.c "$(DESTDIR)$(DATADIR)/wazelpunt/examples"
	install -m 644 python/wazelpunt.py "$(DESTDIR)$(DATADIR)/wazelpunt/python"
	@# so that a program finds the shared library at once; another user, or who makes a package, does that on their own
	[ -n "$(DESTDIR)" ] || [ "$$(id -u)" -ne 0 ] || $(LDCONFIG) || :

uninstall:
	for name in wazelpunt $(PROGRAMS:%=wazelpunt-%); do rm -f "$(DESTDIR)$(BINDIR)/$$name" || exit; done
	for name in libwazelpunt.a libwazelpunt.so $(SONAME) $(SHARED) pkgconfig/wazelpunt.pc; do \
	    rm -f "$(DESTDIR)$(LIBDIR)/$$name" || exit; \
	done
	rm -f "$(DESTDIR)$(INCLUDEDIR)/wazelpunt.h" "$(DESTDIR)$(MANDIR)/man1/wazelpunt.1"
	rm -rf "$(DESTDIR)$(DATADIR)/wazelpunt"

clean:
	rm -rf target/front

.PHONY: all archive front shared programs install uninstall clean
