# Builds and installs the library for C.
#   make             proves the library and builds the archive for this machine
#   make install     puts header, archive and zsermulat.pc below PREFIX (/usr/local), itself below DESTDIR if that is set
#   make test        proves everything and runs all tests
#   make uninstall   removes what install has put there
PREFIX ?= /usr/local
INCLUDEDIR ?= $(PREFIX)/include
LIBDIR ?= $(PREFIX)/lib
PKGCONFIGDIR ?= $(LIBDIR)/pkgconfig
INSTALL ?= install
VERSION = 0.1.0

ARCHIVE = target/archive/$(shell uname -m)/libzsermulat.a

.PHONY: all install uninstall test

# bin/archive itself knows whether there is anything to build.
all:
	bin/archive

install: all
	$(INSTALL) -d '$(DESTDIR)$(INCLUDEDIR)' '$(DESTDIR)$(LIBDIR)' '$(DESTDIR)$(PKGCONFIGDIR)'
	$(INSTALL) -m 644 include/zsermulat.h '$(DESTDIR)$(INCLUDEDIR)/zsermulat.h'
	$(INSTALL) -m 644 $(ARCHIVE) '$(DESTDIR)$(LIBDIR)/libzsermulat.a'
	sed -e 's|@PREFIX@|$(PREFIX)|' -e 's|@INCLUDEDIR@|$(INCLUDEDIR)|' -e 's|@LIBDIR@|$(LIBDIR)|' -e 's|@VERSION@|$(VERSION)|' zsermulat.pc.in \
	    >'$(DESTDIR)$(PKGCONFIGDIR)/zsermulat.pc'
	chmod 644 '$(DESTDIR)$(PKGCONFIGDIR)/zsermulat.pc'

uninstall:
	rm -f '$(DESTDIR)$(INCLUDEDIR)/zsermulat.h' '$(DESTDIR)$(LIBDIR)/libzsermulat.a' '$(DESTDIR)$(PKGCONFIGDIR)/zsermulat.pc'

test:
	.ci/run
