# Builds and installs the library for C, the command and their manual pages, on x86-64 Linux.
#
#   make              builds; this needs the Rattle kit (rt on the path)
#   make install      puts what was built below PREFIX; it builds nothing and needs no kit
#   make uninstall    takes it away again
#   make pages        makes docs/EDITS.md and docs/FUNCTIONS.md anew, which list must-fail edits and public functions
#
# PREFIX is /usr/local where none is given, as in `make install PREFIX=/usr`. Library, header and manual pages can go elsewhere by LIBDIR, INCLUDEDIR and MANDIR; the
# command finds its program beside it, below libexec, so the two stay together. DESTDIR, for packagers, stands before every path that is written to, and in no file.

PREFIX = /usr/local
LIBDIR = $(PREFIX)/lib
INCLUDEDIR = $(PREFIX)/include
MANDIR = $(PREFIX)/share/man
DESTDIR =

LIBRARY = target/staticlib/liborbendash.a
PROGRAM = target/orbendash

BIN = $(DESTDIR)$(PREFIX)/bin
LIBEXEC = $(DESTDIR)$(PREFIX)/libexec/orbendash
LIB = $(DESTDIR)$(LIBDIR)
INCLUDE = $(DESTDIR)$(INCLUDEDIR)
MAN = $(DESTDIR)$(MANDIR)

.PHONY: all install uninstall pages

# The command builds its program where it is used first; VERSION, one line of visible bytes, serves as its list.
all:
	tools/static-library
	bin/orbendash strip VERSION < /dev/null

install:
	@test -f '$(LIBRARY)' && test -x '$(PROGRAM)' || { echo 'nothing is built yet: run make first' >&2; exit 1; }
	install -d '$(BIN)' '$(LIBEXEC)' '$(LIB)/pkgconfig' '$(INCLUDE)' '$(MAN)/man1' '$(MAN)/man3'
	install -m 644 '$(LIBRARY)' '$(LIB)/liborbendash.a'
	install -m 644 hosts/c/orbendash.h '$(INCLUDE)/orbendash.h'
	sed -e 's|@PREFIX@|$(PREFIX)|' -e 's|@LIBDIR@|$(LIBDIR)|' -e 's|@INCLUDEDIR@|$(INCLUDEDIR)|' -e "s|@VERSION@|$$(cat VERSION)|" \
	    hosts/c/orbendash.pc.in > '$(LIB)/pkgconfig/orbendash.pc'
	chmod 644 '$(LIB)/pkgconfig/orbendash.pc'
	install -m 755 '$(PROGRAM)' '$(LIBEXEC)/orbendash'
	install -m 644 VERSION '$(LIBEXEC)/VERSION'
	install -m 755 bin/orbendash '$(BIN)/orbendash'
	install -m 644 docs/man/orbendash.1 '$(MAN)/man1/orbendash.1'
	install -m 644 docs/man/orbendash.3 '$(MAN)/man3/orbendash.3'

# An older version also installed a program orbendash-judge.
uninstall:
	rm -f '$(LIB)/liborbendash.a' '$(INCLUDE)/orbendash.h' '$(LIB)/pkgconfig/orbendash.pc' '$(LIBEXEC)/orbendash' '$(LIBEXEC)/orbendash-judge' '$(LIBEXEC)/VERSION' '$(BIN)/orbendash' \
	    '$(MAN)/man1/orbendash.1' '$(MAN)/man3/orbendash.3'
	test ! -d '$(LIBEXEC)' || rmdir '$(LIBEXEC)'

pages:
	tools/edits-page > docs/EDITS.md
	tools/functions-page > docs/FUNCTIONS.md
