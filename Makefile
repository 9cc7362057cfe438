# The library for programs in C: `make` proves and builds the archive, `make install` puts it, the header, a pkg-config file and the
# manual page under PREFIX, below DESTDIR if that is given, and `make uninstall` takes these four away. `make check` is the gate.
PREFIX = /usr/local
DESTDIR =
INCLUDEDIR = $(PREFIX)/include
LIBDIR = $(PREFIX)/lib
MANDIR = $(PREFIX)/share/man
PKGCONFIGDIR = $(LIBDIR)/pkgconfig

ARCHIVE = target/staticlib/libyarngravel.a
VERSION = $(shell sed -n 's/^.define YARNGRAVEL_VERSION_TEXT "\(.*\)"$$/\1/p' include/yarngravel.h)

all:
	@bash host/library.sh
	@echo "$(ARCHIVE) is up to date"

install: absolute all
	install -d "$(DESTDIR)$(INCLUDEDIR)" "$(DESTDIR)$(PKGCONFIGDIR)" "$(DESTDIR)$(MANDIR)/man3"
	install -m 644 include/yarngravel.h "$(DESTDIR)$(INCLUDEDIR)/yarngravel.h"
	install -m 644 $(ARCHIVE) "$(DESTDIR)$(LIBDIR)/libyarngravel.a"
	sed -e 's|@PREFIX@|$(PREFIX)|' -e 's|@VERSION@|$(VERSION)|' \
	    -e 's|@INCLUDEDIR@|$(patsubst $(PREFIX)/%,$${prefix}/%,$(INCLUDEDIR))|' \
	    -e 's|@LIBDIR@|$(patsubst $(PREFIX)/%,$${prefix}/%,$(LIBDIR))|' \
	    include/yarngravel.pc.in > "$(DESTDIR)$(PKGCONFIGDIR)/yarngravel.pc"
	sed -e 's|@VERSION@|$(VERSION)|' docs/yarngravel.3 > "$(DESTDIR)$(MANDIR)/man3/yarngravel.3"
	chmod 644 "$(DESTDIR)$(PKGCONFIGDIR)/yarngravel.pc" "$(DESTDIR)$(MANDIR)/man3/yarngravel.3"

uninstall: absolute
	rm -f "$(DESTDIR)$(INCLUDEDIR)/yarngravel.h" "$(DESTDIR)$(LIBDIR)/libyarngravel.a" \
	    "$(DESTDIR)$(PKGCONFIGDIR)/yarngravel.pc" "$(DESTDIR)$(MANDIR)/man3/yarngravel.3"

# A pkg-config file with a relative prefix would name another place in each folder.
absolute:
	@case "$(PREFIX)" in /*) ;; *) echo "make: PREFIX must start with /, and is '$(PREFIX)'" >&2; exit 1 ;; esac

check:
	./gate

.PHONY: all install uninstall absolute check
