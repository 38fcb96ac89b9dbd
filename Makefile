# Builds and installs the command, the library for C, its header, the pkg-config file, the manual page and the page on the files.
#   make install PREFIX=... DESTDIR=...
# A service then builds with: cc service.c $(pkg-config --cflags --libs gowashiru)
PREFIX = /usr/local
DESTDIR =
VERSION = $(shell sed -n 's/^.define GOWASHIRU_VERSION "\(.*\)"/\1/p' include/gowashiru.h)
TO = $(DESTDIR)$(PREFIX)

all:
	tools/build.sh command

install: all
	install -d "$(TO)/bin" "$(TO)/include" "$(TO)/lib/pkgconfig" "$(TO)/share/man/man1" "$(TO)/share/doc/gowashiru"
	install -m 755 target/command/gowashiru "$(TO)/bin/gowashiru"
	install -m 644 include/gowashiru.h "$(TO)/include/gowashiru.h"
	install -m 644 target/staticlib/libgowashiru.a "$(TO)/lib/libgowashiru.a"
	install -m 644 tools/gowashiru.1 "$(TO)/share/man/man1/gowashiru.1"
	install -m 644 docs/FORMAT.md docs/PROMISES.md "$(TO)/share/doc/gowashiru"
	sed -e 's|@PREFIX@|$(PREFIX)|' -e 's|@VERSION@|$(VERSION)|' tools/gowashiru.pc.in >"$(TO)/lib/pkgconfig/gowashiru.pc"
	chmod 644 "$(TO)/lib/pkgconfig/gowashiru.pc"

.PHONY: all install
