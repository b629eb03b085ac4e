# The C library, for C programs: `make install PREFIX=/usr/local` proves and builds what is not built yet, and installs
# the archive, the header file and the pkg-config file. DESTDIR is put before PREFIX, for packagers.
PREFIX ?= /usr/local
libdir ?= $(PREFIX)/lib
includedir ?= $(PREFIX)/include
version := $(shell sed -n 's/^\#define GVZ_VERSION "\(.*\)"/\1/p' include/gvozdyana.h)
archive := target/staticlib/libgvozdyana.a

.PHONY: archive install uninstall

# What is proved already is not proved again.
archive:
	@mkdir -p target/log target/staticlib
	@echo "proving and building $(archive); the prover's output is in target/log/make.log"
	@(cd crates/gvozdyana && rt lib) >target/log/make.log 2>&1 || { tail -n 20 target/log/make.log; exit 1; }
	@cp crates/gvozdyana/out/libgvozdyana.a $(archive)

install: archive
	install -d "$(DESTDIR)$(libdir)/pkgconfig" "$(DESTDIR)$(includedir)"
	install -m 644 $(archive) "$(DESTDIR)$(libdir)/libgvozdyana.a"
	install -m 644 include/gvozdyana.h "$(DESTDIR)$(includedir)/gvozdyana.h"
	sed -e 's|@prefix@|$(PREFIX)|' -e 's|@libdir@|$(libdir)|' -e 's|@includedir@|$(includedir)|' -e 's|@version@|$(version)|' \
		c/gvozdyana.pc.in >"$(DESTDIR)$(libdir)/pkgconfig/gvozdyana.pc"
	chmod 644 "$(DESTDIR)$(libdir)/pkgconfig/gvozdyana.pc"

uninstall:
	rm -f "$(DESTDIR)$(libdir)/libgvozdyana.a" "$(DESTDIR)$(includedir)/gvozdyana.h" "$(DESTDIR)$(libdir)/pkgconfig/gvozdyana.pc"
