# The C library, its headers and the example host. `make` proves what is not proved yet and builds the library, and `make gateway` the program, from the proved crates.
PREFIX ?= /usr/local
CC ?= cc
CFLAGS ?= -O2
WARNINGS = -std=c11 -Wall -Wextra -pedantic

VERSION = 1.6.0
LIBRARY = target/lib/libkolowrotan.a
GATEWAY = crates/gateway/out/gateway
HEADERS = include/kolowrotan.h include/kolowrotan_list.h
DIST = kolowrotan-$(VERSION)
SOURCES := $(shell find crates -path 'crates/*/out' -prune -o \( -name '*.rt' -o -name '*.antt' \) -print) crates.txt

all: $(LIBRARY)

$(LIBRARY): $(SOURCES)
	cd crates/kolowrotan_c && rt lib
	mkdir -p target/lib
	cp crates/kolowrotan_c/out/libkolowrotan_c.a $@

# The example radio host.
host: target/host/host

target/host/host: $(wildcard host/*.c host/*.h) $(HEADERS) $(LIBRARY)
	mkdir -p target/host
	$(CC) $(WARNINGS) $(CFLAGS) -Iinclude -o $@ host/*.c $(LIBRARY)

# The program that bin/gateway runs. `rt ci` leaves it there too.
gateway: $(GATEWAY)

$(GATEWAY): $(SOURCES)
	cd crates/gateway && rt run -- --version > /dev/null
	touch $@

install: install-library $(GATEWAY)
	install -d $(DESTDIR)$(PREFIX)/bin $(DESTDIR)$(PREFIX)/libexec/kolowrotan $(DESTDIR)$(PREFIX)/share/kolowrotan
	install -m 755 bin/gateway $(DESTDIR)$(PREFIX)/bin/
	install -m 755 $(GATEWAY) $(DESTDIR)$(PREFIX)/libexec/kolowrotan/
	install -m 644 crates/gateway/data/accident.rec $(DESTDIR)$(PREFIX)/share/kolowrotan/

# What a C program needs.
install-library: $(LIBRARY)
	install -d $(DESTDIR)$(PREFIX)/include $(DESTDIR)$(PREFIX)/lib/pkgconfig
	install -m 644 $(HEADERS) $(DESTDIR)$(PREFIX)/include/
	install -m 644 $(LIBRARY) $(DESTDIR)$(PREFIX)/lib/
	sed -e 's,@PREFIX@,$(PREFIX),' -e 's,@VERSION@,$(VERSION),' kolowrotan.pc.in > $(DESTDIR)$(PREFIX)/lib/pkgconfig/kolowrotan.pc

# An archive for C programmers who have no Rattle kit. It can be unpacked anywhere: its pkg-config file tells the place where it lies itself. The same
# files always make the same archive.
dist: $(LIBRARY)
	rm -rf target/dist
	$(MAKE) --no-print-directory install-library DESTDIR= PREFIX=target/dist/$(DIST)
	sed -e 's,@PREFIX@,$${pcfiledir}/../..,' -e 's,@VERSION@,$(VERSION),' kolowrotan.pc.in > target/dist/$(DIST)/lib/pkgconfig/kolowrotan.pc
	install -d target/dist/$(DIST)/docs target/dist/$(DIST)/host
	install -m 644 docs/HOST.md docs/CLAIMS.md docs/STATE.md target/dist/$(DIST)/docs/
	install -m 644 CHANGELOG.md target/dist/$(DIST)/
	install -m 644 host/* target/dist/$(DIST)/host/
	sed -n '/^```c$$/,/^```$$/p' README.md | sed -e '/^```/d' > target/dist/$(DIST)/example.c
	chmod -R u=rwX,go=rX target/dist/$(DIST)
	tar --sort=name --mtime=@0 --owner=0 --group=0 --numeric-owner -C target/dist -cf target/dist/$(DIST).tar $(DIST)
	gzip -n target/dist/$(DIST).tar

clean:
	rm -rf target/host target/lib target/dist

.PHONY: all host gateway install install-library dist clean
