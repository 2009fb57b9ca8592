# Builds and installs the library and the program. Proving is rt's work: `rt lib` and `rt run` prove before they write.
PREFIX ?= /usr/local
DESTDIR ?=
VERSION = 0.2.0
ARCHIVE = crates/rotmibel/out/librotmibel.a
PROGRAM = crates/take/out/take
TO = $(DESTDIR)$(PREFIX)
SOURCES := crates.txt $(shell find crates -name out -prune -o \( -name '*.rt' -o -name '*.antt' \) -print)

.PHONY: all check install clean

all: $(ARCHIVE) $(PROGRAM)

$(ARCHIVE): $(SOURCES)
	cd crates/rotmibel && rt lib
	touch $@

$(PROGRAM): $(SOURCES)
	cd crates/take && rt run </dev/null >/dev/null
	touch $@

check:
	.ci/run

install: all
	install -d $(TO)/include $(TO)/lib/pkgconfig $(TO)/bin $(TO)/share/man/man1 $(TO)/share/man/man3
	install -m 644 include/rotmibel.h $(TO)/include/rotmibel.h
	install -m 644 $(ARCHIVE) $(TO)/lib/librotmibel.a
	sed -e 's|@PREFIX@|$(PREFIX)|' -e 's|@VERSION@|$(VERSION)|' rotmibel.pc.in > $(TO)/lib/pkgconfig/rotmibel.pc
	install -m 755 $(PROGRAM) $(TO)/bin/take
	install -m 644 man/take.1 $(TO)/share/man/man1/take.1
	install -m 644 man/rotmibel.3 $(TO)/share/man/man3/rotmibel.3

clean:
	rm -rf target crates/*/out
