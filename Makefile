# make                        proves and builds the programs and the library for this machine (some minutes the first time)
# make install PREFIX=/dir    puts programs, library, header, pkg-config file and man pages there (/usr/local where nothing is said)
# make uninstall PREFIX=/dir  removes them
# make check                  all tests (docs/GATE.md has the time)
# DESTDIR=/dir goes before every path that is written to, and into none that is read later.
.POSIX:
PREFIX = /usr/local
DESTDIR =
CC = cc
PROGRAMS = report encode
to = $(DESTDIR)$(PREFIX)

all:
	sh tests/build-install $(PROGRAMS)
	$(CC) -std=c11 -Wall -Wextra -O2 -Iinclude tools/images.c target/install/libelderflute.a -o target/install/images

install: all
	case '$(PREFIX)' in /*) ;; *) echo 'PREFIX is a path from / on' >&2; exit 2 ;; esac
	mkdir -p '$(to)/bin' '$(to)/libexec/elderflute' '$(to)/include' '$(to)/lib/pkgconfig' '$(to)/share/man/man1' '$(to)/share/man/man3'
	mkdir -p '$(to)/share/elderflute/docs'
	mkdir -p '$(to)/share/elderflute/samples' '$(to)/share/elderflute/rust/src' '$(to)/share/elderflute/rust/tests' '$(to)/share/doc/elderflute'
	install -m 755 bin/elderflute '$(to)/bin/elderflute'
	install -m 755 tests/run-installed '$(to)/libexec/elderflute/run-program'
	for name in $(PROGRAMS); do install -m 755 "target/install/$$name" '$(to)/libexec/elderflute/' || exit 1; done
	install -m 755 target/install/images '$(to)/libexec/elderflute/images'
	install -m 644 include/elderflute.h '$(to)/include/elderflute.h'
	install -m 644 target/install/libelderflute.a '$(to)/lib/libelderflute.a'
	sed -e 's|@PREFIX@|$(PREFIX)|' -e "s|@VERSION@|$$(cat VERSION)|" elderflute.pc.in >'$(to)/lib/pkgconfig/elderflute.pc'
	chmod 644 '$(to)/lib/pkgconfig/elderflute.pc'
	install -m 644 man/elderflute.1 '$(to)/share/man/man1/elderflute.1'
	install -m 644 man/elderflute.3 '$(to)/share/man/man3/elderflute.3'
	install -m 644 VERSION LICENSE '$(to)/share/elderflute/'
	install -m 644 samples/demo samples/encode-input samples/*.flows '$(to)/share/elderflute/samples/'
	install -m 644 docs/sizes.txt '$(to)/share/elderflute/docs/'
	install -m 644 rust/Cargo.toml rust/build.rs '$(to)/share/elderflute/rust/'
	install -m 644 rust/src/lib.rs '$(to)/share/elderflute/rust/src/'
	install -m 644 rust/tests/calls.rs '$(to)/share/elderflute/rust/tests/'
	install -m 644 docs/MANUAL.md docs/SPECIFICATION.md examples/flows.c examples/collector.c examples/collector.rs '$(to)/share/doc/elderflute/'

uninstall:
	rm -f '$(to)/bin/elderflute' '$(to)/include/elderflute.h' '$(to)/lib/libelderflute.a' '$(to)/lib/pkgconfig/elderflute.pc'
	rm -f '$(to)/share/man/man1/elderflute.1' '$(to)/share/man/man3/elderflute.3'
	rm -rf '$(to)/libexec/elderflute' '$(to)/share/elderflute' '$(to)/share/doc/elderflute'

check:
	sh tests/run
