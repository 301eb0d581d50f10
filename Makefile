# Builds and installs the library for C and the program. `make` needs the Rattle kit (rt), a C compiler and cargo; the proofs take some minutes the first time.
#     make                                  target/lib: liblafzimdo.a, liblafzimdo.so; target/rust/release/lafzimdo, the program
#     make check                            the users' tests (tests/run); .ci/run is the test of the proofs
#     make install PREFIX=/usr DESTDIR=..   header, both libraries, lafzimdo.pc, the program, man pages; default PREFIX /usr/local
#     make uninstall PREFIX=.. DESTDIR=..
#     make LIBRARY=/path/liblafzimdo.a ..   with a library that was proved and built elsewhere: no kit is needed
PREFIX ?= /usr/local
BINDIR ?= $(PREFIX)/bin
LIBDIR ?= $(PREFIX)/lib
INCLUDEDIR ?= $(PREFIX)/include
MANDIR ?= $(PREFIX)/share/man
PKGCONFIGDIR ?= $(LIBDIR)/pkgconfig
DESTDIR ?=
CC ?= cc
AR ?= ar
CARGO ?= cargo
INSTALL ?= install
CFLAGS ?= -O2

# The part of the version that changes where programs must be compiled again.
SOVERSION := 0
VERSION := $(shell sed -n 's/^\#define LAFZIMDO_VERSION_TEXT "\(.*\)"/\1/p' include/lafzimdo.h)
LIBRARY ?= target/staticlib/liblafzimdo.a
STATIC := target/lib/liblafzimdo.a
SHARED := target/lib/liblafzimdo.so.$(VERSION)
PROGRAM := target/rust/release/lafzimdo
HEADERS := include/lafzimdo.h include/lafzimdo_text.h
RATTLE := crates.txt $(shell find crates -name out -prune -o \( -name '*.rt' -o -name '*.antt' \) -print | sort)
RUST := $(shell find bindings/rust/src -type f | sort) bindings/rust/build.rs bindings/rust/Cargo.toml

.PHONY: all check install uninstall clean
all: $(STATIC) $(SHARED) $(PROGRAM)

# The static library of crate lafzimdo_c, under the name by which it is linked. What `rt check` or `rt lib` kept in crates/*/out is not proved again.
target/staticlib/liblafzimdo.a: $(RATTLE)
	cd crates/lafzimdo_c && rt lib
	mkdir -p target/staticlib
	cp crates/lafzimdo_c/out/liblafzimdo_c.a $@

target/lib/lafzimdo_text.o: bindings/c/lafzimdo_text.c include/lafzimdo_text.h
	mkdir -p target/lib
	$(CC) $(CFLAGS) -std=c99 -fPIC -Iinclude -c $< -o $@

# The proved calls, and the texts.
$(STATIC): $(LIBRARY) target/lib/lafzimdo_text.o
	cp $(LIBRARY) $@.new
	$(AR) rs $@.new target/lib/lafzimdo_text.o
	mv $@.new $@

# Only what the headers declare is to be seen from outside. Its other names are copies, since `rt ci` wants no links in a
# checkout.
$(SHARED): $(STATIC)
	echo '{ global: lafzimdo_*; local: *; };' > target/lib/exported
	$(CC) -shared -Wl,-soname,liblafzimdo.so.$(SOVERSION) -Wl,--version-script,target/lib/exported -Wl,-z,defs -Wl,--whole-archive $(STATIC) -Wl,--no-whole-archive -o $@
	cp $@ target/lib/liblafzimdo.so.$(SOVERSION)
	cp $@ target/lib/liblafzimdo.so

$(PROGRAM): $(STATIC) $(RUST)
	cd bindings/rust && LAFZIMDO_LIB=$(CURDIR)/target/lib $(CARGO) build --release --offline
	touch $@

check: all
	tests/run

install: all
	$(INSTALL) -d '$(DESTDIR)$(INCLUDEDIR)' '$(DESTDIR)$(LIBDIR)' '$(DESTDIR)$(PKGCONFIGDIR)' '$(DESTDIR)$(BINDIR)' '$(DESTDIR)$(MANDIR)/man1' '$(DESTDIR)$(MANDIR)/man3'
	$(INSTALL) -m 644 $(HEADERS) '$(DESTDIR)$(INCLUDEDIR)'
	$(INSTALL) -m 644 $(STATIC) '$(DESTDIR)$(LIBDIR)'
	$(INSTALL) -m 755 $(SHARED) '$(DESTDIR)$(LIBDIR)'
	ln -sf $(notdir $(SHARED)) '$(DESTDIR)$(LIBDIR)/liblafzimdo.so.$(SOVERSION)'
	ln -sf liblafzimdo.so.$(SOVERSION) '$(DESTDIR)$(LIBDIR)/liblafzimdo.so'
	sed -e 's|@PREFIX@|$(PREFIX)|' -e 's|@LIBDIR@|$(LIBDIR)|' -e 's|@INCLUDEDIR@|$(INCLUDEDIR)|' -e 's|@VERSION@|$(VERSION)|' lafzimdo.pc.in > '$(DESTDIR)$(PKGCONFIGDIR)/lafzimdo.pc'
	chmod 644 '$(DESTDIR)$(PKGCONFIGDIR)/lafzimdo.pc'
	$(INSTALL) -m 755 $(PROGRAM) '$(DESTDIR)$(BINDIR)'
	$(INSTALL) -m 644 man/lafzimdo.1 '$(DESTDIR)$(MANDIR)/man1'
	$(INSTALL) -m 644 man/lafzimdo.3 '$(DESTDIR)$(MANDIR)/man3'

uninstall:
	rm -f $(foreach header,$(HEADERS),'$(DESTDIR)$(INCLUDEDIR)/$(notdir $(header))')
	rm -f '$(DESTDIR)$(LIBDIR)/liblafzimdo.a' '$(DESTDIR)$(LIBDIR)/liblafzimdo.so' '$(DESTDIR)$(LIBDIR)/liblafzimdo.so.$(SOVERSION)' '$(DESTDIR)$(LIBDIR)/$(notdir $(SHARED))'
	rm -f '$(DESTDIR)$(PKGCONFIGDIR)/lafzimdo.pc' '$(DESTDIR)$(BINDIR)/lafzimdo' '$(DESTDIR)$(MANDIR)/man1/lafzimdo.1' '$(DESTDIR)$(MANDIR)/man3/lafzimdo.3'

clean:
	rm -rf target/lib target/rust
