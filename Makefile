# Builds the C library from the proved archive, installs it, builds the example.
#
#   make                  the archive crates/rig_c/out/librig_c.a (rt lib in crates/rig_c, proved first), and from it
#                         target/lib/libbellrafter.a and target/lib/libbellrafter.so
#   make install          header, libraries and pkg-config file under PREFIX, below DESTDIR if that is set
#   make uninstall        removes what install has put there
#   make example          target/examples/judge, from examples/rig/judge.c
#   make check            the host tests
#   make static           only the static library
#
# PREFIX, LIBDIR, INCLUDEDIR, DESTDIR, CC and CFLAGS may be given.

PREFIX ?= /usr/local
LIBDIR ?= $(PREFIX)/lib
INCLUDEDIR ?= $(PREFIX)/include
CFLAGS ?= -O2
WARNINGS = -std=c11 -Wall -Wextra -Wconversion -pedantic
INSTALL ?= install

HEADER = include/bellrafter.h
MAJOR := $(shell sed -n 's/^\#define BELLRAFTER_VERSION_MAJOR //p' $(HEADER))
MINOR := $(shell sed -n 's/^\#define BELLRAFTER_VERSION_MINOR //p' $(HEADER))
VERSION = $(MAJOR).$(MINOR)

ARCHIVE = crates/rig_c/out/librig_c.a
LIB = target/lib
STATIC = $(LIB)/libbellrafter.a
SHARED = $(LIB)/libbellrafter.so
EXAMPLE = target/examples/judge
PROVED := crates.txt $(shell find crates -name out -prune -o '(' -name '*.rt' -o -name '*.antt' ')' -print)

all: static shared

static: $(STATIC)

shared: $(SHARED)

$(ARCHIVE): $(PROVED)
	cd crates/rig_c && rt lib
	@touch $@

$(STATIC): $(ARCHIVE)
	@mkdir -p $(LIB)
	cp $< $@

# The calls are its only symbols. It fails, and says so, if the archive is not position independent or needs more than
# the C library.
$(SHARED): $(ARCHIVE)
	@mkdir -p $(LIB)
	@printf '{ global: bellrafter_*; local: *; };\n' >$(LIB)/bellrafter.map
	$(CC) -shared -Wl,-soname,libbellrafter.so.$(MAJOR) -Wl,--version-script=$(LIB)/bellrafter.map \
	    -Wl,-z,defs -Wl,-z,text -Wl,--whole-archive $< -Wl,--no-whole-archive -o $@ || \
	    { echo 'no shared library can be made of $<; make static builds the other one' >&2; exit 1; }

example: $(EXAMPLE)

$(EXAMPLE): examples/rig/judge.c $(HEADER) $(STATIC)
	@mkdir -p $(@D)
	$(CC) $(WARNINGS) $(CFLAGS) -Iinclude $< $(STATIC) -o $@

check:
	tests/host/run

install: all
	$(INSTALL) -d "$(DESTDIR)$(INCLUDEDIR)" "$(DESTDIR)$(LIBDIR)/pkgconfig"
	$(INSTALL) -m 644 $(HEADER) "$(DESTDIR)$(INCLUDEDIR)/bellrafter.h"
	$(INSTALL) -m 644 $(STATIC) "$(DESTDIR)$(LIBDIR)/libbellrafter.a"
	$(INSTALL) -m 755 $(SHARED) "$(DESTDIR)$(LIBDIR)/libbellrafter.so.$(VERSION)"
	ln -sf libbellrafter.so.$(VERSION) "$(DESTDIR)$(LIBDIR)/libbellrafter.so.$(MAJOR)"
	ln -sf libbellrafter.so.$(MAJOR) "$(DESTDIR)$(LIBDIR)/libbellrafter.so"
	printf '%s\n' 'prefix=$(PREFIX)' 'libdir=$(LIBDIR)' 'includedir=$(INCLUDEDIR)' '' 'Name: bellrafter' \
	    'Description: A proved reference model of NVMe queues' 'Version: $(VERSION)' \
	    'Cflags: -I$${includedir}' 'Libs: -L$${libdir} -lbellrafter' \
	    >"$(DESTDIR)$(LIBDIR)/pkgconfig/bellrafter.pc"

uninstall:
	rm -f "$(DESTDIR)$(INCLUDEDIR)/bellrafter.h" "$(DESTDIR)$(LIBDIR)/libbellrafter.a" \
	    "$(DESTDIR)$(LIBDIR)/libbellrafter.so.$(VERSION)" "$(DESTDIR)$(LIBDIR)/libbellrafter.so.$(MAJOR)" \
	    "$(DESTDIR)$(LIBDIR)/libbellrafter.so" "$(DESTDIR)$(LIBDIR)/pkgconfig/bellrafter.pc"

.PHONY: all static shared example check install uninstall
.DELETE_ON_ERROR:
