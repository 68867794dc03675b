# make            proves and builds the program                 crates/baliseplan/out/baliseplan
# make fields     the program that explains digits as fields    crates/balisefields/out/balisefields
# make facts      the program that tells facts of a session     crates/balisefacts/out/balisefacts
# make library    proves and builds the library                 out/libbaliseplan.a
# make shared     the same as a shared object                   out/libbaliseplan.so
# make wheel      the module for Python, with the library in it out/wheel/
# make page       the page of the proved engine                 page/baliseplan.html (it is in the repository)
# make dist       all of these for those without a kit          out/dist/: an archive and a Debian package (docs/INSTALL.md)
# make check-dist what a user of these meets, in a bare Debian
# make dist-twice whether two clones give the same bytes
# make check      everything that has to hold before a change goes in: the gate, and all other tests (scripts/check/README.md)
# make mutations  tries the mutations that the gate leaves out, which takes an hour or more
# make install    puts what was built below PREFIX (and DESTDIR, where it is given): programs, manual, pages, header,
#                 libraries, pkg-config file and completions
# make uninstall  removes these
#
# Each proof is checked first; what was proved before isn't proved again. A Rattle kit has to be on the path, but for
# install and uninstall, which build nothing.

PREFIX ?= /usr/local
BINDIR ?= $(PREFIX)/bin
INCLUDEDIR ?= $(PREFIX)/include
LIBDIR ?= $(PREFIX)/lib
DATADIR ?= $(PREFIX)/share
MANDIR ?= $(DATADIR)/man
DOCDIR ?= $(DATADIR)/doc/baliseplan

CC ?= cc
CFLAGS ?= -O2
INSTALL ?= install
OBJCOPY ?= objcopy
PYTHON ?= /usr/bin/python3

# The header has the numbers of the library: its interface and its version.
header := include/baliseplan.h
abi := $(shell sed -n 's/^.define BALISEPLAN_ABI \([0-9]*\)u$$/\1/p' $(header))
version := $(shell sed -n 's/^.define BALISEPLAN_VERSION "\(.*\)"$$/\1/p' $(header))

kit = $(patsubst %/bin/rt,%,$(realpath $(shell command -v rt)))
heap = $(kit)/c/liblibc_c.a
program := crates/baliseplan/out/baliseplan
archive := crates/balise_c/out/libbalise_c.a
shared_object := out/libbaliseplan.so.$(abi)
sources := library/run_alloc.c library/texts.c
pages := $(wildcard docs/*.md docs/*.svg) CHANGELOG.md

.PHONY: all program fields facts library shared page wheel packed packed-shared dist packed-dist check-dist dist-twice check mutations \
    install uninstall clean
all: program

# rt itself finds out what has to be done again, so these run each time.
program:
	cd crates/baliseplan && rt run < ../../examples/temporary_speed.plan > /dev/null

# The run of its example ends with the status that is stored with that.
fields:
	cd crates/balisefields && { cat stdin 2> /dev/null | rt run > /dev/null; [ "$$?" = "$$(cat status 2> /dev/null || echo 0)" ]; }

facts:
	cd crates/balisefacts && rt run < ../../examples/temporary_speed.plan > /dev/null

library:
	cd crates/balise_c && rt lib
	$(MAKE) --no-print-directory packed

shared: library
	$(MAKE) --no-print-directory packed-shared

# One object of the proved calls, the kit's allocator and our C. Only what the header declares is a symbol of it: other
# names would be those of a caller too.
packed:
	rm -rf out/objects out/libbaliseplan.a
	mkdir -p out/objects
	for source in $(sources); do \
	    $(CC) -std=c99 -Wall -Wextra $(CPPFLAGS) $(CFLAGS) -fno-lto -fPIC -Iinclude -c $$source \
	        -o out/objects/$$(basename $$source .c).o || exit 1; done
	$(CC) -r -nostdlib -o out/objects/all.o -Wl,--whole-archive "$(archive)" -Wl,--no-whole-archive \
	    $(patsubst library/%.c,out/objects/%.o,$(sources)) "$(heap)"
	sed -n '/^.. end of cffi/q; s/^[a-z].*[ *]\(baliseplan_[a-z_]*\)(.*/\1/p' $(header) > out/objects/calls
	$(OBJCOPY) --keep-global-symbols=out/objects/calls out/objects/all.o out/objects/baliseplan.o
	$(AR) rcsD out/libbaliseplan.a out/objects/baliseplan.o

packed-shared:
	$(CC) -shared $(CFLAGS) -fno-lto $(LDFLAGS) -Wl,-soname,libbaliseplan.so.$(abi) -Wl,-z,defs -Wl,-z,relro,-z,now \
	    -o $(shared_object) out/objects/baliseplan.o
	ln -sf libbaliseplan.so.$(abi) out/libbaliseplan.so

page: library
	page/build.sh

# The shared object goes into the package, so the wheel is for one platform.
wheel: shared
	$(MAKE) --no-print-directory packed-wheel

packed-wheel:
	rm -rf out/wheel out/package
	mkdir -p out/package
	cp -R examples/python/pyproject.toml examples/python/README.md \
	    examples/python/baliseplan out/package
	rm -rf out/package/baliseplan/__pycache__
	cp $(shared_object) out/package/baliseplan/
	$(PYTHON) -m pip wheel --quiet --no-deps --no-build-isolation --no-index -w out/wheel out/package

# What is packed was built here just before, and BUILD names the kit. `make packed-dist` packs what is there.
dist: program shared $(patsubst crates/balise%,%,$(wildcard crates/balisefields crates/balisefacts))
	$(MAKE) --no-print-directory packed-dist KIT="$$(rt version | tr '\n' ' ')"

packed-dist:
	$(PYTHON) scripts/dist/dist.py --kit '$(KIT)'

# CACHE is a folder for the bare Debian, so that several clones have one.
check-dist:
	scripts/check/dist.sh $(if $(CACHE),--cache '$(CACHE)')

dist-twice:
	scripts/dist/twice.sh

# ALL_OF_IT=yes: what can't be run counts as failed. WITHOUT=gate: leaves out the parts whose names match, and says so.
check:
	@WITHOUT='$(WITHOUT)' scripts/check/everything.sh $(if $(ALL_OF_IT),--all-of-it)

# CRATES="balise_plan balise_edits": those of some crates alone
mutations:
	scripts/check/more_mutations.py $(CRATES)

install:
	@for file in $(program) out/libbaliseplan.a $(shared_object); do \
	    [ -f $$file ] || { echo "$$file isn't built: run 'make program shared' first" >&2; exit 1; }; done
	$(INSTALL) -d "$(DESTDIR)$(BINDIR)" "$(DESTDIR)$(INCLUDEDIR)" "$(DESTDIR)$(LIBDIR)/pkgconfig" \
	    "$(DESTDIR)$(MANDIR)/man1" "$(DESTDIR)$(MANDIR)/man3" "$(DESTDIR)$(DOCDIR)" \
	    "$(DESTDIR)$(DATADIR)/bash-completion/completions" "$(DESTDIR)$(DATADIR)/zsh/site-functions" \
	    "$(DESTDIR)$(DATADIR)/fish/vendor_completions.d"
	$(INSTALL) -m 755 $(program) "$(DESTDIR)$(BINDIR)/baliseplan"
	for name in balisefields balisefacts; do \
	    [ -f crates/$$name/out/$$name ] || continue; \
	    $(INSTALL) -m 755 crates/$$name/out/$$name "$(DESTDIR)$(BINDIR)/$$name" && \
	    $(INSTALL) -m 644 man/$$name.1 "$(DESTDIR)$(MANDIR)/man1/$$name.1" || exit 1; done
	$(INSTALL) -m 644 man/baliseplan.1 "$(DESTDIR)$(MANDIR)/man1/baliseplan.1"
	$(INSTALL) -m 644 man/baliseplan.3 "$(DESTDIR)$(MANDIR)/man3/baliseplan.3"
	$(INSTALL) -m 644 $(pages) "$(DESTDIR)$(DOCDIR)"
	$(INSTALL) -m 644 $(header) "$(DESTDIR)$(INCLUDEDIR)/baliseplan.h"
	$(INSTALL) -m 644 out/libbaliseplan.a "$(DESTDIR)$(LIBDIR)/libbaliseplan.a"
	$(INSTALL) -m 755 $(shared_object) "$(DESTDIR)$(LIBDIR)/libbaliseplan.so.$(abi)"
	ln -sf libbaliseplan.so.$(abi) "$(DESTDIR)$(LIBDIR)/libbaliseplan.so"
	sed -e 's|@PREFIX@|$(subst &,\&,$(PREFIX))|' -e 's|@LIBDIR@|$(subst &,\&,$(LIBDIR))|' \
	    -e 's|@INCLUDEDIR@|$(subst &,\&,$(INCLUDEDIR))|' \
	    -e 's|@VERSION@|$(version)|' baliseplan.pc.in > "$(DESTDIR)$(LIBDIR)/pkgconfig/baliseplan.pc"
	chmod 644 "$(DESTDIR)$(LIBDIR)/pkgconfig/baliseplan.pc"
	for name in baliseplan balisefacts; do \
	    [ -f "$(DESTDIR)$(BINDIR)/$$name" ] || continue; \
	    $(INSTALL) -m 644 completions/$$name.bash "$(DESTDIR)$(DATADIR)/bash-completion/completions/$$name" && \
	    $(INSTALL) -m 644 completions/$$name.zsh "$(DESTDIR)$(DATADIR)/zsh/site-functions/_$$name" && \
	    $(INSTALL) -m 644 completions/$$name.fish \
	        "$(DESTDIR)$(DATADIR)/fish/vendor_completions.d/$$name.fish" || exit 1; done

uninstall:
	rm -f "$(DESTDIR)$(BINDIR)/balisefields" "$(DESTDIR)$(MANDIR)/man1/balisefields.1" \
	    "$(DESTDIR)$(BINDIR)/balisefacts" "$(DESTDIR)$(MANDIR)/man1/balisefacts.1" \
	    "$(DESTDIR)$(DATADIR)/bash-completion/completions/balisefacts" \
	    "$(DESTDIR)$(DATADIR)/zsh/site-functions/_balisefacts" \
	    "$(DESTDIR)$(DATADIR)/fish/vendor_completions.d/balisefacts.fish" \
	    "$(DESTDIR)$(BINDIR)/baliseplan" "$(DESTDIR)$(INCLUDEDIR)/baliseplan.h" \
	    "$(DESTDIR)$(MANDIR)/man1/baliseplan.1" "$(DESTDIR)$(MANDIR)/man3/baliseplan.3" \
	    "$(DESTDIR)$(LIBDIR)/libbaliseplan.a" "$(DESTDIR)$(LIBDIR)/libbaliseplan.so" \
	    "$(DESTDIR)$(LIBDIR)/libbaliseplan.so.$(abi)" "$(DESTDIR)$(LIBDIR)/pkgconfig/baliseplan.pc" \
	    "$(DESTDIR)$(DATADIR)/bash-completion/completions/baliseplan" \
	    "$(DESTDIR)$(DATADIR)/zsh/site-functions/_baliseplan" \
	    "$(DESTDIR)$(DATADIR)/fish/vendor_completions.d/baliseplan.fish"
	rm -rf "$(DESTDIR)$(DOCDIR)"

clean:
	rm -rf out
