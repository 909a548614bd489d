# Builds the libraries and the program, and installs them.
#
#   make demo         tests the tools, builds all, draws a panel and checks its list
#   make              proves and builds the libraries and the program place: minutes at first, then seconds
#   make lib          the libraries alone
#   make install      installs what is built, to prefix (/usr/local) below DESTDIR; it builds nothing
#   make uninstall    takes away what was installed
#   make times        prints how long the check of each crate takes, from nothing, and its must-fail edits: minutes
#   make check        tests the tools, then the gate, .ci/run: proves everything and runs all tests
#   make clean        takes away everything that was built, proofs too
#   make help         prints these lines

# Where the files go: GNU's names, and the same in capitals, which go before them.
prefix = /usr/local
PREFIX = $(prefix)
DESTDIR =
exec_prefix = $(PREFIX)
bindir = $(exec_prefix)/bin
BINDIR = $(bindir)
includedir = $(PREFIX)/include
INCLUDEDIR = $(includedir)
libdir = $(exec_prefix)/lib
LIBDIR = $(libdir)
datarootdir = $(PREFIX)/share
docdir = $(datarootdir)/doc/strip
DOCDIR = $(docdir)
CMAKEDIR = $(LIBDIR)/cmake/strip

# What there is to install.
HEADER = crates/strip/include/strip.h
STATIC = target/staticlib/libstrip.a
SHARED = target/lib/libstrip.so.0
PROGRAM = target/bin/place
BUILT = $(STATIC) $(SHARED) $(PROGRAM)
PAGES = LICENSE docs/FORMAT.md docs/REFUSALS.md docs/LIBRARY.md
VERSION = $(shell sed -n 's/^\#define STRIP_VERSION "\(.*\)"/\1/p' $(HEADER))

# The kit's command. It alone knows what has changed, so it is asked each time, once at a time.
RT = rt
.NOTPARALLEL:

all: $(PROGRAM) lib

lib: $(SHARED)

# Takes what the kit has built in a crate's folder. What is the same stays, and its time says when that was found; whoever uses it
# meanwhile finds the old file or the new one, whole.
take = mkdir -p $(@D) && { cmp -s $(1) $@ || { cp $(1) $@.new && mv $@.new $@; }; } && touch -c $@

# The kit writes the archive anew each time.
$(STATIC): FORCE
	cd crates/strip && $(RT) lib
	$(call take,crates/strip/out/$(@F))

# The archive is position independent and needs nothing but memcpy and memset.
$(SHARED): $(STATIC) crates/strip/exports.map Makefile
	mkdir -p $(@D)
	$(CC) $(CFLAGS) -shared -o $@.new -Wl,-soname,$(@F) -Wl,--version-script=crates/strip/exports.map \
	    -Wl,-z,defs -Wl,-z,now -Wl,--whole-archive $(STATIC) -Wl,--no-whole-archive $(LDFLAGS)
	mv $@.new $@
	ln -sf $(@F) target/lib/libstrip.so

# The kit builds a program and runs it, here on no bytes.
$(PROGRAM): FORCE
	cd crates/$(@F) && $(RT) run </dev/null >/dev/null
	$(call take,crates/$(@F)/out/$(@F))

# The files of a crate and of those that it uses.
crates = $(1) $(shell sed -n 's/^$(1)\( staticlib\)\{0,1\}: *//p' crates.txt)
sources = crates.txt $(wildcard $(foreach crate,$(call crates,$(1)),$(addprefix crates/$(crate)/,src specs proofs)))

# Prints a file's name where one of a crate's files is newer.
stale = find $(call sources,$(1)) -type f -newer $(2) -printf ' $(2)' -quit

# Refuses paths that strip.pc cannot hold.
define check-paths
@for path in "$(BINDIR)" "$(INCLUDEDIR)" "$(LIBDIR)" "$(DOCDIR)"; do case "$$path" in \
    *[[:space:]]*) echo "make $@: '$$path' has a space: compilers cannot take such a path from strip.pc" >&2; exit 1;; \
    /*) ;; \
    *) echo "make $@: '$$path' is no absolute path" >&2; exit 1;; esac; done
endef

# Writes a file to a folder with the paths filled in. CMake goes from that folder to the others, so that all can be moved.
define fill
sed -e 's|@PREFIX@|$(PREFIX)|' -e 's|@INCLUDEDIR@|$(INCLUDEDIR)|' -e 's|@LIBDIR@|$(LIBDIR)|' -e 's|@VERSION@|$(VERSION)|' \
    -e "s|@TO_INCLUDEDIR@|$$(realpath -ms --relative-to="$(2)" "$(INCLUDEDIR)")|" crates/strip/$(1).in > "$(DESTDIR)$(2)/$(1)"
chmod 644 "$(DESTDIR)$(2)/$(1)"
endef

install:
	$(check-paths)
	@for file in $(BUILT); do [ -e "$$file" ] || { echo "make $@: $$file is missing, build it with: make" >&2; exit 1; }; done
	@old=$$($(call stale,strip,$(STATIC)); $(call stale,strip,$(SHARED)); $(call stale,place,$(PROGRAM))); \
	    [ -z "$$old" ] || echo "make $@: older than the sources, installed all the same (build anew with: make):$$old" >&2
	install -d "$(DESTDIR)$(INCLUDEDIR)" "$(DESTDIR)$(LIBDIR)/pkgconfig" "$(DESTDIR)$(CMAKEDIR)" "$(DESTDIR)$(BINDIR)" \
	    "$(DESTDIR)$(DOCDIR)"
	install -m 644 $(HEADER) "$(DESTDIR)$(INCLUDEDIR)"
	install -m 644 $(STATIC) "$(DESTDIR)$(LIBDIR)"
	install -m 755 $(SHARED) "$(DESTDIR)$(LIBDIR)"
	ln -sf $(notdir $(SHARED)) "$(DESTDIR)$(LIBDIR)/libstrip.so"
	$(call fill,strip.pc,$(LIBDIR)/pkgconfig)
	$(call fill,strip-config.cmake,$(CMAKEDIR))
	$(call fill,strip-config-version.cmake,$(CMAKEDIR))
	install -m 755 $(PROGRAM) "$(DESTDIR)$(BINDIR)"
	install -m 644 $(PAGES) "$(DESTDIR)$(DOCDIR)"

# The folders that have the library's name go with their files.
uninstall:
	$(check-paths)
	rm -f "$(DESTDIR)$(INCLUDEDIR)/strip.h" "$(DESTDIR)$(LIBDIR)/libstrip.a" \
	    "$(DESTDIR)$(LIBDIR)/libstrip.so.0" "$(DESTDIR)$(LIBDIR)/libstrip.so" \
	    "$(DESTDIR)$(LIBDIR)/pkgconfig/strip.pc" "$(DESTDIR)$(BINDIR)/place" \
	    "$(DESTDIR)$(CMAKEDIR)/strip-config.cmake" "$(DESTDIR)$(CMAKEDIR)/strip-config-version.cmake" \
	    $(foreach page,$(notdir $(PAGES)),"$(DESTDIR)$(DOCDIR)/$(page)")
	@for folder in "$(DESTDIR)$(CMAKEDIR)" "$(DESTDIR)$(DOCDIR)"; do \
	    [ ! -d "$$folder" ] || rmdir --ignore-fail-on-non-empty "$$folder"; done

# A copy of the crates is proved, so that what is built stays. A must-fail edit of a crate takes at most as long as its check. On a machine
# that has built nothing yet, the time of a crate has in it that of the libraries that it is the first to use.
times:
	@copy=$$(mktemp -d) && tar -cf - --exclude=out crates crates.txt | tar -xf - -C "$$copy"; \
	    for crate in $$(sed -n 's/^\([a-z0-9_]*\)[^:#]*:.*/\1/p' crates.txt); do \
	        begun=$$(date +%s); (cd "$$copy/crates/$$crate" && $(RT) verdict) > "$$copy/log" 2>&1 || { touch "$$copy/failed"; break; }; \
	        echo "$$crate $$(($$(date +%s) - begun)) $$(find "crates/$$crate/must-fail" -name '*.edit' 2>/dev/null | wc -l)"; done | \
	    awk 'BEGIN { format = "%-14s %9s %6s %14s\n"; printf format, "crate", "check", "edits", "check x edits" } \
	        { printf format, $$1, $$2 " s", $$3, $$2 * $$3 " s"; check += $$2; edits += $$3; product += $$2 * $$3 } \
	        END { printf format, "sum", check " s", edits, product " s" }'; \
	    status=0; [ ! -e "$$copy/failed" ] || { status=1; tail -n 5 "$$copy/log" >&2; }; rm -rf "$$copy"; exit $$status

# What the demo and the gate need is tested before any proof, and installed as root on Debian, unless SETUP is no.
check:
	@RT=rt .ci/needs --install check
	rm -rf target
	.ci/run

demo-needs:
	@RT='$(RT)' .ci/needs --install demo

# What there is to type after the demo.
define next
@printf '%s\n' '' 'This is the drawing (layer, position, place), the list that shows its total to be least, and what the checker says.' \
    'Type next:' \
    '    $(PROGRAM) < examples/wall.sheet    draws another sheet: README.md has what the answers mean' \
    '    make install prefix=$$HOME/strip           installs library and program: docs/LIBRARY.md has how to call it' \
    '    make check                                proves everything and runs all tests: half an hour'
endef

demo: demo-needs all
	$(CC) -std=c99 $(CPPFLAGS) $(CFLAGS) -Icrates/strip/include examples/check.c $(STATIC) $(LDFLAGS) -o target/check
	target/check examples/panel.sheet
	$(next)

clean:
	rm -rf target crates/*/out

help:
	@sed -n 's/^#   //p' Makefile

FORCE:

.PHONY: all lib install uninstall times check demo-needs demo clean help FORCE
.DELETE_ON_ERROR:
