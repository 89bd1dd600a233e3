# The library for C, C++ and Rust programs: proved, compiled, tried, installed.
#   make                proves what the archive is compiled from, and leaves archive, shared library, header, pkg-config and CMake
#                       files in build/podrulka
#   make example        builds and runs the C examples and compares what they print
#   make check          the examples, the header as C11 and C++17, NULL with length 0, what the shared library exports, the wrapper's tests
#   make install        installs what make has left: PREFIX=/usr/local DESTDIR=, and LIBDIR, INCLUDEDIR, DOCDIR where they are not below PREFIX as usual
#   make uninstall      removes what make install puts there, with the same variables
#   make check-install  installs to temporary folders, and builds and runs an example through pkg-config and CMake
#   make clean          removes build; crates/*/out, which has the proofs, stays
PREFIX = /usr/local
LIBDIR = $(PREFIX)/lib
INCLUDEDIR = $(PREFIX)/include
DOCDIR = $(PREFIX)/share/doc/podrulka
DESTDIR =
RT ?= rt

VERSION := $(shell sed -n 's/^.define PODRULKA_VERSION "\(.*\)"/\1/p' include/podrulka.h)
MINOR := $(basename $(VERSION))
DIST = build/podrulka
COMPILED = crates/podrulka/out/libpodrulka.a
ARCHIVE = $(DIST)/lib/libpodrulka.a
SHARED = $(DIST)/lib/libpodrulka.so.$(VERSION)
DOCS = $(wildcard README.md LICENSE NOTICE CHANGELOG.md docs/FORMAT.md)
FILES = podrulka.pc podrulka-static.pc podrulkaConfig.cmake podrulkaConfigVersion.cmake

WARN = -Wall -Wextra -Wpedantic -Wconversion -Wsign-conversion -Wshadow -Wundef -Werror
C11 = $(CC) -std=c11 $(WARN) -Wstrict-prototypes -Wmissing-prototypes -O2 -I$(DIST)/include $(CFLAGS)
CXX17 = $(CXX) -std=c++17 $(WARN) -Wold-style-cast -O2 -I$(DIST)/include $(CXXFLAGS)

all: $(ARCHIVE) $(SHARED) $(DIST)/.files

# rt knows which crates have changed, so it is always asked
$(COMPILED): FORCE
	@RT=$(RT) tools/prove

$(ARCHIVE): $(COMPILED) include/podrulka.h
	@mkdir -p $(DIST)/lib $(DIST)/include
	cp $(COMPILED) $(ARCHIVE)
	cp include/podrulka.h $(DIST)/include/

# the archive's code is position independent; -z text refuses it otherwise, and -z defs anything that libc does not have
$(SHARED): $(ARCHIVE) packaging/podrulka.map
	$(CC) -shared -Wl,-soname,libpodrulka.so.$(MINOR) -Wl,--version-script=packaging/podrulka.map -Wl,-z,text -Wl,-z,defs -Wl,-z,relro -Wl,-z,now \
	    -Wl,-z,noexecstack $(LDFLAGS) -Wl,--whole-archive $(ARCHIVE) -Wl,--no-whole-archive -o $@
	ln -sf libpodrulka.so.$(VERSION) $(DIST)/lib/libpodrulka.so.$(MINOR)
	ln -sf libpodrulka.so.$(MINOR) $(DIST)/lib/libpodrulka.so

# from folder 1: the way to folder 2
way = $$(realpath -m --relative-to=$(1) $(2))
# writes the pkg-config and CMake files; 1: prefix, 2: folder of the libraries, 3: of the header, 4: what stands before each
define files
	mkdir -p $(4)$(2)/pkgconfig $(4)$(2)/cmake/podrulka
	for f in $(FILES); do \
	    case $$f in *.pc) to=$(2)/pkgconfig;; *) to=$(2)/cmake/podrulka;; esac; \
	    sed -e "s|@VERSION@|$(VERSION)|g" -e "s|@MINOR@|$(MINOR)|g" -e "s|@PREFIX@|$(call way,$$to,$(1))|" -e "s|@LIBDIR@|$(call way,$$to,$(2))|" \
	        -e "s|@INCLUDEDIR@|$(call way,$$to,$(3))|" packaging/$$f.in > $(4)$$to/$$f && chmod 644 $(4)$$to/$$f || exit 1; \
	done
endef

$(DIST)/.files: $(FILES:%=packaging/%.in) include/podrulka.h Makefile
	@$(call files,$(DIST),$(DIST)/lib,$(DIST)/include,)
	@touch $@

EXAMPLES = show groups
example: all
	@for e in $(EXAMPLES); do \
	    $(C11) examples/$$e.c $(ARCHIVE) -o build/$$e && ./build/$$e > build/$$e.printed && diff build/$$e.printed examples/$$e.out && cat examples/$$e.out || exit 1; \
	done

check: example
	@$(C11) tests/header.c -o build/header && ./build/header
	@echo '#include <podrulka.h>' | $(C11) -x c -c - -o build/header.o && echo "header: C11 without warnings"
	@if command -v $(CXX) > /dev/null; then \
	    $(CXX17) -x c++ tests/header.c -o build/header && ./build/header && \
	    echo '#include <podrulka.h>' | $(CXX17) -x c++ -c - -o build/header.o && echo "header: C++17 without warnings"; \
	else echo "$(CXX) is missing: the header as C++17 was left out"; fi
	@$(C11) tests/null.c $(ARCHIVE) -o build/null && ./build/null
	@$(C11) tests/null.c $(SHARED) -Wl,-rpath,'$$ORIGIN/podrulka/lib' -o build/null && ./build/null > /dev/null
	@tests/exports $(ARCHIVE) $(SHARED) include/podrulka.h
	@if command -v cargo > /dev/null; then cd rust && cargo test --offline --quiet; else echo "cargo is missing: the wrapper's tests in rust/ were left out"; fi

# installs what `make` has left, so that root needs no rt; where nothing is there it is made first
install:
	@[ -f $(ARCHIVE) ] && [ -f $(SHARED) ] || $(MAKE) all
	install -d $(DESTDIR)$(LIBDIR) $(DESTDIR)$(INCLUDEDIR) $(DESTDIR)$(DOCDIR)
	install -m 644 $(ARCHIVE) $(DESTDIR)$(LIBDIR)/
	install -m 755 $(SHARED) $(DESTDIR)$(LIBDIR)/
	ln -sf libpodrulka.so.$(VERSION) $(DESTDIR)$(LIBDIR)/libpodrulka.so.$(MINOR)
	ln -sf libpodrulka.so.$(MINOR) $(DESTDIR)$(LIBDIR)/libpodrulka.so
	install -m 644 include/podrulka.h $(DESTDIR)$(INCLUDEDIR)/
	@$(call files,$(PREFIX),$(LIBDIR),$(INCLUDEDIR),$(DESTDIR))
	install -m 644 $(DOCS) $(DESTDIR)$(DOCDIR)/

uninstall:
	rm -f $(addprefix $(DESTDIR)$(LIBDIR)/,libpodrulka.a libpodrulka.so libpodrulka.so.$(MINOR) libpodrulka.so.$(VERSION)) $(DESTDIR)$(INCLUDEDIR)/podrulka.h
	rm -f $(addprefix $(DESTDIR)$(LIBDIR)/pkgconfig/,$(filter %.pc,$(FILES)))
	rm -f $(addprefix $(DESTDIR)$(LIBDIR)/cmake/podrulka/,$(filter %.cmake,$(FILES))) $(addprefix $(DESTDIR)$(DOCDIR)/,$(notdir $(DOCS)))
	rmdir --ignore-fail-on-non-empty $(DESTDIR)$(LIBDIR)/cmake/podrulka $(DESTDIR)$(DOCDIR)

check-install: all
	@RT=$(RT) CC="$(CC)" tests/install

clean:
	rm -rf build

FORCE:
.PHONY: all example check install uninstall check-install clean FORCE
