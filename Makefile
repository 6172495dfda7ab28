# make lib: libpocket.a, libpocket.so and pocket.pc, in the folder build. It takes the proved library crates/pocket_c/out/libpocket_c.a,
#   which the toolchain's `rt lib` makes in crates/pocket_c, and the toolchain's heap, c/liblibc_c.a in the folder KIT.
# make lib TARGET=aarch64-linux-gnu, or riscv64-linux-gnu: the library for another processor (library/targets.mk).
# make install: the header, the libraries, the Python module, and the program with its manual page and completions if
#   crates/pocket/out/pocket is there, below PREFIX=/usr/local; make install-program: the program alone.
# make tools: what needs no toolchain, below PREFIX: the program of dist/pocket-program.c, by CC, its manual page and completions, the Python
#   module with its tools, and the pictures (share/pocket/pictures).
# make uninstall: removes what make install and make tools placed.
# make deb: Debian packages, in the folder build: pocket, libpocket1, libpocket-dev, python3-pocket.
# make unproved: the program in a minute, build/unproved/pocket, without a proof; it says so on --version.
# make page: the operator's page, page/pocket.html, one file that a browser opens from disk. It takes the toolchain, the gate's libraries
#   (crates/*/out/rlib) and Debian's binaryen and esbuild.
# make dist: the files for those who have no toolchain, in the folder DIST: pocket.c and pocket.h (the calls of a sender and a receiver, for
#   any processor), pocket-program.c (the program), pocket.html (the page). It takes what `make page` takes, Debian's wabt, and
#   the gate's program, which tells its helps.
# make quick: lays out and checks the crates that were changed since BASE=origin/main, and tries the linters and the documents; make hook: has
#   git do so before each push.
# make check: tests/ over the proved program and library (CONTRIBUTING.md). make clean: removes what was built.
PREFIX = /usr/local
LIBDIR = $(PREFIX)/lib
ZSHDIR = $(PREFIX)/share/zsh/site-functions
DESTDIR =
BUILD = build
KIT = $(shell dirname "$$(dirname "$$(readlink -f "$$(command -v rt)")")")
PROVED = crates/pocket_c/out/libpocket_c.a
PROGRAM = crates/pocket/out/pocket
HEAP = $(KIT)/c/liblibc_c.a
VERSION = $(shell sed -n 's/^const VERSION: &str = "pocket \(.*\)";/\1/p' crates/pocket/src/main.rt)
SHARED = libpocket.so.$(VERSION)
CHECKED = $(BUILD)/checked.o $(BUILD)/checked_desk.o
STRICT = -std=c99 -Wall -Wextra -pedantic -O2 -fPIC -ffunction-sections -fstack-protector-strong -D_FORTIFY_SOURCE=2
# Where the system's Python looks for modules: Debian's has folders of its own.
PYTHON = $(firstword $(wildcard /usr/bin/python3) python3)
MODULES = $(or $(shell $(PYTHON) library/python/place.py $(PREFIX)),$(error $(PYTHON) tells no folder for modules below PREFIX=$(PREFIX)))
PLACE = $(DESTDIR)$(PREFIX)
LIBRARIES = $(DESTDIR)$(LIBDIR)

help:
	@sed -n '/^#/!q; s/^# \{0,1\}//p' Makefile

ifdef TARGET
include library/targets.mk
else
lib: $(BUILD)/libpocket.a $(BUILD)/libpocket.so $(BUILD)/pocket.pc
endif

$(PROVED):
	@command -v rt > /dev/null || { echo "make lib needs the toolchain's rt on the path, or $(PROVED)"; exit 1; }
	cd crates/pocket_c && rt lib

$(HEAP):
	@echo "make lib needs the toolchain's heap: $(HEAP) is not there; put rt on the path, or name its folder by KIT="; exit 1

$(BUILD)/%.o: library/%.c library/pocket.h
	mkdir -p $(BUILD) && $(CC) $(STRICT) $(CFLAGS) -c -o $@ $<

$(BUILD)/libpocket.a: $(PROVED) $(HEAP) $(CHECKED)
	rm -f $@ && cp $(PROVED) $@
	cd $(BUILD) && ar x $(HEAP) heap.pic.o && ar rs libpocket.a heap.pic.o $(notdir $(CHECKED)) && rm heap.pic.o

$(BUILD)/libpocket.so: $(BUILD)/libpocket.a library/pocket.map
	$(CC) -shared -Wl,-soname,libpocket.so.1 -Wl,--version-script,library/pocket.map -Wl,-z,relro,-z,now $(LDFLAGS) -o $(BUILD)/$(SHARED) -Wl,--whole-archive $< -Wl,--no-whole-archive
	ln -sf $(SHARED) $(BUILD)/libpocket.so.1 && ln -sf libpocket.so.1 $@

# (made anew each time: PREFIX may be another one)
$(BUILD)/pocket.pc: library/pocket.pc.in always
	mkdir -p $(BUILD) && sed 's|@PREFIX@|$(PREFIX)|; s|@LIBDIR@|$(LIBDIR)|; s|@VERSION@|$(VERSION)|' $< > $@

install: lib
	install -D -m 644 library/pocket.h $(PLACE)/include/pocket.h
	install -D -m 644 $(BUILD)/libpocket.a $(LIBRARIES)/libpocket.a
	install -D -m 644 $(BUILD)/$(SHARED) $(LIBRARIES)/$(SHARED)
	ln -sf $(SHARED) $(LIBRARIES)/libpocket.so.1 && ln -sf libpocket.so.1 $(LIBRARIES)/libpocket.so
	install -D -m 644 $(BUILD)/pocket.pc $(LIBRARIES)/pkgconfig/pocket.pc
	$(MAKE) --no-print-directory install-module
	if [ -f $(PROGRAM) ]; then $(MAKE) --no-print-directory install-program; fi
	if [ -z "$(DESTDIR)" ] && [ "$$(id -u)" = 0 ]; then ldconfig; fi

install-module:
	install -D -m 644 -t $(DESTDIR)$(MODULES)/pocket library/python/pocket/*.py library/python/pocket/py.typed

$(BUILD)/pocket: dist/pocket-program.c
	mkdir -p $(BUILD) && $(CC) -O2 $(CFLAGS) $(LDFLAGS) -o $@ $<

tools: $(BUILD)/pocket
	$(MAKE) --no-print-directory install-program install-module PROGRAM=$<
	install -D -m 644 -t $(PLACE)/share/pocket/pictures pictures/*.py
	@python3 -c 'import sys; sys.exit("$(MODULES)" not in sys.path)' || echo "python3 -m pocket takes PYTHONPATH=$(MODULES)"

install-program:
	install -D -m 755 $(PROGRAM) $(PLACE)/bin/pocket
	install -D -m 644 docs/pocket.1 $(PLACE)/share/man/man1/pocket.1
	install -D -m 644 completions/pocket.bash $(PLACE)/share/bash-completion/completions/pocket
	install -D -m 644 completions/_pocket $(DESTDIR)$(ZSHDIR)/_pocket

uninstall:
	rm -f $(PLACE)/include/pocket.h $(LIBRARIES)/libpocket.a $(LIBRARIES)/libpocket.so $(LIBRARIES)/libpocket.so.1 $(LIBRARIES)/$(SHARED) \
	    $(LIBRARIES)/pkgconfig/pocket.pc $(PLACE)/bin/pocket $(PLACE)/share/man/man1/pocket.1 $(PLACE)/share/bash-completion/completions/pocket \
	    $(DESTDIR)$(ZSHDIR)/_pocket
	rm -rf $(DESTDIR)$(MODULES)/pocket $(PLACE)/share/pocket
	if [ -z "$(DESTDIR)" ] && [ "$$(id -u)" = 0 ]; then ldconfig; fi

deb:
	packaging/deb.sh $(PROGRAM) $(BUILD)

unproved:
	python3 library/unproved.py $(BUILD)/unproved

# The library's module is kept as the library is built (library/retarget.py), and turned (library/module.py).
MODULE = crates/pocket_c/out/module.bc
$(MODULE): $(wildcard crates/*/src/*.rt crates/*/src/*/*.rt) crates.txt library/retarget.py
	python3 library/retarget.py x86_64-linux-gnu $(@D)

page/out/pocket.wasm: $(MODULE) library/module.py library/retarget.py
	python3 library/module.py $< $@

page/pocket.html: page/out/pocket.wasm page/make.py page/page.html page/style.css $(wildcard page/*/*.js crates/pocket/data/*.csv)
	python3 page/make.py $<

page: page/pocket.html

DIST = dist
dist: $(MODULE) page/pocket.html
	python3 library/one_file/make.py $(MODULE) $(DIST)
	cp page/pocket.html $(DIST)/pocket.html

BASE = origin/main
CHANGED = $(sort $(shell { git diff --name-only "$$(git merge-base HEAD $(BASE))" -- crates; git ls-files -o --exclude-standard crates; } | cut -d/ -f2))
quick:
	for crate in $(CHANGED); do (cd crates/$$crate && rt fmt && rt check) || exit 1; done
	cd tests && $(PYTHON) -m unittest test_lint test_documents

hook:
	printf '#!/bin/sh\nexec make -s quick\n' > "$$(git rev-parse --git-path hooks)/pre-push"
	chmod +x "$$(git rev-parse --git-path hooks)/pre-push"

check test: lib
	PROGRAM=$(PROGRAM) PROVED=$(PROVED) $(PYTHON) -m unittest discover tests

clean:
	rm -rf $(BUILD) page/out page/pocket.html

.PHONY: help always lib install install-module install-program tools uninstall deb unproved page dist quick hook check test clean
