# make            proves the library and builds it and the command
# make install    puts both in place, with header, pkg-config file, man page and completions: PREFIX, DESTDIR
# make uninstall  takes them away
# make check      the gate
PREFIX ?= /usr/local
BINDIR ?= $(PREFIX)/bin
LIBDIR ?= $(PREFIX)/lib
INCLUDEDIR ?= $(PREFIX)/include
DATADIR ?= $(PREFIX)/share
INSTALL ?= install

VERSION := $(shell sed -n '/^\[workspace\.package\]/,/^$$/s/^version = "\(.*\)"$$/\1/p' Cargo.toml)
SONAME := libkohlenfloh.so.$(basename $(VERSION))
LIBRARY := target/library
COMMAND := target/release/kohlenfloh
SOURCES := crates.txt Cargo.toml $(addprefix tools/,library below) \
    $(shell find crates -type f -not -path "*/out/*")

# What made the library, by name.
made = $(shell sed -n 's/^$(1): //p' $(LIBRARY)/libkohlenfloh.made)

bin := $(DESTDIR)$(BINDIR)
lib := $(DESTDIR)$(LIBDIR)
include := $(DESTDIR)$(INCLUDEDIR)
man := $(DESTDIR)$(DATADIR)/man/man1
completions := $(DESTDIR)$(DATADIR)/bash-completion/completions

.PHONY: all library command install uninstall check
all: library command
library: $(LIBRARY)/libkohlenfloh.a

$(LIBRARY)/libkohlenfloh.a: $(SOURCES)
	tools/library --here $(LIBRARY)

# Cargo knows what has changed.
command: library
	KOHLENFLOH_ARCHIVE=$(CURDIR)/$(LIBRARY) cargo build --release --locked --offline --target-dir target

install: all
	$(INSTALL) -d "$(bin)" "$(lib)/pkgconfig" "$(include)" "$(man)" "$(completions)"
	$(INSTALL) -m 755 $(COMMAND) "$(bin)/kohlenfloh"
	$(INSTALL) -m 644 include/kohlenfloh.h "$(include)/kohlenfloh.h"
	$(INSTALL) -m 644 $(LIBRARY)/libkohlenfloh.a $(LIBRARY)/libkohlenfloh.made "$(lib)"
	$(INSTALL) -m 755 $(LIBRARY)/libkohlenfloh.so "$(lib)/libkohlenfloh.so.$(VERSION)"
	ln -sf libkohlenfloh.so.$(VERSION) "$(lib)/$(SONAME)"
	ln -sf $(SONAME) "$(lib)/libkohlenfloh.so"
	sed -e 's|@PREFIX@|$(PREFIX)|; s|@LIBDIR@|$(LIBDIR)|; s|@INCLUDEDIR@|$(INCLUDEDIR)|; s|@VERSION@|$(VERSION)|' \
	    -e 's|@TOOLCHAIN@|$(call made,toolchain)|; s|@PROOF@|$(call made,proof)|; s|@SOURCES@|$(call made,sources)|' \
	    packaging/kohlenfloh.pc.in > "$(lib)/pkgconfig/kohlenfloh.pc"
	$(INSTALL) -m 644 packaging/kohlenfloh.1 "$(man)/kohlenfloh.1"
	$(INSTALL) -m 644 packaging/kohlenfloh.bash "$(completions)/kohlenfloh"

uninstall:
	rm -f "$(bin)/kohlenfloh" "$(include)/kohlenfloh.h" "$(lib)/pkgconfig/kohlenfloh.pc" "$(man)/kohlenfloh.1" \
	    "$(completions)/kohlenfloh" "$(lib)"/libkohlenfloh.a "$(lib)"/libkohlenfloh.made "$(lib)"/libkohlenfloh.so*

check:
	.ci/run
