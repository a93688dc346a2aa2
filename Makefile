# Proves and builds the program, installs it, makes packages of it, and tries the edits that have to be refused.
#
#   make         proves every crate and builds the program; interrupted, it goes on from there
#   make static  out/static/ninecheck, the same program linked statically, which is what is installed and packed: it needs gcc
#   make install [PREFIX=/usr/local] [DESTDIR=]    make uninstall, with the same
#   make deb     out/ninecheck_VERSION_amd64.deb
#   make dist    out/ninecheck-VERSION-linux-x86_64.tar.gz and its sum, with the page for a browser where that was made
#   make web     out/ninecheck-VERSION.html, the program for a browser in one file. It needs wasm-opt of Debian's binaryen, node and python3
#   make tools   installs the packages of Debian that the tests and `make web` need (tests/packages.txt), as root or by sudo
#   make check   runs every test, and proves nothing: on the built program, or where none is built on one that is compiled for a trial
#                (make/keep.sh)
#   make audit   tries every edit of must-fail/ and audit/, which takes about an hour on four cores
#
# Only `make` and `make audit` prove, but for the one crate of the program, of which `make web` makes the module anew: all else takes what
# `make` or `.ci/run` built.

PREFIX ?= /usr/local
DESTDIR ?=
VERSION = $(shell make/version.sh)
PROGRAM := crates/ninecheck/out/ninecheck
STATIC := out/static/ninecheck
# The program that is installed and packed.
INSTALLED ?= $(STATIC)
PACKAGE = ninecheck-$(VERSION)-linux-x86_64

# The folder that the man page's examples name.
PAGE_PREFIX ?= $(PREFIX)
# Where zsh looks below share/zsh: what Debian's own packages bring has a folder of its own there.
ZSH_FOLDER ?= site-functions

# Each path stands in quotes wherever it is used, since a root may have a blank.
to := $(DESTDIR)$(PREFIX)
page := $(to)/share/man/man1/ninecheck.1
for_bash := $(to)/share/bash-completion/completions/ninecheck
for_zsh := $(to)/share/zsh/$(ZSH_FOLDER)/_ninecheck
for_fish := $(to)/share/fish/vendor_completions.d/ninecheck.fish

.PHONY: program built static install uninstall deb dist web tools check audit

program:
	@make/prove.sh

built:
	@test -x $(PROGRAM) || { echo "nothing is built yet: run make first, it proves and builds the program" >&2; exit 1; }

static: built
	@test "$(INSTALLED)" != $(STATIC) || make/static.sh

install: static
	install -D -m 755 ninecheck "$(to)/bin/ninecheck"
	install -D -m 755 "$(INSTALLED)" "$(to)/lib/ninecheck/ninecheck"
	install -D -m 644 -t "$(to)/share/ninecheck/decks" decks/*.toml
	install -D -m 644 -t "$(to)/share/ninecheck/examples" examples/*.csv examples/*.toml examples/ANSWERS
	install -D -m 644 -t "$(to)/share/ninecheck/examples/exports" examples/exports/*
	install -D -m 644 -t "$(to)/share/ninecheck/examples/views" examples/views/*
	install -D -m 644 README.md "$(to)/share/doc/ninecheck/README.md"
	make/readme.sh > "$(to)/share/doc/ninecheck/README.md"
	install -D -m 644 -t "$(to)/share/doc/ninecheck/docs" docs/*.md
	sed -i -E 's,\[([^]]+)\]\(\.\./(CONTRIBUTING|tests/|crates/|audit/)[^)]*\),\1,g' "$(to)/share/doc/ninecheck/docs/"*.md
	install -D -m 644 -t "$(to)/share/doc/ninecheck/docs/pictures" docs/pictures/*
	install -D -m 644 package/ninecheck.1 "$(page)"
	sed -i 's/@VERSION@/$(VERSION)/; s|/usr/local/|$(PAGE_PREFIX)/|' "$(page)"
	install -D -m 644 package/ninecheck.bash "$(for_bash)"
	install -D -m 644 package/ninecheck.zsh "$(for_zsh)"
	install -D -m 644 package/ninecheck.fish "$(for_fish)"

uninstall:
	rm -f "$(to)/bin/ninecheck" "$(page)" "$(for_bash)" "$(for_zsh)" "$(for_fish)"
	rm -rf "$(to)/lib/ninecheck" "$(to)/share/ninecheck" "$(to)/share/doc/ninecheck"

deb: static
	rm -rf out/deb
	$(MAKE) --no-print-directory install DESTDIR=out/deb PREFIX=/usr ZSH_FOLDER=vendor-completions
	make/deb.sh out/deb

dist: static
	rm -rf out/dist
	$(MAKE) --no-print-directory install DESTDIR= PREFIX=out/dist/$(PACKAGE) PAGE_PREFIX=/usr/local
	make/dist.sh out/dist/$(PACKAGE)

web:
	@web/build.sh

tools:
	@make/tools.sh

check:
	@make/check.sh

audit:
	@make/audit.sh
