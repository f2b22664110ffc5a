# make           proves every function and builds flashplay; needs the toolchain
# make check     proves, tests and tries everything; it names what it lacks of Debian's packages, and installs that as root
# make check-quick  tests what needs no proof, in at most a quarter of an hour on four processors; the same for what it lacks
# make install   installs flashplay, the tools, their manual pages and completions, the libraries, a Python wheel and the documents below DESTDIR and PREFIX
# make dist      packs them into out/dist: Debian packages (program and tools, library, headers, Python, nbdkit's plugin, documents) and a tar file
# make docs      writes the pages that are made from the sources, and the two of them that git doesn't keep: docs/CALLS.md and docs/DEFINITIONS.md
# make release   builds all that goes with a tag into out/release, twice with the same bytes; OTHER_DIST names folders of other machines' packages
# make release-check  says what is missing for a release
# make clean     removes out/, with the programs that ./flashplay keeps there
PREFIX ?= /usr/local
DESTDIR ?=
VERSION := $(shell sed -n 's/^## \([0-9][0-9.]*\).*/\1/p' CHANGELOG.md | head -n 1)
LIB := $(DESTDIR)$(PREFIX)/lib/mintlintel
BIN := $(DESTDIR)$(PREFIX)/bin
MAN := $(DESTDIR)$(PREFIX)/share/man/man1
BASH := $(DESTDIR)$(PREFIX)/share/bash-completion/completions
ZSH := $(DESTDIR)$(PREFIX)/share/zsh/site-functions
TOOLS := trace report sweep model simulate crash
DOC := $(DESTDIR)$(PREFIX)/share/doc/mintlintel
DRIVERS := flash.h mtd.c zone.c
PROGRAM := crates/flashplay/out/flashplay
IMAGE_PROGRAM := bindings/out/flashplay-image
CUTS_PROGRAM := crates/cuts/out/cuts
PROGRAMS := $(PROGRAM) $(IMAGE_PROGRAM) $(CUTS_PROGRAM)

all:
	./flashplay --prove
	./flashplay cuts --prove

check:
	@.ci/run

check-quick:
	@tools/check_quick

install: all
	$(MAKE) -C bindings
	install -d $(LIB)/tools/simulation $(BIN) $(MAN) $(BASH) $(ZSH) $(DOC)/docs $(DOC)/bench $(DOC)/examples
	install -m 755 -s $(PROGRAM) $(LIB)/flashplay
	install -m 755 -s $(IMAGE_PROGRAM) $(LIB)/flashplay-image
	install -m 755 -s $(CUTS_PROGRAM) $(LIB)/flashplay-cuts
	install -m 755 $(TOOLS:%=tools/%) tools/cure $(LIB)/tools
	install -m 644 tools/simulation/*.py tools/simulation/*.css $(LIB)/tools/simulation
	install -m 755 tools/flashplay $(BIN)/flashplay
	for tool in $(TOOLS); do ln -sf ../lib/mintlintel/tools/$$tool $(BIN)/flashplay-$$tool; done
	packaging/manual $(PROGRAMS) $(VERSION) > $(MAN)/flashplay.1
	for tool in $(TOOLS); do packaging/tool-manual $$tool $(VERSION) > $(MAN)/flashplay-$$tool.1; done
	packaging/completion bash $(PROGRAMS) > $(BASH)/flashplay
	for tool in $(TOOLS); do ln -sf flashplay $(BASH)/flashplay-$$tool; done
	packaging/completion zsh $(PROGRAMS) > $(ZSH)/_flashplay
	install -m 644 README.md CHANGELOG.md CONTRIBUTING.md $(wildcard LICENSE) $(DOC)
	.ci/definitions --write >/dev/null
	install -m 644 docs/*.md docs/*.svg docs/flash.html docs/flash.png $(DOC)/docs
	install -m 644 bench/*.md $(DOC)/bench
	install -d $(DOC)/examples/parts $(DOC)/examples/mtd $(DOC)/bindings/examples
	install -m 644 examples/*.csv examples/*.args examples/*.out examples/*.fio $(DOC)/examples
	install -m 644 examples/parts/*.toml $(DOC)/examples/parts
	install -m 644 $(DRIVERS:%=examples/mtd/%) $(DOC)/examples/mtd
	install -m 644 bindings/examples/*.c $(DOC)/bindings/examples
	packaging/installed-links $(DOC)
	commit=$$(git describe --always --abbrev=40 --dirty --exclude='*') && version=$$(rt version) && \
	  printf 'commit %s\nproved with %s\n' "$$commit" "$$version" > $(LIB)/BUILT_FROM
	$(MAKE) -C bindings install DESTDIR=$(abspath $(DESTDIR)) PREFIX=$(PREFIX)
	if [ -e bindings/python/packing.py ]; then install -d $(LIB)/python && cd bindings/python && MINTLINTEL_LIB=$(abspath $(DESTDIR))$(PREFIX)/lib \
	  python3 -B -c 'import sys, packing; packing.build_wheel(sys.argv[1])' $(abspath $(DESTDIR))$(PREFIX)/lib/mintlintel/python; fi

dist: all
	packaging/package $(VERSION)

docs:
	.ci/definitions --write
	.ci/gallery --write
	.ci/headers --write

release:
	packaging/make_release

release-check:
	@packaging/release

clean:
	rm -rf out

.PHONY: all check check-quick install dist docs release release-check clean
