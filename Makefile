# Builds and installs the programs, the tools, the manual pages and the documents; README.md and CONTRIBUTING.md tell more.
#   make            proves and builds the two programs (half an hour or more, once; the toolchain's rt must be in the PATH)
#   make install    installs them below PREFIX, in DESTDIR
#   make dist       the sources of this commit, as modeplan-VERSION.tar.gz
#   make deb        the Debian package, in the folder above

PREFIX = /usr/local
DESTDIR =
VERSION = 1.0
# The programs that are installed.
MODEPLAN = crates/planner_cli/out/planner_cli
PLANBOOK = crates/planbook/out/planbook
ZSHDIR = share/zsh/site-functions
TOOLS = answer-many check-certificate grid isochrone make-region picture serve
PARTS = picture_parts region_parts certificate_parts isochrone_parts serve_parts
MODULES = region_reader.py
COMMIT = $(shell git rev-parse HEAD 2>/dev/null || cat COMMIT)
DATE = $(shell git log -1 --format=%cs 2>/dev/null || date +%F)

SHARE = $(DESTDIR)$(PREFIX)/share
.PHONY: all programs manual install dist deb clean

all: programs manual

programs: $(MODEPLAN) $(PLANBOOK)

# A program that says its version has been proved and built: rt run does both before it runs it.
SOURCES = $(shell find crates -name out -prune -o \( -name '*.rt' -o -name '*.antt' \) -print) crates.txt
crates/planner_cli/out/planner_cli crates/planbook/out/planbook: crates/%: $(SOURCES)
	cd crates/$(firstword $(subst /, ,$*)) && rt run -- --version 2>&1 | tee /dev/stderr | grep -qE '^(modeplan|planbook) [0-9]'
	touch $@

manual: build/manual/man1/modeplan.1

build/manual/man1/modeplan.1: $(MODEPLAN) $(PLANBOOK) tools/manual $(wildcard tools/manual_parts/*.py) $(TOOLS:%=tools/%)
	tools/manual $(MODEPLAN) $(PLANBOOK) build/manual --date $(DATE) $(TOOLS:%=--tool tools/%)

install: manual
	install -d $(DESTDIR)$(PREFIX)/bin $(SHARE)/modeplan/tools $(SHARE)/doc/modeplan $(SHARE)/man/man1
	install -m 755 $(MODEPLAN) $(DESTDIR)$(PREFIX)/bin/modeplan
	install -m 755 $(PLANBOOK) $(DESTDIR)$(PREFIX)/bin/planbook
	cd tools && install -m 755 $(TOOLS) $(SHARE)/modeplan/tools
	cd tools && install -m 644 $(MODULES) $(SHARE)/modeplan/tools
	cd tools && for part in $(PARTS); do [ ! -d $$part ] || cp -r $$part $(SHARE)/modeplan/tools; done
	find $(SHARE)/modeplan -name __pycache__ -prune -exec rm -r {} +
	install -D -m 644 crates/geo_length/specs/Widths.antt $(SHARE)/modeplan/crates/geo_length/specs/Widths.antt
	for tool in $(TOOLS); do ln -sf ../share/modeplan/tools/$$tool $(DESTDIR)$(PREFIX)/bin/modeplan-$$tool; done
	install -m 644 build/manual/man1/*.1 $(SHARE)/man/man1
	install -D -m 644 -t $(SHARE)/bash-completion/completions build/manual/bash/*
	install -D -m 644 -t $(DESTDIR)$(PREFIX)/$(ZSHDIR) build/manual/zsh/*
	install -D -m 644 -t $(SHARE)/fish/vendor_completions.d build/manual/fish/*
	install -m 644 README.md CONTRIBUTING.md $(SHARE)/doc/modeplan
	cp -r docs examples $(SHARE)/doc/modeplan
	find $(SHARE)/doc/modeplan -name .gitattributes -delete
	{ echo "commit $(COMMIT)"; rt version 2>/dev/null || sed -n '/^rattle-kit/p' README.md; \
	  cd $(DESTDIR)$(PREFIX)/bin && sha256sum modeplan planbook; } > $(SHARE)/doc/modeplan/build

dist:
	git archive --format=tar --prefix=modeplan-$(VERSION)/ HEAD > modeplan-$(VERSION).tar
	mkdir -p build/dist/modeplan-$(VERSION) && git rev-parse HEAD > build/dist/modeplan-$(VERSION)/COMMIT
	tar --append --owner=0 --group=0 -C build/dist -f modeplan-$(VERSION).tar modeplan-$(VERSION)/COMMIT
	gzip -9nf modeplan-$(VERSION).tar

deb:
	dpkg-buildpackage --build=binary --no-sign

clean:
	rm -rf build
