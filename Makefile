# The door: `make` alone says what there is. What a target does stands in scripts that can be called without make.
#
# SHIPPED is the program that is packed and installed, the proved one if PROGRAM names no other. PROGRAM is the one that is tried: the
# newer of the proved crates/b67/out/b67 and the unproved out/b67.
SHIPPED := $(or $(PROGRAM),crates/b67/out/b67)
ifndef PROGRAM
PROGRAM := $(or $(shell ls -t crates/b67/out/b67 out/b67 2>/dev/null | head -n 1),out/b67)
endif
PREFIX = /usr/local
DECK = decks/sum/stdin
CORE = 4096
ARCHIVE = out/b67-$(shell sed -n 's/^version: //p' CITATION.cff).tar.gz
PARTS = bash tools/before-landing.sh
TESTS = decks rows algol tracer modules scripts
LINTS = python shell manual house signatures premises claims links names made mends

.PHONY: help try build prove gate test page page-test lint fill release install uninstall land

help: ## says what there is
	@sed -n 's/^\([a-z-]*\):.*## \(.*\)/\1|\2/p' Makefile | while IFS='|' read -r name does; do printf '%-10s %s\n' "$$name" "$$does"; done

try: ## runs a deck without proofs: make try DECK=decks/two/stdin CORE=630
	cd crates/b67 && rt try -- run --core $(CORE) --backing b < "$(abspath $(DECK))"

build: ## builds out/b67 without proofs, as fast as the proved program: two minutes
	mkdir -p out && python3 tools/unproved.py out/b67

out/b67:
	$(MAKE) build

prove: ## proves one crate, and the crates below it: make prove CRATE=b67_area
	@[ -n "$(CRATE)" ] && [ -d "crates/$(CRATE)/src" ] || { echo "make prove CRATE=NAME, a folder of crates/" >&2; exit 2; }
	cd "crates/$(CRATE)" && rt check

gate: ## proves all, tries wrong bodies, runs tests and programs: one to two hours
	.ci/run

test: $(PROGRAM) ## decks, rows, ALGOL, the tracer, the page's modules, and each script called carelessly
	$(PARTS) $(TESTS:%=--only %) "$(PROGRAM)"

page: ## joins web/src into web/b67.html; MODULE=new makes the machine in it too, of the proved crates
	$(if $(filter new,$(MODULE)),cd crates/b67_web && rt lib && sh ../../tools/web.sh,python3 web/build/join.py web/b67.html web/b67.html)

page-test: $(PROGRAM) ## compares the page with the program, in node and in Chromium
	$(PARTS) --only page --only browser "$(PROGRAM)"

lint: ## pyflakes3, shellcheck, mandoc; names, links, signatures, bounds; what is made and is old
	$(PARTS) $(LINTS:%=--only %)

fill: ## makes what is made: lists of operators, exact cores, the table of crates, PROVED, PAPER, the premises, the statement, the page
	python3 tools/tables.py
	python3 tools/cores.py
	python3 tools/heads.py
	python3 tools/premises.py --fill
	python3 tools/refill.py
	python3 tools/statement.py
	python3 web/build/join.py web/b67.html web/b67.html

release: ## packs what a class needs: make release ARCHIVE=FILE.tar.gz
	mkdir -p "$(dir $(ARCHIVE))"
	bash tools/release.sh "$(SHIPPED)" "$(ARCHIVE)"

install: ## installs the program, its pages and its scripts: make install PREFIX=$HOME/.local
	DESTDIR="$(DESTDIR)" sh tools/install.sh "$(SHIPPED)" "$(PREFIX)"

uninstall: ## removes what make install put below PREFIX
	DESTDIR="$(DESTDIR)" sh tools/install.sh --remove "$(PREFIX)"

land: lint ## all that is wanted before a change goes in: the gate, and an hour more
	$(PARTS) --only gate
	$(PARTS) --skip gate $(LINTS:%=--skip %) "$(SHIPPED)"
