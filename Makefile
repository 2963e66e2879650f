# What a user calls; `make help` lists it. The proving and building is done by `rt`, the command of the Rattle kit.

PREFIX ?= /usr/local
export PREFIX DESTDIR

PROGRAMS = fwknopd fwknop fko

# the manual pages, each in the folder of its section
MANUAL = $(wildcard docs/man/*.[158])

# what is installed, as it will stand under PREFIX
TREE = $(CURDIR)/bin/tree
export TREE

# how the tarballs of `make dist` are called; CHANGES.md says what each version brought
VERSION := $(shell sed -n 's/^## \([0-9.]*\).*/\1/p' CHANGES.md | head -n 1)
NAME = viltsoem-$(VERSION)

SOURCES := crates.txt HANDLES $(shell find crates -name out -prune -o -type f \( -name '*.rt' -o -name '*.antt' \) -print)

.PHONY: all demo test check bench install uninstall dist help is_prefix tree

all: $(PROGRAMS:%=bin/%) ## proves and builds the programs, and leaves them in bin/

# `rt run` proves the crate and all below it, builds the program and runs it: those that are installed print their version.
bin/%: $(SOURCES)
	@mkdir -p bin
	@echo "proving and building $* (some minutes where nothing was built; what rt says goes to bin/$*.log)" >&2
	@cd crates/$* && rt run -- $(if $(filter $*,$(PROGRAMS)),--version,$$(cat args)) </dev/null >../../bin/$*.log 2>&1 || { tail -n 40 ../../bin/$*.log >&2; exit 1; }
	@cp crates/$*/out/$* bin/$*.new
	@mv bin/$*.new bin/$*

demo: ## shows the sample trial, and a daemon on the loopback: one packet, and a kill with a door open
	@built=$$(tests/lib/program fwknopd) && [ -z "$$(find $(SOURCES) -newer "$$built" -print -quit)" ] \
	&& { echo "make demo: with the proved program $$built" >&2; exec examples/demo; }; \
	[ -n "$$built" ] || echo "make demo: no proved program is built" >&2; \
	tests/lib/unproved fwknopd fwknop && echo "make demo: with an UNPROVED build" >&2 && PROGRAMS_FOLDER=$(CURDIR)/bin/unproved examples/demo

# Each program is built once, for its stored run and for all scripts. Where one step fails the others are made all the same.
test: ## runs the stored runs, the tests of crates and the scripts of tests/ from unproved builds, and proves nothing
	@failed=0; for step in unproved stored-runs try-crates scripts; do \
		echo "tests/lib/$$step"; PROGRAMS_FOLDER=$(CURDIR)/bin/unproved tests/lib/$$step || failed=1; \
	done; exit $$failed

check: ## runs the gate: proofs, tests, planted bugs, programs and the scripts of tests/
	.ci/run

bench: bin/fwknopd bin/fko bin/fk_speed ## measures the built programs; bench/README.md says how to read the tables
	bench/primitives
	bench/packets
	bench/closes
	bench/trial
	bench/large
	bench/admission
	bench/serve

install: is_prefix tree ## copies programs, manual pages and completion to PREFIX, where that is a folder (/usr/local if none is given)
	@contrib/install.sh "$$PREFIX"

uninstall: ## removes from PREFIX what was installed there
	@contrib/install.sh --uninstall "$$PREFIX"

# A wrong PREFIX is refused before anything is built or copied.
is_prefix:
	@contrib/install.sh --check "$$PREFIX"

tree: all
	@rm -rf bin/tree
	@mkdir -p bin/tree/bin bin/tree/share/fwknopd bin/tree/share/bash-completion/completions
	@cp $(PROGRAMS:%=bin/%) contrib/open-doors bin/tree/bin
	@for it in $(MANUAL); do to=bin/tree/share/man/man$${it##*.}; mkdir -p "$$to" && cp "$$it" "$$to" || exit 1; done
	@for it in $(PROGRAMS); do cp contrib/completion.bash bin/tree/share/bash-completion/completions/$$it || exit 1; done
	@cp examples/door-nft examples/door-iptables examples/access.conf examples/fwknopd.conf examples/fwknoprc bin/tree/share/fwknopd
	@cp contrib/fwknopd.service bin/tree/share/fwknopd

dist: tree ## makes two tarballs in bin/: the sources of the last commit, and the programs with an install.sh that needs no kit
	@rm -rf bin/dist && mkdir -p bin/dist/$(NAME)-x86_64-linux
	@git archive --format=tar.gz --prefix=$(NAME)/ -o bin/$(NAME).tar.gz HEAD
	@cp -R bin/tree/bin bin/tree/share contrib/install.sh README.md CHANGES.md docs bin/dist/$(NAME)-x86_64-linux
	@tar -C bin/dist -czf bin/$(NAME)-x86_64-linux.tar.gz --owner=0 --group=0 --sort=name $(NAME)-x86_64-linux
	@rm -rf bin/dist
	@echo "made bin/$(NAME).tar.gz and bin/$(NAME)-x86_64-linux.tar.gz"

help: ## lists these targets
	@awk -F ':.*## ' '/^[a-z]+:.*## / { printf "make %-10s %s\n", $$1 == "all" ? "" : $$1, $$2 }' Makefile
