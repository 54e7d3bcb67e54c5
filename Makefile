# Needs the command rt, which proves and builds, on the PATH: `make doctor` tells what else.
programs := issuer issuer_gateway issuer_follow issuer_archive
# Where rt leaves a program.
proved = $(if $(filter issuer,$1),crates/iss_cli/out/iss_cli,crates/$1/out/$1)
program := $(call proved,issuer)
first := crates/iss_cli/stdin
sources := crates.txt HANDLES \
    $(shell find crates -name out -prune -o \( -name '*.rt' -o -name '*.antt' \) -print)

.DEFAULT_GOAL := issuer
.SECONDEXPANSION:
.PHONY: help run test gate issuer gateway follow archive all crate check try checks mutants bench twins map doctor

help: ## lists these targets
	@awk -F ':.*## ' '/^[a-z]+:.*## / { printf "make %-8s %s\n", $$1, $$2 }' Makefile

run: ## shows the replies to the first example: at once if the proved program is up to date, else, in minutes, by a build that is not proved
	@if $(MAKE) -qs $(program); then \
	    echo 'This is the proved program.' && $(program) dry <$(first); \
	else \
	    echo 'This build takes some minutes, and is not proved: `make issuer` proves the program, and leaves it at build/issuer.' && \
	    cd crates/iss_cli && rt try -- dry <../../$(first); \
	fi

test: ## tests, the first example, and checks of sources, documents and examples, side by side; it proves nothing
	@.ci/test

gate: ## all that a change has to pass: each proof, wrong body and test, and each check, also of the proved program
	@.ci/run

issuer: build/issuer ## proves the program with all that it stands on, and leaves it at build/issuer

gateway: build/issuer_gateway ## proves the reference gateway likewise, and leaves it at build/issuer_gateway

follow: build/issuer_follow ## proves the program of a second device likewise, and leaves it at build/issuer_follow

archive: build/issuer_archive ## proves the program of the archive likewise, and leaves it at build/issuer_archive

all: issuer gateway follow archive ## proves all four programs, and leaves them in build/

$(programs:%=build/%): build/%: $$(call proved,$$*)
	install -D -m 755 $< $@

# rt leaves a program only if all is proved, so one that is newer than each source needs no second proof. Without words each of them
# tells how it is called, with status 2.
$(foreach it,$(programs),$(call proved,$(it))): $(sources)
	cd $(dir $(@D)) && rm -f out/$(@F) && { rt run </dev/null || [ -x out/$(@F) ]; }
	touch $@

crate:
	@[ -d 'crates/$(CRATE)/src' ] || { echo 'Name a crate, as in CRATE=iss_card.' >&2; exit 1; }

check: crate ## proves one crate, as in make check CRATE=iss_card
	cd crates/$(CRATE) && rt check

try: crate ## runs one crate's tests without proving them, as in make try CRATE=iss_words_tests
	cd crates/$(CRATE) && rt try --test

checks: ## lists the checks of the gate, and what each of them asks
	@awk 'FNR == 1 { name = FILENAME; sub(/.*\//, "", name); head = 1; next } head && /^# / { print name ":" substr($$0, 2); name = "   "; next } { head = 0 }' .ci/checks/*

mutants: ## tries all wrong bodies in a copy, and lists those that were not refused; make mutants CRATE=iss_card tries one crate's
	@.ci/mutants.py try $(CRATE)

bench: issuer archive ## lines per second, memory, cache misses, and openings; replies and served calls per second on a device, beside a loop in C; its writes and syncs, beside those of its records; calls of the system; hostile use; want of memory; costs of long input; postings archived
	bash bench/dry.sh
	bash bench/cache.sh
	bash bench/opening.sh
	bash bench/replay.sh
	bash bench/writes.sh
	bash bench/serve.sh
	bash bench/calls.sh
	bash bench/hostile.sh
	bash bench/memory.sh
	bash bench/costs.sh
	bash bench/archive.sh

# The book and the table are made anew each time.
.PHONY: book clauses
book: ## all definitions that a clause of the top call cites, as a page in build/book: make book CLAUSE=serve
	@python3 .ci/book.py $(CLAUSE)

clauses: ## a line for each public call and what it promises, from the sources, in build/clauses.md
	@mkdir -p build && python3 .ci/clauses.py >build/clauses.md && echo build/clauses.md

.PHONY: prose
prose: ## counts sentences over 25 words in docs/, page by page; make prose PAGE=docs/LINES.md lists those of one page
	@python3 .ci/prose.py $(if $(PAGE),-v $(PAGE))

.PHONY: api
api: ## writes the contracts for machines, api/openapi.json and api/line.schema.json, from docs/LINES.md and api/definitions.py
	@python3 api/generate.py

twins: ## lists what stands twice in code, definitions and proofs
	@bash .ci/twins.sh

map: ## writes the picture and the tables of crates in docs/ARCHITECTURE.md from crates.txt and the crates' heads
	@mkdir -p build
	@python3 -B .ci/map.py >build/map
	@cp build/map docs/ARCHITECTURE.md

doctor: ## tells whether this machine has what the other targets need
	@bash .ci/doctor.sh
