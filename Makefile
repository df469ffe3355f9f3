# The commands of the repository; README.md says what they need.
SHELL := /bin/bash
SOURCES := crates.txt $(shell find crates \( -name out -o -name must-fail \) -prune -o -type f -print)
HAS_RT := command -v rt >/dev/null || { echo 'desk: rt is not on PATH; ./try says what to link' >&2; exit 1; }
HAS_DESK := test -x bin/desk || { echo 'desk: there is no bin/desk; make bin/desk proves and builds it' >&2; exit 1; }

PREFIX ?= /usr/local
# What has blocks of commands with what they print.
DOCUMENTS := README.md $(wildcard docs/*.md)

.PHONY: bench check edits first gate growths help hostile install instructions kills planted predicted test trials
.DEFAULT_GOAL := help

# Each target with two # behind it, in the order of this file.
help: ## this list
	@awk -F ':.*## ' '/^[a-z].*:.*## / {gsub(/ /, ", ", $$1); printf "  make %-52s %s\n", $$1, $$2}' Makefile

bin/desk: $(SOURCES) ## proves and builds the program, in most of an hour at the first time
	@$(HAS_RT)
	@echo 'Proving and building the program desk, with the crates below it.'
	python3 -B -m scripts.gate.gate run -- batch
	@mkdir -p bin
	@cp crates/desk_app/out/desk_app $@
	@touch $@
	@echo 'The program is bin/desk.'

first: bin/desk ## a batch by the proved program
	@echo 'Answering examples/first.jsonl over a new desk in memory:'
	@bin/desk batch < examples/first.jsonl

edits: ## whether the edits that the prover must refuse still apply, and documents name what is there
	@echo 'Looking whether each edit that the prover must refuse still applies, and whether documents name what is there.'
	@python3 -B -m scripts.gate.edits check
	@python3 -B -m scripts.gate.crates check
	@python3 -B -m scripts.gate.promises check

test: ## ./test: sets up what is missing, and is the merge gate
	@./test

# The gate leaves the program that it proved, built and ran in crates/desk_app/out. It runs as many checks side by side as there
# are processors, each by one job. The prover's allocator gives back what was freed after a tenth of a second, not after a
# whole one: the largest process, the check of the program, takes up to a quarter of a GB less so.
gate: edits ## the merge gate, where all is set up
	@$(HAS_RT)
	@echo 'Running the merge gate: every proof from nothing, the edits that must fail, every test.'
	@MIMALLOC_PURGE_DELAY=100 RT_JOBS=$${RT_JOBS:-$$(nproc)} python3 -B -m scripts.gate.gate
	@mkdir -p bin
	@cp crates/desk_app/out/desk_app bin/desk
	@$(MAKE) --no-print-directory trials

trials: ## what the gate tries of the program bin/desk
	@set -o pipefail; for calls in examples/*.jsonl; do \
		echo "Comparing the replies to $$calls."; \
		bin/desk batch < $$calls | diff $${calls%.jsonl}.expected - || exit 1; \
	done
	@for calls in examples/ends/*.jsonl; do \
		echo "Comparing what ends the batch $$calls."; \
		bin/desk batch < $$calls > bin/output 2> bin/errors; [ $$? = 1 ] || exit 1; \
		diff $${calls%.jsonl}.expected bin/output && diff $${calls%.jsonl}.errors bin/errors || exit 1; \
	done; rm -f bin/output bin/errors
	@echo 'The replies are the expected ones.'
	@echo 'Trying the program over files: the same batches, whole and cut in two, files of format 1, and what ends a command.'
	@python3 -B -m scripts.files.files bin/desk
	@echo 'Comparing random batches with a model of the specification, 40 of them (make predicted: 100).'
	@python3 -B -m scripts.model.predicted bin/desk --batches 40
	@echo 'Running the commands that documents show, and comparing what they print.'
	@python3 -B -m scripts.gate.readme run bin/desk $(DOCUMENTS)
	@echo 'Trying what is installed: a folder of a name with a space, the manual page, the completion for bash.'
	@python3 -B -m scripts.gate.installs bin/desk
	@echo "Trying the operator's words: reports, whole and stopped after each line, and revocations."
	@python3 -B -m scripts.files.words bin/desk
	@echo 'Stopping the program at each write to a file, also in an upgrade, failing each call to the disk once, also where it serves, and counting syncs.'
	@python3 -B -m scripts.files.stops bin/desk
	@echo 'Serving over loopback: replies byte for byte, requests that are none, connections that fail, what ends the program.'
	@python3 -B -m scripts.serving.serve bin/desk
	@echo 'Asking a desk that is served by the words, whole and broken off, and what is no desk.'
	@python3 -B -m scripts.serving.looks bin/desk
	@echo 'Refusing memory to the program, each ninth growth of a call (make growths: each one).'
	@python3 -B -m scripts.files.growths bin/desk --step 9
	@echo 'Counting the instructions of a call, and comparing them with those that docs/PERFORMANCE.md has (make instructions writes these).'
	@python3 -B bench/instructions.py --against docs/PERFORMANCE.md
	@echo 'Killing the program at random moments while it serves, 20 times (make kills: 200).'
	@python3 -B -m scripts.serving.kills bin/desk --times 20
	@echo 'Watching a desk that serves: each number of its metrics, beside its log, its files and the lists of work.'
	@python3 -B -m scripts.serving.watched bin/desk
	@echo 'Refusing memory to calls of the library, each seventh growth, without proof.'
	@python3 -B -m scripts.gate.library_growths --step 7
	@echo 'Trying a house around the desk, where the packages for it are there.'
	@$(MAKE) --no-print-directory house-test

# What the gate tries, at length.
growths: ## refuses each growth of memory of a call in turn, and fails disks in memory, in a quarter of an hour or more
	@$(HAS_DESK)
	@python3 -B -m scripts.files.growths bin/desk
	@python3 -B -m scripts.gate.library_growths
	@python3 -B -m scripts.gate.library_stops

hostile kills: ## five minutes of hostile requests; 200 kills while the program serves
	@$(HAS_DESK)
	@python3 -B -m scripts.serving.$@ bin/desk

predicted: ## compares 100 random batches with the model
	@$(HAS_DESK)
	@python3 -B -m scripts.model.predicted bin/desk

# The program, its manual page and its completion for bash from its own help, and for systemd its unit, the sockets in front of it with
# their filter, the port of its metrics, and the users.
PLACE = $(DESTDIR)$(PREFIX)
UNITS = $(PLACE)/lib/systemd/system
install: ## the program, its manual page, its completion for bash, its units and users
	@$(HAS_DESK)
	@python3 -B -m scripts.gate.manual page bin/desk > bin/desk.1
	@python3 -B -m scripts.gate.manual completion bin/desk > bin/desk.bash
	@for unit in desk.service desk-filter.service desk-role@.socket desk-metrics.service desk-metrics.socket; do sed 's|@PREFIX@|$(PREFIX)|' packaging/$$unit > bin/$$unit; done
	install -D -m 755 bin/desk "$(PLACE)/bin/desk"
	install -D -m 644 bin/desk.1 "$(PLACE)/share/man/man1/desk.1"
	install -D -m 644 bin/desk.bash "$(PLACE)/share/bash-completion/completions/desk"
	install -D -m 644 packaging/desk.sysusers "$(PLACE)/lib/sysusers.d/desk.conf"
	install -D -m 644 examples/house/filter.py "$(PLACE)/share/desk/house/filter.py"
	install -d "$(UNITS)"
	install -m 644 bin/desk.service bin/desk-filter.service bin/desk-role@.socket bin/desk-metrics.service bin/desk-metrics.socket "$(UNITS)"
	@echo 'Whoever reaches the desk is trusted. The units keep it behind sockets in /run/desk, one a role, each for a group of its own; a port of'
	@echo '`desk serve --port` is open to every user of this machine, and while it is stopped any of them may take it.'

# ---- The house around a desk (docs/HOUSE.md), over Debian's packages and their Python.
HOUSE := /usr/bin/python3 -B -m scripts.house.house
# The program that the house is tried with: the proved one, or that of ./try, which each line then says.
AROUND = $(firstword $(wildcard bin/desk bin/unproved/desk))
HAS_ONE := test -n '$(AROUND)' || { echo 'desk: there is no program; ./try compiles bin/desk-unproved, make bin/desk proves and builds bin/desk' >&2; exit 1; }

.PHONY: house house-clients house-serve house-test install-house try-house unproved-house

try-house: ## ./try: sets up what is missing, compiles the program WITHOUT PROOF, and tries the house
	@./try

# One run at a time compiles the program: who waited for another takes what that one compiled.
unproved-house: ## the same, where all is set up
	@$(HAS_RT)
	@mkdir -p bin
	@exec 9> bin/try.lock; seconds=0; until flock --wait $$((seconds ? 20 : 0)) 9; do \
		echo "Another run compiles the program; this one waits for it, $$seconds s."; seconds=$$((seconds + 20)); done; \
		$(MAKE) --silent bin/desk-unproved 9>&-
	@$(HOUSE) run bin/unproved/desk

bin/desk-unproved: $(SOURCES) ## compiles the program WITHOUT PROOF, in some minutes
	@$(HAS_RT)
	@mkdir -p bin
	@python3 -B -m scripts.gate.unproved

# Everything is on the loopback, in a folder that is removed, and ends by itself; house-serve ends by control C, and takes further words, as
# WORDS='--port 14000 --web 5002 --names 5353'.
house: ## has certbot get a certificate from a house around the desk
	@$(HAS_ONE)
	@$(HOUSE) run $(AROUND)

house-serve: ## a house around the desk until control C
	@$(HAS_ONE)
	@$(HOUSE) serve $(AROUND) $(WORDS)

house-clients: ## has each client that is installed get a certificate
	@$(HAS_ONE)
	@$(HOUSE) clients $(AROUND)

house-test: ## what the gate tries of the house and of the units
	@$(HAS_DESK)
	@! $(HOUSE) packages || for trials in trials attacks firm day random_signatures; do \
		/usr/bin/python3 -B -m scripts.house.$$trials bin/desk || exit 1; \
	done
	@/usr/bin/python3 -B -m scripts.house.units bin/desk
	@! $(HOUSE) packages certbot || /usr/bin/python3 -B -m scripts.house.first_hour bin/desk
	@! $(HOUSE) packages certbot || $(HOUSE) run bin/desk

# Beside the program and its units: the house and the units of its three parts.
install-house: install ## beside the program, the house and its units
	install -d "$(PLACE)/share/desk/house"
	install -m 644 examples/house/*.py "$(PLACE)/share/desk/house"
	install -D -m 644 examples/house/openssl/ca.cnf "$(PLACE)/share/desk/house/openssl/ca.cnf"
	install -m 755 examples/house/openssl/sign examples/house/openssl/revoke "$(PLACE)/share/desk/house/openssl"
	@for part in front validator office; do sed 's|@PREFIX@|$(PREFIX)|' packaging/desk-$$part.service > bin/desk-$$part.service; done
	install -m 644 bin/desk-front.service bin/desk-validator.service bin/desk-office.service "$(UNITS)"

check: ## proves a crate, CRATE=name, or of it ONE=path alone, over the libraries that the gate proved here
	@$(HAS_RT)
	@test -d crates/$(or $(CRATE),none) || { echo 'desk: make check CRATE=name [ONE=path]' >&2; exit 1; }
	@python3 -B -m scripts.gate.warm $(CRATE)
	@cd crates/$(CRATE) && rt check $(if $(ONE),--only $(ONE))

planted: ## tries the planted edits, of one crate by CRATE=name; the prover must refuse each
	@$(HAS_RT)
	@echo 'Trying the planted edits$(if $(CRATE), of $(CRATE)), crates side by side; the prover must refuse each.'
	@python3 -B -m scripts.gate.edits try $(CRATE)

# Proves and builds nothing of the desk: it times the program that is there.
bench: ## times the program, and writes docs/PERFORMANCE.md
	@$(HAS_DESK)
	@echo 'Timing durable calls against C over files of 100 to 100,000 orders (minutes), for docs/PERFORMANCE.md.'
	@python3 bench/bench.py > bin/PERFORMANCE.md
	@echo 'Timing requests over loopback.'
	@python3 bench/loopback.py >> bin/PERFORMANCE.md
	@echo 'Timing what an operator does with finished orders.'
	@python3 bench/finished.py >> bin/PERFORMANCE.md
	@echo 'Timing a file of a million orders.'
	@python3 bench/million.py >> bin/PERFORMANCE.md
	@echo 'Timing the opening of a file of format 1.'
	@python3 bench/upgrade.py >> bin/PERFORMANCE.md
	@echo 'Counting the instructions of a call.'
	@python3 bench/instructions.py --into bin/PERFORMANCE.md
	@mv bin/PERFORMANCE.md docs/PERFORMANCE.md
	@cat docs/PERFORMANCE.md

# Nearly the same figures on any machine, and the same under any load, in some minutes.
instructions: ## counts the instructions of each call for docs/PERFORMANCE.md, in some minutes
	@$(HAS_DESK)
	@echo 'Counting the instructions of a call, of the program and of C, for docs/PERFORMANCE.md.'
	@python3 -B bench/instructions.py --into docs/PERFORMANCE.md
