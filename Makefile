.PHONY: list try demo page page-unproved check-page check-paper check test check-house check-bench wrong-bodies laws bench country crash-trial hostile urna urna_ledger programs dist install

TRIALS = 25
MINUTES = 10
MUNICIPALITIES = 200
PREFIX = /usr/local
URNA = $(CURDIR)/crates/urna_app/out/urna_app
LEDGER = $(CURDIR)/crates/ledger_app/out/ledger_app

# The minutes are those of four shared processors, with no proof made before (bench/COST.md). Where nothing has changed it takes seconds.
list:
	@echo "make try           an example day and a known election, unproved: minutes"
	@echo "make demo          both programs proved, each example on real files: 42 minutes"
	@echo "make page          urna proved, with a page for this browser, at PORT if given"
	@echo "make page-unproved the same over urna compiled without a proof: two minutes"
	@echo "make check-page    that page tried in Chromium, pictures in out/page: minutes"
	@echo "make check-paper   papers, codes and signatures, without a browser: a minute"
	@echo "make urna          urna proved and built, with a record of the build"
	@echo "make urna_ledger   the counting centre's program, in the same way"
	@echo "make programs      both programs, in the same way"
	@echo "make dist          out/urna.tar.gz: the built programs and their documents"
	@echo "make install       the same under PREFIX (/usr/local), with manual pages"
	@echo "make check         formats and proves changed crates, then check-house"
	@echo "make check-house   what no proof finds in documents and sources: a minute"
	@echo "make test          the gate: every proof, edit, test and program: 82 minutes"
	@echo "make wrong-bodies  plays every wrong body in trials/: each must be refused"
	@echo "make laws          proves the laws of calls"
	@echo "make check-bench   the benchmarks compiled and run: a minute"
	@echo "make bench         times beside those of plainer programs, after a demo"
	@echo "make country       MUNICIPALITIES elections drawn by SEED and totalled"
	@echo "make crash-trial   TRIALS killed sessions and ledgers, drawn by SEED"
	@echo "make hostile       faults, power cuts and changed inputs for MINUTES, by SEED"

try:
	@examples/try

demo: programs
	@examples/run "$(URNA)" "$(LEDGER)" "$(CURDIR)/out/demo"

# The page is served until it is ended.
page:
	@page/start $(PORT)

page-unproved:
	@page/start --unproved $(PORT)

check-page:
	@page/check
	@$(MAKE) --silent urna
	page/check "$(URNA)"

# With the program that is built, or else with one that is compiled without a proof.
check-paper:
	@trials/papers $(wildcard $(URNA))

test:
	.ci/run

check:
	@tools/check

check-house:
	@tools/check-house

# Each wrong body that the gate leaves out, refused.
wrong-bodies:
	@tools/wrong-bodies

# The laws of calls, which no program stands on.
laws:
	@rt ci call_laws

# The benchmarks' program is compiled and runs.
check-bench:
	@bench/smallest

bench: programs
	bench/run

country:
	@examples/country
	@$(MAKE) --silent urna
	examples/country "$(URNA)" $(MUNICIPALITIES) $(SEED)

crash-trial: programs
	trials/crash-trial "$(URNA)" "$(LEDGER)" $(TRIALS) $(SEED)

hostile: programs
	trials/hostile "$(URNA)" "$(LEDGER)" $(MINUTES) $(SEED)

# A program, or both, proved and built where something has changed, and the record of that build.
urna:
	@tools/build urna_app

urna_ledger:
	@tools/build ledger_app

programs:
	@tools/build urna_app ledger_app

# What is given to those who install them.
dist: programs
	@tools/dist "$(URNA)" "$(LEDGER)"

install: programs
	@tools/dist "$(URNA)" "$(LEDGER)" "$(PREFIX)"
