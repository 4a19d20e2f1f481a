# The whole interface. `make test` is the gate; its last line counts what passed and what failed.
.PHONY: demo test lib bench

# Shows the tool `burst`: sizes up and records a burst, lists, explains and checks it, reads it back, changes one byte and sees it refused.
demo: lib
	@sh scripts/demo.sh

test:
	@sh scripts/test.sh

# The folder build/lib, for C: libicepole_c.a, libburst_c.a, libcard_c.a and libcore_c.a, their headers icepole.h, burst.h, card.h and core.h, and icepole.pc,
# burst.pc, card.pc and core.pc for pkg-config. It can be moved.
lib:
	@sh scripts/lib.sh

# Prints the starting words of ICEPOLE in word order, then its round constants, as the proved generators make them.
.PHONY: tables
tables:
	@echo "proving the generators, which takes a minute or two the first time" >&2
	@sh scripts/build.sh print_constants >&2
	@crates/print_constants/out/print_constants

# Leaves the program build/round_log, which judges the round log on its standard input.
.PHONY: round_log
round_log:
	@echo "proving the checker, which takes a minute or two the first time" >&2
	@sh scripts/build.sh check_round_log >&2
	@cp crates/check_round_log/out/check_round_log build/round_log

# Leaves the program build/lister, which lists the burst file on its standard input.
.PHONY: lister
lister:
	@echo "proving the lister, which takes some minutes the first time" >&2
	@sh scripts/build.sh lister >&2
	@cp crates/lister/out/lister build/lister

# Tries every must-fail edit and looks at the whole first error of each, of which `rt ci` prints one line: `make edits` or `make edits CRATES="burst reader"`.
.PHONY: edits
CRATES =
edits:
	@python3 scripts/edits.py $(CRATES)

# Times the proved code against C and OpenSSL, counts its instructions, and writes the figures of docs/BENCHMARKS.md and docs/benchmarks.svg.
bench:
	@sh bench/run.sh

# Random cases, the proved calls against the reference: `make soak COUNT=1000000 SEED=7`. Without SEED the clock gives it.
.PHONY: soak
COUNT = 1000000
SEED =
soak: lib
	@cd tests && cargo run --offline --release --quiet -p soak -- $(COUNT) $(SEED)
