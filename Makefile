.PHONY: help drill test orders bench FORCE
.DEFAULT_GOAL := help

# What the drill reads: case L, unless another file is named. A name that ends in .txt is a text, any other has records.
IN ?= crates/drill/stdin
# The seed and the number of random runs of `make orders`.
SEED ?= $(shell date +%s)
RUNS ?= 1000
# Where the prover leaves the built drill. The tests and the tools run that file.
BUILT = crates/drill/out/drill

ORDERS = --quiet --release --offline --manifest-path tests/orders/Cargo.toml --target-dir target/cargo

help:
	@echo 'make drill [IN=FILE]                 proves and builds the drill, runs it on case L or on FILE'
	@echo '                                     (FILE.txt: a text, any other: records; see tools/records --help)'
	@echo 'make test                            the gate: proves everything, tries every wrong version, runs all tests;'
	@echo '                                     ends with N passed, M failed'
	@echo 'make orders [RUNS=1000] [SEED=...]   random days, against a second ledger written from the rules alone'
	@echo 'make bench                           steps a second, beside that second ledger'
	@echo 'make help                            this list'
	@echo
	@echo 'tools/records --run FILE.txt         each line of an incident beside what the ledgers answered'
	@echo 'tools/records --read FILE            captured records, as text'
	@echo 'tools/picture FILE.txt > FILE.svg    a picture of an incident'

# Only `rt run` builds, and it runs what it has built: here on no input. It sees itself whether anything has changed since.
$(BUILT): FORCE
	@tools/progress drill drill -- sh -c 'cd crates/drill && exec rt run </dev/null'

FORCE:

drill: in-is-there $(BUILT)
ifeq ($(suffix $(IN)),.txt)
	@tools/records --run '$(IN)'
else
	@$(BUILT) < '$(IN)' | tee target/drill.out
	@case "$$(tail -n 1 target/drill.out)" in \
	  END*) echo 'drill: $(IN) was read to its end' >&2 ;; \
	  STOP*) echo 'drill: stopped: the record at that byte is unknown, cut short, or names no ledger of the group' >&2; exit 1 ;; \
	  *) echo 'drill: FAILED: the output has no last line' >&2; exit 1 ;; \
	esac
endif

# Before minutes of proving, not after them.
.PHONY: in-is-there
in-is-there:
	@test -r '$(IN)' || { echo 'drill: $(IN) cannot be read; name a file by IN=FILE' >&2; exit 1; }

test:
	@tools/progress test all -- bash .ci/run 2>&1

orders: $(BUILT)
	@echo 'orders: building the second ledger' >&2
	@cargo run $(ORDERS) -- --seed $(SEED) --runs $(RUNS)

bench: $(BUILT)
	@echo 'bench: building the second ledger' >&2
	@cargo build $(ORDERS)
	@target/cargo/release/bench
