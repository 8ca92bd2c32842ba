# The commands of this repository.
.PHONY: run test bench
SHELL := /bin/bash
.SHELLFLAGS := -o pipefail -c

# Proves and builds the program, a line on standard error for each crate as it is proved, then runs it on the bundled roster and
# events. Where something is not proved, all that rt said is shown. (rt run also runs it once where there is no roster.)
run:
	@log=$$(mktemp); cd crates/dispatcher; rt run 2>&1 >/dev/null </dev/null | tee "$$log" \
	| awk '/^crate / { name = $$2 } /^logic=proved/ { sub(":", "", name); print name " proved"; fflush() }' >&2 \
	|| { cat "$$log" >&2; rm -f "$$log"; exit 1; }; rm -f "$$log"
	@cd crates/dispatcher/data && ../out/dispatcher <../stdin

test:
	.ci/run

# Times and counts the proved code beside tuned plain Rust of the same job; instructions are counted where valgrind is installed.
bench:
	@cd crates/exports && rt lib >&2
	cargo run --release --offline --manifest-path bench/Cargo.toml
