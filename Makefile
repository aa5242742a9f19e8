.PHONY: help test demo programs library rust record recorded-antt beside port fuzz bench

help:
	@echo 'make test           the gate: rt ci, then every test outside Rattle'
	@echo 'make demo           shows the product at work'
	@echo 'make programs       makes the programs list and getres (target/bin; crates/getres/getres runs the second)'
	@echo 'make library        makes the static library for C and Rust (target/staticlib)'
	@echo 'make rust           makes the static library and builds the Rust crate over it (rust, target/rust)'
	@echo 'make record         writes the recorded answers of the Rust again (data of crates/replay, replay_default)'
	@echo 'make recorded-antt  prints the short recorded answers as rows for the prover'
	@echo 'make beside SEED=n  compares the model and the Rust alone, with another seed'
	@echo 'make port SEED=n    compares the port with both alone, with another seed; TIMES=n draws more'
	@echo 'make fuzz SECONDS=n fuzzes the Rust crate beside the model and the Rust; SEED=n draws the same again'
	@echo 'make bench          times the port, the Rust, Xlib and xcb-xrm; COUNT=1 counts instructions too'

test:
	@tests/run

demo:
	@tests/demo

programs:
	@tests/programs list getres

library:
	@tests/library

rust: library
	@cargo build --release --offline --locked --manifest-path rust/Cargo.toml --target-dir target/rust

record:
	@tests/record crates

recorded-antt:
	@tests/build >&2
	@target/tests/recorded antt crates/replay/data/small.txt

beside:
	@tests/build >&2
	@SEED=$(SEED) tests/beside

port:
	@tests/build >&2
	@SEED=$(SEED) TIMES=$(TIMES) tests/port_beside

fuzz:
	@tests/rust/fuzz '$(SECONDS)' '$(SEED)'

bench:
	@COUNT=$(COUNT) tests/bench
