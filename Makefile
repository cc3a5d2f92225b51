# Targets: run, test, fuzz, bench, lib, fmt.
.PHONY: run test fuzz bench lib fmt

# Proves and builds both programs, then prints the worked ring.
run:
	@tests/build
	@cd examples/ring && ../../target/bin/ringswap <input

test:
	@tests/run

# More transcripts and till calls than the tests take, with a new seed.
fuzz: lib
	@tests/build
	@tests/till/run "$$(date +%s)" 1000000
	@tests/transcripts "$$(date +%s)" 100000

# The till's library, the programs and the engine's calls beside plain Rust: docs/BENCHMARKS.md. Blocks that are jumped to are aligned, since
# plain Rust's short loops take up to twice the time where the linker happens to put them across a line of the cache.
bench: lib
	@tests/build ringswap thawcroft bench_calls
	@cargo build --offline --quiet --release --manifest-path tests/reference/Cargo.toml
	@RUSTFLAGS="-C llvm-args=-align-all-nofallthru-blocks=5" cargo build --offline --quiet --release --manifest-path bench/Cargo.toml
	@bench/target/release/bench
	@bench/target/release/engine

# The till host's call for C: include/thawcroft.h and this archive.
lib:
	@mkdir -p target/staticlib
	@(cd crates/till_c && rt lib) >target/staticlib.log 2>&1 || { cat target/staticlib.log; exit 1; }
	@cp crates/till_c/out/libtill_c.a target/staticlib/libtill.a
	@echo "target/staticlib/libtill.a: gcc -Iinclude HOST.c target/staticlib/libtill.a; nothing else to link"

fmt:
	@for crate in crates/*/; do (cd "$$crate" && rt fmt) || exit 1; done
