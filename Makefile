# make run: builds the job program, which proves all that it uses, and runs it on an example; make run JOB=FILE on another job file.
# make test: runs rt ci, which proves every crate and tries the must-fail edits, and then every test. Its last line is 'N passed, 0 failed', or it fails.
# make archive, make program: prove and build target/staticlib/libnezgrak.a and target/bin/nezgrak_job.
# make example: makes the archive, then builds and runs the examples; each prints the same lines in C and in Rust.
# make bench: makes the archive, then measures both engines and the delay call beside loops in Rust. Prints the tables, puts them and the plots into docs/; fails where a required ratio is missed.
# make bench BEFORE=ARCHIVE: beside the archive of another commit too, a copy of its target/staticlib/libnezgrak.a. That needs objcopy.
# make soak: makes the archive and the job program, then compares both with models on a million random contractions, 100,000 pairs of recordings and 100,000 damaged job files. SEED=n takes others, COUNT=n fewer.
.PHONY: run test example bench soak archive program
JOB = examples/jobs/matrix_three_tiles.job
cargo = cd rust && CARGO_TARGET_DIR=../target/cargo cargo
# rt proves and builds in a crate's folder; the archive and the program are copied to where C, cargo and the tests look for them. What rt says goes to standard error.
placed = mkdir -p target/$(1) && { cmp -s $(2) target/$(1)/$(notdir $(2)) || cp -f $(2) target/$(1)/; }
run: program
	@target/bin/nezgrak_job "$(JOB)"

program:
	@cd crates/nezgrak_job && rt run <stdin >/dev/null
	@$(call placed,bin,crates/nezgrak_job/out/nezgrak_job)

test:
	@tools/test

archive:
	@cd crates/nezgrak && rt lib --cpu x86-64 >&2
	@$(call placed,staticlib,crates/nezgrak/out/libnezgrak.a)

example: archive
	@mkdir -p target/c
	@set -e; for name in plain tiles shared_start delay; do \
	    cc -std=c11 -O2 -Wall -Wextra -Werror -Iinclude examples/$$name.c target/staticlib/libnezgrak.a -o target/c/example_$$name; \
	    target/c/example_$$name; \
	    ($(cargo) run --release --offline --quiet --example $$name); \
	done

bench: archive
	@$(if $(BEFORE),export NEZGRAK_BEFORE="$(abspath $(BEFORE))"; )$(cargo) bench --offline --quiet --bench figures

soak: archive program
	@$(cargo) test --release --offline --quiet --test soak
