# Short names for what the README tells. Each does all its set-up.
.PHONY: run test compare bench fmt reasons

# The main job: the arrival listing, of indices of two bytes. INPUT=FILE lists a file of yours, INPUT=/dev/stdin a pipe.
# The program is proved first, which takes a minute or two the first time.
INPUT ?= crates/arrivals/stdin
run:
	@tools/build-program arrivals
	@tools/run-program arrivals <$(INPUT)

# Everything: the gate that a change must pass.
test:
	.ci/run

# The same scripts to the Rust and to the port.
compare:
	tests/set-up
	tests/compare

# Instructions of the port against the Rust's, for the same work.
bench:
	tests/set-up
	bench/run

fmt:
	@for crate in crates/*; do (cd $$crate && rt fmt) || exit 1; done

# Why each must-fail edit is refused.
reasons:
	tests/reasons
