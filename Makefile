# `make run` builds the bench, proving what it is made of, and makes a session with a camera head over a packet link, which puts settings and gets them and the mean of a frame; `make test` is the gate.
BENCH := crates/bench/out/bench
SOURCES := crates.txt $(shell find crates -path '*/out' -prune -o \( -name '*.rt' -o -name '*.antt' \) -print)

run: $(BENCH)
	$(BENCH) < examples/session.bench

test:
	.ci/run

# a run on no input, which leaves the program that it built
$(BENCH): $(SOURCES)
	cd crates/bench && rt run < /dev/null

.PHONY: run test
