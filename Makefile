.PHONY: sample test bench soak timeline economy

# check board A and print the verdict
sample:
	@host/build.sh boardcheck && target/bin/boardcheck < boards/a.board

# the gate
test:
	@.ci/run

# the verified code beside plain Rust
bench:
	@host/bench.sh

# random boards and damaged texts for longer than the gate
soak:
	@host/soak.sh $(TIMES)

# a run as a picture
timeline:
	@host/timeline.sh

# the table of docs/PROOFS.md
economy:
	@tools/economy.sh
