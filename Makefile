.PHONY: run test

# Proves and builds the engine, then runs the worked example: its records in hexadecimal, and the lines they are answered with.
run:
	@echo "input, a record to a line:"
	@od -A n -v -t x1 -w32 crates/reckon/stdin
	@echo; echo "output:"
	@cd crates/reckon && rt run < stdin

test:
	.ci/run
