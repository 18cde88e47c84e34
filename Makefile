.DEFAULT_GOAL := help
.PHONY: help run tour quick ports test audit docs times bench install install-unproved release check format clean

PREFIX ?= $(HOME)/.local
PORT ?= 4318

help: ## List the targets
	@grep -E '^[a-z-]+:.*##' Makefile | sed -E 's/:.*## /: /'

run: ## Build trace-view without its proof, and show a trace in it; PORT=4318 is the port (a minute or two; again, seconds)
	@tools/run-first $(PORT)

tour: ## Build seven programs without their proofs and run them, each with a word on what it shows
	tools/tour

quick: docs ## The documents, and the tests and programs without their proofs (a quarter of an hour on four processors)
	tools/quick

# The ports that stored runs need: a run of an hour ends at once where another program has one.
ports:
	@tools/ports-free

# The documents, the tools' own tests, every proof, wrong bodies (those that this commit chooses),
# tests, programs, stored runs, hostile bodies, and what must not compile.
test: ports docs ## The gate: every proof, wrong bodies, tests and runs (from nothing an hour or two on four processors)
	tools/lib-test
	tools/run-runs
	tools/times rt ci
	tools/wrong-bodies
	tools/wrong-bodies-test
	tools/runs
	tools/collector-runs
	tools/demo-runs
	tools/export-runs
	tools/shop-runs
	tools/view-runs
	tools/relay-runs
	tools/disk-runs
	tools/crash-states
	tools/release-runs
	tools/view-bounds
	tools/hostile-bodies
	tools/wont-compile

audit: ## All wrong bodies, after make test; before each version (75 processor minutes)
	tools/wrong-bodies --all

docs: ## Compare the documents with the sources, and write out/DEFINITIONS.md, out/PROMISES.md and out/ERRORS.md
	tools/layout --lines
	tools/definitions
	tools/promises
	tools/errors
	tools/check-docs

times: ## The gate, and what each crate took of the processors
	tools/times $(MAKE) test

bench: ## What services deliver and what an end of a span takes, by the built trace-bench; it wants an idle machine (5 minutes)
	tools/bench

install: ## Put the programs that make test left built into PREFIX/bin, or PROGRAMS="trace-view otlp-relay", proved first; PREFIX=~/.local is the default
	tools/install '$(PREFIX)/bin' $(PROGRAMS)

install-unproved: ## Put trace-view and otlp-relay into PREFIX/bin, built without their proofs (a few minutes)
	tools/install '$(PREFIX)/bin' --unproved $(or $(PROGRAMS),trace-view otlp-relay)

release: ## Write an archive and a Debian package of trace-view and otlp-relay into out/release, after make test
	tools/release

check: ## Prove every crate over what earlier checks kept
	rt all check

format: ## Lay out the sources
	for crate in crates/*/; do (cd $$crate && rt fmt) || exit 1; done

clean: ## Remove what checks and builds made
	rm -rf crates/*/out out tools/lib/__pycache__
