# make test: the whole check. make demo: the program and the panel's screen on document 01's example. make bench: the
# measurements. make fuzz: a longer comparison. make peers: the import beside other readers. make fmt: the sources' layout.
SHELL := bash
.SHELLFLAGS := -euo pipefail -c
.ONESHELL:
.PHONY: test demo bench fuzz peers fmt tools-installed check-trace mask host built

# What is tried after the prover.
CHECKS := check-trace mask host

# What the tests run, and the Debian package that has it. client/ tries its header with the C++ compiler too.
TOOLS := cc:gcc c++:g++ cargo:cargo python3:python3 objdump:binutils

# rt ci's last line, 'N passed, 0 failed', is held back until every other check has passed. A must-fail edit that can't be applied or read
# says nothing of a contract: rt ci passes it, and counts it as bad in its line 'rt: ok'; here it fails the run.
test: tools-installed
	@log=$$(mktemp)
	trap 'rm -f "$$log"' EXIT
	rt ci 2>&1 | tee "$$log" | sed -u '$$d' || { tail -n 1 "$$log"; echo 'make test: rt ci failed'; exit 1; }
	edits=$$(grep '^rt: ok' "$$log" | grep -o 'must-fail edits: [0-9][^;]*') || { echo 'make test: rt ci does not say how many must-fail edits were refused'; exit 1; }
	! grep -Eq '[1-9][0-9]* bad' <<<"$$edits" || { echo "make test: $$edits"; exit 1; }
	$(MAKE) --no-print-directory $(CHECKS) || { echo 'make test: a check failed'; exit 1; }
	tail -n 1 "$$log" | grep -Ex '[0-9]+ passed, 0 failed' || { echo 'make test: rt ci gave no verdict'; exit 1; }

# No test is left out for want of a tool: a missing one fails the run before the prover begins.
tools-installed:
	@missing=0
	command -v rt >/dev/null || { echo 'make test: rt, of the Rattle toolchain, is not installed'; missing=1; }
	for tool in $(TOOLS); do
	    command -v "$${tool%:*}" >/dev/null && continue
	    echo "make test: $${tool%:*} is not installed: Debian has it in the package $${tool#*:}"
	    missing=1
	done
	exit $$missing

# Every name that docs/TRACE.md cites stands in the sources.
check-trace:
	@tools/check-trace

# What is built for C runs on every x86-64: by itself the toolchain would build for processors since 2009.
CPU := --cpu=x86-64

# The proved library and program, as C and the tests use them, and the program before it is linked. The prover's own lines go to a log,
# which is shown if it fails.
built:
	@mkdir -p target/staticlib target/bin target/obj
	echo "Proving and building; the prover's lines go to target/built.log"
	{ (cd crates/entail_c && rt lib $(CPU)) && (cd crates/factbox && rt run $(CPU) <stdin); } >target/built.log 2>&1 || {
	    cat target/built.log
	    echo 'make built: failed; this was target/built.log'
	    exit 1
	}
	cp crates/entail_c/out/libentail_c.a target/staticlib/libentail.a
	cp crates/factbox/out/factbox target/bin/
	cp crates/factbox/out/factbox.o target/obj/

# What the compiled printing of a field holds and prints, and the library's read-only data.
mask: built
	@(cd crates/mask_probe && rt lib $(CPU)) >target/mask.log 2>&1 || { cat target/mask.log; echo 'make mask: failed; this was target/mask.log'; exit 1; }
	cp crates/mask_probe/out/libmask_probe.a target/staticlib/
	$(MAKE) --no-print-directory -C tests/mask test

# The compiled library and program, called from C and from Rust.
host: built
	@$(MAKE) --no-print-directory -C client test
	$(MAKE) --no-print-directory -C tests test

demo: built
	@echo
	echo "== The program on the example of document 01, the customer's paper: target/bin/factbox < crates/factbox/stdin"
	echo '   A table, a line of zeros, and one question: subject, predicate, object, allowance.'
	cat crates/factbox/stdin
	echo
	echo '== Its answer: 90 (yes), place 0, 4 table facts; then the derivation: rule, two premises, subject, predicate, object.'
	target/bin/factbox < crates/factbox/stdin
	echo
	echo '== The same with a gap, some X is of type 12: 60000 for X. The last line of the derivation shows what fills it.'
	sed '$$s/^   10/60000/' crates/factbox/stdin | tail -n 1
	sed '$$s/^   10/60000/' crates/factbox/stdin | target/bin/factbox | sed -n '1p;$$p'
	$(MAKE) --no-print-directory -s -C client demo

bench: built
	@$(MAKE) --no-print-directory -C bench test bench REPORT=../docs

fuzz: built
	@$(MAKE) --no-print-directory -C tests fuzz

# The import beside other readers of N-Triples, which are installed where they are missing.
peers: built
	@$(MAKE) --no-print-directory -C tests/peers peers

fmt:
	@for crate in crates/*/; do (cd "$$crate" && rt fmt); done
