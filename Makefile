# `make try` runs the example without any proof; `make first` proves and builds the program and runs the example with it;
# `make test` is the gate.
PREFIX = /usr/local
PROGRAM = crates/cil/out/cil

.PHONY: try first test try-edits install check-docs check-program bench bench-lex bench-parse bench-check bench-lower bench-merge bench-run bench-types bench-memory bench-text program

# Proves the program and builds it, the libraries that it stands on first.
program:
	@scripts/build-program cil

# Builds the program with checks in the place of proofs, and merges and runs the example with it.
try:
	@scripts/try-first
	@echo "nothing was proved: make first proves it"

first: program
	$(PROGRAM) merge examples/first.c >examples/out.c
	@cat examples/out.c
	@$(PROGRAM) run examples/out.c; status=$$?; echo "its run ends with status $$status"; [ $$status -eq 5 ]

test:
	.ci/run

# Edits of dearer crates, which the gate leaves out: the prover must refuse each.
try-edits:
	scripts/try-edits

install: program
	install -D -m 755 $(PROGRAM) $(DESTDIR)$(PREFIX)/bin/cil
	install -m 755 scripts/merge-project $(DESTDIR)$(PREFIX)/bin/cil-merge-project
	install -D -m 644 docs/cil.1 $(DESTDIR)$(PREFIX)/share/man/man1/cil.1
	install -d $(DESTDIR)$(PREFIX)/share/cil/include $(DESTDIR)$(PREFIX)/share/cil/lib $(DESTDIR)$(PREFIX)/share/cil/posix/sys
	install -m 644 include/*.h $(DESTDIR)$(PREFIX)/share/cil/include
	install -m 644 lib/*.c $(DESTDIR)$(PREFIX)/share/cil/lib
	install -m 644 examples/posix/*.h $(DESTDIR)$(PREFIX)/share/cil/posix
	install -m 644 examples/posix/sys/*.h $(DESTDIR)$(PREFIX)/share/cil/posix/sys

check-docs:
	scripts/check-docs

# Merges, runs and merges again an example with the C library of lib/, merges one that reads a file by scripts/merge-project, and compares each
# step with gcc; then the units, programs and commands of tests/.
check-program: program
	scripts/check-program $(PROGRAM)
	scripts/check-rows $(PROGRAM)
	scripts/check-commands $(PROGRAM)

bench: program
	bench/thin.sh $(PROGRAM)

bench-lex: program
	bench/lex.sh $(PROGRAM)

bench-parse: program
	bench/parse.sh $(PROGRAM)

bench-merge: program
	bench/merge.sh $(PROGRAM)

bench-check: program
	bench/check.sh $(PROGRAM)

bench-lower: program
	bench/lower.sh $(PROGRAM)

bench-run: program
	bench/run.sh $(PROGRAM)

bench-types:
	bench/types.sh

bench-text:
	@scripts/build-program text_bench
	bench/text.sh

bench-memory:
	@scripts/build-program memory_bench
	bench/memory.sh
