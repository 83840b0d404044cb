PREFIX = /usr/local
DESTDIR =
export PREFIX DESTDIR
PROGRAM = crates/virt_top/out/virt_top

.PHONY: build demo test install bench

# Proves and builds the program, and looks whether what was built answers: there is no disk `a`, which is status 5.
build:
	@command -v rt > /dev/null || { echo "make: there is no rt: README.md names the kit that is needed" >&2; exit 1; }
	@echo "Proving and building the program. The first time this takes about half an hour, since every"
	@echo "function is proved to meet its contract before it is compiled; build/build.log tells how far it is."
	@mkdir -p build
	@cd crates/virt_top && rt run -- virt-resize --dry-run a b > ../../build/build.log 2>&1; test $$? -eq 5 || { tail -n 20 ../../build/build.log; exit 1; }
	@test "$$($(PROGRAM) virt-sparsify 2>&1)" = 'virt-sparsify: usage: Missing' || { echo "make: what was built doesn't answer" >&2; exit 1; }

# Copies a sample disk with a GPT to a larger one, and shows what became of it.
demo: build
	@demo/run

# The gate: every proof from nothing, the must-fail edits, the tests, the programs, and real tools over real files.
test:
	.ci/run

# Installs the program, the two commands and the manual below PREFIX, which may be a relative path.
install: build
	install -D -m 755 $(PROGRAM) "$$DESTDIR$$PREFIX/libexec/virt_top"
	install -D -m 755 bin/virt-resize "$$DESTDIR$$PREFIX/bin/virt-resize"
	ln -sf virt-resize "$$DESTDIR$$PREFIX/bin/virt-sparsify"
	install -D -m 644 man/virt-resize.1 "$$DESTDIR$$PREFIX/share/man/man1/virt-resize.1"

# Times the program beside cp and dd.
bench: build
	bench/run
