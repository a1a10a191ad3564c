# make test   the gate: proves every crate from nothing, tries the must-fail edits, runs splitrun on document 01's example and compares
#             it with the copying program; links the hosts in C and Rust and tests through the C interface; the last line is
#             'N passed, 0 failed'
# make try    runs splitrun on document 01's example in seconds, without a proof: not the verdict
# make run    proves and builds splitrun (docs/requests/R-9.md has the time), and runs it on document 01's example
# make lib    proves and builds target/staticlib/libsplitter.a, the library for C and Rust (host/README.md)
# make bench  measures the library against plain Rust, a copying machine and im-rc; writes docs/BENCH.md and its pictures
# make cross TARGET=..  writes target/cross/TARGET/libsplitter.a for another processor, from the LLVM module of the proved build; cross/targets
#             lists the targets
# make cross-test  runs the library on AArch64, 32-bit Arm and RISC-V under qemu, compared with x86-64; no part of make test
.PHONY: test try run lib bench cross cross-test
test:
	@tests/run

# rt try compares what the program wrote with crates/splitrun/stdout, byte for byte, and keeps no program.
try:
	@mkdir -p target/log
	@rt try splitrun >target/log/try 2>&1 || { cat target/log/try >&2; echo 'make try: failed' >&2; exit 1; }
	@cat crates/splitrun/stdout
	@echo 'make try: splitrun wrote these lines, interpreted and compiled three ways. Not the verdict: nothing is proved by that (make run, make test)'

run:
	@tools/build splitrun
	@target/bin/splitrun < crates/splitrun/stdin

lib:
	@tools/build lib

bench: lib
	@bench/run

cross:
	@cross/known $(TARGET)
	@$(MAKE) --no-print-directory lib
	@cross/build $(TARGET)

cross-test:
	@cross/tools
	@$(MAKE) --no-print-directory lib
	@cross/test
