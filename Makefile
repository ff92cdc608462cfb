# Lampreycoil: framed Flux messages and streams of them, the tables of their brokers, a broker's step and the
# walk, proved. `make` lists what can be made.

CC       = gcc
ARCHIVE  = target/staticlib/liblampreycoil.a
HOST_DIR = target/host

# An install of Rust by its own installer may not be on the path.
export PATH := $(PATH):$(HOME)/.cargo/bin
# Proving is quicker where temporary files lie in memory.
export TMPDIR := $(shell tools/tmpdir)

# What the archive is made of. The program, the must-fail edits and what rt makes are not in it.
RATTLE := $(wildcard crates.txt) $(shell find crates -path crates/examples -prune -o -name must-fail -prune \
            -o -path 'crates/*/out' -prune -o \( -name '*.rt' -o -name '*.antt' \) -print 2>/dev/null)
.PHONY: help run test bench fuzz peer archive host dist fmt deps bench-deps fuzz-deps peer-deps clean
.DELETE_ON_ERROR:

help:
	@echo 'make run      prove the library, show its examples, and write, dump and walk a frame from C'
	@echo 'make test     the whole gate: every proof, must-fail edit and test'
	@echo 'make bench    the library beside the second program, other JSON parsers and czmq, as ratios'
	@echo 'make fuzz     fuzz the host programs and the header, FUZZ_SECONDS (60) for each of six harnesses'
	@echo 'make peer     Majordomo commands to czmq and back, part by part'
	@echo 'make archive  the library for C: $(ARCHIVE)'
	@echo 'make host     the C host programs: $(HOST_DIR)/flux_frame and flux_floor'
	@echo 'make install  archive, header, pkg-config file, host programs and man pages, to PREFIX (/usr/local)'
	@echo 'make dist     a tarball for machines with a C compiler and no kit: target/dist/'
	@echo 'make fmt      format the Rattle and the C files'
	@echo 'make deps     install the compilers that are missing (Debian packages); NO_INSTALL=1 only names them'
	@echo 'make clean    remove target/ and what rt keeps in crates/*/out'

# Proves every crate. What rt says of the program that it runs goes to a file, and what that prints is shown.
run: deps
	@printf '== the proofs (what the prover says goes to target/make/all.log)\n'
	@tools/prove . all check
	@$(MAKE) --no-print-directory -s host
	@printf '\n== the examples, run by the proved program\n'
	@cd crates/examples && rt run 2>../../target/make/run.log || { cat ../../target/make/run.log >&2; exit 1; }
	@printf '\n== a request for "log", written and dumped by the C host program\n'
	@printf '$$ flux_frame write --type request --topic log --matchtag 1 -o target/host/log.frame\n'
	@target/host/flux_frame write --type request --topic log --matchtag 1 -o target/host/log.frame
	@printf '$$ od -A d -t x1 target/host/log.frame\n'
	@od -A d -t x1 target/host/log.frame
	@printf '$$ flux_frame dump target/host/log.frame\n'
	@target/host/flux_frame dump target/host/log.frame
	@printf '\n== a walk over the example floor, step by step\n'
	@printf '$$ flux_floor walk --enter 6 host/example.floor --nodeid 4 --topic bench.run\n'
	@target/host/flux_floor walk --enter 6 host/example.floor --nodeid 4 --topic bench.run

test: deps
	@tools/gate

bench: deps bench-deps archive
	@cd tests/second && CARGO_TARGET_DIR='$(CURDIR)/target/cargo' \
	    cargo run --release --offline --features others --bin bench

FUZZ_SECONDS = 60
fuzz: fuzz-deps host
	@ARCHIVE='$(ARCHIVE)' host/fuzz/fuzz.sh '$(FUZZ_SECONDS)'

# What czmq has encoded is read, and what is written is decoded by czmq.
PEER = target/peer/czmq
peer: peer-deps archive
	@mkdir -p $(dir $(PEER))
	@$(CC) -std=c99 -O2 -Wall -Wextra -Werror -Iinclude -o $(PEER) tests/peer/czmq.c $(ARCHIVE) -lczmq
	@$(PEER)

archive: $(ARCHIVE)

$(ARCHIVE): $(RATTLE)
	@tools/archive

include host/host.mk

host: $(HOST)

# The same files make the same tarball: those that git tracks, in order, nobody's, and as old as the last
# commit. Where git does not answer there is no tarball, and not one of other files or of another age.
DIST       = lampreycoil-$(VERSION)
DIST_ROOM  = target/dist/$(DIST)
DIST_FILES = host man include/lampreycoil.h docs/C-GUIDE.md docs/FORMAT.md README.md CHANGELOG.md lampreycoil.pc.in
dist: $(ARCHIVE)
	rm -rf target/dist
	mkdir -p $(DIST_ROOM)/lib/pkgconfig
	@{ git log -1 --format=%ct >target/dist/date && \
	    git ls-files -z --error-unmatch -- $(DIST_FILES) >target/dist/files; } || { rm -rf target/dist; \
	    echo 'make dist: git does not tell the last commit and the files that it tracks: no tarball' >&2; exit 1; }
	xargs -0 cp --parents -t $(DIST_ROOM) <target/dist/files
	cp $(ARCHIVE) $(DIST_ROOM)/lib
	mv $(DIST_ROOM)/host/dist.mk $(DIST_ROOM)/Makefile
	$(call PC,$${pcfiledir}/../..,$${prefix}/lib,$${prefix}/include) >$(DIST_ROOM)/lib/pkgconfig/lampreycoil.pc
	chmod -R u=rwX,go=rX $(DIST_ROOM)
	tar -C target/dist --sort=name --mtime="@$$(cat target/dist/date)" --owner=0 --group=0 --numeric-owner \
	    -cf target/dist/$(DIST).tar $(DIST)
	gzip -9n target/dist/$(DIST).tar
	rm -rf $(DIST_ROOM) target/dist/date target/dist/files

# The C layout is clang-format's, where it is installed.
fmt:
	@for crate in crates/*/src; do (cd "$$crate/.." && rt fmt) || exit 1; done
	@if command -v clang-format >/dev/null; then \
	    clang-format -i --style=file:host/.clang-format $(C_FILES) $(H_FILES) host/test/*.[ch] host/fuzz/*.[ch] \
	        tests/peer/*.c; \
	else \
	    echo 'make fmt: no clang-format here, so the C files stay as they are'; \
	fi

# Installs the Debian packages that are missing, for the rules below; with NO_INSTALL=1 it only names them.
INSTALL_MISSING = [ -z "$$missing" ] || { \
	    [ -z '$(NO_INSTALL)' ] || { echo "make: missing:$$missing" >&2; exit 1; }; \
	    echo "make: installing$$missing" >&2; \
	    root=''; [ "$$(id -u)" -eq 0 ] || root=sudo; \
	    { $$root apt-get update && $$root apt-get install -y $$missing; } >&2 || \
	        { echo "make: cannot install$$missing: do it by hand" >&2; exit 1; }; \
	}

# Says and does nothing where all is there. What it says goes to standard error, so that the gate's
# own lines stay alone on standard output. It looks for gcc and cc (Rust links with cc) and not for
# $(CC): another compiler, or a mistyped one, is no reason to install packages.
deps:
	@command -v rt >/dev/null || { echo 'make: no rt on the path: install the Rattle kit first' >&2; exit 1; }
	@missing=''; \
	{ command -v gcc && command -v cc; } >/dev/null || missing="$$missing gcc libc6-dev"; \
	command -v cargo >/dev/null || missing="$$missing cargo"; \
	command -v rustc >/dev/null || missing="$$missing rustc"; \
	$(INSTALL_MISSING)

# jansson and simdjson, which the measurement alone needs, and czmq: the gate does without them.
bench-deps: deps peer-deps
	@missing=''; \
	{ command -v g++ && command -v c++; } >/dev/null || missing="$$missing g++"; \
	[ -e /usr/include/jansson.h ] || missing="$$missing libjansson-dev"; \
	[ -e /usr/include/simdjson.h ] || missing="$$missing libsimdjson-dev"; \
	$(INSTALL_MISSING)

# czmq, which the peer and the measurement need: the gate does without it.
peer-deps:
	@missing=''; \
	[ -e /usr/include/czmq.h ] || missing=' libczmq-dev'; \
	$(INSTALL_MISSING)

# clang and its libFuzzer, which fuzzing alone needs: the gate does without them.
FUZZ_TRIED = 'int LLVMFuzzerTestOneInput(const unsigned char *b, unsigned long n) { return !b && n; }'
fuzz-deps:
	@missing=''; \
	{ mkdir -p target/fuzz && echo $(FUZZ_TRIED) | clang -fsanitize=fuzzer,address -x c - -o target/fuzz/tried; } \
	    2>/dev/null || missing=' clang libclang-rt-dev'; \
	$(INSTALL_MISSING)

clean:
	rm -rf target crates/*/out
