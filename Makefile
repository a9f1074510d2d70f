.PHONY: run example relay test quick check edit lint gate moved lib install fuzz bench

SHELL := bash
FILE ?= samples/s.capture
PREFIX ?= /usr/local
SECONDS ?= 300

# Lists a capture: the sample, or one of yours with make run FILE=path.
run:
	@command -v rt > /dev/null || { echo "rt, the command of the Rattle kit, is not on the PATH" >&2; exit 1; }
	@mkdir -p build
	@[ -e crates/list_capsules/out/list_capsules ] || echo "proving it, which takes some minutes" >&2
	@set -o pipefail; (cd crates/list_capsules && rt run < /dev/null 2>&1 > /dev/null) | python3 tools/progress build/run.log >&2
	@crates/list_capsules/out/list_capsules "$(FILE)"

# Asks for an address, assigns one and tells routes, with the C interface.
example: lib
	@$(CC) -std=c99 -O2 -Ibuild/include examples/addresses.c -Lbuild/lib -lmaruzhenu -o build/addresses
	@build/addresses

# Runs a relay of HTTP/2 tunnels, with the C interface over nghttp2 (Debian's libnghttp2-dev).
relay: lib
	@$(CC) -std=c99 -O2 -Ibuild/include examples/h2_relay.c -Lbuild/lib -lmaruzhenu -lnghttp2 -o build/h2_relay
	@build/h2_relay

# Everything: the proofs, the edits that must be rejected, the programs, the C examples, and the comparison of the listing
# and of all calls with the independent implementation.
test:
	@bash tests/run

# Proves the crates in a folder and those below them, runs their programs, and says where it is.
proved = mkdir -p build; set -o pipefail; \
  (cd $(1) && rt all test) 2>&1 | python3 tools/progress build/check.log && tail -n 1 build/check.log

# All proofs and programs, without the edits that must be rejected.
quick:
	@$(call proved,crates)

# One crate and those below it: make check CRATE=x.
check:
	@[ -d "crates/$(CRATE)/src" ] || { echo "usage: make check CRATE=x" >&2; exit 2; }
	@$(call proved,crates/$(CRATE))

# One edit that must be rejected: make edit CRATE=x EDIT=y.
edit:
	@bash tools/edit "$(CRATE)" "$(EDIT)"

# What no proof sees: pointers, claims without a proof, names in the papers, unused imports, long lines.
lint:
	@python3 tools/lint

# The merge gate on a clone of HEAD.
gate:
	@bash tools/gate

# Definitions, promises and proofs that moved since a revision: make moved REV=x.
moved:
	@python3 tools/moved "$(REV)"

# What a host links: build/lib/libmaruzhenu.a, build/include/maruzhenu.h, build/lib/pkgconfig/maruzhenu.pc.
lib:
	@bash tools/lib

# Copies these to PREFIX/lib, PREFIX/include and PREFIX/lib/pkgconfig.
install: lib
	@bash tools/install "$(PREFIX)"

# Compares the calls on bytes that a fuzzer chooses, for so many SECONDS. No part of make test.
fuzz: lib
	@bash fuzz/run "$(SECONDS)"

# Measures, and writes build/bench.md and build/bench.svg; make bench AGAINST=REV measures the archive of an earlier
# revision in the same run. No part of make test.
bench:
	@$(if $(AGAINST),MARUZHENU_BASE=$$(python3 tools/against "$(AGAINST)") && export MARUZHENU_BASE && )\
	  bash tools/lib && bash bench/calls
