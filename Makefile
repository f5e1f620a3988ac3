# `make` alone prints these lines.
define HELP
make demo      the gateway at work on this machine, for some seconds; compiles it first where nothing is built (minutes)
make test      all tests and stories, with no proof; the last line is N passed, N failed (a quarter of an hour)
make build     proves and builds the program (two to three hours)
make check     the whole gate: proofs, edits, tests and the built program (three hours)
make bench     measures the core and the server; needs valgrind and a C compiler (a quarter of an hour)
make docs      writes the generated pages anew, and checks all documents (a minute)
make refused   lists the wrong bodies that the prover refuses, crate by crate
make install   the built program with its manual page, units, samples and completion; DESTDIR= and PREFIX= say where
make dist      an archive of these, $(OUT)/pvgate-VERSION-linux-x86_64.tar.gz
make clean     removes all that was compiled, built or kept by checks here
PROGRAM=out/unproved/pvgate has bench, docs, install and dist take that program in place of the built one.
endef

PREFIX = /usr/local
DESTDIR =
OUT = out
PROGRAM = crates/pvgate/out/pvgate

TO = $(DESTDIR)$(PREFIX)
UNITS = $(wildcard packaging/*.service packaging/*.socket packaging/*.timer)
SAMPLES = $(wildcard examples/site.* examples/*.replay examples/*.printed examples/*.explained examples/*.py)

.PHONY: help demo test build check bench docs refused clean is-built install dist

help:
	@: $(info $(HELP))

demo:
	tools/demo.py

test:
	tools/test.py

build:
	./pvgate --build

check:
	.ci/run

bench: is-built
	python3 bench/core.py --program $(PROGRAM)
	python3 bench/serve.py $(PROGRAM)

docs: is-built
	.ci/callers_pages.py
	packaging/man.py $(PROGRAM)
	packaging/completion.py $(PROGRAM)
	.ci/examples.py $(PROGRAM)
	.ci/documents.py $(PROGRAM)

refused:
	@tools/wrong_bodies.py

clean:
	rm -rf out crates/*/out

is-built:
	@test -x $(PROGRAM) || { echo "$(PROGRAM) is not built: run make build first" >&2; exit 1; }

install: is-built
	install -D -m 755 $(PROGRAM) $(TO)/bin/pvgate
	install -D -m 644 packaging/pvgate.1 $(TO)/share/man/man1/pvgate.1
	install -D -m 644 packaging/pvgate.bash $(TO)/share/bash-completion/completions/pvgate
	install -D -m 644 -t $(TO)/share/pvgate packaging/arguments
	install -D -m 644 -t $(TO)/share/pvgate/examples $(SAMPLES)
	chmod 755 $(TO)/share/pvgate/examples/ca.py $(TO)/share/pvgate/examples/ioc.py
	install -D -m 755 -t $(TO)/share/pvgate/tools tools/explain.py
	install -D -m 644 -t $(TO)/share/doc/pvgate LICENSE-MIT LICENSE-APACHE
	install -d -m 755 $(TO)/lib/systemd/system
	for unit in $(notdir $(UNITS)); do \
	    sed 's|/usr/local/bin/|$(PREFIX)/bin/|' packaging/$$unit > $(TO)/lib/systemd/system/$$unit || exit 1; \
	    chmod 644 $(TO)/lib/systemd/system/$$unit || exit 1; \
	done

dist: is-built
	name=pvgate-$$($(PROGRAM) --version | cut -d' ' -f2)-linux-x86_64 && rm -rf $(OUT)/$$name && \
	$(MAKE) install DESTDIR=$(OUT)/$$name && \
	tar -C $(OUT) --sort=name --owner=0 --group=0 --numeric-owner -czf $(OUT)/$$name.tar.gz $$name && rm -r $(OUT)/$$name
