# `make` runs the main job on the worked site; `make help` lists the rest.
PREFIX ?= /usr/local
N ?= 1000000
# RT=: installs what is built already
RT ?= rt
KEEP ?=

.PHONY: run test fuzz bench install uninstall help

run:
	@tests/run-worked-site.sh

test:
	@.ci/run

# as many damaged cases as asked: make fuzz N=1000000
fuzz:
	@tests/fuzz.sh $(N)

# ratios, printed; make bench KEEP=1 writes them to bench/RESULTS.md
bench:
	@KEEP=$(KEEP) bench/run.sh

help:
	@echo "make run                  the worked site, cleaned: some minutes the first time, then at once"
	@echo "make test                 the whole gate: every proof, every wrong version, every test"
	@echo "make fuzz N=1000000       so many more damaged inputs, and a tenth as many random sites"
	@echo "make bench                ratios beside plain Rust and SQL, printed; KEEP=1 writes bench/RESULTS.md"
	@echo "make install PREFIX=/usr  the program, the library, the header, the authors' tool and their pages"
	@echo "make uninstall PREFIX=/usr"

# the program, the archive, the header, pkg-config's file, the authors' tool, man pages and documents
install:
	@[ '$(RT)' = : ] || { tools/program.sh && tools/archive.sh; }
	@DESTDIR='$(DESTDIR)' tools/install.sh install '$(PREFIX)'

uninstall:
	@DESTDIR='$(DESTDIR)' tools/install.sh uninstall '$(PREFIX)'
