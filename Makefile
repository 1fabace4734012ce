# `make` builds the program and runs it. The gate is `make check`: every proof, test and edit of must-fail/, then the scripts on the program that this built.
.PHONY: build check deb definitions drawn drifts edits install look pages planted scripts test touched uninstall

build:
	@sh tests/build.sh

check:
	@sh tests/gate.sh

# The scripts alone, on a program that is built.
scripts:
	@sh tests/all.sh

# Before a merge, in minutes: the crates that changed since a revision and those above them. `make touched SINCE=main`
touched:
	@SINCE="$(SINCE)" sh tests/touched.sh

# All edits, those too that the gate doesn't try. `make edits`, `make edits SINCE=main`, `make edits CRATES="cond recap"`
edits:
	@SINCE="$(SINCE)" CRATES="$(CRATES)" sh tests/edits.sh

# Bugs, each put into the program: a script has to tell it. `make planted`, `make planted NAMES="first_word_lost"`, `make planted JOBS=3`
planted:
	@NAMES="$(NAMES)" JOBS="$(JOBS)" python3 tests/planted.py

# Drawn cases, as many as you like: the built program beside the slow one of tests/slow. `make drawn`, `make drawn SEED=7 CASES=30000`
drawn:
	@SEED="$(SEED)" CASES="$(CASES)" sh tests/drawn.sh

# The lists and counts of the pages and of the man page that are made from the tree; tests/house.sh fails where this would change anything.
pages:
	@python3 tests/house/made.py

# The definitions that contracts cite, crate by crate, each with the comment above it. `make definitions`, `make definitions CRATES="journal journal_writer"`
definitions:
	@python3 tests/house/definitions.py $(CRATES)

# Drifts of the pages and the tree, each put into a copy: tests/house.sh has to tell it.
drifts:
	@python3 tests/house/drifts.py

# The program without proofs, in some four minutes, for a look at it.
look:
	@python3 tests/look.py

# The scripts that need the program alone, side by side, on the proved program or on that of `make look`.
test:
	@sh tests/test.sh

# The program that `make` built and bin/rollout-supervise, their manual pages, completions, pages and examples. `make install`, `make install PREFIX=/opt/rollout DESTDIR=/tmp/stage`. What the
# environment has of PREFIX and PROGRAM is another's.
install uninstall: export PREFIX = /usr/local
install deb: export PROGRAM = crates/rollout/out/rollout
install:
	@sh tests/install.sh install

# What `make install` wrote, given the same PREFIX and DESTDIR.
uninstall:
	@sh tests/install.sh uninstall

# The same as a Debian package, beside the program. `make deb`, `make deb TO=/tmp MAINTAINER='Ops <ops@example.net>'`
deb: export TO = crates/rollout/out
deb: export MAINTAINER = nobody <nobody@localhost>
deb:
	@sh tests/package.sh
