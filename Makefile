# Nothing has to be set up beforehand: `rt` is the toolchain's one command.
PREFIX ?= /usr/local

# As many checks side by side as there are processors and memory for, four at most: the dearest, of a
# program of cases, takes 7.5 GB, each other program up to 6.5, a library up to 4. Left alone, rt
# reckons with up to 12 and leaves processors idle.
JOBS ?= $(shell awk -v n=$$(nproc) '/^MemAvailable/ { j = 1 + int(($$2 / 1000000 - 8.5) / 5.5); \
	if (j > n) j = n; if (j > 4) j = 4; if (j > 1) print j }' /proc/meminfo)

# The crates whose wrong edits the gate doesn't try, since it has to end within three hours on two cores. Each
# of them was refused on 1 December 2026, by 34 minutes together; since then check_core and store_core have
# changed, and theirs weren't tried again. `make edits NAME=CRATE` tries one crate's.
UNTRIED = check_core desk_load page_wire server_core service_core store_core

# All others that have any.
EDITED = $(filter-out $(UNTRIED),$(sort $(foreach it,$(wildcard crates/*/wrong/*.edit),\
	$(word 2,$(subst /, ,$(it))))))

.PHONY: demo look test edits desk install package trials trials-of-a-server models wrong sweep

# The first look: the printer script, run before any proof, with what it answers.
demo:
	@examples/demo

# Pages at an address until Ctrl-C, of an office with thirty requests: by bin/desk_web where it is
# there, and else before any proof.
look:
	@examples/look

# The gate: every proof, every test and every stored run from nothing, and then the wrong edits of
# EDITED, which must be refused. They are tried over the libraries that `rt ci` proves: those that were
# built before go first, or it would put them back in their place. The office that users copy is the
# one that the cases read.
test:
	@date '+%T: the proofs begin'
	cmp examples/office.toml crates/suite/data/texts/office.toml
	models/sheet
	rm -rf crates/*/out/rlib
	RT_JOBS=$(JOBS) rt ci
	@date '+%T: the edits begin'
	bench/edits-judge
	RT_JOBS=$(JOBS) bench/edits --after-ci $(EDITED)

# The wrong changes of the crates that NAME lists, or of all, over libraries that are built.
edits:
	bench/edits $(NAME)

# The proved programs, as bin/desk, bin/desk_web, bin/desk_ask and bin/desk_load. From nothing it
# takes half an hour to an hour on four cores. Without options desk_web has nothing to serve, desk_ask
# nothing to ask and desk_load nothing to load into: all three end with 2. The commit and the toolchain
# are written into these three at the end, for `--version`.
desk:
	cd crates/desk && rt run < ../../examples/printer.desk
	cd crates/desk_web && { rt run; test $$? -eq 2; }
	cd crates/desk_ask && { rt run; test $$? -eq 2; }
	cd crates/desk_load && { rt run; test $$? -eq 2; }
	mkdir -p bin
	cp crates/desk/out/desk crates/desk_web/out/desk_web crates/desk_ask/out/desk_ask bin
	cp crates/desk_load/out/desk_load bin
	package/stamp bin/desk_web bin/desk_ask bin/desk_load

# The programs, the manual pages and what bash offers, below PREFIX.
install: desk
	install -D -m 755 bin/desk $(PREFIX)/bin/desk
	install -D -m 755 bin/desk_web $(PREFIX)/bin/desk_web
	install -D -m 755 bin/desk_ask $(PREFIX)/bin/desk_ask
	install -D -m 755 bin/desk_load $(PREFIX)/bin/desk_load
	install -d $(PREFIX)/share/man/man1
	for it in desk desk_web desk_ask desk_load; do \
		docs/man $$it > $(PREFIX)/share/man/man1/$$it.1 || exit 1; done
	install -D -m 644 examples/desk_ask.bash $(PREFIX)/share/bash-completion/completions/desk_ask

# bin/desk_VERSION_amd64.deb for Debian 12, of the programs that stand in bin/: run `make desk` before.
# It needs debhelper and dpkg-dev.
package:
	package/build

# What tries the program from outside (trials/README.md), and then the judges themselves on stubs.
# trials/full and trials/year mount small disks, so this is run by root.
trials: desk
	trials/command
	trials/serve
	trials/kills
	trials/full
	trials/links
	trials/pages
	trials/web
	trials/ask
	trials/load
	trials/pages-in-a-browser
	trials/year
	trials/judges
	trials/judges_web
	trials/judges_browser
	trials/judges_year

# What tries the package and the page on running a desk, on a clean Debian with a systemd of its own, and
# then their judge on stubs. Run by root; trials/README.md says what it needs.
trials-of-a-server: package
	trials/package
	trials/operate
	trials/judges_operate

# The rules told twice: what they come to is compared with what is stored, in a few seconds.
models:
	models/scripts
	models/leaves
	models/lots
	models/made
	models/cookies

# Wrong rules, one at a time: each is noticed by a case. Two minutes.
wrong:
	models/wrong

# Each growth of the programs refused in turn, in some minutes once both are proved. It needs a C
# compiler.
sweep: desk
	cd crates/suite && rt run -- data/script/no-input > /dev/null
	cd crates/leaf_cases && rt run -- data/calls/names > /dev/null
	trials/refused
	trials/refused_pages
