# What each target needs:
#
# - `epmd`, `run`, `try`, `test`: `rt`, the command of the Rattle toolchain, on the path, and nothing else
# - `client`: `rt`, `cc` and binutils
# - `install`, `deb`: what is in build, and no toolchain; `deb` also `dpkg-deb` and `strip`
# - `bench`: `cc`, and another port mapper
# - `faults`: `rt`, `gcc` and `python3`
# - `check-contrib`, `check-program`: `python3` alone

PREFIX = /usr/local

# The port mapper that `make bench` measures beside ours.
OTHER = /usr/bin/epmd

# The port at which `make try` serves, and further options of its daemon.
PORT = 4369
WORDS =

# The crates of tests that refuse memory.
REFUSING = tests_libraries tests_daemon

# Ends a target that calls `rt`, if there is no `rt` on the path.
toolchain = $(if $(shell command -v rt 2> /dev/null),,$(error there is no rt on the path, the command of the Rattle toolchain: README.md \
    names its kit under Install))

.PHONY: run try epmd client install install-program install-client uninstall deb check-contrib check-program quick attack \
    test test-long bench faults

# Builds the proved daemon and serves on port 4369.
run: epmd
	./build/epmd

# Builds the program with nothing proved, and serves at PORT of this host until interrupted. WORDS are further options of the daemon.
try:
	$(toolchain)@contrib/try $(PORT) $(WORDS)

# Proves the program and every crate below it, and puts it at build/epmd. The output of `rt` is in build/log.
epmd:
	$(toolchain)@contrib/build

# Makes the program unless it is there.
build/epmd:
	@$(MAKE) --no-print-directory epmd

# Proves the client for C, and puts the archive, the shared library and the header into build.
client:
	$(toolchain)@contrib/build-client

# The folders below DESTDIR and PREFIX.
BIN = $(PREFIX)/bin
LIB = $(PREFIX)/lib/epmd-proved
UNITS = $(PREFIX)/lib/systemd/system
MAN = $(PREFIX)/share/man
DOC = $(PREFIX)/share/doc/epmd-proved
INCLUDE = $(PREFIX)/include
LIBRARIES = $(PREFIX)/lib
TOOLS = epmd-log epmd-metrics epmd-prune epmd-report
COMMANDS = epmd $(TOOLS)
PAGES = $(addsuffix .1,$(COMMANDS))
# The default is the folder in which zsh looks below /usr/local. A package has a folder of its own.
ZSH_COMPLETIONS = $(PREFIX)/share/zsh/site-functions
BASH_COMPLETIONS = $(PREFIX)/share/bash-completion/completions
SERVICES = epmd-proved.socket epmd-proved.service epmd-proved-away.target epmd-proved-pause@.service epmd-proved-prune.service \
    epmd-proved-prune.timer epmd-proved-metrics.service epmd-proved-metrics.timer
# Additions to the units of erlang-base and to ours. The number makes the operator's own additions follow them.
ADDED = $(addsuffix /10-proved.conf,epmd.socket.d epmd.service.d epmd-proved.service.d)

# The client is installed if `make client` has made it. An installation and a package prove nothing, since root may make them.
CLIENT = $(and $(wildcard build/libepmd_client.a),$(wildcard build/libepmd_client.so))
built = $(if $(shell ls build/epmd 2> /dev/null),,$(error there is no build/epmd: `make epmd` first))

# The commit of this checkout, and if files were changed since. Empty if this is not a checkout.
GIT = git --no-optional-locks -c safe.directory='*'
COMMIT = $(shell test -e .git && $(GIT) describe --always --exclude='*' --abbrev=7 --dirty=', changed' 2> /dev/null)

# Writes into installed files their version, their folders and their interpreter.
fill = sed -i 's|/usr/local/lib/systemd/system|$(UNITS)|g; s|/usr/local/share/zsh/site-functions|$(ZSH_COMPLETIONS)|g; \
    1s|^\#!/usr/bin/env python3$$|\#!$(LIB)/python|; s|/usr/local|$(PREFIX)|g; s|@LIBRARIES@|$(LIBRARIES)|; s|@VERSION@|$(shell cat VERSION)|; \
    s|@COMMIT@|$(if $(COMMIT), (commit $(COMMIT)))|' $(addprefix $(DESTDIR),$(1))

# Installs the program, the wrapper that is called `epmd`, the tools, the manual pages, the units and the completions. If the client for C
# is in build, installs it too, with its header, its manual page and its file for pkg-config. An installation on this machine prints how
# to start the port mapper.
install: install-program $(if $(CLIENT),install-client)
ifeq ($(DESTDIR),)
	@echo 'To start it where erlang-base is installed, whose epmd.socket stays open:'
	@echo '    systemctl daemon-reload && $(LIB)/renew'
	@echo 'To start it where it is not:'
	@echo '    systemctl daemon-reload && systemctl enable --now epmd-proved.socket'
endif

install-program:
	$(built)install -D -m 755 -t $(DESTDIR)$(LIB) build/epmd $(addprefix contrib/,pause python renew state-folder)
	ln -sf epmd $(DESTDIR)$(LIB)/epmd-all-options-ignored
	install -m 644 contrib/epmd_recording.py contrib/epmd_report.html $(DESTDIR)$(LIB)
	install -D -m 755 -t $(DESTDIR)$(LIB)/wrapper contrib/epmd
	install -D -m 755 -t $(DESTDIR)$(BIN) $(addprefix contrib/,$(TOOLS))
	ln -sfT ../lib/epmd-proved/wrapper/epmd $(DESTDIR)$(BIN)/epmd
	install -D -m 644 -t $(DESTDIR)$(UNITS) $(addprefix contrib/units/,$(SERVICES))
	install -D -m 644 contrib/units/socket.conf $(DESTDIR)$(UNITS)/epmd.socket.d/10-proved.conf
	install -D -m 644 contrib/units/proved.conf $(DESTDIR)$(UNITS)/epmd.service.d/10-proved.conf
	install -D -m 644 contrib/units/proved.conf $(DESTDIR)$(UNITS)/epmd-proved.service.d/10-proved.conf
	install -D -m 644 -t $(DESTDIR)$(MAN)/man1 $(addprefix docs/,$(PAGES))
	install -D -m 644 -t $(DESTDIR)$(BASH_COMPLETIONS) contrib/completions/epmd
	for each in $(TOOLS); do ln -sf epmd $(DESTDIR)$(BASH_COMPLETIONS)/$$each || exit 1; done
	install -D -m 644 -t $(DESTDIR)$(ZSH_COMPLETIONS) contrib/completions/_epmd
	install -D -m 644 -t $(DESTDIR)$(DOC) README.md
	install -D -m 644 -t $(DESTDIR)$(DOC)/examples contrib/grafana/epmd.json contrib/prometheus/epmd.rules.yml
	@$(call fill,$(LIB)/wrapper/epmd $(LIB)/epmd_recording.py $(addprefix $(BIN)/,$(TOOLS)) $(addprefix $(MAN)/man1/,$(PAGES)) \
	    $(addprefix $(UNITS)/,$(SERVICES) $(ADDED)))

install-client:
	install -D -m 644 build/libepmd_client.so $(DESTDIR)$(LIBRARIES)/libepmd_client.so.0
	ln -sf libepmd_client.so.0 $(DESTDIR)$(LIBRARIES)/libepmd_client.so
	install -m 644 build/libepmd_client.a $(DESTDIR)$(LIBRARIES)
	install -D -m 644 -t $(DESTDIR)$(INCLUDE) include/epmd_client.h
	install -D -m 644 -t $(DESTDIR)$(LIBRARIES)/pkgconfig contrib/epmd_client.pc
	install -D -m 644 -t $(DESTDIR)$(MAN)/man3 docs/epmd_client.3
	@$(call fill,$(LIBRARIES)/pkgconfig/epmd_client.pc)

# Removes what `install` has installed. On this machine the units are disabled and stopped first, and the port mapper of erlang-base then
# gets its socket back. That socket is unmasked, since the first version was started by masking it.
MANAGED = $(if $(DESTDIR),,$(shell command -v systemctl 2> /dev/null))

uninstall:
ifneq ($(MANAGED),)
	for unit in $(SERVICES); do systemctl disable --now $$unit 2> /dev/null || true; done
	systemctl reset-failed 'epmd-proved*' 2> /dev/null || true
	systemctl unmask epmd.socket 2> /dev/null || true
endif
	rm -f $(addprefix $(DESTDIR)$(UNITS)/,$(SERVICES) $(ADDED))
	rmdir $(addprefix $(DESTDIR)$(UNITS)/,$(dir $(ADDED))) 2> /dev/null || true
ifneq ($(MANAGED),)
	systemctl daemon-reload || true
	if [ -x $(LIB)/renew ] && systemctl is-active --quiet epmd.socket; then $(LIB)/renew; fi
endif
	rm -rf $(DESTDIR)$(LIB) $(DESTDIR)$(DOC)
	rm -f $(addprefix $(DESTDIR),$(addprefix $(BIN)/,$(COMMANDS)) $(addprefix $(MAN)/man1/,$(PAGES)))
	rm -f $(addprefix $(DESTDIR),$(addprefix $(BASH_COMPLETIONS)/,$(COMMANDS)) $(ZSH_COMPLETIONS)/_epmd)
	rm -f $(addprefix $(DESTDIR),$(LIBRARIES)/libepmd_client.* $(LIBRARIES)/pkgconfig/epmd_client.pc $(INCLUDE)/epmd_client.h $(MAN)/man3/epmd_client.3)
ifneq ($(MANAGED),)
	@if ! systemctl is-active --quiet epmd.socket; then \
	    echo 'To have the port mapper of erlang-base back, where that is installed:'; echo '    systemctl enable --now epmd.socket'; fi
endif

# Makes packages for Debian in build: of the program, and of the client for C.
deb:
	$(built)@contrib/deb

# Tests contrib and the pages, with python3 and no port mapper. Packages need dpkg-deb and strip. The client for C is tested if it is in
# build, with `cc`, `rustc` and a port mapper if they are there.
check-contrib:
	tests/run contrib/tests

# Tests the program from end to end, with python3: over sockets, files and signals, and at limits of this machine.
check-program: build/epmd
	tests/run tests

# Measures the program beside another port mapper, for about a minute, on ports of its own.
bench: build/epmd
	cc -O2 -Wall -Wextra -pthread -o build/bench bench/bench.c
	./build/bench $(OTHER) build/epmd

# A first check in minutes: stories, tests, cases of the simulation and tests of the pages, with nothing proved.
quick:
	$(toolchain)@tests/quick

# Tries the wrong bodies that the gate leaves out, with the proofs that are kept. Run it before a contract of their crate
# changes.
attack:
	$(toolchain)contrib/attack

# The gate. `rt ci` makes every proof from nothing, tries the must-fail edits, and runs the tests and the programs as two compilers build
# them. Then `make check-contrib`, `make check-program` and half of the failing calls run. The last line has the sums.
test:
	$(toolchain)tests/gate

# Tests of the program that take minutes, or need root, strace or valgrind, one class after another.
test-long: build/epmd
	tests/run -jobs 1 -seconds 3600 tests/slow

# Refuses each request for memory, one in each run, in the stories and in the tests of `refusals`. Makes each call of the system fail, one
# in each run, in the daemon. It takes minutes after the build.
faults: epmd
	(cd crates/stories && rt run) && python3 faults/rows.py crates/stories/out/stories crates/stories
	for crate in $(REFUSING); do \
	    (cd crates/$$crate && rt test -- refusals) && python3 faults/rows.py crates/$$crate/out/$${crate}_tests || exit 1; done
	python3 faults/calls.py build/epmd
