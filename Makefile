# make: proves the crates that the program is made of, side by side, and builds it (bench/build.py), if it is not built yet.
# make test: all tests, without any proof, in some minutes.
# make install PREFIX=$HOME/.local: puts the program, its completions for bash, zsh and fish, and its man page in place.
# make dist: dist/nursery-VERSION-x86_64-linux.tar.gz, with what is installed, README, licences, documents and examples.
# make release-check: tries the must-fail edits that the gate does not try, for some hours.

PREFIX ?= /usr/local
PROGRAM = crates/nursery/out/nursery
ROOT = $(DESTDIR)$(PREFIX)
BASH = $(ROOT)/share/bash-completion/completions
ZSH = $(ROOT)/share/zsh/site-functions
FISH = $(ROOT)/share/fish/vendor_completions.d
MAN = $(ROOT)/share/man/man1
VERSION = $(shell sed -n 's/^pub const VERSION.*"\(.*\)";/\1/p' crates/cli/src/parser.rt)
DIST_DIR ?= dist
RELEASE = nursery-$(VERSION)-x86_64-linux

.PHONY: all test release-check install uninstall dist

all: $(PROGRAM)

test:
	python3 tests/quick.py

release-check:
	python3 bench/build.py
	python3 tests/edits/try.py

install: $(PROGRAM)
	install -d $(ROOT)/bin $(BASH) $(ZSH) $(FISH) $(MAN)
	install -m 755 $(PROGRAM) $(ROOT)/bin/nursery
	$(PROGRAM) completions bash > $(BASH)/nursery
	$(PROGRAM) completions zsh > $(ZSH)/_nursery
	$(PROGRAM) completions fish > $(FISH)/nursery.fish
	$(PROGRAM) man > $(MAN)/nursery.1

uninstall:
	rm -f $(ROOT)/bin/nursery $(BASH)/nursery $(ZSH)/_nursery $(FISH)/nursery.fish $(MAN)/nursery.1

dist: $(PROGRAM)
	rm -rf $(DIST_DIR)/$(RELEASE)
	$(MAKE) -s install DESTDIR= PREFIX=$(abspath $(DIST_DIR))/$(RELEASE)
	cp -r README.md CHANGELOG.md LICENSE-APACHE LICENSE-MIT docs examples $(DIST_DIR)/$(RELEASE)
	tar --sort=name --owner=0 --group=0 --numeric-owner -C $(DIST_DIR) -czf $(DIST_DIR)/$(RELEASE).tar.gz $(RELEASE)
	rm -r $(DIST_DIR)/$(RELEASE)

$(PROGRAM):
	python3 bench/build.py
