# Builds, proves and installs bolgwyr. docs/install.md says more.
PREFIX ?= /usr/local
DESTDIR ?=

.PHONY: all prove install uninstall deb clean

# Programs without a proof, but for those that are proved already.
all:
	@python3 tools/programs/build.py report_main tools_main >/dev/null

prove:
	@python3 tools/programs/prove.py report_main tools_main

install: all
	@tools/install/install.sh '$(DESTDIR)' '$(PREFIX)'

uninstall:
	@tools/install/uninstall.sh '$(DESTDIR)' '$(PREFIX)'

deb: all
	@tools/install/package.sh

# What was made here goes. The programs are proved and built anew by the next call that wants them.
clean:
	@rm -rf out crates/*/out
