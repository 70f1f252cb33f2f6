# What can be made here; `make` alone prints it.
PREFIX = /usr/local
PROGRAM = crates/nx_cli/out/nx_cli
CRATE =
MODULE = out/live/navtex32.wasm

.PHONY: help check test ci bench live page install install-lib uninstall deb deb-arm64 deb-lib dist clean

help:
	@echo 'make check CRATE=nx_sync  prove one crate, and those below it that have changed'
	@echo 'make test                 run the tests without a proof, and what documents show: two to three minutes on two processors'
	@echo 'make ci                   the merge gate: all proofs, wrong bodies, tests, programs: hours'
	@echo 'make bench                measure the built program'
	@echo 'make page                 out/navtex.html, the receiver as a page for a browser; make live builds its module first'
	@echo 'make install              put the built program, man pages, completion, the tools for sound, a service and examples below PREFIX ($(PREFIX))'
	@echo 'make install-lib          put the built library for C, its header and navtex.pc there'
	@echo 'make uninstall            take them all away, but for the settings in /etc/default'
	@echo 'make deb                  a Debian package for x86-64, out/navtex_VERSION_amd64.deb: proves and builds the program for any such processor, and installs nothing'
	@echo 'make deb-arm64            the same for arm64, a Raspberry Pi among them'
	@echo 'make deb-lib              a Debian package of the built library for C, out/libnavtex-dev_VERSION_amd64.deb'
	@echo 'make dist                 proves, builds and makes all that lies ready made in dist/; ci/dist --check tries it'
	@echo 'make live                 the receiver without a heap for many machines, in out/live/; ci/live --check tries it'
	@echo 'make clean                remove what rt keeps and makes in out/'
	@echo "The program is built by (cd crates/nx_cli && rt run -- code), which proves it first."

check:
	@if [ ! -d 'crates/$(CRATE)/src' ] || [ -z '$(CRATE)' ]; then echo 'name a crate, as in: make check CRATE=nx_sync' >&2; exit 2; fi
	cd crates/$(CRATE) && rt check

test:
	ci/test

ci:
	.ci/run

bench:
	bench/listen
	bench/stream

page:
	@[ -f $(MODULE) ] || { echo 'there is no $(MODULE): make live proves and builds it' >&2; exit 1; }
	web/make $(MODULE) out/navtex.html

install:
	@[ -x $(PROGRAM) ] || { echo 'there is no $(PROGRAM): (cd crates/nx_cli && rt run -- code) proves and builds it' >&2; exit 1; }
	install -D -m 755 $(PROGRAM) $(DESTDIR)$(PREFIX)/bin/navtex
	package/files '$(PREFIX)' '$(DESTDIR)'

install-lib:
	package/library '$(PREFIX)' '$(DESTDIR)'

uninstall:
	rm -f $(DESTDIR)$(PREFIX)/include/navtex.h $(DESTDIR)$(PREFIX)/lib/pkgconfig/navtex.pc
	rm -f $(DESTDIR)$(PREFIX)/lib/libnavtex.a $(DESTDIR)$(PREFIX)/lib/libnavtex.so $(DESTDIR)$(PREFIX)/lib/libnavtex.so.2
	rm -f $(DESTDIR)$(PREFIX)/bin/navtex
	rm -f $(DESTDIR)$(PREFIX)/share/man/man1/navtex.1 $(DESTDIR)$(PREFIX)/share/man/man1/navtex-elements.1
	rm -f $(DESTDIR)$(PREFIX)/share/man/man1/navtex-tones.1 $(DESTDIR)$(PREFIX)/share/man/man8/navtex-watch.8
	rm -f $(DESTDIR)$(PREFIX)/share/man/man1/navtex-follow.1 $(DESTDIR)$(PREFIX)/share/man/man8/navtex-alarm.8
	for tool in '' -elements -tones -watch -follow -alarm; do rm -f $(DESTDIR)$(PREFIX)/share/bash-completion/completions/navtex$$tool $(DESTDIR)$(PREFIX)/share/fish/vendor_completions.d/navtex$$tool.fish; done
	rm -f $(DESTDIR)$(PREFIX)/share/zsh/site-functions/_navtex
	rm -rf $(DESTDIR)$(PREFIX)/lib/navtex
	rm -f $(DESTDIR)$(PREFIX)/bin/navtex-elements $(DESTDIR)$(PREFIX)/bin/navtex-tones $(DESTDIR)$(PREFIX)/bin/navtex-watch
	rm -f $(DESTDIR)$(PREFIX)/bin/navtex-follow $(DESTDIR)$(PREFIX)/bin/navtex-alarm
	rm -f $(DESTDIR)$(PREFIX)/lib/systemd/system/navtex-watch.service $(DESTDIR)$(PREFIX)/lib/systemd/system/navtex-alarm.service $(DESTDIR)$(PREFIX)/lib/systemd/system/navtex-page.service $(DESTDIR)$(PREFIX)/lib/sysusers.d/navtex.conf
	rm -rf $(DESTDIR)$(PREFIX)/share/doc/navtex

deb:
	package/object amd64
	package/deb amd64

deb-arm64:
	package/object arm64
	package/deb arm64

deb-lib:
	package/deb-library

# Begins only where each file is in a commit, whose number stands in dist/README.md.
dist:
	@[ -z "$$(git status --porcelain -- . ':!dist')" ] || { echo 'some files are in no commit: git status' >&2; exit 1; }
	package/object amd64 arm64
	ci/live --modules
	package/dist

live:
	ci/live

clean:
	rm -rf out crates/*/out
