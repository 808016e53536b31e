# Thin targets over the toolchain's command `rt`. See README.md.

.PHONY: help try build run sim test test-program soak growths bench counts install uninstall dist deb checksum

# The script of `make try`, and the settings file of `make run`.
SCRIPT ?= examples/one-direction.flow
CONFIG ?= examples/relayd.toml
# Where `make install` puts things, and the folder that stands for the root there.
PREFIX ?= /usr/local
DESTDIR ?=
# Where `make dist` and `make deb` put what they make.
OUT ?= build

PROGRAM = crates/relayd/out/relayd
# The version stands with the program that prints it.
VERSION = $(shell sed -n 's/^pub const VERSION: &str = "\(.*\)";$$/\1/p' crates/commands/src/command_line.rt)
ARCHIVE = $(OUT)/relayd-$(VERSION)-linux-x86_64.tar.gz
PACKAGE = $(OUT)/relayd_$(VERSION)_amd64.deb
# The date of what is in these: that of the commit, or without git(1) that of the file that names each version.
DATE = $${SOURCE_DATE_EPOCH:-$$(git -C $(CURDIR) log -1 --format=%ct 2>/dev/null || stat -c %Y $(CURDIR)/CHANGELOG.md)}

# A line that begins with two of these signs is printed by `make` on its own.
help:
	@command -v rt >/dev/null || echo 'The command `rt` of the Rattle toolchain is not in PATH. Without it nothing is built or' \
	  'tested; an archive or a package of a built relayd needs none (README.md).'
	@sed -n 's/^## //p' $(MAKEFILE_LIST)

## make try           runs examples/one-direction.flow, or SCRIPT=FILE, by a relayd that is built without proofs in two minutes
try:
	@echo 'Building relayd without proofs, which takes about two minutes.' >&2
	@{ said=$$(cd crates/relayd && rt try 2>&1 >&3 <"$(abspath $(SCRIPT))") || { echo "$$said" >&2; exit 1; }; } 3>&1
	@echo 'Nothing was proved: `make run` proves relayd, builds it, and forwards connections.'

## make build         proves and builds crates/relayd/out/relayd; takes some twenty minutes the first time
build:
	@.ci/build relayd

## make run           forwards connections as examples/relayd.toml says, or CONFIG=FILE
run: build
	@$(PROGRAM) run --config $(CONFIG)

## make sim           runs the script on standard input
sim: build
	@$(PROGRAM)

## make test          the gate: every proof and test from scratch, and the built program
test:
	@.ci/test

## make test-program  tests the built program as its users run it; part of the gate
test-program: build
	@tests/program/run $(PROGRAM)
	@tests/relay/run $(PROGRAM)
	@tests/packages $(PROGRAM)

## make soak          keeps a thousand connections of every kind going for ten minutes
soak: build
	@tests/soak $(PROGRAM)

## make growths       makes each memory allocation of the built tests and program fail in turn
# It needs a C compiler, and the crates' tests as the gate or `rt test` builds them.
growths: build
	@tests/growths/run

## make bench         compares the relay with other forwarders
bench: build
	@bench/run --relayd $(PROGRAM)

## make counts        counts instructions and system calls of the relay and of other forwarders
counts: build
	@bench/counts --relayd $(PROGRAM)

# Builds the program if there is none yet, so that root can install what another user has built.
$(PROGRAM):
	@.ci/build relayd

# What is installed: the folder below PREFIX, and the file here.
DOCUMENTS = share/doc/relayd
INSTALLED = $(addprefix bin:,$(PROGRAM) packaging/relayd-drain packaging/relayd-trace) \
  lib/systemd/system:packaging/relayd.service \
  $(addprefix share/man/man1:man/,relayd.1 relayd-drain.1 relayd-trace.1) share/man/man5:man/relayd.toml.5 \
  $(addprefix $(DOCUMENTS):,$(wildcard docs/*/* *.md LICENSE-*) packaging/copyright) \
  $(addprefix $(DOCUMENTS)/examples:,$(wildcard examples/*) \
    $(addprefix packaging/,deployment.yaml drain.conf relayd.default relayd.socket sidecar.yaml))
# What shells complete, which is made of the program's help.
COMPLETIONS = $(foreach it,relayd relayd-drain, \
  $(addprefix share/,bash-completion/completions:$(it) zsh/site-functions:_$(it) fish/vendor_completions.d:$(it).fish))
# The options of the unit, which are installed where there are none; an archive, that would replace them, has them not.
OPTIONS = $(if $(filter /usr /usr/local,$(PREFIX)),$(DESTDIR)/etc/default/relayd)

# What is installed names files by their full paths.
ifneq ($(filter install uninstall dist,$(MAKECMDGOALS)),)
ifneq ($(filter-out /%,$(firstword $(PREFIX))),)
$(error PREFIX=$(PREFIX) does not begin with a slash. Type: make $(MAKECMDGOALS) PREFIX=$(abspath $(PREFIX:~%=$(HOME)%)))
endif
endif

## make install       installs what make build has built under PREFIX=/usr/local, with DESTDIR in front
# What is installed names other files by where they are then.
install: $(PROGRAM)
	@for it in $(INSTALLED); do \
	  test -x "$${it#*:}" && mode=755 || mode=644; \
	  install -v -D -m $$mode -t "$(DESTDIR)$(PREFIX)/$${it%%:*}" "$${it#*:}" || exit 1; \
	done
	@test -z "$(OPTIONS)" || test -e "$(OPTIONS)" || install -v -D -m 644 packaging/relayd.default "$(OPTIONS)"
	@packaging/completions $(PROGRAM) "$(DESTDIR)$(PREFIX)" $(subst :,/,$(COMPLETIONS))
	@cd "$(DESTDIR)$(PREFIX)" && sed -i -e 's|/usr/local/|$(PREFIX)/|g' -e 's;\bdocs/[a-z]*/\([A-Z]*\.md\);\1;g' \
	  -e 's;`packaging/\([a-z]*\.\(conf\|default\|yaml\)\);`examples/\1;g' \
	  lib/systemd/system/relayd.service $(DOCUMENTS)/examples/*.conf $(DOCUMENTS)/*.md

## make uninstall     removes what make install has put there, with the same PREFIX and DESTDIR
# It leaves options of the unit that were changed, and takes folders that are empty then, but those that each prefix has.
uninstall:
	@test -z "$(OPTIONS)" || ! cmp -s packaging/relayd.default "$(OPTIONS)" || \
	  { rm -v "$(OPTIONS)"; rmdir --ignore-fail-on-non-empty "$(DESTDIR)/etc/default"; }
	@cd "$(DESTDIR)$(PREFIX)" && for it in $(INSTALLED) $(COMPLETIONS) $(DOCUMENTS):BUILD; do \
	  file=$${it#*:}; it=$${it%%:*}; rm -vf "$$it/$${file##*/}"; \
	  while case $$it in bin | lib | share | share/man) false ;; esac; do rmdir "$$it" 2>/dev/null || break; it=$${it%/*}; done; \
	done

# The file BUILD below a prefix: of which commit and with which toolchain the program is, and its checksum. A program older than
# its sources is built anew before, since it is not of that commit.
write_build = umask 022; cd $(1)/bin && { echo "relayd $(VERSION)"; \
  git -C $(CURDIR) describe --always --abbrev=40 --dirty --exclude '*'; rt version 2>/dev/null || echo 'no toolchain here'; \
  sha256sum relayd; } > ../$(DOCUMENTS)/BUILD

## make checksum      prints the checksum of the program, and whether CHANGELOG.md names it
checksum: build
	@sha256sum $(PROGRAM)
	@grep -q "$$(sha256sum < $(PROGRAM) | cut -c -64)" CHANGELOG.md || echo 'CHANGELOG.md does not name it.'

## make dist          makes an archive of what make install installs, build/relayd-VERSION-linux-x86_64.tar.gz
# It is for machines without the toolchain. The same commit gives the same archive, whatever the umask and the locale are.
dist: build
	rm -rf $(OUT)/dist $(OUT)/relayd-*.tar.gz
	@$(MAKE) --no-print-directory install DESTDIR=$(OUT)/dist OPTIONS= >/dev/null
	@$(call write_build,$(OUT)/dist$(PREFIX))
	cd $(OUT)/dist && find . -mindepth 1 -print0 | LC_ALL=C sort -z \
	  | tar --null --no-recursion -T - --owner=0 --group=0 --numeric-owner --mtime=@$(DATE) -cf - | gzip -n9 > $(abspath $(ARCHIVE))
	@echo $(ARCHIVE)

## make deb           makes a Debian package, build/relayd_VERSION_amd64.deb, of CONTACT='NAME <MAIL>' and HOMEPAGE=URL, if set
deb: build
	rm -rf $(OUT)/deb $(OUT)/relayd_*.deb
	@$(MAKE) --no-print-directory install PREFIX=/usr DESTDIR=$(OUT)/deb >/dev/null
	@$(call write_build,$(OUT)/deb/usr)
	SOURCE_DATE_EPOCH=$(DATE) packaging/deb $(OUT)/deb $(VERSION) $(PACKAGE)
	@echo $(PACKAGE)
