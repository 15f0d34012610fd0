# Installs the program, the tools, the client, the pages of the manual and the completion.
#
#   make                              proves and builds pink and pinkdump (build.sh)
#   make install PREFIX=/usr/local    DESTDIR=.. for a package
#   make install PINK=FILE PINKDUMP=FILE   programs that were built elsewhere; an empty PINKDUMP= installs pink alone
#   make install-tools                pinkctl and the client without programs
#   make uninstall PREFIX=/usr/local
#
# What is installed lies in PREFIX/lib/cezhandru in the layout of this repository; PREFIX/bin has links to the launchers there.

PREFIX = /usr/local
DESTDIR =
INSTALL = install

root = $(DESTDIR)$(PREFIX)
home = $(root)/lib/cezhandru
tools = pink pinkdump pinkctl
PINK = crates/pink/out/pink
PINKDUMP = crates/pinkdump/out/pinkdump
pages = $(wildcard docs/*.1)
completion = $(root)/share/bash-completion/completions

.PHONY: all install install-tools uninstall

all: $(PINK) $(PINKDUMP)

crates/pink/out/pink:
	./build.sh pink

crates/pinkdump/out/pinkdump:
	./build.sh pinkdump

install: $(PINK) $(PINKDUMP) install-tools
	$(INSTALL) -d $(home)/crates/pink/out $(home)/crates/pinkdump/out
	$(INSTALL) -p -m 755 $(PINK) $(home)/crates/pink/out/pink
	[ -z "$(PINKDUMP)" ] || $(INSTALL) -p -m 755 $(PINKDUMP) $(home)/crates/pinkdump/out/pinkdump

install-tools:
	$(INSTALL) -d $(root)/bin $(root)/share/man/man1 $(completion) $(home)/docs $(home)/launch $(home)/clients/python/pinkctl
	$(INSTALL) -m 755 $(tools) $(home)
	$(INSTALL) -m 644 launch/run.sh launch/pair.sh launch/why.sh $(home)/launch
	$(INSTALL) -m 644 docs/words.txt $(home)/docs
	$(INSTALL) -m 644 clients/python/pinkdrive.py clients/python/pinkmirror.py $(home)/clients/python
	$(INSTALL) -m 644 clients/python/pinkctl/*.py $(home)/clients/python/pinkctl
	./pink --version | sed 's/^pink //; s/, program .*//' >$(home)/VERSION
	for it in $(tools); do ln -sf ../lib/cezhandru/$$it $(root)/bin/$$it || exit 1; done
	$(INSTALL) -m 644 $(pages) $(root)/share/man/man1
	for it in $(tools); do [ ! -f docs/$$it.bash ] || $(INSTALL) -m 644 docs/$$it.bash $(completion)/$$it || exit 1; done

uninstall:
	rm -rf $(home)
	rm -f $(addprefix $(root)/bin/,$(tools)) $(addprefix $(completion)/,$(tools))
	rm -f $(addprefix $(root)/share/man/man1/,$(notdir $(pages)))
