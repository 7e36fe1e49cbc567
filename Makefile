# make                      prints these lines
# make install              proves and builds what is not built yet, and puts headers, static libraries, bufpool.pc, bufpool-show,
#                           bufpool-sizing with bufcost, and documents below PREFIX=/usr/local; with DESTDIR=stage below
#                           stage/usr/local, to be moved there later
# make uninstall            removes the files that install puts there, and nothing else; with the same PREFIX and DESTDIR
# make -C examples          proves and builds the pool and the till example, and runs it; examples/Makefile says what else there is
# make -C examples try      the till example over plain C that nothing proves, in seconds, without the toolchain

PREFIX = /usr/local
DESTDIR =

ifneq ($(words x$(PREFIX)x$(DESTDIR)x),1)
$(error PREFIX and DESTDIR are paths without spaces)
endif
override PREFIX := $(abspath $(PREFIX))
TO = $(DESTDIR)$(PREFIX)

# the number that a program and the library have in common
INTERFACE := $(shell sed -n 's/^.define BUFPOOL_INTERFACE \([0-9][0-9]*\)$$/\1/p' include/bufpool_calls.h)
HEADERS = $(wildcard include/*.h)
ARCHIVES = $(addprefix target/staticlib/,libbufpool.a libbufbooks.a libbuftag.a)
PROGRAMS = target/examples/bufpool-show target/bin/bufcost
# looks for bufcost beside itself
COMMANDS = tools/sizing/bufpool-sizing
# messages cite the rules; the other pages are for whoever writes, supports or sizes a till
DOCUMENTS = $(addprefix docs/,RULES.md C-API.md CALLS.md CAP.md HOLDERS.md BOXES.md CHECKSUMS.md LOOKING.md CARD.md SIZING.md sizing.svg) \
	examples/bakery.py
PC = lib/pkgconfig/bufpool.pc
DOC = share/doc/bufpool
INSTALLED = $(HEADERS) $(addprefix lib/,$(notdir $(ARCHIVES))) $(PC) $(addprefix bin/,$(notdir $(PROGRAMS) $(COMMANDS))) \
	$(addprefix $(DOC)/,$(notdir $(DOCUMENTS)))

.PHONY: help built install uninstall
help:
	@sed -n '/^$$/q; s/^# //p' Makefile

built:
	@$(MAKE) -s -C examples $(addprefix ../,$(ARCHIVES) $(PROGRAMS))

install: built
	@test -n '$(INTERFACE)' || { echo 'include/bufpool_calls.h does not say BUFPOOL_INTERFACE' >&2; exit 1; }
	@install -d $(TO)/include $(TO)/$(dir $(PC)) $(TO)/bin $(TO)/$(DOC)
	@install -m 644 $(HEADERS) $(TO)/include
	@install -m 644 $(ARCHIVES) $(TO)/lib
	@install -m 755 $(PROGRAMS) $(COMMANDS) $(TO)/bin
	@install -m 644 $(DOCUMENTS) $(TO)/$(DOC)
	@sed 's|@PREFIX@|$(PREFIX)|; s|@INTERFACE@|$(INTERFACE)|' packaging/bufpool.pc.in >$(TO)/$(PC)
	@chmod 644 $(TO)/$(PC)
	@echo 'installed below $(TO)'

uninstall:
	@rm -f $(addprefix $(TO)/,$(INSTALLED))
	@echo 'nothing of the pool is left below $(TO)'
