# Installs both programs of these sources (scripts/program.sh) with their manual pages, the pages that these cite, the
# integrations, completions for three shells, and the commands of the Python package, which need Python 3.9 or later when they run; and the
# library for C, if dist/ has one of these sources. It doesn't build the programs: scripts/build.sh does, if the kit is there.
PREFIX = /usr/local
DESTDIR =
PROGRAM = rst2pseudoxml
MANPAGE = $(PROGRAM).1
STATIC = yes

share = $(DESTDIR)$(PREFIX)/share
own = $(PREFIX)/share/rst2pseudoxml
bin = $(DESTDIR)$(PREFIX)/bin
man = $(share)/man/man1
bash = $(share)/bash-completion/completions
zsh = $(share)/zsh/site-functions/_$(PROGRAM)
fish = $(share)/fish/vendor_completions.d
installed = "$(man)/$(MANPAGE)" "$(man)/rst-tree.1" "$(bash)/$(PROGRAM)" "$(bash)/rst-tree" "$(zsh)" "$(fish)/$(PROGRAM).fish" "$(fish)/rst-tree.fish"
library = $(DESTDIR)$(PREFIX)/lib
include = $(DESTDIR)$(PREFIX)/include
scripts = check-pages.sh check-trees.sh
files = flycheck-rst2pseudoxml.el vscode-tasks.json
pages = docs/PROFILE.md docs/DOCUTILS.md docs/INTEGRATIONS.md docs/LIBRARY.md
commands = check lsp view

# What is installed runs the program that is installed with it.
named = sed \
	-e 's|^\( *program=\)rst2pseudoxml$$|\1"$(PREFIX)/bin/$(PROGRAM)"|' \
	-e 's|:command ("rst2pseudoxml"|:command ("$(PREFIX)/bin/$(PROGRAM)"|' \
	-e 's|"rst-check"|"$(PREFIX)/bin/rst-check"|' \
	-e 's|"$$here/../python/src"|"$$here/python"|' \
	-e 's|^\(.compdef\) rst2pseudoxml |\1 $(PROGRAM) |' \
	-e 's|^\(set -l program\) rst2pseudoxml|\1 $(PROGRAM)|' \
	-e 's|^\(complete -F _rst2pseudoxml\) rst2pseudoxml|\1 $(PROGRAM)|'

help:
	@echo 'make install      installs $(PROGRAM) and rst-tree below $(DESTDIR)$(PREFIX)'
	@echo 'make install-library    installs the library for C alone, with its header'
	@echo 'make uninstall    removes what was installed there'
	@echo 'make wheel        renews the wheel of the Python package in dist/'
	@echo 'make dist         makes a tarball of the last commit, whose name has the version'
	@echo 'make check        proves and tests everything, which takes the kit and an hour or more'
	@echo 'PREFIX is /usr/local if not given; DESTDIR, if given, is put before it. PROGRAM names the first program'
	@echo '(rst2pseudoxml if not given, as in the package of Docutils), and MANPAGE its page ($(MANPAGE)).'
	@echo 'The static programs are installed if there are any; with STATIC=no those that need the C library of the system.'

install:
	[ "$(STATIC)" = no ] || set -- --static; \
	program=$$(scripts/program.sh "$$@") && tree=$$(scripts/program.sh "$$@" rst-tree) && \
	mkdir -p "$(bin)" "$(man)" "$(DESTDIR)$(own)" "$(share)/doc/rst2pseudoxml/profile" && \
	mkdir -p "$(bash)" "$$(dirname "$(zsh)")" "$(fish)" && \
	rm -f "$(bin)/$(PROGRAM)" "$(bin)/rst-tree" && cp "$$program" "$(bin)/$(PROGRAM)" && cp "$$tree" "$(bin)/rst-tree" && \
	chmod 755 "$(bin)/$(PROGRAM)" "$(bin)/rst-tree"
	sed -e 's|^rst2pseudoxml|$(PROGRAM)|' -e 's|\([^/]\)rst2pseudoxml|\1$(PROGRAM)|g' -e 's|/usr/local|$(PREFIX)|g' docs/rst2pseudoxml.1 >"$(man)/$(MANPAGE)"
	sed -e '2,$$s|\([^/]\)rst2pseudoxml|\1$(PROGRAM)|g' -e 's|/usr/local|$(PREFIX)|g' docs/rst-tree.1 >"$(man)/rst-tree.1"
	$(named) completion/_rst2pseudoxml >"$(zsh)"
	for name in $(PROGRAM) rst-tree; do \
		$(named) completion/rst2pseudoxml.bash >"$(bash)/$$name" && $(named) completion/rst2pseudoxml.fish >"$(fish)/$$name.fish" || exit; \
	done
	for file in $(scripts) $(files); do $(named) "integrations/$$file" >"$(DESTDIR)$(own)/$$file" || exit; done
	(cd python/src && find rst2pseudoxml ! -name '*.pyc' ! -name '*.c' ! -type d) | while read -r file; do \
		mkdir -p "$(DESTDIR)$(own)/python/$$(dirname "$$file")" && cp "python/src/$$file" "$(DESTDIR)$(own)/python/$$file" || exit; \
	done
	cp dist/librst2pseudoxml.so "$(DESTDIR)$(own)/python/rst2pseudoxml"
	[ ! -e dist/_records.abi3.so ] || cp dist/_records.abi3.so "$(DESTDIR)$(own)/python/rst2pseudoxml"
	cd "$(bin)" && for name in $(commands); do \
		printf '%s\n' '#!/usr/bin/env python3' 'import sys' 'sys.path[0] = "$(own)/python"' "from rst2pseudoxml.$$name import main" 'sys.exit(main())' >"rst-$$name" && \
		chmod 755 "rst-$$name" || exit; \
	done
	find "$(DESTDIR)$(own)/python" -type f -exec chmod 644 {} +
	cp $(pages) "$(share)/doc/rst2pseudoxml"
	cp docs/profile/*.md "$(share)/doc/rst2pseudoxml/profile"
	cd "$(share)/doc/rst2pseudoxml" && chmod 644 *.md profile/*.md
	cd "$(DESTDIR)$(own)" && chmod 644 $(files) && chmod 755 $(scripts)
	chmod 644 $(installed)
	! grep -qxs "library $$(scripts/digest.sh library)" dist/BUILT || $(MAKE) -s install-library

# Programs are linked with the name librst2pseudoxml.so, and find the library by that of its interface.
install-library:
	mkdir -p "$(include)" "$(library)/pkgconfig"
	cp include/rst2pseudoxml.h "$(include)"
	rm -f "$(library)/librst2pseudoxml.so.1"
	cp dist/librst2pseudoxml.a "$(library)"
	cp dist/librst2pseudoxml.so "$(library)/librst2pseudoxml.so.1"
	ln -sf librst2pseudoxml.so.1 "$(library)/librst2pseudoxml.so"
	version=$$(sed -n 's/^\.TH .* "rst2pseudoxml \([0-9.]*\)".*/\1/p' docs/rst2pseudoxml.1) && \
	printf '%s\n' 'prefix=$(PREFIX)' 'Name: rst2pseudoxml' 'Description: reads reStructuredText' "Version: $$version" \
	  'Cflags: -I$${prefix}/include' 'Libs: -L$${prefix}/lib -lrst2pseudoxml' >"$(library)/pkgconfig/rst2pseudoxml.pc"
	chmod 644 "$(library)/librst2pseudoxml.a" "$(library)/pkgconfig/rst2pseudoxml.pc" "$(include)/rst2pseudoxml.h"
	chmod 755 "$(library)/librst2pseudoxml.so.1"

uninstall:
	rm -f "$(bin)/$(PROGRAM)" "$(bin)/rst-tree" $(installed)
	for name in $(commands); do rm -f "$(bin)/rst-$$name"; done
	rm -rf "$(DESTDIR)$(own)" "$(share)/doc/rst2pseudoxml"
	cd "$(library)" 2>/dev/null && rm -f librst2pseudoxml.a librst2pseudoxml.so librst2pseudoxml.so.1 pkgconfig/rst2pseudoxml.pc || true
	rm -f "$(include)/rst2pseudoxml.h"

wheel:
	scripts/wheel.sh

dist:
	name=rst2pseudoxml-$$(sed -n 's/^\.TH .* "rst2pseudoxml \([0-9.]*\)".*/\1/p' docs/rst2pseudoxml.1) && \
	git archive --prefix="$$name/" -o "$$name.tar.gz" HEAD && \
	echo "$$name.tar.gz"

check:
	./check

.PHONY: help install install-library uninstall wheel dist check
