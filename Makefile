# make            proves and builds the program; the first time this takes hours of one processor
# make check      passes the tests: the gate, the cases and the examples of the pages
# make install    puts the built program, its manual page and the pages under PREFIX; under DESTDIR/PREFIX for a package
PREFIX = /usr/local
DESTDIR =
PYTHON = python3
PROGRAM = crates/pdscript/out/pdscript
PUT = $(DESTDIR)$(PREFIX)

all:
	cd crates/pdscript && rt run -- ../../examples/first.pds first.csv=../../examples/first.csv

check:
	bash .ci/run

install:
	@test -x "$(PROGRAM)" || { echo 'the program is not built: make' >&2; exit 1; }
	install -d "$(PUT)/bin" "$(PUT)/share/man/man1" "$(PUT)/share/doc/pdscript"
	install -d "$(PUT)/share/bash-completion/completions" "$(PUT)/share/zsh/site-functions"
	install -m 755 "$(PROGRAM)" "$(PUT)/bin/pdscript"
	install -m 755 tools/why "$(PUT)/bin/pdscript-why"
	$(PYTHON) tools/manual > "$(PUT)/share/man/man1/pdscript.1"
	install -m 644 tools/completion.bash "$(PUT)/share/bash-completion/completions/pdscript"
	install -m 644 tools/completion.zsh "$(PUT)/share/zsh/site-functions/_pdscript"
	install -m 644 docs/*.md "$(PUT)/share/doc/pdscript"

uninstall:
	rm -f "$(PUT)/bin/pdscript" "$(PUT)/bin/pdscript-why" "$(PUT)/share/man/man1/pdscript.1"
	rm -f "$(PUT)/share/bash-completion/completions/pdscript" "$(PUT)/share/zsh/site-functions/_pdscript"
	rm -rf "$(PUT)/share/doc/pdscript"

.PHONY: all check install uninstall
