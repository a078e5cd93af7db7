# make check      the tests that need no prover: half a minute on four processors
# make prove      the gate: proves everything, with all tests and the edits that must be refused
# make install    installs the program as `hoopoelarder` below PREFIX, with its man page, completions and examples
# make uninstall  takes that away
PREFIX = /usr/local
name = hoopoelarder
lib = $(DESTDIR)$(PREFIX)/lib/$(name)
doc = $(DESTDIR)$(PREFIX)/share/doc/$(name)
man = $(DESTDIR)$(PREFIX)/share/man/man1
bash = $(DESTDIR)$(PREFIX)/share/bash-completion/completions
zsh = $(DESTDIR)$(PREFIX)/share/zsh/site-functions

.PHONY: check prove install uninstall

check:
	release/check
	.ci/boundaries
	.ci/layout
	bench/wrong_bodies.sh --read
	docs/check
	share/make --check
	examples/check

prove:
	.ci/run

install:
	release/check
	install -d $(lib)/share/cc $(lib)/share/pages $(lib)/share/look/page $(lib)/share/sweep $(DESTDIR)$(PREFIX)/bin $(man) $(bash) $(zsh) $(doc)/examples
	install -m 755 tcc release/tcc-x86_64-linux $(lib)
	install -m 644 VERSION release/manifest $(lib)
	install -m 755 share/launch $(lib)/share
	install -m 644 share/checked.sh share/hints.py share/progress.py share/words.py share/words.txt $(lib)/share
	install -m 644 share/pages/* $(lib)/share/pages
	install -m 644 share/look/*.py $(lib)/share/look
	install -m 644 share/look/page/* $(lib)/share/look/page
	install -m 644 share/sweep/*.py $(lib)/share/sweep
	install -m 755 share/cc/cc $(lib)/share/cc
	install -m 644 share/cc/*.[cSl]* examples/machine.h $(lib)/share/cc
	ln -sf ../lib/$(name)/tcc $(DESTDIR)$(PREFIX)/bin/$(name)
	install -m 644 share/$(name).1 $(man)
	install -m 644 share/completion.bash $(bash)/$(name)
	install -m 644 share/completion.zsh $(zsh)/_$(name)
	install -m 644 README.md LICENSE CHANGELOG.md docs/*.md $(doc)
	install -m 644 examples/*.c examples/*.s examples/*.bin examples/*.elf examples/machine.h $(doc)/examples
	cp -r examples/template examples/exercises examples/experiments examples/kernels examples/litmus $(doc)/examples
	cp -r docs/look docs/experiments $(doc)

uninstall:
	rm -rf $(lib) $(doc)
	rm -f $(DESTDIR)$(PREFIX)/bin/$(name) $(man)/$(name).1 $(bash)/$(name) $(zsh)/_$(name)
