# make install PREFIX=/usr/local [DESTDIR=/tmp/root] [UNPROVED=yes]: copies the program, the scripts, their modules, the
# man page and the completions for bash. The program is built where it is not there: see docs/INSTALL.md.
PREFIX = /usr/local
to = $(DESTDIR)$(PREFIX)
scripts = racer-diff racer-history racer-html racer-packages racer-sarif racer-summary racer-try racer-witness
modules = $(wildcard $(foreach of,java_*.py package_*.py page.* page_* report_*.py script_*.py witness_*.py,tools/lib/$(of)))

.PHONY: install uninstall

install:
	program=$$(./racer $(if $(UNPROVED),--unproved) --program) && \
	mkdir -p $(to)/bin $(to)/lib/racer $(to)/share/racer $(to)/share/man/man1 $(to)/share/bash-completion/completions && \
	cp "$$program" $(to)/lib/racer/racer_cli
	cp racer $(scripts:%=tools/%) $(to)/bin
	cp $(modules) VERSION $(to)/share/racer
	./racer --version | sed 's/.*sources //' >$(to)/share/racer/DIGEST
	$(if $(UNPROVED),touch $(to)/share/racer/UNPROVED,rm -f $(to)/share/racer/UNPROVED)
	cp share/racer.1 $(to)/share/man/man1
	cp share/racer.bash $(to)/share/bash-completion/completions/racer
	cd $(to)/share/bash-completion/completions && for one in $(scripts); do ln -sf racer $$one; done

uninstall:
	rm -f $(to)/bin/racer $(scripts:%=$(to)/bin/%) $(to)/share/man/man1/racer.1
	rm -f $(to)/share/bash-completion/completions/racer $(scripts:%=$(to)/share/bash-completion/completions/%)
	rm -rf $(to)/lib/racer $(to)/share/racer
