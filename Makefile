# Installs everything: the C library, the programs with their manuals and completions, and the Rattle crates.
#
#     make install PREFIX=..            all of it; what is not built yet is proved and built first (DESTDIR is heeded)
#     make install-c PREFIX=..          the C library, with curses.h
#     make install-programs PREFIX=..   the programs, manuals and completions
#     make install-crates PREFIX=..     the crates that a program in Rattle may use, and their lines of crates.txt
#     make uninstall PREFIX=..          removes what these put there
#
# Names that other packages use too, `tic` and `edit`, go to folders of their own below huttavel/, as curses.h does.

PREFIX ?= /usr/local
TO = $(DESTDIR)$(PREFIX)
# Programs by names of their own, and those that share their names with others' programs.
OWN = screendemo explain_terminal
SHARED = tic edit
# The crates that README.md recommends; those below them come along.
CRATES = terminal screen_sessions ti_extended ti_compile edit_text

help:
	@sed -n 's/^#     //p' Makefile

install: install-c install-programs install-crates

install-c:
	$(MAKE) -C c install install-curses

# `rt run` proves and builds a program, and runs it once.
crates/tic/out/tic:
	cd crates/tic && rt run -- -c - < ../../examples/tiny.ti > /dev/null
crates/edit/out/edit:
	cd crates/edit && rt run -- --script --utf8 new.txt < stdin > /dev/null
crates/screendemo/out/screendemo:
	cd crates/screendemo && rt run < ../../examples/hello.script > /dev/null
crates/explain_terminal/out/explain_terminal:
	cd crates/explain_terminal && rt run -- xterm > /dev/null

programs: $(foreach each,$(OWN) $(SHARED),crates/$(each)/out/$(each))

install-programs: programs
	install -d $(TO)/bin $(TO)/share/man/man1 $(TO)/lib/huttavel/bin $(TO)/share/huttavel/man/man1
	install -m 755 run-on-terminal $(foreach each,$(OWN),crates/$(each)/out/$(each)) $(TO)/bin
	install -m 644 man/run-on-terminal.1 $(OWN:%=man/%.1) $(TO)/share/man/man1
	install -m 755 $(foreach each,$(SHARED),crates/$(each)/out/$(each)) $(TO)/lib/huttavel/bin
	install -m 644 $(SHARED:%=man/%.1) $(TO)/share/huttavel/man/man1
	install -d $(TO)/share/bash-completion/completions $(TO)/share/zsh/site-functions \
	    $(TO)/share/fish/vendor_completions.d $(TO)/share/huttavel/completions
	for each in $(OWN); do \
	    install -m 644 completions/$$each.bash $(TO)/share/bash-completion/completions/$$each || exit; \
	    install -m 644 completions/_$$each $(TO)/share/zsh/site-functions || exit; \
	    install -m 644 completions/$$each.fish $(TO)/share/fish/vendor_completions.d || exit; \
	done
	for each in $(SHARED); do \
	    install -m 644 completions/$$each.bash completions/_$$each completions/$$each.fish \
	        $(TO)/share/huttavel/completions || exit; \
	done

# The names of the crates and of all libraries of this repository below them.
CLOSED = $$(awk -v wanted='$(CRATES)' -F: '/^[a-z]/ { split($$1, name, " "); below[name[1]] = $$2 } \
    END { count = split(wanted, next_ones, " "); \
        for (i = 1; i <= count; i++) if (next_ones[i] in below && !seen[next_ones[i]]++) { print next_ones[i]; \
            more = split(below[next_ones[i]], others, " "); \
            for (j = 1; j <= more; j++) next_ones[++count] = others[j] } \
    }' crates.txt)

install-crates:
	rm -rf $(TO)/share/huttavel/crates
	install -d $(TO)/share/huttavel/crates
	for each in $(CLOSED); do \
	    mkdir $(TO)/share/huttavel/crates/$$each || exit; \
	    for part in src specs proofs; do \
	        [ ! -d crates/$$each/$$part ] || cp -R crates/$$each/$$part $(TO)/share/huttavel/crates/$$each || exit; \
	    done; \
	    grep "^$$each:" crates.txt || exit; \
	done > $(TO)/share/huttavel/crates.txt

uninstall:
	$(MAKE) -C c uninstall uninstall-curses
	rm -f $(TO)/bin/run-on-terminal $(OWN:%=$(TO)/bin/%) $(SHARED:%=$(TO)/lib/huttavel/bin/%)
	rm -f $(TO)/share/man/man1/run-on-terminal.1 $(OWN:%=$(TO)/share/man/man1/%.1)
	rm -f $(SHARED:%=$(TO)/share/huttavel/man/man1/%.1)
	rm -f $(OWN:%=$(TO)/share/bash-completion/completions/%) $(OWN:%=$(TO)/share/zsh/site-functions/_%)
	rm -f $(OWN:%=$(TO)/share/fish/vendor_completions.d/%.fish)
	rm -rf $(TO)/share/huttavel/crates $(TO)/share/huttavel/crates.txt $(TO)/share/huttavel/completions
	-rmdir $(TO)/lib/huttavel/bin $(TO)/lib/huttavel
	-rmdir $(TO)/share/huttavel/man/man1 $(TO)/share/huttavel/man $(TO)/share/huttavel

.PHONY: help install install-c programs install-programs install-crates uninstall
