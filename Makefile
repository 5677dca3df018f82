# make            proves and builds the program lapd, with progress (about 35 minutes on four cores the first time, 3 GB of disk), and lapd-line
# make test       runs the tests from source, before any proof; make test-long runs the long ones, with drawn inputs
# make check      proves everything, runs all tests and tries the must-fail edits: the gate
# make check-papers   checks what needs no program: documents, manual, laws, English, edits, towers
# make check-program  runs the program that `make` built: statuses, examples, sides, pages, captures
# make install    installs what `make` built: programs, manual pages and completions, under DESTDIR and PREFIX
# make uninstall  removes them
# make clean      removes what was built in this clone
# make -C c line  builds only lapd-line, for D channels, by a C compiler
# make -C c       proves and builds liblapd for C
# make help       prints this
# Each of these is a command below, or a script of tools/ with -h for its usage.

PREFIX = /usr/local
PROGRAM = crates/lapd_cli/out/lapd_cli
TO = $(DESTDIR)$(PREFIX)
SHARE = $(TO)/share
INSTALLED = $(TO)/bin/lapd $(SHARE)/man/man1/lapd.1 $(SHARE)/bash-completion/completions/lapd \
	$(SHARE)/zsh/site-functions/_lapd $(SHARE)/fish/vendor_completions.d/lapd.fish \
	$(TO)/bin/lapd-line $(SHARE)/man/man1/lapd-line.1

all:
	@tools/prove
	@if $(CC) --version >/dev/null 2>&1; then $(MAKE) -s -C c line; \
		else echo "lapd-line is not built, since there is no C compiler $(CC); lapd needs none" >&2; fi

test:
	@tools/test

test-long:
	@tools/test --long

check:
	rt ci

check-papers:
	@tools/check papers

check-program:
	@tools/check --program $(PROGRAM) program

install:
	@test -x $(PROGRAM) || { echo "the program is not built; run make first" >&2; exit 1; }
	install -D -m 755 $(PROGRAM) $(TO)/bin/lapd
	install -D -m 644 docs/lapd.1 $(SHARE)/man/man1/lapd.1
	install -D -m 644 completions/lapd.bash $(SHARE)/bash-completion/completions/lapd
	install -D -m 644 completions/_lapd $(SHARE)/zsh/site-functions/_lapd
	install -D -m 644 completions/lapd.fish $(SHARE)/fish/vendor_completions.d/lapd.fish
	@if ! test -x c/out/lapd-line; then echo "lapd-line is not installed, since it is not built: make -C c line" >&2; \
		else set -x; install -D -m 755 c/out/lapd-line $(TO)/bin/lapd-line; \
		install -D -m 644 docs/lapd-line.1 $(SHARE)/man/man1/lapd-line.1; fi

uninstall:
	rm -f $(INSTALLED)

clean:
	rm -rf crates/*/out c/out c/libpri/out

help:
	@sed -n 's/^# //p' Makefile

.PHONY: all test test-long check check-papers check-program install uninstall clean help
