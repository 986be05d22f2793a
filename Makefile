# make install PREFIX=/usr/local    the program, the commands, their pages, and completion for bash (DESTDIR is put before)
# make uninstall                    takes them away
# make test                         every check that needs no proof, over the program of dist/ or SCCS_PROGRAM
# make check                        the gate: every proof, every refused edit and every test, from nothing
# make dist                         the release: sccs-VERSION.tar.gz, the same bytes each time
# make deb                          a Debian package of the program of dist/, the same bytes each time

PREFIX = /usr/local
DESTDIR =
# the program to be installed, where it isn't that of dist/ or the one that is built
SCCS_PROGRAM ?=
export PREFIX DESTDIR SCCS_PROGRAM

help:
	@sed -n 's/^# //p' Makefile | head -n 6

check:
	.ci/run

test:
	@tools/test

dist deb:
	@tools/release $@

install:
	@tools/install

uninstall:
	@tools/install -u

.PHONY: help check test dist deb install uninstall
