# make              proves and builds the program and the library: minutes the first time, then only what changed
# make install      installs them under PREFIX=/usr/local (below DESTDIR, if set); first builds what is missing or out of date
# make uninstall    removes what `make install` put under the same PREFIX and DESTDIR
# make help         prints these lines
PREFIX ?= /usr/local
DESTDIR ?=
export PREFIX DESTDIR

PROGRAM = target/bin/plan
LIBRARY = target/staticlib/libplanner_c.a
VERSION := $(shell sed -n 's/^\#define PLANNER_VERSION "\(.*\)"$$/\1/p' include/planner.h)
INSTALLED = bin/plan libexec/beglavun/plan include/planner.h lib/libplanner_c.a lib/pkgconfig/planner.pc \
    share/man/man1/plan.1 share/bash-completion/completions/plan

.PHONY: all absolute install uninstall help

all:
	@scripts/build plan
	@scripts/build library

absolute:
	@case $$PREFIX in /*) ;; *) echo 'make: PREFIX must begin with /' >&2; exit 1 ;; esac

install: absolute all
	@test -n '$(VERSION)' || { echo 'make: include/planner.h has no PLANNER_VERSION' >&2; exit 1; }
	install -D -m 755 plan "$$DESTDIR$$PREFIX/bin/plan"
	install -D -m 755 $(PROGRAM) "$$DESTDIR$$PREFIX/libexec/beglavun/plan"
	install -D -m 644 include/planner.h "$$DESTDIR$$PREFIX/include/planner.h"
	install -D -m 644 $(LIBRARY) "$$DESTDIR$$PREFIX/lib/libplanner_c.a"
	{ printf 'prefix=%s\n' "$$PREFIX"; sed 's/@VERSION@/$(VERSION)/' share/pkgconfig/planner.pc.in; } | \
	    install -D -m 644 /dev/stdin "$$DESTDIR$$PREFIX/lib/pkgconfig/planner.pc"
	install -D -m 644 share/man/plan.1 "$$DESTDIR$$PREFIX/share/man/man1/plan.1"
	install -D -m 644 share/completions/plan.bash "$$DESTDIR$$PREFIX/share/bash-completion/completions/plan"

uninstall: absolute
	for file in $(INSTALLED); do rm -f "$$DESTDIR$$PREFIX/$$file" || exit 1; done
	rmdir "$$DESTDIR$$PREFIX/libexec/beglavun" 2>/dev/null || true

help:
	@sed -n 's/^# \(make .*\)/\1/p' Makefile
