# make test      the one test command: proves every crate, then runs the host's tests
# make run       shows the demo, or says what is there
# make lib       the archive and the header, in build/lib and build/include
# make build     the same, and the program, in build/bin
# make install   archive, header, pkg-config file and program, under PREFIX; builds them unless build/ is up to date
# make fuzz      random calls with new seeds until stopped; REPLAY=file runs a failing sequence again; PICKS=number runs the word picker
# make bench     the library measured beside the reference
.PHONY: test run lib build install fuzz bench

PREFIX ?= /usr/local

test:
	@bash scripts/test

run:
	@bash scripts/run

lib:
	@bash scripts/lib

build:
	@bash scripts/build

install:
	@PREFIX='$(PREFIX)' DESTDIR='$(DESTDIR)' bash scripts/install

fuzz:
	@REPLAY='$(REPLAY)' SEED='$(SEED)' CALLS='$(CALLS)' PICKS='$(PICKS)' CASE='$(CASE)' bash scripts/fuzz

bench:
	@bash scripts/bench
