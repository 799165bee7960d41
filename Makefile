# make demo        document 01's example summarized whole and from two pieces, where two halls' records part, a night of an idle shaper in runs, and a cluster's heartbeat beside a bulk copy, by the command rpr; a minute of a station's life, and the same heartbeats, by hosts in C
# make test        proves every crate, tries the must-fail edits, runs the programs, then everything outside the crates; the last line is N passed, M failed
# make install     puts the command rpr, the libraries, their headers, the man pages and an example under PREFIX (/usr/local), the libraries in LIBDIR (PREFIX/lib), all within DESTDIR; CC, CPPFLAGS, CFLAGS and LDFLAGS are heard
# make uninstall   takes them away again
# make bench       ns per call of the libraries and ns per event of the commands, beside plain C that does the same work; fails where one is above its bound
# make picture     draws docs/methods.svg anew, both methods over the same congested minute, from the library's answers
# make expect      writes anew what the programs are expected to print, by the independent model
# make soak        the differential tests, with another SEED (1) and as many CALLS (1000000) as you like
# make fuzz        random and damaged calls on the libraries for SECONDS (60) seconds, led by the branches that it takes; what it finds stays in fuzz/, for later runs
# make clean       removes what was built, and leaves fuzz/
.PHONY: list demo test install uninstall bench picture expect soak fuzz clean
PREFIX ?= /usr/local
LIBDIR ?= $(PREFIX)/lib
DESTDIR ?=
SEED ?= 1
CALLS ?= 1000000
SECONDS ?= 60

list:
	@sed -n 's/^# make/make/p' Makefile

demo:
	tools/demo

test:
	tools/test

install:
	@PREFIX="$(PREFIX)" LIBDIR="$(LIBDIR)" DESTDIR="$(DESTDIR)" tools/install

uninstall:
	@PREFIX="$(PREFIX)" LIBDIR="$(LIBDIR)" DESTDIR="$(DESTDIR)" tools/install --remove

bench:
	tools/bench

picture:
	tools/picture --write

expect:
	tools/expect --write

soak:
	tools/soak $(SEED) $(CALLS)

fuzz:
	tools/fuzz $(SECONDS)

clean:
	rm -rf target host/model/target crates/*/out
