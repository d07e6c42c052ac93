# make demo   shows the main job from the sources, in 2 to 5 minutes, and proves nothing: a captured stream is replayed
#             into a new database, whose rows and executed set are shown
# make        proves and builds mrep, puts it at bin/mrep, and runs it on a sample. What it has proved is not proved again
#             by `make test` where the toolchain keeps it, as rattle-kit-13f does and rattle-kit-13b does not. Both say at
#             their start, and after each crate, about how long they take
# make install, make uninstall
#             puts bin/mrep, mrep-proxy, their manual pages, completions, the pages and systemd units below PREFIX
#             (/usr/local), with DESTDIR before it; and removes them
# make dist, make deb
#             put bin/mrep and all that belongs to it into a tarball, and into a Debian package (needs dpkg-deb), in bin/; the same
#             bytes from the same commit
# make test   runs the whole gate, tests/run: every proof, beside them the wrong bodies, and then, with the program that was
#             built, every other folder of tests/ that has a `run`. Before it, as root on Debian, it installs
#             python3-zstandard where that is missing
# make mutants, make record
#             tries all wrong bodies; tries those that tests/prover/refused does not have as they are, and writes it. Both
#             prove first what is not proved yet
# make power  looks at what a power failure may leave of the files of each command: thousands of states, for some minutes, where
#             make test looks at some hundred (needs strace)
# make bench  times mrep, the sets and the transactions against plain Rust programs that do the same jobs, the store
#             against the C library of SQLite, a whole replay against a C program, and mrep over twice and four times as
#             much (needs rustc; the store also python3, the replay cc and the library of SQLite)

.PHONY: all build demo install uninstall dist deb test mutants record power bench

PREFIX = /usr/local
DESTDIR =
PROGRAM = bin/mrep

all: build
	rm -f bin/sample.db bin/sample.db-wal
	bin/mrep replay --db bin/sample.db samples/shop.bin
	bin/mrep show --db bin/sample.db --columns samples/shop.columns --only shop.items --format tsv
	bin/mrep gtids --db bin/sample.db

build:
	scripts/build

demo:
	scripts/demo

install:
	scripts/install "$(PROGRAM)" "$(PREFIX)" "$(DESTDIR)"

uninstall:
	scripts/install --remove "$(PROGRAM)" "$(PREFIX)" "$(DESTDIR)"

dist deb:
	scripts/$@ "$(PROGRAM)" bin

test:
	scripts/zstandard
	tests/run

mutants:
	tests/run --all

record:
	tests/run --record

power: build
	tests/hostile/power/run "$(PROGRAM)" 100 1 prefix ext4 zeros posix bytes

bench: build
	bench/run
