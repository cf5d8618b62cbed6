# make                          sets up everything and makes the record of the sample reel, sample.record
# make test                     passes all the tests; the last line is the gate's count
# make install PREFIX=/usr/local   installs the command, the library, the header, a pkg-config file and the man page
# make clean                    removes what was made
#
# What is made stands in build/. The folder out/ of each crate is the kit's own, and the gate takes what was built out of it. A step is a
# line with its seconds; build/make.log has all that was said.

PREFIX = /usr/local
BINDIR = $(PREFIX)/bin
LIBDIR = $(PREFIX)/lib
INCLUDEDIR = $(PREFIX)/include
MANDIR = $(PREFIX)/share/man

VERSION := $(shell sed -n 's/^version = "\(.*\)"$$/\1/p' cli/Cargo.toml)
PROVED := crates.txt $(shell find crates.txt $(wildcard crates/*/src crates/*/specs crates/*/proofs) -name '*.rt' -o -name '*.antt')
COMMAND := cli/Cargo.toml cli/Cargo.lock cli/build.rs $(wildcard cli/src/*.rs)
STEP = sh tools/step build/make.log

.PHONY: all test install clean ready
.NOTPARALLEL:
.SUFFIXES:

all: sample.record build/check_reel
	@echo 'sample.record is the record of examples/sample.sgy. What to do next:'
	@echo '  build/aukpocket info sample.record                         say what it holds'
	@echo '  build/aukpocket verify examples/sample.sgy sample.record   compare it with its reel'
	@echo '  build/aukpocket --help                                     say what else there is'
	@echo '  make test                                                  prove and test everything'
	@echo '  make install PREFIX=/usr/local                             install the command and the library'

sample.record: build/aukpocket examples/sample.sgy
	@$(STEP) 'making sample.record' build/aukpocket read --force examples/sample.sgy sample.record

# A file appears under its name when it is whole.
build/libaukpocket.a: $(PROVED) | ready
	@$(STEP) 'proving and compiling the library' sh -c 'cd crates/aukpocket && exec rt lib'
	@cp crates/aukpocket/out/libaukpocket.a $@.new && mv $@.new $@

# The kit builds a program where it runs it: here on no input.
build/check_reel: $(PROVED) | ready
	@$(STEP) 'proving and compiling the program check_reel' sh -c 'cd crates/check_reel && exec rt run'
	@cp crates/check_reel/out/check_reel $@.new && mv $@.new $@

build/aukpocket: build/libaukpocket.a $(COMMAND) | ready
	@$(STEP) 'compiling the command' cargo build --release --offline --manifest-path cli/Cargo.toml --target-dir build/cargo/cli
	@cp build/cargo/cli/release/aukpocket $@.new && mv $@.new $@

ready:
	@sh tools/ready rt cargo cc

test:
	@sh tools/test

install: build/aukpocket build/libaukpocket.a
	@case '$(PREFIX)' in /*) ;; *) echo 'PREFIX has to begin with /' >&2; exit 1 ;; esac
	@install -d '$(DESTDIR)$(BINDIR)' '$(DESTDIR)$(LIBDIR)/pkgconfig' '$(DESTDIR)$(INCLUDEDIR)' '$(DESTDIR)$(MANDIR)/man1'
	@install -m 755 build/aukpocket '$(DESTDIR)$(BINDIR)'
	@install -m 644 build/libaukpocket.a '$(DESTDIR)$(LIBDIR)'
	@install -m 644 include/aukpocket.h '$(DESTDIR)$(INCLUDEDIR)'
	@printf '%s\n' 'Name: aukpocket' 'Description: SEG-Y revision 0 reels and their canonical records' 'Version: $(VERSION)' \
	    'Cflags: -I$(INCLUDEDIR)' 'Libs: -L$(LIBDIR) -laukpocket' >build/aukpocket.pc
	@install -m 644 build/aukpocket.pc '$(DESTDIR)$(LIBDIR)/pkgconfig'
	@install -m 644 docs/aukpocket.1 '$(DESTDIR)$(MANDIR)/man1'
	@echo 'installed under $(DESTDIR)$(PREFIX): aukpocket, libaukpocket.a, aukpocket.h, aukpocket.pc, aukpocket.1'

clean:
	@rm -rf build sample.record crates/*/out
