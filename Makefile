# make help lists the targets. What is proved already is not proved again: a target is made when a file of a crate that it needs is
# newer.
.PHONY: all help lib programs load deck reseal assign install test test-c fuzz check clean
.DELETE_ON_ERROR:
.NOTPARALLEL:

PREFIX = /usr/local
SECONDS = 60

all: lib programs

help:
	@echo 'make all       the library and the programs'
	@echo 'make lib       the library for the emulator (x86-64): build/libclamp.a and build/clamp.h'
	@echo 'make install   both, and clamp.pc for pkg-config, below PREFIX ($(PREFIX)), or DESTDIR/PREFIX'
	@echo 'make load <FILE         the load printer on a file of octal lines'
	@echo 'make deck      the load printer on the hand deck'
	@echo 'make reseal <FILE       a file of octal lines whose blocks have the old checksum, with the checksum in force'
	@echo 'make assign BOOK=FILE <FILE    the lists that a facility book gives a file of octal lines'
	@echo 'make test      the tests outside Rattle: the library by programs in C, its stack, the header, the install, the programs'
	@echo 'make fuzz SECONDS=60    the library and the second loader compared for this many seconds, with a seed from the clock'
	@echo 'make check     the gate: every crate proved, every wrong loader refused, and the tests'
	@echo 'make clean     removes build/ and the out/ of each crate: everything is then proved again'
	@echo 'What is not proved yet is proved first, which takes minutes. It needs rt, the Rattle kit.'

# what a crate is made from: the files of it and of the crates that it needs, their folders (a file may be gone), the list of crates
# and the kit
kit := $(patsubst %/START-HERE.md,%,$(shell command -v rt >/dev/null && rt doc))
sources = crates.txt $(wildcard $(kit)/KIT-ID) \
	$(shell find $(wildcard $(foreach part,src specs proofs,$(patsubst %,crates/%/$(part),$(shell tools/prove --needs $(1))))))

lib: build/libclamp.a build/clamp.h
	@echo 'build/libclamp.a and build/clamp.h: ready'

build/libclamp.a: $(call sources,clamp_c)
	@tools/prove clamp_c
	@mkdir -p build
	@cp crates/clamp_c/out/libclamp_c.a $@

build/clamp.h: include/clamp.h
	@mkdir -p build
	@cp include/clamp.h build/

programs: build/load_printer build/reseal build/assign

build/load_printer: $(call sources,load_printer)
build/reseal: $(call sources,reseal)
build/assign: $(call sources,assign)
build/load_printer build/reseal build/assign:
	@tools/prove $(@F)
	@mkdir -p build
	@cp crates/$(@F)/out/$(@F) build/

load: build/load_printer
	@$<

reseal: build/reseal
	@$<

# make hands BOOK on in the environment; where there is none the program says how it is used
assign: build/assign
	@$< $${BOOK:+"$$BOOK"}

deck:
	@$(MAKE) -s load <crates/load_printer/stdin

install: build/libclamp.a build/clamp.h
	@tools/install '$(DESTDIR)' '$(PREFIX)'

test test-c:
	@bash tests/run

fuzz:
	@bash tests/run fuzz $(SECONDS)

check:
	@bash .ci/run

clean:
	@rm -rf build crates/*/out
