# make            proves and builds: the archive target/libasbru.a, the programs aprcheck, aptmove and aptime, and what ./check runs
# make check      the examples and the command's own tests: seconds, once all is built
# make install    the header, its companion, the archive, asbru.pc and the rules in words, under PREFIX (and DESTDIR)
# make test       the gate: everything proved, every must-fail edit refused, all hosts
SHELL := bash
.SHELLFLAGS := -euo pipefail -c
PREFIX ?= /usr/local
version := $(shell sed -n 's/^\#define ASBRU_VERSION //p' include/asbru.h)
proved := crates.txt $(shell find crates -type f ! -path '*/must-fail/*' ! -path '*/out/*')
ifneq ($(.SHELLSTATUS),0)
$(error the files of crates/ could not be listed)
endif
compile := . host/machine; $$c -std=c11 $$flags

.PHONY: all judge check install test
all: judge target/made/aptmove target/made/aptime
# what ./check runs
judge: target/libasbru.a target/made/aprcheck target/host/check

# `rt`, in a crate's folder, proves what has changed there and below: its line for each crate is shown, and all that it says where it fails. It
# builds a program as it runs it, and no crate is checked by two at once
.NOTPARALLEL:
programs := target/made/aprcheck target/made/aptmove target/made/aptime target/made/trials
target/libasbru.a $(programs): $(proved)
	@mkdir -p target/made
	@(cd $(rt)) 2>&1 </dev/null | tee target/made/log | { grep '^rt: ' || true; } || { cat target/made/log >&2; exit 1; }
	@$(made)
target/libasbru.a: rt = crates/tablet && rt lib
target/libasbru.a: made = cp crates/tablet/out/libtablet.a $@
$(programs): rt = crates/$(@F) && rt run
$(programs): made = touch $@

target/host/check: host/check.c host/files.h host/machine include/asbru.h include/asbru_text.h target/libasbru.a
	@mkdir -p $(@D)
	@$(compile) $< target/libasbru.a -o $@

check: all
	@bash examples/try
	@bash host/front

install: target/libasbru.a
	install -d $(addprefix $(DESTDIR)$(PREFIX)/,include lib/pkgconfig share/doc/asbru)
	install -m 644 include/asbru.h include/asbru_text.h $(DESTDIR)$(PREFIX)/include
	install -m 644 target/libasbru.a $(DESTDIR)$(PREFIX)/lib
	install -m 644 docs/RULES.md $(DESTDIR)$(PREFIX)/share/doc/asbru
	printf '%s\n' 'prefix=$(PREFIX)' 'Name: asbru' 'Description: the rules of Asbru plans, proved' 'Version: $(version)' \
	    'Cflags: -I$${prefix}/include' 'Libs: -L$${prefix}/lib -lasbru' >$(DESTDIR)$(PREFIX)/lib/pkgconfig/asbru.pc

test:
	@bash .ci/run
