# make            the static library, target/staticlib/libdukthari.a, and the shared one, target/shared/libdukthari.so
# make draw       the command behind ./draw
# make install    the header, the static library and a pkg-config file under PREFIX, and under DESTDIR if that is set
# make uninstall  removes them
# make test       tests/run
#
# The static library is for x86-64. On another machine the shared library and the commands in Rust are made from the same proved module,
# compiled for that machine by rust/native; what is installed is the library for x86-64 all the same.

VERSION := 0.1.0
PREFIX ?= /usr/local
DESTDIR ?=
prefix := $(abspath $(PREFIX))
to := $(DESTDIR)$(prefix)
ifneq ($(filter install uninstall,$(MAKECMDGOALS)),)
ifneq ($(words $(PREFIX)) $(words x$(DESTDIR)),1 1)
$(error PREFIX and DESTDIR must be without blanks, and PREFIX not empty: PREFIX='$(PREFIX)' DESTDIR='$(DESTDIR)')
endif
endif

proved := crates.txt $(shell find crates -type f -not -path '*/must-fail/*' -not -path '*/out/*')
wrapper := rust/Cargo.toml rust/Cargo.lock $(shell find rust/dukthari rust/draw -type f)
archive := target/staticlib/libdukthari.a
ifeq ($(shell uname -m),x86_64)
here := $(archive)
else
here := target/native/libdukthari.a
endif

.PHONY: all draw install uninstall test
all: $(archive) target/shared/libdukthari.so
draw: rust/target/release/draw
test:
	tests/run

$(archive): $(proved)
	tools/build dukthari
	touch $@

target/native/libdukthari.a: $(archive) rust/native
	rust/native
	test -s $@
	touch $@

target/shared/libdukthari.so: $(here)
	@test -s $< || { echo "$< is empty: remove it and make again" >&2; exit 1; }
	mkdir -p $(@D)
	$(CC) -shared -Wl,-soname,libdukthari.so -Wl,--whole-archive $< -Wl,--no-whole-archive -o $@

rust/target/release/draw: $(here) include/dukthari.h $(wrapper)
	cd rust && cargo build --quiet --offline --release -p draw
	touch $@

install: $(archive)
	install -d $(to)/include $(to)/lib/pkgconfig
	install -m 644 include/dukthari.h $(to)/include/dukthari.h
	install -m 644 $(archive) $(to)/lib/libdukthari.a
	rm -f target/dukthari.pc
	sed -e 's|@PREFIX@|$(prefix)|' -e 's|@VERSION@|$(VERSION)|' dukthari.pc.in >target/dukthari.pc
	install -m 644 target/dukthari.pc $(to)/lib/pkgconfig/dukthari.pc

uninstall:
	rm -f $(to)/include/dukthari.h $(to)/lib/libdukthari.a $(to)/lib/pkgconfig/dukthari.pc
