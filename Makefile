# make                     the archive target/libspot_table.a (runs `rt lib` in crates/cabi where it is missing or older than crates/)
# make TARGET=NAME         the same proved module for another processor: target/NAME/libspot_table.a, for wasm32 spot_table.wasm, too; cross/targets has the names
# make install PREFIX=..   header, archive and pkg-config file; with TARGET=NAME the latter two in lib/NAME, for wasm32 spot_table.wasm, too
# make uninstall PREFIX=.. removes them; with TARGET=NAME the header stays
# make check               installs into a folder of its own, builds and runs the examples, in C99 and in C++; with TARGET=NAME runs cross/check
# make version             carries the header's version to the files of Cargo
PREFIX ?= /usr/local
DESTDIR ?=
TARGET ?=
prefix := $(abspath $(PREFIX))
VERSION := $(shell sed -n 's/^.define SPOT_VERSION_\(MAJOR\|MINOR\|PATCH\) //p' include/spot_table.h | paste -sd.)
SOURCES := crates.txt $(shell find crates -type f -not -path '*/out/*')
TARGETS := $(shell sed -n 's/^\([a-z0-9-]*\);.*/\1/p' cross/targets)
ifneq ($(filter-out $(TARGETS),$(TARGET)),)
$(error no target $(TARGET): cross/targets has $(TARGETS), and no other is tested)
endif
archive := target/$(addsuffix /,$(TARGET))libspot_table.a
libdir := lib$(addprefix /,$(TARGET))
wasm := $(if $(filter wasm32,$(TARGET)),spot_table.wasm)

all: $(archive)

# rt writes its archive only where something changed, so it is copied
target/staticlib/libcabi.a: $(SOURCES)
	cd crates/cabi && rt lib
	mkdir -p $(@D)
	cp crates/cabi/out/libcabi.a $@

target/libspot_table.a: target/staticlib/libcabi.a
	cp $< $@

target/cross/module.ll: $(SOURCES) cross/module
	cross/module

$(TARGETS:%=target/%/libspot_table.a): target/%/libspot_table.a: target/cross/module.ll cross/build cross/targets include/spot_table.h
	cross/build $*

install: $(archive)
	install -d $(DESTDIR)$(prefix)/include $(DESTDIR)$(prefix)/$(libdir)/pkgconfig
	install -m 644 include/spot_table.h $(DESTDIR)$(prefix)/include/spot_table.h
	install -m 644 $(archive) $(wasm:%=target/wasm32/%) $(DESTDIR)$(prefix)/$(libdir)
	printf '%s\n' 'prefix=$(prefix)' 'libdir=$${prefix}/$(libdir)' 'includedir=$${prefix}/include' '' 'Name: spot_table' \
	    'Description: A proved buffered priority search tree in lent memory' 'Version: $(VERSION)' \
	    'Libs: -L$${libdir} -lspot_table' 'Cflags: -I$${includedir}' > $(DESTDIR)$(prefix)/$(libdir)/pkgconfig/spot_table.pc

uninstall:
	rm -f $(addprefix $(DESTDIR)$(prefix)/,$(if $(TARGET),,include/spot_table.h) $(addprefix $(libdir)/,libspot_table.a pkgconfig/spot_table.pc $(wasm)))

check: $(archive)
	$(if $(TARGET),cross/check $(TARGET),examples/check)

# the version of the header, carried to where Cargo wants it
version:
	sed -i 's/^version = .*/version = "$(VERSION)"/' rust/Cargo.toml tool/Cargo.toml

.PHONY: all install uninstall check version
