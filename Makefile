# The library for C: one archive, its headers and a file for pkg-config.
#
#   make                         target/libpuntclover.a; proves what isn't proved yet, which takes some minutes
#   make install PREFIX=/usr     under PREFIX/lib and PREFIX/include; DESTDIR=folder puts it all under that folder first
#   make check-install           installs into a scratch folder, and builds and runs a program with what was installed
#   make clean                   removes the archive; what is proved stays
#
# Needs the Rattle kit (rt) for the archive alone, so an archive that is there is installed without it.
PREFIX ?= /usr/local
DESTDIR ?=

archive := target/libpuntclover.a
headers := $(wildcard include/*.h include/puntclover/*.h)
version := $(shell sed -n 's/^\#define PUNTCLOVER_VERSION "\(.*\)"$$/\1/p' include/puntclover/version.h)

# The crates that the border is made of. Each crate stands below those that it names, so one pass from the end finds all.
crates := $(shell tac crates.txt | awk -F '[: ]+' 'BEGIN { used["border_c"] = 1 } \
  !/^\#/ && used[$$1] { print $$1; for (place = 2; place <= NF; place++) used[$$place] = 1 }')
sources := crates.txt $(foreach crate,$(crates),$(shell find crates/$(crate)/src crates/$(crate)/specs crates/$(crate)/proofs \
  -type f 2>/dev/null))

define pkg_config
prefix=$(PREFIX)

Name: puntclover
Description: Where each hub of a small network sends its frames, never in a circle
Version: $(version)
Cflags: -I$${prefix}/include
Libs: -L$${prefix}/lib -lpuntclover
endef
export pkg_config

.PHONY: all install check-install clean
.DELETE_ON_ERROR:

all: $(archive)

# The archive is newer than its sources only when all of it is there.
$(archive): $(sources)
	mkdir -p $(dir $@)
	cd crates/border_c && rt lib
	cp crates/border_c/out/libborder_c.a $@.new
	mv $@.new $@

install: $(archive)
	install -d $(DESTDIR)$(PREFIX)/lib/pkgconfig $(DESTDIR)$(PREFIX)/include/puntclover
	install -m 644 $(archive) $(DESTDIR)$(PREFIX)/lib
	install -m 644 $(filter-out include/puntclover/%,$(headers)) $(DESTDIR)$(PREFIX)/include
	install -m 644 $(filter include/puntclover/%,$(headers)) $(DESTDIR)$(PREFIX)/include/puntclover
	printf '%s\n' "$$pkg_config" >$(DESTDIR)$(PREFIX)/lib/pkgconfig/puntclover.pc

check-install: $(archive)
	tools/check-install

clean:
	rm -f $(archive)
