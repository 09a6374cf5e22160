# The proved library as an archive and a shared object, for x86-64 Linux. Elsewhere, CC is a compiler for it.
#
#   make                    target/staticlib/libkneukelboom_c.a, and in target/lib the shared object and kneukelboom.pc
#   make program            target/bin/kneukelboom, the question program
#   make install PREFIX=..  header, archive, shared object and kneukelboom.pc; `uninstall` takes them away again. The
#                           loader learns of a shared object in /usr/local/lib by `ldconfig`
#
# `rt` proves the library before it writes the archive, and the program too; one that is older than a source is made
# again.
PREFIX = /usr/local
LIBDIR = $(PREFIX)/lib
INCLUDEDIR = $(PREFIX)/include
DESTDIR =

HEADER = include/kneukelboom.h
ARCHIVE = target/staticlib/libkneukelboom_c.a
PROGRAM = target/bin/kneukelboom
OUT = target/lib
VERSION := $(shell sed -n 's/^.define KNEUKELBOOM_VERSION //p' $(HEADER))
SONAME = libkneukelboom.so.$(VERSION)
SOURCES := $(shell find crates -name out -prune -o -name '*.rt' -print -o -name '*.antt' -print) crates.txt

lib: $(ARCHIVE) $(OUT)/libkneukelboom.so $(OUT)/kneukelboom.pc

program: $(PROGRAM)

$(ARCHIVE): $(SOURCES)
	cd crates/kneukelboom_c && rt lib
	@mkdir -p $(@D) && cp crates/kneukelboom_c/out/$(@F) $@

$(PROGRAM): $(SOURCES)
	cd crates/kneukelboom && rt run </dev/null
	@mkdir -p $(@D) && cp crates/kneukelboom/out/$(@F) $@

# what the archive exports, which is the seven calls, and no other library
$(OUT)/$(SONAME): $(ARCHIVE)
	@mkdir -p $(OUT)
	$(CC) $(LDFLAGS) -shared -nostdlib -Wl,-soname,$(SONAME),-z,defs,--whole-archive $(ARCHIVE) -o $@

# a copy, for `rt ci` takes no links in the repository
$(OUT)/libkneukelboom.so: $(OUT)/$(SONAME)
	cp $< $@

# written each time, for it says where the rest is installed
$(OUT)/kneukelboom.pc: $(HEADER) always
	@mkdir -p $(OUT) && rm -f $@
	@printf '%s\n' \
	    'includedir=$(abspath $(INCLUDEDIR))' \
	    'libdir=$(abspath $(LIBDIR))' \
	    '' \
	    'Name: kneukelboom' \
	    'Description: Verified strip trees over whole-number lines' \
	    'Version: $(VERSION)' \
	    'Cflags: -I$${includedir}' \
	    'Libs: -L$${libdir} -lkneukelboom' >$@

install: lib
	install -d $(DESTDIR)$(INCLUDEDIR) $(DESTDIR)$(LIBDIR)/pkgconfig
	install -m 644 $(HEADER) $(DESTDIR)$(INCLUDEDIR)/kneukelboom.h
	install -m 644 $(ARCHIVE) $(DESTDIR)$(LIBDIR)/libkneukelboom.a
	install -m 755 $(OUT)/$(SONAME) $(DESTDIR)$(LIBDIR)/$(SONAME)
	ln -sf $(SONAME) $(DESTDIR)$(LIBDIR)/libkneukelboom.so
	install -m 644 $(OUT)/kneukelboom.pc $(DESTDIR)$(LIBDIR)/pkgconfig/kneukelboom.pc

uninstall:
	rm -f $(DESTDIR)$(INCLUDEDIR)/kneukelboom.h $(DESTDIR)$(LIBDIR)/libkneukelboom.a $(DESTDIR)$(LIBDIR)/$(SONAME) \
	    $(DESTDIR)$(LIBDIR)/libkneukelboom.so $(DESTDIR)$(LIBDIR)/pkgconfig/kneukelboom.pc

.PHONY: lib program install uninstall always
.DELETE_ON_ERROR:
