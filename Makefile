# The library for C. target/part/ gets libhirgwamo.a, libhirgwamo.so.1 with the link libhirgwamo.so, hirgwamo.h and hirgwamo.pc.
#
#   make             builds; the Rattle toolchain (`rt lib`) proves and compiles the functions
#   make check       builds and runs the tests (part/test.sh)
#   make install     installs below PREFIX: include/, lib/, lib/pkgconfig/, share/doc/hirgwamo/ (NOTICE), and the Python package below
#                    lib/hirgwamo/python/
#   make uninstall   removes what `make install` puts there
#   make clean       removes target/part
#
# Settings:
#   STATICLIB        an archive that is built already; then the toolchain is not needed
#   PREFIX, DESTDIR  where to install (/usr/local), and a folder to be put before that
#   CC, AR, LDFLAGS, INSTALL, PYTHON, RT

PREFIX ?= /usr/local
INSTALL ?= install
PYTHON ?= python3
RT ?= rt

# The major number of the version, which the shared library has in its name.
major = 1
shared = libhirgwamo.so.$(major)

out = target/part
include_dir = $(DESTDIR)$(PREFIX)/include
lib_dir = $(DESTDIR)$(PREFIX)/lib
pkgconfig_dir = $(lib_dir)/pkgconfig
own_dir = $(lib_dir)/hirgwamo
doc_dir = $(DESTDIR)$(PREFIX)/share/doc/hirgwamo
python_dir = $(own_dir)/python/hirgwamo
python_files = $(wildcard python/hirgwamo/*.py python/hirgwamo/py.typed)

# The crates that export functions, each a static library.
exporting = hirgwamo query_numbers_c
code = $(exporting:%=crates/%/src/lib.rt)
refusals = crates/refusal/src/lib.rt
marks = crates/mark/src/lib.rt
built = $(out)/libhirgwamo.a $(out)/$(shared) $(out)/libhirgwamo.so $(out)/hirgwamo.h
filled = sed 's|@PREFIX@|$(PREFIX)|' part/hirgwamo.pc.in

.NOTPARALLEL:
.PHONY: all check install uninstall clean FORCE
.DELETE_ON_ERROR:

# The header is compared with the functions that the code exports. Only where an archive is given the code need not be there.
ifeq ($(words $(wildcard $(code))),$(words $(code)))
compared = $(out)/.compared
else ifeq ($(strip $(STATICLIB)),)
compared = $(out)/.compared
endif

all: $(built) $(out)/hirgwamo.pc $(compared)

$(out)/.compared: part/header.py part/hirgwamo.h part/hirgwamo.map part/hirgwamo.pc.in $(code) $(wildcard crates/*/src/lib.rt) $(out)/$(shared)
	$(PYTHON) part/header.py $(code:%=--code %) --refusals $(refusals) --marks $(marks) --library $(out)/$(shared)
	@touch $@

# Bytes are compared, not times: the archive made or given last is the one that is built from.
put_archive = cmp -s $(1) $(out)/libhirgwamo.a || $(INSTALL) -m 644 $(1) $(out)/libhirgwamo.a

ifeq ($(strip $(STATICLIB)),)
archives = $(foreach crate,$(exporting),crates/$(crate)/out/lib$(crate).a)

# What the toolchain makes in a crate's out/ is no source. `touch -c` is for an archive that it leaves as it is.
$(archives): $(shell find crates -name out -prune -o \( -name '*.rt' -o -name '*.antt' \) -print)
	cd crates/$(patsubst lib%.a,%,$(notdir $@)) && $(RT) lib
	@touch -c $@

# Each crate's archive has one object, with inner functions of its own.
$(out)/libhirgwamo.a: $(archives) FORCE
	@rm -rf $(out)/.objects && mkdir -p $(out)/.objects
	@cd $(out)/.objects && for archive in $(abspath $(archives)); do $(AR) x $$archive || exit 1; done && $(AR) rcsD lib.a *.o
	@$(call put_archive,$(out)/.objects/lib.a)
	@rm -rf $(out)/.objects
else
$(out)/libhirgwamo.a: $(STATICLIB) FORCE
	@mkdir -p $(out)
	@$(call put_archive,$(STATICLIB))
endif

$(out)/$(shared): $(out)/libhirgwamo.a part/hirgwamo.map
	$(CC) -shared -o $@ -Wl,-soname,$(shared) -Wl,--version-script=part/hirgwamo.map -Wl,--no-undefined-version \
	    -Wl,-z,defs -Wl,-z,relro -Wl,-z,now -Wl,-z,noexecstack -Wl,-z,text $(LDFLAGS) \
	    -Wl,--whole-archive $(out)/libhirgwamo.a -Wl,--no-whole-archive

$(out)/libhirgwamo.so: $(out)/$(shared)
	ln -sf $(shared) $@

$(out)/hirgwamo.h: part/hirgwamo.h
	@mkdir -p $(out)
	$(INSTALL) -m 644 part/hirgwamo.h $@

# It names PREFIX, so it is made anew wherever it would be another.
$(out)/hirgwamo.pc: part/hirgwamo.pc.in FORCE
	@mkdir -p $(out)
	@$(filled) >$@.new
	@if cmp -s $@.new $@; then rm $@.new; else mv $@.new $@; fi

check:
	part/test.sh

install: $(built) $(compared)
	$(INSTALL) -d "$(include_dir)" "$(pkgconfig_dir)" "$(doc_dir)"
	$(INSTALL) -m 644 NOTICE "$(doc_dir)/NOTICE"
	$(INSTALL) -m 644 $(out)/hirgwamo.h "$(include_dir)/hirgwamo.h"
	$(INSTALL) -m 644 $(out)/libhirgwamo.a "$(lib_dir)/libhirgwamo.a"
	$(INSTALL) -m 755 $(out)/$(shared) "$(lib_dir)/$(shared)"
	ln -sf $(shared) "$(lib_dir)/libhirgwamo.so"
	$(filled) >"$(pkgconfig_dir)/hirgwamo.pc"
ifneq ($(python_files),)
	$(INSTALL) -d "$(python_dir)"
	$(INSTALL) -m 644 $(python_files) "$(python_dir)"
endif

uninstall:
	rm -f "$(include_dir)/hirgwamo.h" "$(lib_dir)/libhirgwamo.a" "$(lib_dir)/$(shared)" "$(lib_dir)/libhirgwamo.so" "$(pkgconfig_dir)/hirgwamo.pc"
	rm -rf "$(own_dir)" "$(doc_dir)"

clean:
	rm -rf $(out)
