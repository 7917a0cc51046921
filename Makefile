# Builds the programs and the C library from the generated assembly in dist/: a C compiler with its binutils and make are all it takes.
#
#   make              the programs pathsys and wanzoche, the C library (static and shared) and wanzoche.pc, in out/
#   make example      pathsys alone, and then runs a stored example
#   make test         the cases, the examples and the tests of the program, the C library, what is installed, the Python package, the web
#                     page, the JavaScript package and the Go module; with WANZOCHE_TESTS=all in each Python that is here, under
#                     sanitizers and over PostgreSQL, too
#   make test_rust    the tests of the Rust crate, which want cargo
#   make install      to PREFIX (/usr/local), below DESTDIR if that is set; make uninstall takes the same files away
#   make core         what is quick of the Python package, in C: out/python/_core.abi3.so, by the headers of PYTHON, for each later one
#   make wheel        the Python package with its library, for pip, and with the core where PYTHON has its headers here
#   make deb          a package for Debian and its like
#   make release      all that is published, with checksums; packaging/release says what it needs
#   make prove        proves every function again, and tries every wrong body; needs the toolchain that docs/proofs.md speaks of
#   make clean        removes out/
#
# Variables: CC (cc), CFLAGS (-O2), LDFLAGS, OUT (out), STATIC=1 (a static program), PREFIX, DESTDIR, LIBDIR (lib, below PREFIX),
# PYTHON (python3). A cross compiler as CC, as in `make CC=aarch64-linux-gnu-gcc OUT=out/aarch64`, builds for its processor.

CC ?= cc
CFLAGS ?= -O2
OUT ?= out
PREFIX ?= /usr/local
LIBDIR ?= lib
PYTHON ?= python3
INSTALL ?= install

machine := $(shell $(CC) -dumpmachine)
CPU ?= $(subst amd64,x86_64,$(subst arm64,aarch64,$(firstword $(subst -, ,$(machine)))))
AR := $(shell $(CC) -print-prog-name=ar)
OBJCOPY := $(shell $(CC) -print-prog-name=objcopy)
version := $(shell cat VERSION)

bin := $(OUT)/bin
lib := $(OUT)/lib
work := $(OUT)/work
program := $(bin)/pathsys
command := $(bin)/wanzoche
static_library := $(lib)/libwanzoche.a
shared_library := $(lib)/libwanzoche.so.0
headers := $(addprefix $(OUT)/,$(wildcard include/*.h include/*.hpp include/wanzoche/*.hpp))
cmake_files := $(patsubst packaging/cmake/%,$(lib)/cmake/wanzoche/%,$(wildcard packaging/cmake/*.cmake))
pc := $(lib)/pkgconfig/wanzoche.pc
core := $(OUT)/python/_core.abi3.so
library := $(static_library) $(lib)/libwanzoche.so $(headers) $(pc) $(cmake_files)

c_flags := -std=c11 -fPIC -ffunction-sections -Wall -Wextra -Iinclude $(CFLAGS)
static := $(if $(STATIC),-static)
comma := ,
python_headers = $(shell $(PYTHON) -c 'import sysconfig; print(sysconfig.get_path("include"))')
# Only glibc hands the words of the command line to what runs before main (dist/system.c).
wrap := $(if $(findstring musl,$(machine) $(CC)),-Wl$(comma)--wrap=main)

# What is said in place of a build that can only fail, in one line.
processors := $(patsubst dist/%/path_c.s,%,$(wildcard dist/*/path_c.s))
ifeq ($(machine),)
cannot := there is no C compiler `$(CC)`: docs/install.md says what to install
else ifeq ($(and $(findstring linux,$(machine)),$(filter $(CPU),$(processors))),)
cannot := this builds for Linux on $(processors), and not for $(machine). On macOS and Windows it runs in a Linux container or in WSL: docs/install.md, Other systems
endif
ifneq ($(if $(cannot),$(filter-out clean uninstall prove test_page,$(or $(MAKECMDGOALS),all))),)
$(error $(cannot))
endif

all: $(program) $(command) library

library: $(library)

$(work)/%.o: dist/$(CPU)/%.s
	@mkdir -p $(@D)
	$(CC) -c $< -o $@

$(work)/system.o: dist/system.c
	@mkdir -p $(@D)
	$(CC) $(c_flags) -c $< -o $@

$(work)/memory.o: dist/system.c
	@mkdir -p $(@D)
	$(CC) $(c_flags) -DLIBRARY -c $< -o $@

$(work)/names.o: c/wanzoche.c include/wanzoche.h include/wanzoche_store.h
	@mkdir -p $(@D)
	$(CC) $(c_flags) -c $< -o $@

$(program): $(work)/pathsys.o $(work)/system.o
	@mkdir -p $(@D)
	$(CC) $(CFLAGS) $(LDFLAGS) $(static) -Wl,--gc-sections $(wrap) $^ -lpthread -o $@

$(work)/store/%.o: c/store/%.c $(wildcard c/store/*.h) include/wanzoche.h include/wanzoche_store.h
	@mkdir -p $(@D)
	$(CC) $(c_flags) -D_GNU_SOURCE -pthread -c $< -o $@

# One object of three, of which only the names of wanzoche.h stay; and one of the store, which only programs with a store get.
$(work)/wanzoche.o: $(work)/path_c.o $(work)/memory.o $(work)/names.o
$(work)/store.o: $(patsubst c/store/%.c,$(work)/store/%.o,$(wildcard c/store/*.c))
$(work)/wanzoche.o $(work)/store.o:
	$(CC) -nostdlib -r -o $@ $^
	$(OBJCOPY) --wildcard --keep-global-symbol='wanzoche_*' $@

$(static_library): $(work)/wanzoche.o $(work)/store.o
	@mkdir -p $(@D)
	rm -f $@
	$(AR) rcsD $@ $^

$(work)/command/%.o: c/command/%.c $(wildcard c/command/*.h) include/wanzoche.h include/wanzoche_store.h
	@mkdir -p $(@D)
	$(CC) $(c_flags) -D_GNU_SOURCE -pthread -c $< -o $@

$(command): $(patsubst c/command/%.c,$(work)/command/%.o,$(wildcard c/command/*.c)) $(static_library)
	@mkdir -p $(@D)
	$(CC) $(CFLAGS) $(LDFLAGS) $(static) -Wl,--gc-sections $^ -lpthread -o $@

$(shared_library): $(work)/wanzoche.o $(work)/store.o
	@mkdir -p $(@D)
	echo '{ global: wanzoche_*; local: *; };' > $(work)/shown
	$(CC) $(CFLAGS) $(LDFLAGS) -shared -Wl,-z,defs -Wl,--gc-sections -Wl,-soname,$(@F) -Wl,--version-script=$(work)/shown $^ -lpthread -o $@

# Only the part of Python's interface that is stable from 3.8 on.
$(core): python/wanzoche/_core.c python/wanzoche/_order.c python/wanzoche/_order.h include/wanzoche.h
	@mkdir -p $(@D)
	$(CC) $(c_flags) -DPy_LIMITED_API=0x03080000 -isystem $(python_headers) $(LDFLAGS) -shared $(filter %.c,$^) -o $@

core: $(core)

$(lib)/libwanzoche.so: $(shared_library)
	ln -sf $(<F) $@

$(OUT)/include/%: include/%
	@mkdir -p $(@D)
	cp $< $@

# The files of CMake with the version, and with the way from the folder of libraries up to that of the headers: `..` for each part of its
# name.
filled = sed -e 's!@version@!$(version)!' -e 's!@up@!$(shell echo '$(1)' | sed 's![^/][^/]*!..!g')!'

$(lib)/cmake/wanzoche/%.cmake: packaging/cmake/%.cmake Makefile VERSION
	@mkdir -p $(@D)
	$(call filled,lib) $< > $@

# The text of wanzoche.pc. In out/ its paths are told from where it lies, so that the folder may be moved.
define pc_text
prefix=$(1)
libdir=$${prefix}/$(2)
includedir=$${prefix}/include

Name: wanzoche
Description: Path expressions: in which order operations may run
Version: $(version)
Cflags: -I$${includedir}
Libs: -L$${libdir} -lwanzoche
Libs.private: -lpthread
endef
export pc_of_out := $(call pc_text,$${pcfiledir}/../..,lib)
export pc_of_prefix := $(call pc_text,$(PREFIX),$(LIBDIR))

$(pc): Makefile VERSION
	@mkdir -p $(@D)
	printenv pc_of_out > $@

example: $(program)
	$(program) < crates/pathsys/stdin > $(work)/example
	@cat $(work)/example
	@cmp $(work)/example crates/pathsys/stdout

test_rust:
	rust/tests/run

test: all test_program test_library test_install test_package test_page test_js test_go
	@echo "make test: all passed"

test_program: $(program) library
	cases/run $(program)
	examples/run $(program)
	examples/follow_test $(program)
	examples/terminal_test $(program)
	examples/done_test $(program)
	WANZOCHE_LIBRARY=$(realpath $(shared_library)) examples/lasting_test $(realpath $(program)) follow examples/slot/declaration \
	    --room 1048576 --journal FILE

test_library: $(command) library
	c/tests/run $(OUT)
	c/tests/run_cpp $(OUT)
	c/tests/run_command $(OUT)
	c/model/run

test_install: all
	packaging/test $(OUT)

test_package: $(program) library
	PYTHONS="$(PYTHONS)" python/tests/run $(OUT)

test_go: library
	go/tests/run $(OUT)

test_page:
	@if command -v node > /dev/null; then page/test; else echo "there is no Node, so the page's tests are left out"; fi

test_js: $(program)
	@if command -v node > /dev/null; then js/test/run $(OUT); else echo "there is no Node, so the JavaScript package's tests are left out"; fi

prove:
	mkdir -p $(OUT)
	.ci/edits prove --all $(OUT)/gate.log > /dev/null || { tail -n 40 $(OUT)/gate.log; false; }
	@tail -n 1 $(OUT)/gate.log

to := $(DESTDIR)$(PREFIX)
pages := $(wildcard docs/*.md)
# pip brings the command wanzoche of the Python package, with the same man page and completions (python/packing.py).
installed := bin/pathsys bin/wanzoche \
    $(LIBDIR)/libwanzoche.a $(LIBDIR)/libwanzoche.so.0 $(LIBDIR)/libwanzoche.so $(LIBDIR)/pkgconfig/wanzoche.pc \
    $(patsubst $(lib)/%,$(LIBDIR)/%,$(cmake_files)) $(patsubst $(OUT)/%,%,$(headers)) \
    share/man/man1/pathsys.1 share/man/man1/wanzoche.1 share/man/man3/wanzoche.3 \
    $(foreach name,pathsys wanzoche,share/bash-completion/completions/$(name) share/zsh/site-functions/_$(name) share/fish/vendor_completions.d/$(name).fish)

install: all
	$(INSTALL) -d $(addprefix $(to)/,$(sort $(dir $(installed)))) $(to)/share/doc/wanzoche
	$(INSTALL) -m 755 $(program) $(command) $(to)/bin/
	$(INSTALL) -m 644 $(static_library) $(shared_library) $(to)/$(LIBDIR)/
	ln -sf libwanzoche.so.0 $(to)/$(LIBDIR)/libwanzoche.so
	printenv pc_of_prefix > $(to)/$(LIBDIR)/pkgconfig/wanzoche.pc
	for file in $(notdir $(cmake_files)); do $(call filled,$(LIBDIR)) packaging/cmake/$$file > $(to)/$(LIBDIR)/cmake/wanzoche/$$file || exit 1; done
	$(INSTALL) -m 644 $(wildcard include/*.h include/*.hpp) $(to)/include/
	$(INSTALL) -m 644 $(wildcard include/wanzoche/*.hpp) $(to)/include/wanzoche/
	$(INSTALL) -m 644 man/pathsys.1 man/wanzoche.1 $(to)/share/man/man1/
	$(INSTALL) -m 644 man/wanzoche.3 $(to)/share/man/man3/
	for name in pathsys wanzoche; do $(INSTALL) -m 644 completions/$$name.bash $(to)/share/bash-completion/completions/$$name || exit 1; done
	$(INSTALL) -m 644 completions/_pathsys completions/_wanzoche $(to)/share/zsh/site-functions/
	$(INSTALL) -m 644 completions/pathsys.fish completions/wanzoche.fish $(to)/share/fish/vendor_completions.d/
	$(INSTALL) -m 644 README.md CHANGELOG.md dist/NOTICE $(pages) docs/page.png $(to)/share/doc/wanzoche/

uninstall:
	rm -f $(addprefix $(to)/,$(installed))
	rm -rf $(to)/share/doc/wanzoche $(to)/$(LIBDIR)/cmake/wanzoche
	rmdir $(to)/include/wanzoche 2> /dev/null || true

# The headers are those of this machine's processor.
wheel: library
	@if [ "$(CPU)" = "$$(uname -m)" ] && [ -e "$(python_headers)/Python.h" ]; then $(MAKE) core && set -- $(core); fi; \
	$(PYTHON) python/packing.py $(shared_library) $(OUT) "$$@"

deb: all
	packaging/deb $(OUT) $(CPU)

release:
	packaging/release $(OUT)

clean:
	rm -rf $(OUT)

.PHONY: all library core example test test_program test_library test_install test_package test_page test_js test_go test_rust prove install uninstall wheel deb release clean
.DELETE_ON_ERROR:
