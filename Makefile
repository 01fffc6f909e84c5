# make            builds luksrd, crates/luksrd/out/luksrd, and luksrd-audit, crates/luksrd_audit/out/luksrd_audit, and
#                 proves all that they use. They run on every x86-64-v2 processor. With CPU=x86-64-v3 it builds
#                 out/x86-64-v3/luksrd over the same proofs, for processors of that level (AVX2)
# make demo       reads both sample volumes with a program that is built without proofs
# make quick      what to run while changing things: most of what a change breaks, in ten minutes, without a proof
# make check      builds all, and runs the tests (tests/*.py) on it; JOBS tests at once
# make test       what CI runs: the gate, which proves everything, tries each must-fail edit and runs the tests of the
#                 crates; then `make check`; it prints the processor time that each crate took
# make pages      writes the pages that are made from the sources, and the tables of docs/SPEED.md from docs/speed/
# make bench      measures key derivation, decryption and whole volumes beside other implementations, and memory, with
#                 both builds; keeps the results in docs/speed/MACHINE.json (the name of the host if MACHINE is not
#                 given). ROUNDS is the number of rounds; with AS_BUILT=1 it builds nothing
# make library    builds the library for C: out/libluksrd.a, out/libluksrd.so and out/luksrd.pc, and the same for
#                 x86-64-v3 in out/glibc-hwcaps, which the loader takes if the processor can run it
# make nbdkit     builds the plugin and the filter for the installed version of nbdkit, out/nbdkit-luksrd-plugin.so and
#                 -filter.so, and the library, which both load. With SHARED and SHARED_V3 it takes the library that these
#                 name, and needs no toolchain
# make rescue     builds what luksrd-rescue needs, and runs it from the sources, with the arguments in ARGS
# make install    puts what is built below PREFIX (/usr/local if it is not given), in DESTDIR if that is given: programs,
#                 man pages, completions and guides, the library with its module for Python, the plugin and the filter:
#                 for /usr and /usr/local in nbdkit's own folders, with a systemd unit, for any other PREFIX in
#                 lib/nbdkit below it, or in PLUGINS and FILTERS if these are given. With CPU=x86-64-v3 it installs the
#                 luksrd for that, if it runs here
# make uninstall  removes them again, except what a Debian package has put there
# make deb        makes Debian packages of what is built in DEBS (out if it is not given)

# What the program is built for and installed for; the library is always built for both. (Some
# systems have a CPU in the environment, so this is not ?=.)
CPU := x86-64-v2
ifeq ($(filter $(CPU),x86-64-v2 x86-64-v3),)
    $(error CPU is x86-64-v2 or x86-64-v3)
endif
VERSION := 1.3.0
INTERFACE := 2
# where the loader looks for libraries for x86-64-v3, below each folder with libraries
HWCAPS := glibc-hwcaps/x86-64-v3

# The kit builds for any processor in one place; what is for x86-64-v3 is moved away from there.
PROGRAM_V2 := crates/luksrd/out/luksrd
PROGRAM_V3 := out/x86-64-v3/luksrd
AUDIT := crates/luksrd_audit/out/luksrd_audit
TOOLS_V2 := crates/luksrd_tools/out/luksrd_tools
TOOLS_V3 := out/x86-64-v3/luksrd_tools
ARCHIVE_V2 := crates/luks_c/out/libluks_c.a
ARCHIVE_V3 := out/x86-64-v3/libluks_c.a
PROGRAM := $(if $(filter x86-64-v3,$(CPU)),$(PROGRAM_V3),$(PROGRAM_V2))
TOOLS := $(if $(filter x86-64-v3,$(CPU)),$(TOOLS_V3),$(TOOLS_V2))
LIBRARY := out/libluksrd.a
SHARED := out/libluksrd.so
SHARED_V3 := out/$(HWCAPS)/libluksrd.so.$(INTERFACE)
PLUGIN := out/nbdkit-luksrd-plugin.so
FILTER := out/nbdkit-luksrd-filter.so
# where `make deb` puts packages
DEBS ?= out
PREFIX ?= /usr/local
ZSH_FUNCTIONS ?= $(PREFIX)/share/zsh/site-functions
# nbdkit finds plugins and filters by name in its own folders alone, but only root may write there
nbdkit_folder = $(if $(filter-out /usr /usr/local,$(PREFIX:/=)),$(PREFIX)/lib/nbdkit/$(1)s,$(shell \
    pkg-config nbdkit --variable=$(1)dir 2>/dev/null))
PLUGINS ?= $(call nbdkit_folder,plugin)
FILTERS ?= $(call nbdkit_folder,filter)
# Debian's Python looks in a folder of its own version below /usr/local
python_folder = $(filter /usr/local/%,$(shell \
    /usr/bin/python3 -c 'import site; print(*site.getsitepackages())' 2>/dev/null))
MODULES ?= $(if $(and $(filter /usr/local,$(PREFIX:/=)),$(python_folder)),$(firstword \
    $(python_folder)),$(PREFIX)/lib/python3/dist-packages)
BINARIES = $(DESTDIR)$(PREFIX)/bin
PAGES = $(DESTDIR)$(PREFIX)/share/man/man1
LIBRARY_PAGES = $(DESTDIR)$(PREFIX)/share/man/man3
DOCUMENTS = $(DESTDIR)$(PREFIX)/share/doc/luksrd
AUDIT_DATA = $(DESTDIR)$(PREFIX)/share/luksrd-audit
BASH_COMPLETIONS = $(DESTDIR)$(PREFIX)/share/bash-completion/completions
ZSH_COMPLETIONS = $(DESTDIR)$(ZSH_FUNCTIONS)
# README.md and what a user reads of what it leads to; packaging/documents installs them
GUIDES := README.md $(patsubst %,docs/%.md,AUDIT FORMATS GLOSSARY LIBRARY MIGRATION PROGRAMMERS PROOFS RECIPES RESCUE \
    SECURITY SPEED)
# Debian's packages have libraries in another folder below PREFIX
LIBDIR ?= $(PREFIX)/lib
LIBRARIES = $(DESTDIR)$(LIBDIR)
HEADERS = $(DESTDIR)$(PREFIX)/include
PLUGIN_FILE = $(DESTDIR)$(PLUGINS)/nbdkit-luksrd-plugin.so
FILTER_FILE = $(DESTDIR)$(FILTERS)/nbdkit-luksrd-filter.so
MODULE_FILE = $(DESTDIR)$(MODULES)/luksrd.py
RESCUE := $(wildcard rescue/luksrd_rescue/*.py)
RESCUE_FOLDER = $(DESTDIR)$(MODULES)/luksrd_rescue
UNIT_FILE = $(DESTDIR)$(PREFIX)/lib/systemd/system/nbdkit-luksrd@.service
CFLAGS ?= -O2 -D_FORTIFY_SOURCE=2 -fstack-protector-strong
# the library's file, and the two names that lead to it
SHARED_NAMES = libluksrd.so.$(VERSION) libluksrd.so.$(INTERFACE) libluksrd.so

.PHONY: all demo quick check test pages bench library nbdkit rescue tools toolchain built library-built nbdkit-folders runs-here \
    install install-parts not-packaged install-program install-audit install-library install-shared install-plugin \
    install-filter install-python install-rescue uninstall deb FORCE

all: $(PROGRAM) $(AUDIT)

# `rt run` proves, builds and runs; the run here merges one stripe, which gives the stripe itself. The tools do nothing
# with no arguments. `rt lib` proves and builds the library, which has no code in C.
merge_a_stripe = afMerge --hash sha256 --stripes 1 --key-bytes 32
BUILT_FOR = x86-64-v2
$(PROGRAM_V3) $(TOOLS_V3) $(ARCHIVE_V3): BUILT_FOR = x86-64-v3

$(PROGRAM_V2) $(PROGRAM_V3): FORCE | toolchain
	packaging/build $(BUILT_FOR) $(PROGRAM_V2) $@ run -- $(merge_a_stripe) data/stripes

$(AUDIT): FORCE | toolchain
	cd crates/luksrd_audit && rt run -- --version >/dev/null

$(TOOLS_V2) $(TOOLS_V3): FORCE | toolchain
	packaging/build $(BUILT_FOR) $(TOOLS_V2) $@ run

$(ARCHIVE_V2) $(ARCHIVE_V3): FORCE | toolchain
	packaging/build $(BUILT_FOR) $(ARCHIVE_V2) $@ lib

FORCE:

tools: $(TOOLS)

library: $(LIBRARY) $(SHARED) $(SHARED_V3) out/luksrd.pc

# One object with what it needs from the kit, which exports only the names of luksrd.h.
out/libluksrd.a: $(ARCHIVE_V2)
out/x86-64-v3/libluksrd.a: $(ARCHIVE_V3)
out/libluksrd.a out/x86-64-v3/libluksrd.a:
	mkdir -p $(@D)
	ld -r -o $(@D)/luksrd.o --whole-archive $< "$$(dirname "$$(rt doc)")/c/liblibc_c.a"
	objcopy --wildcard --keep-global-symbol='luksrd_*' $(@D)/luksrd.o
	rm -f $@
	ar rcsD $@ $(@D)/luksrd.o

# $(call link_shared,FILE): the archive as a shared library
link_shared = $(CC) -shared -o $(1) -Wl,-soname,libluksrd.so.$(INTERFACE) -Wl,--version-script=c/luksrd.map \
    -Wl,-z,defs,-z,relro,-z,now,-z,noexecstack \
    -Wl,--whole-archive $< -Wl,--no-whole-archive $(LDLIBS)

out/libluksrd.so: $(LIBRARY) c/luksrd.map
	$(call link_shared,out/$(word 1,$(SHARED_NAMES)))
	cd out && ln -sf $(word 1,$(SHARED_NAMES)) $(word 2,$(SHARED_NAMES))
	cd out && ln -sf $(word 2,$(SHARED_NAMES)) $(word 3,$(SHARED_NAMES))

out/$(HWCAPS)/libluksrd.so.$(INTERFACE): out/x86-64-v3/libluksrd.a c/luksrd.map
	mkdir -p $(@D)
	$(call link_shared,$@)

# $(call package_config,FILE): what pkg-config reports about the library below PREFIX
package_config = sed -e 's|@PREFIX@|$(PREFIX)|' -e 's|@LIBDIR@|$(LIBDIR:$(PREFIX)/%=$${prefix}/%)|' \
    -e 's|@VERSION@|$(VERSION)|' c/luksrd.pc.in >"$(1)"

out/luksrd.pc: c/luksrd.pc.in FORCE
	mkdir -p out
	$(call package_config,$@)

nbdkit: $(PLUGIN) $(FILTER) $(SHARED_V3)
	@echo "$(FILTER) is for nbdkit $$(cat out/nbdkit.version), and for no other version"

# They load the library from their own folder, as in out/, or from two folders above that, as for
# lib/nbdkit/plugins below a PREFIX; otherwise the loader has to know the library.
NBDKIT_PARTS := nbdkit/input.c nbdkit/parameters.c nbdkit/volume.c
NBDKIT_HEADERS := $(wildcard nbdkit/*.h) c/luksrd.h
# $(call link_nbdkit,FILE,SOURCES)
link_nbdkit = mkdir -p "$(dir $(1))" && \
	$(CC) $(CFLAGS) -std=c11 -D_GNU_SOURCE -DVERSION='"$(VERSION)"' -Wall -Wextra -Werror -fPIC -fvisibility=hidden -Ic \
	    $$(pkg-config nbdkit --cflags) -shared -Wl,-z,relro,-z,now,-z,noexecstack \
	    -Wl,--enable-new-dtags,-rpath,'$$ORIGIN:$$ORIGIN/../..' $(LDFLAGS) -o "$(1)" $(2) "$(SHARED)" $(LDLIBS) -lpthread

$(PLUGIN): nbdkit/plugin.c $(NBDKIT_PARTS) $(NBDKIT_HEADERS) $(SHARED)
	$(call link_nbdkit,$@,nbdkit/plugin.c $(NBDKIT_PARTS))

# nbdkit loads no filter that was built for another version of it.
$(FILTER): nbdkit/filter.c nbdkit/below.c $(NBDKIT_PARTS) $(NBDKIT_HEADERS) $(SHARED) out/nbdkit.version
	$(call link_nbdkit,$@,nbdkit/filter.c nbdkit/below.c $(NBDKIT_PARTS))

out/nbdkit.version: FORCE
	@mkdir -p out && pkg-config nbdkit --modversion >$@.$$$$ && \
	    if cmp -s $@.$$$$ $@; then rm $@.$$$$; else mv $@.$$$$ $@; fi

rescue: $(AUDIT) library
	@rescue/luksrd-rescue $(or $(ARGS),--help)

demo: toolchain
	@tests/demo

quick: toolchain
	@tests/quick

toolchain:
	@command -v rt >/dev/null || { echo "rt is missing: put the Rattle toolchain on the path" >&2; exit 1; }

JOBS ?= $(shell nproc)
run_tests = tests/packages && /usr/bin/python3 -m pytest tests -n $(JOBS)

check: $(PROGRAM_V2) $(PROGRAM_V3) $(AUDIT) $(TOOLS_V2) $(TOOLS_V3) library nbdkit
	$(run_tests)

# The gate builds what is for x86-64-v2; tests/built lets the rest be built over what it has proved. What failed of both
# comes last, and then the gate's own last line.
test: export CI := true
test: toolchain
	@rm -f $(PROGRAM_V2) $(AUDIT) $(TOOLS_V2) && mkdir -p out
	@{ tests/times rt ci 2>&1; echo $$? >out/gate.status; } | tee out/gate.log
	@tests/built; $(MAKE) -k $(PROGRAM_V3) $(TOOLS_V3) library nbdkit; { $(run_tests); }; tests=$$?; gate=$$(cat out/gate.status); \
	    grep -E '^rt: .*(FAILED|NOT PROVED)' out/gate.log; grep -xE '[0-9]+ passed, [0-9]+ failed' out/gate.log | tail -n 1; \
	    exit $$((gate ? gate : tests))

pages:
	docs/headline
	docs/contracts
	bench/page

# What the measurements need, before the first of them begins. MACHINE reaches them by the environment.
BENCH_TOOLS := hyperfine cryptsetup argon2 valgrind python3 cc openssl /usr/bin/time qemu-img nbdkit nbdcopy grub-fstest

bench: export MACHINE ?= $(shell uname -n)
bench: $(if $(AS_BUILT),,all $(PROGRAM_V3) $(TOOLS_V2) $(TOOLS_V3) library nbdkit)
	@for tool in $(BENCH_TOOLS); do \
	    command -v $$tool >/dev/null || { echo "$$tool is missing: CONTRIBUTING.md lists the packages" >&2; exit 1; }; \
	done
	bench/measure $(ROUNDS)
	bench/reads
	bench/page

include packaging/install.mk
