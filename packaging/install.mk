# What `make install`, `make uninstall` and `make deb` do; ../Makefile has where things go.

# What is already built is installed as it is, so this needs no toolchain.
# $(call check_built,FILE,COMMAND): stops if this program is not built, or if a build for another processor was cut off
# in its place
check_built = test -f "$(1)" -a -x "$(1)" || { echo "luksrd is not built: run $(2) first" >&2; exit 1; }; \
    test ! -d "$$(dirname "$(1)")/aside" || \
    { echo "a build for another processor was cut off: run $(2) first" >&2; exit 1; }
# how the program for this processor is made
MAKE_IT = make$(if $(filter-out x86-64-v2,$(CPU)), CPU=$(CPU))

built:
	@$(call check_built,$(PROGRAM),$(MAKE_IT))

# A program for x86-64-v3 is installed only after it has run here.
runs-here: built
	@"$(PROGRAM)" $(merge_a_stripe) crates/luksrd/data/stripes | cmp -s - crates/luksrd/data/stripes || \
	    { echo "luksrd for $(CPU) does not run here: nothing is installed" >&2; exit 1; }

# What would stop it is looked for first, with make -j, too: then nothing is installed.
install: built $(if $(filter-out x86-64-v2,$(CPU)),runs-here) \
    $(if $(wildcard $(PLUGIN) $(FILTER) $(LIBRARY)),library-built nbdkit-folders) not-packaged
	@$(MAKE) --no-print-directory install-parts

install-parts: install-program $(if $(wildcard $(PLUGIN)),install-plugin) $(if $(wildcard $(FILTER)),install-filter) \
    $(if $(wildcard $(AUDIT)),install-audit) \
    $(if $(wildcard $(PLUGIN) $(FILTER) $(LIBRARY)),install-library install-python) \
    $(if $(wildcard $(AUDIT)),$(if $(wildcard $(PLUGIN) $(FILTER) $(LIBRARY)),install-rescue))

install-audit:
	@$(call refuse_packaged,$(BINARIES)/luksrd-audit)
	@test -f "$(AUDIT)" -a -x "$(AUDIT)" || { echo "luksrd-audit is not built: run make first" >&2; exit 1; }
	install -d "$(BINARIES)" "$(PAGES)" "$(BASH_COMPLETIONS)" "$(ZSH_COMPLETIONS)" "$(AUDIT_DATA)"
	install -m 755 "$(AUDIT)" "$(BINARIES)/luksrd-audit"
	install -m 644 docs/luksrd-audit.1 "$(PAGES)/luksrd-audit.1"
	install -m 644 docs/luksrd-audit.schema.json "$(AUDIT_DATA)/luksrd-audit.schema.json"
	install -m 644 completions/luksrd-audit.bash "$(BASH_COMPLETIONS)/luksrd-audit"
	install -m 644 completions/_luksrd-audit "$(ZSH_COMPLETIONS)/_luksrd-audit"

install-program: built $(if $(filter-out x86-64-v2,$(CPU)),runs-here)
	@$(call refuse_packaged,$(BINARIES)/luksrd)
	install -d "$(BINARIES)" "$(PAGES)" "$(BASH_COMPLETIONS)" "$(ZSH_COMPLETIONS)"
	install -m 755 "$(PROGRAM)" "$(BINARIES)/luksrd"
	install -m 644 docs/luksrd.1 "$(PAGES)"
	packaging/documents "$(DOCUMENTS)" $(GUIDES)
	install -m 644 completions/luksrd.bash "$(BASH_COMPLETIONS)/luksrd"
	install -m 644 completions/_luksrd "$(ZSH_COMPLETIONS)/_luksrd"

# The loader finds a library in the folders that ldconfig knows, but only after ldconfig has noted it.
note_library = if [ -z "$(DESTDIR)" ] && [ "$$(id -u)" = 0 ] && PATH=$$PATH:/usr/sbin:/sbin && \
    ldconfig -vNX 2>/dev/null | grep "^$(LIBRARIES):" >/dev/null; then ldconfig; fi

library-built:
	@test -f "$(LIBRARY)" -a -f "$(SHARED)" -a -f "$(SHARED_V3)" || \
	    { echo "the library is not built: run make library first" >&2; exit 1; }

# what programs load: for all processors, and for x86-64-v3
install-shared: | $(if $(filter-out x86-64-v2,$(CPU)),runs-here)
	install -d "$(LIBRARIES)/$(HWCAPS)"
	install -m 644 "$(SHARED)" "$(LIBRARIES)/$(word 1,$(SHARED_NAMES))"
	ln -sf $(word 1,$(SHARED_NAMES)) "$(LIBRARIES)/$(word 2,$(SHARED_NAMES))"
	install -m 644 "$(SHARED_V3)" "$(LIBRARIES)/$(HWCAPS)/$(word 2,$(SHARED_NAMES))"

install-library: library-built install-shared
	@$(call refuse_packaged,$(HEADERS)/luksrd.h)
	install -d "$(LIBRARIES)/pkgconfig" "$(HEADERS)"
	install -m 644 c/luksrd.h "$(HEADERS)/luksrd.h"
	umask 022 && packaging/manual "$(LIBRARY_PAGES)" >/dev/null
	install -m 644 "$(LIBRARY)" "$(LIBRARIES)/libluksrd.a"
	ln -sf $(word 2,$(SHARED_NAMES)) "$(LIBRARIES)/$(word 3,$(SHARED_NAMES))"
	$(call package_config,$(LIBRARIES)/pkgconfig/luksrd.pc)
	chmod 644 "$(LIBRARIES)/pkgconfig/luksrd.pc"
	@$(note_library)

# $(call packaged,FILE): the Debian package that has put this file there, or the link of
# update-alternatives that it is
packaged = { dpkg-query -S "$$(realpath -m "$$(dirname "$(1)")")/$$(basename "$(1)")" | sed 's/: .*//'; \
    readlink "$(1)" | grep '^/etc/alternatives/'; } 2>/dev/null
# $(call refuse_packaged,FILE): stops if there is one
refuse_packaged = name=$$($(call packaged,$(1)) | sed 's|.*/||'); [ -z "$$name" ] || \
    { echo "the package $$name has $(1): run apt-get remove $$name, or give a PREFIX" >&2; exit 1; }

not-packaged:
	@for file in "$(BINARIES)/luksrd" $(if $(wildcard $(AUDIT)),"$(BINARIES)/luksrd-audit") \
	    $(if $(wildcard $(PLUGIN)),"$(PLUGIN_FILE)") $(if $(wildcard $(FILTER)),"$(FILTER_FILE)") \
	    $(if $(wildcard $(PLUGIN) $(FILTER) $(LIBRARY)),"$(HEADERS)/luksrd.h" "$(MODULE_FILE)"); do \
	    $(call refuse_packaged,$$file); \
	done

# $(call nbdkit_folder_known,FOLDER)
nbdkit_folder_known = test -n "$(1)" || \
    { echo "nbdkit's folder is not known: run apt-get install nbdkit-plugin-dev pkg-config" >&2; exit 1; }

nbdkit-folders:
	@for folder in $(if $(wildcard $(PLUGIN)),"$(PLUGINS)") $(if $(wildcard $(FILTER)),"$(FILTERS)"); do \
	    $(call nbdkit_folder_known,$$folder); \
	    { install -d "$(DESTDIR)$$folder" && test -w "$(DESTDIR)$$folder"; } || \
	        { echo "$(DESTDIR)$$folder cannot be written to: nothing is installed" >&2; exit 1; }; \
	done

# $(call install_nbdkit,plugin or filter,FILE,FOLDER,INSTALLED FILE)
define install_nbdkit
@test -f "$(2)" || { echo "the $(1) is not built: run make nbdkit first" >&2; exit 1; }
@$(call nbdkit_folder_known,$(3))
@$(call refuse_packaged,$(4))
install -d "$(DESTDIR)$(3)" "$(PAGES)"
install -m 644 "$(2)" "$(4)"
install -m 644 docs/nbdkit-luksrd-$(1).1 "$(PAGES)/nbdkit-luksrd-$(1).1"
endef

# systemd looks for units below these two
install-plugin: | $(if $(filter-out x86-64-v2,$(CPU)),runs-here)
	$(call install_nbdkit,plugin,$(PLUGIN),$(PLUGINS),$(PLUGIN_FILE))
	$(if $(filter /usr /usr/local,$(PREFIX:/=)),install -D -m 644 packaging/nbdkit-luksrd@.service "$(UNIT_FILE)")

install-filter: | $(if $(filter-out x86-64-v2,$(CPU)),runs-here)
	$(call install_nbdkit,filter,$(FILTER),$(FILTERS),$(FILTER_FILE))

install-python: | $(if $(filter-out x86-64-v2,$(CPU)),runs-here)
	@$(call refuse_packaged,$(MODULE_FILE))
	install -d "$(DESTDIR)$(MODULES)"
	install -m 644 python/luksrd.py python/luksrd_lvm.py "$(DESTDIR)$(MODULES)"

# It needs luksrd-audit and the module above.
install-rescue: | $(if $(filter-out x86-64-v2,$(CPU)),runs-here)
	@$(call refuse_packaged,$(BINARIES)/luksrd-rescue)
	install -d "$(BINARIES)" "$(PAGES)" "$(BASH_COMPLETIONS)" "$(ZSH_COMPLETIONS)" "$(RESCUE_FOLDER)"
	install -m 755 rescue/luksrd-rescue "$(BINARIES)/luksrd-rescue"
	install -m 644 $(RESCUE) "$(RESCUE_FOLDER)"
	install -m 644 docs/luksrd-rescue.1 "$(PAGES)/luksrd-rescue.1"
	install -m 644 completions/luksrd-rescue.bash "$(BASH_COMPLETIONS)/luksrd-rescue"
	install -m 644 completions/_luksrd-rescue "$(ZSH_COMPLETIONS)/_luksrd-rescue"

INSTALLED = "$(BINARIES)/luksrd" "$(PAGES)/luksrd.1" \
    $(GUIDES:%="$(DOCUMENTS)/%") \
    "$(BASH_COMPLETIONS)/luksrd" "$(ZSH_COMPLETIONS)/_luksrd" \
    "$(BINARIES)/luksrd-audit" "$(PAGES)/luksrd-audit.1" \
    "$(BASH_COMPLETIONS)/luksrd-audit" "$(ZSH_COMPLETIONS)/_luksrd-audit" \
    "$(AUDIT_DATA)/luksrd-audit.schema.json" \
    "$(HEADERS)/luksrd.h" "$(LIBRARIES)/libluksrd.a" $(SHARED_NAMES:%="$(LIBRARIES)/%") \
    "$(LIBRARIES)/pkgconfig/luksrd.pc" \
    "$(LIBRARY_PAGES)/luksrd.3" "$(LIBRARY_PAGES)"/luksrd_*.3 \
    "$(LIBRARIES)/$(HWCAPS)/$(word 2,$(SHARED_NAMES))" \
    "$(UNIT_FILE)" "$(PAGES)/nbdkit-luksrd-plugin.1" $(if $(PLUGINS),"$(PLUGIN_FILE)") \
    "$(PAGES)/nbdkit-luksrd-filter.1" $(if $(FILTERS),"$(FILTER_FILE)") \
    "$(BINARIES)/luksrd-rescue" "$(PAGES)/luksrd-rescue.1" $(RESCUE:rescue/%="$(DESTDIR)$(MODULES)/%") \
    "$(BASH_COMPLETIONS)/luksrd-rescue" "$(ZSH_COMPLETIONS)/_luksrd-rescue" \
    "$(MODULE_FILE)" "$(DESTDIR)$(MODULES)/luksrd_lvm.py" \
    "$(DESTDIR)$(MODULES)/__pycache__"/luksrd.*.pyc "$(DESTDIR)$(MODULES)/__pycache__"/luksrd_lvm.*.pyc \
    "$(RESCUE_FOLDER)/__pycache__"/*.pyc

uninstall:
	@for file in $(INSTALLED); do \
	    case "$$file" in *.pyc) [ -z "$$($(call packaged,$(MODULE_FILE)))" ] || continue ;; esac; \
	    [ ! -e "$$file" ] && [ ! -L "$$file" ] || [ -n "$$($(call packaged,$$file))" ] || \
	        { echo "rm $$file"; rm "$$file" || exit; }; \
	done
	@for folder in "$(DOCUMENTS)/docs" "$(DOCUMENTS)" "$(LIBRARIES)/$(HWCAPS)" "$(LIBRARIES)/glibc-hwcaps" \
	    "$(AUDIT_DATA)" "$(RESCUE_FOLDER)/__pycache__" "$(RESCUE_FOLDER)" "$(DESTDIR)$(MODULES)/__pycache__"; do \
	    [ ! -d "$$folder" ] || rmdir --ignore-fail-on-non-empty "$$folder"; \
	done
	@$(note_library)

# These too are used as they are.
deb: $(if $(wildcard $(PLUGIN) $(FILTER)),library-built)
	@$(call check_built,$(PROGRAM_V2),make)
	@$(call check_built,$(PROGRAM_V3),make CPU=x86-64-v3)
	@PROGRAM_V2="$(PROGRAM_V2)" PROGRAM_V3="$(PROGRAM_V3)" \
	    LIBRARY="$(LIBRARY)" SHARED="$(if $(wildcard $(LIBRARY)),$(SHARED))" SHARED_V3="$(SHARED_V3)" \
	    PLUGIN="$(wildcard $(PLUGIN))" FILTER="$(FILTER)" AUDIT="$(wildcard $(AUDIT))" \
	    packaging/deb "$(DEBS)" "$(VERSION)"
