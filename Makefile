# Builds and installs the commands, the library for C and the Python module. They are made of what was proved here,
# where that was done and crates/ hasn't changed since; else of dist/, the generated sources of the last release,
# which a C compiler compiles.
#
#   make             makes all of it
#   make prove       proves crates/ and makes all of it of that; it needs rt (CONTRIBUTING.md says how long it takes)
#   make from-dist   makes all of it of dist/
#   make programs    makes the commands alone, in out/bin
#   make library     makes the library for C alone, in out/lib
#   make python      makes the Python module alone, in out/python
#   make wheel sdist makes the wheel of what is made here, and the source distribution, in out
#   make java        makes the module for Java, in out/java; it needs a JDK
#   make install     puts all of it below PREFIX, and below DESTDIR where that is given; so do install-programs, install-library and
#                    install-python with a part of it
#   make uninstall   takes away what make install puts
#   make check       tests what make makes, in a few minutes; make check-all tests more of it, for an hour or two
#   make deb         makes a Debian package of it in out; MAINTAINER names who distributes it
#   make debian      makes the folder debian/ in FOLDER, or here: dpkg-buildpackage makes four Debian packages of dist/ with it
#   make web         makes the web page and the modules for JavaScript in out/web
#   make docs        makes a page of the contracts of each crate, in docs/contracts
#   make npm         makes the package for JavaScript in out, with the library of dist/
#   make amalgamation    makes the library for C as one C file, in out/amalgamation; it needs rt
#   make dist        makes dist/ again of what is proved, where it lacks nothing of the release that dist/ is; it needs rt (ports/README.md
#                    says what comes first)
#   make release     makes out/simbegyor-VERSION.tar.xz (CONTRIBUTING.md says how a release is made); it needs rt
#   make boards      makes the library for ESP-IDF, Zephyr, PlatformIO and Arduino of dist/, in out/boards
#   make TARGET=aarch64-linux    makes the library for C for AArch64 Linux alone, in out/aarch64-linux
#
# NDEF_FROM=crates or NDEF_FROM=dist, in the environment or as a word, says of what each of these makes things. What is made of
# dist/ has the version of that release. All of it needs a C compiler; what also needs Python 3 stops at once where there is none.
#
# All of it runs on every x86-64 but libndef-v2.a of crates/, which needs x86-64-v2 and is made on x86-64 only: with SSSE3 and
# SSE4.1 long texts are checked faster. libndef.a holds both, and chooses where a program is loaded (packaging/c/join_archives); so
# does what is linked of it, as the Python module. The shared library is two files, of which the loader takes the one for its
# processor (glibc-hwcaps). The C file of dist/ isn't faster for x86-64-v2: it is compiled once, for the archive, the shared library
# and the Python module, and libndef-v2.a is the same archive. libsimbegyor-ndef.a is the same as libndef.a; nfc-tools has another library
# of the name ndef.

PREFIX ?= /usr/local
LIBDIR ?= $(PREFIX)/lib
PYTHON ?= python3
PYTHONDIR ?= $(shell packaging/python/folder $(PYTHON) $(PREFIX))
# The interface of the shared library: another number where a program must be linked again.
ABI := 1
MAINTAINER ?= The Simbegyor authors <simbegyor@example.org>
ifndef NDEF_FROM
NDEF_FROM := $(shell packaging/build/crates_or_dist)
endif
ifeq ($(filter crates dist,$(NDEF_FROM)),)
$(error NDEF_FROM is $(NDEF_FROM), and has to be crates or dist)
endif
export NDEF_FROM
released := $(shell packaging/build/from_dist version 2>/dev/null)
VERSION := $(or $(if $(filter dist,$(NDEF_FROM)),$(released)),$(shell cat VERSION))
# The same as Python writes it.
python_version := $(patsubst %.dev,%.dev0,$(VERSION))
# The package for JavaScript has the library of dist/; this is its version as npm writes it.
npm_version := $(patsubst %.dev,%-dev,$(released))
export MAINTAINER

# Names of folders become words of commands and of files for other tools, so they have no signs that mean something there.
installing := $(firstword $(filter install install-% uninstall,$(MAKECMDGOALS)))
signs := ' " ` & ; < > | * ? [ ] { } ( ) ! \ \# $$
is_strange = $(strip $(filter-out 1,$(words x$($(1))x)) $(filter ~%,$($(1))) $(foreach sign,$(signs),$(findstring $(sign),$($(1)))))
refuse = $(error $(1) is "$($(1))": make $(installing) takes no space there, no ~ at the front, and none of $(signs))
$(foreach name,$(if $(installing),DESTDIR PREFIX LIBDIR PYTHONDIR),$(if $(call is_strange,$(name)),$(call refuse,$(name))))

# What a goal needs besides: the goal, the program, and its package in Debian.
needs = $(if $(filter $(1),$(MAKECMDGOALS)),$(if $(shell command -v $(2) 2>/dev/null),,\
    $(error make $(1) needs $(2): install it, as by 'apt install $(3)')))
$(foreach goal,check check-all install install-library deb debian web,$(call needs,$(goal),python3,python3))
$(foreach goal,wheel sdist,$(call needs,$(goal),$(PYTHON),python3))
$(foreach program,dpkg-deb dpkg-shlibdeps,$(call needs,deb,$(program),dpkg-dev))

links := ndef-make ndef-explain
commands := ndef $(links)
library := out/lib/libsimbegyor-ndef.so.$(VERSION)
cmake = $(LIBDIR)/cmake/simbegyor-ndef
modules := $(wildcard bindings/python/simbegyor_ndef/*.py bindings/python/simbegyor_ndef/py.typed)
module := out/python/simbegyor_ndef
module_data := simbegyor_ndef-$(python_version).dist-info
pages := $(wildcard packaging/man/*.1)
calls = $(shell sed -nE 's/^(uint32_t|void) (ndef_[a-z0-9_]+).*/\2/p' $(header))
call_pages = $(patsubst %,out/man3/%.3,$(calls) simbegyor-ndef)
completions := $(wildcard packaging/share/completion/*)
zsh_completions := $(wildcard packaging/share/zsh/*)
fish_completions := $(wildcard packaging/share/fish/*)
shared := -shared -Wl,-z,defs -Wl,-z,relro -Wl,-z,now
whole = -Wl,--whole-archive $(1) -Wl,--no-whole-archive
hwcaps := glibc-hwcaps/x86-64-v2
fill = umask 022 && packaging/build/fill_template PREFIX=$(PREFIX) LIBDIR=$(LIBDIR) VERSION=$(VERSION) ABI=$(ABI) PACKAGE_INIT= \
    INCLUDE=$(shell realpath -m --relative-to=$(LIBDIR) $(PREFIX)/include)
# The machine of the C compiler.
machine := $(or $(shell $(CC) -dumpmachine 2>/dev/null),$(shell uname -m))
CROSS_CC ?= aarch64-linux-gnu-gcc

# What all is made of: the program, the headers for C with the description of the interface, and the archives: one for every x86-64
# and, of crates/ on x86-64, a faster one.
ifeq ($(NDEF_FROM),dist)
made_program := out/dist/ndef
made_archive := out/dist/libndef.a
made_v2 := $(if $(filter-out %x32,$(filter x86_64% amd64%,$(machine))),$(made_archive))
header := dist/ndef.h
description := dist/interface.json
else
made_program := out/commands/ndef
made_archive := crates/ndef_c/out/libndef_c.a
made_faster := out/x86-64-v2/libndef.a
made_v2 := $(made_faster)
header := include/ndef.h
description := packaging/share/interface.json
endif
headers := $(wildcard $(dir $(header))ndef*.h include/ndef*.hpp)
faster := $(if $(made_v2),out/lib/libndef-v2.a)
faster_library := $(if $(made_faster),out/lib/$(hwcaps)/$(notdir $(library)))

ifdef TARGET
proved := ndef_c
all: cost out/$(TARGET)/libndef.a out/$(TARGET)/libndef.so
	cp $(wildcard $(dir $(header))ndef*.h) out/$(TARGET)
else
proved := ndef_commands ndef_c
all: cost programs library python
endif

# Says what is left to prove, and what that takes.
cost:
	@[ $(NDEF_FROM) = dist ] || packaging/build/with_rt cost make $(proved)

programs: out/bin/ndef
library: out/lib/libndef.a $(faster) $(library) $(faster_library)
python: $(module)/libndef.so.1 $(patsubst bindings/%,out/%,$(modules)) out/python/$(module_data)/METADATA

prove:
	$(MAKE) NDEF_FROM=crates all
from-dist:
	$(MAKE) NDEF_FROM=dist all

# What everything is made of; a line says so where that is another than the last time.
out/from: FORCE
	@mkdir -p out
	@if [ "$$(cat $@ 2>/dev/null)" != $(NDEF_FROM) ]; then \
	    case $(NDEF_FROM) in \
	    dist) echo "out/ is made of dist/, release $$(packaging/build/from_dist version); see make prove" >&2 ;; \
	    crates) echo 'out/ is made of crates/, as it is proved here' >&2 ;; \
	    esac && echo $(NDEF_FROM) >$@; \
	fi
FORCE:

ifeq ($(NDEF_FROM),dist)
out/dist/ndef: $(wildcard dist/SOURCE dist/commands* dist/runtime.c)
	packaging/build/from_dist commands

out/dist/libndef.a: dist/ndef.c
	packaging/build/from_dist library $@

out/aarch64-linux/libndef.a: dist/ndef.c out/from
	CC='$(CROSS_CC)' packaging/build/from_dist library $@

dist/ndef.c dist/ndef.h:
	packaging/build/from_dist version
else
below_c := ndef_format ndef_value ndef_piece ndef_lang ndef_nest ndef_message ndef_types ndef_fields ndef_diagnostics ndef_c
sources = $(shell find $(foreach crate,$(1),$(wildcard $(addprefix crates/$(crate)/,src specs proofs))) -type f)
every_source := crates.txt $(call sources,$(notdir $(wildcard crates/*)))

# The script proves and builds the program where that is older than the sources.
crates/ndef_commands/out/ndef_commands: $(every_source)
	./ndef --prove encode </dev/null

# The same for any x86-64, over the crates that the line above proved.
out/commands/ndef: crates/ndef_commands/out/ndef_commands packaging/build/command
	packaging/build/command ndef_commands $@

crates/ndef_c/out/libndef_c.a: crates.txt $(call sources,$(below_c))
	cd crates/ndef_c && rt lib --cpu x86-64
	touch $@

# The library for other machines, over the crates that the line above proved.
out/%/libndef.a: $(made_archive) packaging/library
	packaging/library $*
endif

# The commands are one program with two links to it.
out/bin/ndef: $(made_program) out/from
	mkdir -p $(@D)
	rm -f $(addprefix $(@D)/,$(commands))
	for link in $(links); do ln -s ndef $(@D)/$$link || exit; done
	cp $< $@

out/lib/libndef.a: $(made_archive) $(made_faster) $(wildcard packaging/c/join_archives packaging/c/choose.c packaging/c/has_v2.h) out/from
	mkdir -p $(@D)
	$(if $(made_faster),packaging/c/join_archives $(made_archive) $(made_faster) $(header) $@,cp $< $@)

out/lib/libndef-v2.a: $(made_v2) out/from
	mkdir -p $(@D)
	cp $< $@

$(library): $(made_archive)
$(faster_library): $(made_faster)
$(library) $(faster_library): packaging/c/libsimbegyor-ndef.map out/from
	mkdir -p $(@D)
	$(CC) $(LDFLAGS) $(shared) -Wl,--version-script=packaging/c/libsimbegyor-ndef.map \
	    -Wl,-soname,libsimbegyor-ndef.so.$(ABI) -o $@ $(call whole,$(filter %.a,$^))

out/aarch64-linux/libndef.so: out/aarch64-linux/libndef.a packaging/c/ndef.map
	$(CROSS_CC) $(shared) -Wl,--version-script=packaging/c/ndef.map -o $@ -Wl,--whole-archive $< -Wl,--no-whole-archive

# Of dist/ it takes the module for WebAssembly, and no archive.
web: $(if $(filter crates,$(NDEF_FROM)),$(made_archive))
	bindings/web/build

docs:
	packaging/contracts
	@echo docs/contracts/README.md

npm:
	packaging/npm/make out/simbegyor-ndef-$(npm_version).tgz
	@echo out/simbegyor-ndef-$(npm_version).tgz

out/python/%: bindings/python/% VERSION $(wildcard dist/SOURCE) out/from
	mkdir -p $(@D)
	packaging/build/fill_template VERSION=$(python_version) <$< >$@

$(module)/libndef.so.1: out/lib/libndef.a packaging/c/ndef.map
	mkdir -p $(@D)
	rm -f $(basename $@)
	$(CC) $(LDFLAGS) $(shared) -Wl,--version-script=packaging/c/ndef.map -o $@ $(call whole,$<)

wheel: library
	cd bindings/python && NDEF_LIB_DIR=../../out/lib $(PYTHON) -B -c 'import backend; print("out/" + backend.build_wheel("../../out"))'

sdist:
	cd bindings/python && $(PYTHON) -B -c 'import backend; print("out/" + backend.build_sdist("../../out"))'

java: out/java/simbegyor-ndef.jar

out/java/simbegyor-ndef.jar: out/lib/libndef.a bindings/java/build VERSION $(shell find bindings/java/annotations bindings/java/native bindings/java/src -type f)
	NDEF_VERSION=$(VERSION) bindings/java/build $< $(dir $(header))

# What pip and importlib.metadata know of the module.
out/python/$(module_data)/METADATA: bindings/python/METADATA.in bindings/python/README.md VERSION $(wildcard dist/SOURCE) out/from
	rm -rf out/python/simbegyor_ndef-*.dist-info
	mkdir -p $(@D)/licenses
	cp LICENSE-MIT LICENSE-APACHE $(@D)/licenses
	echo 'make install' >$(@D)/INSTALLER
	{ packaging/build/fill_template VERSION=$(python_version) <bindings/python/METADATA.in && echo && cat bindings/python/README.md; } >$@

out/man3/simbegyor-ndef.3: $(header) packaging/man/calls VERSION CHANGELOG.md out/from
	rm -rf out/man3
	packaging/man/calls out/man3 $(VERSION) $(header)

install: all install-programs install-library install-python

install-programs: programs
	install -d $(addprefix $(DESTDIR)$(PREFIX)/,bin share/man/man1 share/bash-completion/completions share/zsh/site-functions \
	    share/fish/vendor_completions.d)
	install -m 755 out/bin/ndef $(DESTDIR)$(PREFIX)/bin
	for link in $(links); do ln -sf ndef $(DESTDIR)$(PREFIX)/bin/$$link || exit; done
	umask 022; for page in $(notdir $(pages)); do packaging/build/fill_template VERSION=$(VERSION) <packaging/man/$$page >$(DESTDIR)$(PREFIX)/share/man/man1/$$page || exit; done
	install -m 644 $(completions) $(DESTDIR)$(PREFIX)/share/bash-completion/completions
	install -m 644 $(zsh_completions) $(DESTDIR)$(PREFIX)/share/zsh/site-functions
	install -m 644 $(fish_completions) $(DESTDIR)$(PREFIX)/share/fish/vendor_completions.d

install-library: library out/man3/simbegyor-ndef.3
	install -d $(addprefix $(DESTDIR),$(PREFIX)/include $(LIBDIR)/pkgconfig $(cmake) $(PREFIX)/share/man/man3)
	install -m 644 $(headers) $(DESTDIR)$(PREFIX)/include
	install -D -m 644 $(description) $(DESTDIR)$(PREFIX)/share/simbegyor-ndef/interface.json
	install -m 644 out/lib/libndef.a $(faster) $(library) $(DESTDIR)$(LIBDIR)
	rm -f $(DESTDIR)$(LIBDIR)/$(hwcaps)/libsimbegyor-ndef.so.*
	$(if $(faster_library),install -d $(DESTDIR)$(LIBDIR)/$(hwcaps) && install -m 644 $(faster_library) $(DESTDIR)$(LIBDIR)/$(hwcaps) && \
	    ln -sf $(notdir $(library)) $(DESTDIR)$(LIBDIR)/$(hwcaps)/libsimbegyor-ndef.so.$(ABI))
	ln -sf libndef.a $(DESTDIR)$(LIBDIR)/libsimbegyor-ndef.a
	ln -sf $(notdir $(library)) $(DESTDIR)$(LIBDIR)/libsimbegyor-ndef.so.$(ABI)
	ln -sf libsimbegyor-ndef.so.$(ABI) $(DESTDIR)$(LIBDIR)/libsimbegyor-ndef.so
	$(fill) <packaging/c/simbegyor-ndef.pc.in >$(DESTDIR)$(LIBDIR)/pkgconfig/simbegyor-ndef.pc
	for file in config config-version targets; do \
	    $(fill) <packaging/c/simbegyor-ndef-$$file.cmake.in >$(DESTDIR)$(cmake)/simbegyor-ndef-$$file.cmake || exit; \
	done
	$(fill) FOR= LIBRARY=ndef <packaging/c/ndef.pc.in >$(DESTDIR)$(LIBDIR)/pkgconfig/ndef.pc
	$(if $(faster),$(fill) FOR=' for x86-64-v2' LIBRARY=ndef-v2 <packaging/c/ndef.pc.in \
	    >$(DESTDIR)$(LIBDIR)/pkgconfig/ndef-v2.pc)
	install -m 644 out/man3/*.3 $(DESTDIR)$(PREFIX)/share/man/man3
	@$(if $(DESTDIR),,packaging/c/say_loader $(LIBDIR))

install-python: python
	install -d $(addprefix $(DESTDIR)$(PYTHONDIR)/,simbegyor_ndef $(module_data)/licenses)
	rm -f $(DESTDIR)$(PYTHONDIR)/simbegyor_ndef/libndef.so
	install -m 644 $(patsubst bindings/%,out/%,$(modules)) $(module)/libndef.so.1 $(DESTDIR)$(PYTHONDIR)/simbegyor_ndef
	install -m 644 $(addprefix out/python/$(module_data)/,METADATA INSTALLER) $(DESTDIR)$(PYTHONDIR)/$(module_data)
	install -m 644 LICENSE-MIT LICENSE-APACHE $(DESTDIR)$(PYTHONDIR)/$(module_data)/licenses
	@$(if $(DESTDIR),,packaging/python/say_folder $(PYTHON) $(PYTHONDIR))

uninstall:
	rm -f $(addprefix $(DESTDIR)$(PREFIX)/bin/,$(commands)) $(addprefix $(DESTDIR)$(PREFIX)/include/,$(notdir $(headers)))
	rm -f $(addprefix $(DESTDIR)$(LIBDIR)/,libndef.a libndef-v2.a)
	rm -f $(addprefix $(DESTDIR)$(LIBDIR)/libsimbegyor-ndef,.a .so .so.$(ABI) .so.$(VERSION))
	rm -f $(addprefix $(DESTDIR)$(LIBDIR)/$(hwcaps)/libsimbegyor-ndef.so.,$(ABI) $(VERSION))
	rm -f $(addprefix $(DESTDIR)$(LIBDIR)/pkgconfig/,ndef.pc ndef-v2.pc simbegyor-ndef.pc)
	rm -rf $(DESTDIR)$(cmake) $(DESTDIR)$(PREFIX)/share/simbegyor-ndef $(addprefix $(DESTDIR)$(PYTHONDIR)/,simbegyor_ndef $(module_data))
	rm -f $(addprefix $(DESTDIR)$(PREFIX)/share/man/man1/,$(notdir $(pages)))
	rm -f $(addprefix $(DESTDIR)$(PREFIX)/share/man/man3/,$(notdir $(call_pages)))
	rm -f $(addprefix $(DESTDIR)$(PREFIX)/share/bash-completion/completions/,$(notdir $(completions)))
	rm -f $(addprefix $(DESTDIR)$(PREFIX)/share/zsh/site-functions/,$(notdir $(zsh_completions)))
	rm -f $(addprefix $(DESTDIR)$(PREFIX)/share/fish/vendor_completions.d/,$(notdir $(fish_completions)))

check:
	test/run
check-all:
	test/run --all

deb: all out/man3/simbegyor-ndef.3
	packaging/debian/make "$$MAINTAINER"

debian:
	packaging/debian/folder '$(or $(FOLDER),.)' "$$MAINTAINER"

amalgamation:
	ports/amalgamation out/amalgamation
	cd out/amalgamation && sha256sum ndef.c ndef*.h | tee SHA256SUMS

dist:
	packaging/public_names --check
	packaging/frozen
	ports/dist dist
	packaging/go/copy_library

release:
	packaging/release

boards:
	packaging/boards/make out/boards
	@echo out/boards/simbegyor-ndef

.PHONY: all amalgamation cost dist docs programs library python wheel sdist java prove from-dist install install-programs install-library \
    install-python uninstall check check-all deb debian web npm release boards FORCE
