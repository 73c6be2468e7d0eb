# Builds Fustrelan from the generated code in dist/, with GNU make and a C compiler. Nothing is proved here: ./test does that.
#
#   make              the programs and the libraries, in build/; what is left out is named, with the reason
#   make check        the tests that need gcc, make and a shell, as make test; make check-all: each test whose commands are there
#   make compare      dfu-util and dfu-flash over the same simulated board with the same faults, as a table; it needs dfu-util
#   make dfu          one program, as make dfu-flash and make dfu-gadget
#   make install      to PREFIX (/usr/local), or below DESTDIR; with UDEVDIR=/etc/udev/rules.d the rule for devices with DFU too
#   make uninstall    takes away what make install puts there, and nothing else
#   make libraries    the libraries, as make lib: make libraries CC=arm-none-eabi-gcc CFLAGS='-mcpu=cortex-m4 -mthumb' BUILD=build-m4
#   make page         the page for browsers, in build/page
#   make dfu-rust     the program dfu in plain Rust, by cargo: build/dfu-rust/target/release/dfu
#   make dfu-flash.exe CROSS=x86_64-w64-mingw32- CPPFLAGS=-I.. LDFLAGS=-L..
#                     dfu-flash for Windows by mingw-w64, with libusb-1.0 for Windows in these folders; in build-x86_64-w64-mingw32/
#   make archive      the sources as build/fustrelan-VERSION.tar.gz
#   make clean        takes away what make built
#   make help         prints these lines
#
# A line is printed for each file, and with V=1 the whole commands. The name of a folder builds what is in it, as `make flash`, or is
# refused with what to type.
# CPPFLAGS, CFLAGS and LDFLAGS come after what is chosen here, so that they win. With other words `make` builds anew; `make check` and
# `make install` take what is there.

# The compiler of another system, by the front of its name, and a folder for what it builds.
ifneq ($(CROSS),)
BUILD ?= build-$(CROSS:%-=%)
CC = $(CROSS)gcc
AR = $(CROSS)ar
PKG_CONFIG ?= $(CROSS)pkg-config
endif
PREFIX ?= /usr/local
BINDIR ?= $(PREFIX)/bin
LIBDIR ?= $(PREFIX)/lib
INCLUDEDIR ?= $(PREFIX)/include
DATADIR ?= $(PREFIX)/share
MANDIR ?= $(DATADIR)/man
DOCDIR ?= $(DATADIR)/doc/fustrelan
PKGCONFIGDIR ?= $(LIBDIR)/pkgconfig
CMAKEDIR ?= $(LIBDIR)/cmake/fustrelan
UDEVDIR ?=
DESTDIR ?=
BUILD ?= build
PKG_CONFIG ?= pkg-config
ifeq ($(origin CC),default)
CC := $(if $(shell command -v gcc 2> /dev/null),gcc,cc)
endif
ifeq ($(origin AR),default)
AR = $(shell $(CC) -print-prog-name=ar)
endif

ifneq ($(words $(BUILD)),1)
$(error BUILD names one folder, with no blank in its path: '$(BUILD)')
endif

.DEFAULT_GOAL := all
.SECONDEXPANSION:
.DELETE_ON_ERROR:
.SUFFIXES:
.PHONY: all build everything libraries page dfu-rust check check-all compare install uninstall archive clean help FORCE

libraries = $(BUILD)/libdfu_device.a $(BUILD)/libdfu_host.a $(BUILD)/libdfu_boot.a
programs = $(if $(has_code),$(BUILD)/dfu) $(if $(has_libusb),$(BUILD)/dfu-flash$(exe)) $(if $(has_functionfs),$(BUILD)/dfu-gadget)
objects = $(BUILD)/objects

# What is left out, and why.
no_dfu = dfu is left out: there is code of it for Linux on x86-64 and AArch64 alone
no_dfu-flash = dfu-flash is left out: $(CC) finds no libusb-1.0 with its headers (Debian: libusb-1.0-0-dev)
no_dfu-gadget = dfu-gadget is left out: $(CC) finds no linux/usb/functionfs.h (Debian: linux-libc-dev)
everything: $$(programs) $(libraries) $(objects)/built
	@$(if $(has_code),,echo '$(no_dfu)')
	@$(if $(has_libusb),,echo '$(no_dfu-flash)')
	@$(if $(has_functionfs),,echo '$(no_dfu-gadget)')

# The last line of make: what it built, or that there was nothing to do; and what to type next, if what was built runs here. (`built` has
# the number of the process that built.)
list = $(if $(strip $(programs)),$(subst $(blank),$(comma) ,$(strip $(notdir $(programs)))) and )$(words $(libraries)) libraries
blank := $(subst ,, )
to_check = make check$(if $(filter-out build,$(BUILD)), BUILD=$(BUILD))
runs = $(1) --version > /dev/null 2>&1
all build: everything
	@if [ "$$(cat $(objects)/built)" = $$PPID ]; then news='built $(list) in $(BUILD)/'; else news='$(BUILD)/ is up to date: $(list)'; fi; \
	if $(call runs,$(BUILD)/dfu-flash); then news="$$news; next: $(BUILD)/dfu-flash --list, or $(to_check)"; \
	elif $(call runs,$(BUILD)/dfu); then news="$$news; next: $(to_check)"; fi; \
	$(if $(is_silent),,echo "$$news";) : > $(objects)/built
$(objects)/built: $$(programs) $(libraries)
	@echo $$PPID > $@

# A word for a part.
libraries: $(libraries)
	$(call have,3 libraries)
lib libs library: libraries
page:
	apps/web/build $(BUILD)/page
dfu-rust:
	@dist/make/rust-built $(BUILD)/dfu-rust
web: page
flash: dfu-flash
gadget: dfu-gadget
test tests: check
.PHONY: lib libs library web flash gadget test tests
have = @$(if $(is_silent),:,echo '$(BUILD)/ has $(1)')
# (In the folder of the sources itself these words are the programs' own names.)
ifneq ($(abspath $(BUILD)),$(CURDIR))
.PHONY: dfu dfu-flash dfu-gadget dfu-flash.exe
dfu dfu-flash dfu-gadget: $$(filter $(BUILD)/$$@ $(BUILD)/$$@.exe,$$(programs))
	$(if $^,$(call have,$@),@echo 'make: $(no_$@)' >&2; exit 1)
dfu-flash.exe: $(BUILD)/dfu-flash.exe
	$(call have,$@)
endif

# A word that is a folder here, and nothing that make builds: it says what to type.
refuses = +@echo 'make: $(1)' >&2; exit 1
of_apps = apps/ has dfu-flash, dfu-gadget and the page: make dfu-flash, make dfu-gadget, make page
of_crates = crates/ is proved and tried by ./test, with a Rattle kit: see CONTRIBUTING.md
of_dist = dist/ is made by dist/generate, with a Rattle kit: see dist/README.md (make archive packs the sources)
of_debian = the packages are made by dpkg-buildpackage -b -us -uc
of_docs = docs/ is read as it is: begin at docs/README.md, or with man share/man/dfu-flash.1
of_doc = $(of_docs)
of_examples = examples/ has scripts and sources: build/dfu run examples/lost-answer.script plays one; see examples/README.md
of_include = include/ is read as it is, by gcc -I include: see include/README.md
of_share = share/ is put into its places by make install
others = apps crates dist debian docs doc examples include share
.PHONY: $(others)
$(others):
	$(call refuses,$(of_$@))
help:
	@sed -n '/^#/!q; s/^# \{0,1\}//p' Makefile

# What the compiler has; each is looked for once, and only if it matters.
once = $(eval $(1) := $(2))$($(1))
hash := \#
comma := ,
macros = $(call once,macros,$(or $(shell $(CC) $(CPPFLAGS) $(CFLAGS) -dM -E -x c /dev/null | awk '{ print $$2 }'), \
    $(error the compiler failed: $(CC) $(CPPFLAGS) $(CFLAGS))))
is_linux = $(filter __linux__,$(macros))
is_windows = $(filter _WIN32,$(macros))
exe = $(if $(is_windows),.exe)
has_code = $(if $(filter __ILP32__ __AARCH64EB__,$(macros)),,$(and $(is_linux),$(filter __x86_64__ __aarch64__,$(macros))))
has_functionfs = $(call once,has_functionfs,$(and $(is_linux),$(shell echo '$(hash)include <linux/usb/functionfs.h>' | \
    $(CC) $(CPPFLAGS) $(CFLAGS) -E -x c - > /dev/null 2>&1 && echo yes)))
has_libusb = $(call once,has_libusb,$(shell room=`mktemp -d` && echo '$(hash)include <libusb.h>' > $$room/it.c && \
    echo 'int main(void) { return libusb_init(0); }' >> $$room/it.c && \
    $(CC) $(usb_headers) $(CPPFLAGS) $(CFLAGS) $(LDFLAGS) $$room/it.c -o $$room/it $(usb_library) > /dev/null 2>&1 && echo yes; \
    rm -rf $$room))
usb_headers = $(call once,usb_headers,$(shell $(PKG_CONFIG) --cflags libusb-1.0 2> /dev/null || echo -I/usr/include/libusb-1.0))
usb_library = $(call once,usb_library,$(shell $(PKG_CONFIG) --libs libusb-1.0 2> /dev/null || echo -lusb-1.0))

# dfu-flash reads what any device says, and dfu-gadget what any host sends, so what finds an overrun late is on: guards on the stack, sizes
# looked at by the C library, addresses that nobody knows, and tables of them that can't be written. FORTIFY is for a compiler that
# optimises, and its level is that of CPPFLAGS and CFLAGS, or of the compiler itself, if they have one.
# Windows has these by other means: its linker moves programs to any address by itself, and the guards of the stack are linked in.
is_movable = $(if $(is_windows)$(filter -static% -no-pie -fno-pie -fno-PIE,$(CFLAGS) $(LDFLAGS)),,yes)
guards = $(filter-out $(CFLAGS),-fstack-protector-strong $(if $(is_movable),-fPIE))
fortify = $(call once,fortify,$(shell $(CC) -O2 $(CPPFLAGS) $(CFLAGS) -dM -E -x c /dev/null | \
    awk '$$2 == "_FORTIFY_SOURCE" { level = 1 } $$2 == "__OPTIMIZE__" { fast = 1 } \
    END { if (fast && !level) print "-D_FORTIFY_SOURCE=2" }'))
# windows.h has no more in it than it is to have: with all of it some names here are taken.
of_windows = $(if $(is_windows),-DWIN32_LEAN_AND_MEAN -DNOGDI)
hosted = -std=c11 -Wall -Wextra -Iinclude $(of_windows) -O2 $(guards) $(fortify) $(CPPFLAGS) $(CFLAGS)
links = $(filter-out $(LDFLAGS),$(if $(is_windows),-static -fstack-protector-strong,$(if $(is_movable),-pie) -Wl,-z,relro -Wl,-z,now)) $(LDFLAGS)
# On Windows only libusb stays a file of its own, if there is one.
used_usb = $(if $(is_windows),-Wl$(comma)-Bdynamic $(usb_library) -Wl$(comma)-Bstatic -lshell32 -ladvapi32,$(usb_library))
# A library is small, and a program takes of it what it calls. On Linux it is fast, and fits into programs and shared objects at any
# address.
portable = -std=c11 -Wall -Wextra -Iinclude $(if $(is_linux),-O2 -fPIC,-Os) -ffunction-sections -fdata-sections $(CPPFLAGS) $(CFLAGS)

# Each file is made beside its place and renamed: none is half written, and two builds in one folder do each other no harm.
anew = $(objects)/words Makefile
# run WHAT,COMMAND: a line that names the file, and what the compiler says; a command that fails is printed, and with V=1 each is.
run = $(if $(filter-out 0,$(V)),$(2),@$(if $(is_silent),,echo '  $(1) $(@:$(objects)/%=%)';) $(2) || $(call fails,$(2)))
fails = { printf '%s\n' '$(subst ','\'',$(1))' >&2; exit 1; }
is_silent = $(findstring s,$(firstword -$(MAKEFLAGS)))
define compile
	@mkdir -p $(@D)
	$(call run,CC,$(CC) $(1) -MMD -MP -MT $@ -MF $(@:.o=.d).$$$$ -c -o $@.$$$$ $< && mv -f $(@:.o=.d).$$$$ $(@:.o=.d) && mv -f $@.$$$$ $@)
endef
define program
	$(call run,LD,$(CC) $(CFLAGS) $(links) -o $@.$$$$ $(filter %.o %.a,$^) $(1) && mv -f $@.$$$$ $@)
endef
define archive
	$(call run,AR,rm -f $@.$$$$ && $(AR) rcsD $@.$$$$ $(filter %.o,$^) && mv -f $@.$$$$ $@)
endef

of_dfu = $(objects)/dist/dfu.o $(objects)/dist/os.o
# What differs by system is in folders of apps/flash: Windows has one, and Linux and the others of POSIX have one for each beside their
# own. apps/common has what both programs share.
folders = $(if $(is_windows),windows,posix $(if $(is_linux),linux,unix))
of_flash = $(patsubst apps/%.c,$(objects)/%.o,$(wildcard apps/flash/*.c apps/common/*.c $(folders:%=apps/*/%/*.c)))
of_gadget = $(patsubst apps/%.c,$(objects)/%.o,$(wildcard apps/gadget/*.c apps/common/*.c apps/common/posix/*.c))
of_libraries = $(patsubst $(BUILD)/lib%.a,$(objects)/dist/%.o,$(libraries))

$(BUILD)/dfu: $(of_dfu) $(anew)
	$(call program)
$(BUILD)/dfu-flash$(exe): $(of_flash) $(BUILD)/libdfu_host.a $(BUILD)/libdfu_device.a $(anew)
	$(call program,$(used_usb))
$(BUILD)/dfu-gadget: $(of_gadget) $(BUILD)/libdfu_boot.a $(BUILD)/libdfu_device.a $(anew)
	$(call program)
$(libraries): $(BUILD)/lib%.a: $(objects)/dist/%.o $(anew)
	$(archive)
$(objects)/dist/dfu.o: dist/dfu.S $(anew)
	$(call compile,$(CPPFLAGS) $(CFLAGS) -g0)
$(objects)/dist/os.o: dist/os.c $(anew)
	$(call compile,$(hosted))
$(of_libraries): $(objects)/dist/%.o: dist/%.c $(anew)
	$(call compile,$(portable))
$(objects)/flash/%.o: apps/flash/%.c $(anew)
	$(call compile,$(hosted) $(usb_headers))
$(objects)/gadget/%.o: apps/gadget/%.c $(anew)
	$(call compile,$(hosted))
$(objects)/common/%.o: apps/common/%.c $(anew)
	$(call compile,$(hosted))
-include $(wildcard $(objects)/*/*.d $(objects)/*/*/*.d)

# The words of the last build, and which sources there were.
$(objects)/words: export WORDS = $(CC) $(AR) $(CPPFLAGS) $(CFLAGS) $(LDFLAGS) $(of_dfu) $(of_flash) $(of_gadget)
$(objects)/words:
	@mkdir -p $(@D)
	@printf '%s\n' "$$WORDS" | cmp -s - $@ || { printf '%s\n' "$$WORDS" > $@.$$$$ && mv -f $@.$$$$ $@; }
ifeq ($(filter check check-all compare test tests install,$(MAKECMDGOALS)),)
$(objects)/words: FORCE
endif

check check-all: everything
	@BUILD=$(BUILD) tests/run $@
compare: everything
	@BUILD=$(BUILD) tests/lib/interop/compare

# The script reads these from its environment, so that a path may have any sign.
places = PREFIX BINDIR LIBDIR INCLUDEDIR DATADIR MANDIR DOCDIR PKGCONFIGDIR CMAKEDIR UDEVDIR DESTDIR BUILD
version = $(shell sed -n 's/^$(hash)define DFU_VERSION_TEXT "\(.*\)"/\1/p' include/dfu_device.h)
install: everything
export $(places)
install uninstall:
	@VERSION=$(version) share/install $@
archive:
	@share/archive $(BUILD) $(version)

# Only a folder that this file built in has the words of a build.
clean:
	@if [ -f $(objects)/words ]; then \
	    rm -rf $(objects) $(BUILD)/page $(BUILD)/dfu-rust && \
	    rm -f $(libraries) $(BUILD)/dfu $(BUILD)/dfu-flash $(BUILD)/dfu-flash.exe $(BUILD)/dfu-gadget $(BUILD)/fustrelan-*.tar.gz && \
	    rmdir $(BUILD) 2> /dev/null || [ ! -d $(objects) ]; \
	fi
