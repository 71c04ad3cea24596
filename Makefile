# SPDX-License-Identifier: Apache-2.0
# The library for programs in C: the proved part as assembly (generated/) and the C of c/. It needs make and a C compiler.
#
#   make                  build/: libcovretin.a, libcovretin.so, covretin.pc
#   make programs         build/covretin-ask; the devices covretin-blk (with io_uring where liburing is there), covretin-rng, covretin-net
#                         and covretin-console; and for x86-64 vhost-run and vhost-daemon, which are proved
#   make check            the tests in C, a line for each group; V=1 also shows how all is compiled
#   make install          all of these, and covretin, which runs them, to PREFIX, or BINDIR, LIBDIR, INCLUDEDIR, DATADIR, MANDIR, UNITDIR;
#                         below DESTDIR; also build/covretin-tap and covretin-check, where cargo's were put there; pages of the manual, those of
#                         section 3 made of the headers; what bash completes, to COMPLETIONSDIR; and the dissector for Wireshark to
#                         PLUGINDIR, which Wireshark reads where it has the same PREFIX and LIBDIR
#   make uninstall        removes what that put there
#   make dist             covretin-VERSION.tar.xz, the same bytes wherever it is made, and SHA256SUMS
#   make sbom             covretin-VERSION.spdx, the licence and the sum of each file, by the program reuse
#   make crate            the package for Rust as cargo packs it, in rust/target/package; CARGO names another cargo, with its options
#   make clean
#
# CC, CFLAGS, CPPFLAGS, LDFLAGS, AR, OBJCOPY and INSTALL are used as they are given.
VERSION := $(shell cat VERSION)
SONAME := libcovretin.so.$(firstword $(subst ., ,$(VERSION)))
SHARED := libcovretin.so.$(VERSION)

PREFIX ?= /usr/local
BINDIR ?= $(PREFIX)/bin
LIBDIR ?= $(PREFIX)/lib
INCLUDEDIR ?= $(PREFIX)/include
DATADIR ?= $(PREFIX)/share
UNITDIR ?= $(PREFIX)/lib/systemd/system
DOCDIR ?= $(DATADIR)/doc/covretin
MANDIR ?= $(DATADIR)/man
PLUGINDIR ?= $(LIBDIR)/wireshark/plugins
COMPLETIONSDIR ?= $(DATADIR)/bash-completion/completions
DESTDIR ?=
INSTALL ?= install
CFLAGS ?= -O2
OBJCOPY ?= $(shell $(CC) -print-prog-name=objcopy)
BUILD ?= build

LACKING := $(shell CC='$(CC)' scripts/build/needs.sh cc headers ar sha256sum 2>&1)
ifneq ($(LACKING),)
$(error $(LACKING))
endif

# Which folder of generated/ fits what the compiler makes code for.
MACHINE := $(shell printf '%s\n' '\#if !defined __linux__ || defined __ILP32__' none '\#elif defined __x86_64__' x86_64 \
    '\#elif defined __aarch64__ && !defined __AARCH64EB__' aarch64 '\#endif' | sed 's/^\\//' | $(CC) $(CFLAGS) -E -P -)
GENERATED := generated/$(MACHINE)-linux
ifeq ($(wildcard $(GENERATED)/covretin.s),)
$(error $(CC) compiles for a machine that there is no proved code for; there is $(notdir $(wildcard generated/*-linux)))
endif

GLUE := covretin_socket covretin_backend_socket covretin_channel_socket covretin_display_socket covretin_serving \
    covretin_transport covretin_text covretin_memory \
    covretin_device covretin_device_calls covretin_device_channel covretin_device_inflight covretin_log covretin_device_memory covretin_device_rings
# (queues are a proved library of their own)
OBJECTS := $(BUILD)/proved.o $(BUILD)/proved_queue.o $(GLUE:%=$(BUILD)/%.o)
# Assembly is told the machine, and wants no debug information, which would name this folder.
OF_MACHINE := $(filter -m% --target=% -target%,$(CFLAGS))
# As in the proved code, a branch lands where one may, and return addresses are guarded. An object is protected where all of it is.
PROTECTION := $(if $(filter x86_64,$(MACHINE)),-fcf-protection,-mbranch-protection=standard)
COMPILE = $(CC) -std=gnu11 -Wall -Wextra -pedantic -ffile-prefix-map=$(CURDIR)=. $(PROTECTION) $(CPPFLAGS) $(CFLAGS) -fPIC -Iinclude

all: $(BUILD)/libcovretin.a $(BUILD)/$(SHARED) $(BUILD)/covretin.pc

# The verdict of proved code has the sum of its file. Another file is not built, since nothing is known of it.
IS_PROVED = @cd $(<D) && grep '  $(<F)$$' $(basename $(<F)).verdict | sha256sum -c >/dev/null 2>&1 || \
    { echo '$<: not the file that was proved: its sum is not that of $(basename $<).verdict' >&2; exit 1; }

# With PROVED, the archive that the checker made in the place of generated/.
ifdef PROVED
$(BUILD)/proved.o: $(PROVED)
	@mkdir -p $(BUILD)
	$(CC) $(OF_MACHINE) -r -nostdlib -o $@ -Wl,--whole-archive $< -Wl,--no-whole-archive
else
$(BUILD)/proved.o: $(GENERATED)/covretin.s $(GENERATED)/covretin.verdict
	$(IS_PROVED)
	@mkdir -p $(BUILD)
	$(CC) $(OF_MACHINE) -c -o $@ $<
endif

$(BUILD)/proved_queue.o: $(GENERATED)/covretin_queue.s $(GENERATED)/covretin_queue.verdict
	$(IS_PROVED)
	@mkdir -p $(BUILD)
	$(CC) $(OF_MACHINE) -c -o $@ $<

$(BUILD)/%.o: c/%.c $(wildcard c/*.h include/*.h)
	@mkdir -p $(BUILD)
	$(COMPILE) -c -o $@ $<

# One object, which gives no name but its own to others.
$(BUILD)/covretin.o: $(OBJECTS)
	$(CC) $(OF_MACHINE) -r -nostdlib -o $@ $(OBJECTS)
	$(OBJCOPY) --wildcard --keep-global-symbol='covretin_*' $@

$(BUILD)/libcovretin.a: $(BUILD)/covretin.o
	rm -f $@
	$(AR) rcsD $@ $<

$(BUILD)/$(SHARED): $(BUILD)/covretin.o c/covretin.map
	$(CC) $(CFLAGS) $(LDFLAGS) -pthread -shared -o $@ -Wl,-soname,$(SONAME) -Wl,--version-script=c/covretin.map \
	    -Wl,-z,relro,-z,now,-z,noexecstack,-z,defs $<
	ln -sf $(SHARED) $(BUILD)/$(SONAME)
	ln -sf $(SHARED) $(BUILD)/libcovretin.so

# It names where it is installed, so it is made each time.
$(BUILD)/covretin.pc: FORCE
	@mkdir -p $(BUILD)
	@printf '%s\n' 'prefix=$(PREFIX)' 'includedir=$(INCLUDEDIR)' 'libdir=$(LIBDIR)' '' 'Name: covretin' \
	    'Description: both sides of vhost-user, with proofs' 'Version: $(VERSION)' 'Cflags: -I$${includedir}' \
	    'Libs: -L$${libdir} -lcovretin' 'Libs.private: -pthread' >$@

DEVICES := covretin-blk covretin-rng covretin-net covretin-console
PROGRAMS := covretin-ask $(DEVICES) $(notdir $(basename $(wildcard $(GENERATED)/vhost-*.s)))
programs: $(PROGRAMS:%=$(BUILD)/%)

# It notes the bytes that go through the glue, so it is linked with its objects.
ASKING := $(BUILD)/proved.o $(BUILD)/covretin_transport.o $(BUILD)/covretin_text.o $(BUILD)/covretin_memory.o
$(BUILD)/covretin-ask: $(BUILD)/ask.o $(BUILD)/ask_calls.o $(BUILD)/line_reasons.o $(ASKING)
	$(CC) $(CFLAGS) $(LDFLAGS) -pthread -o $@ $^

# The examples' devices behind one main program.
URING := $(shell $(CC) $(CPPFLAGS) $(CFLAGS) -E -include liburing.h -x c /dev/null >/dev/null 2>&1 && echo -luring)
$(BUILD)/covretin-blk: c/tools/disk.c c/blk.c
$(BUILD)/covretin-blk: LIBRARIES := $(URING)
$(BUILD)/covretin-rng: c/tools/entropy.c c/rng.c
$(BUILD)/covretin-net: c/tools/card.c
$(BUILD)/covretin-console: c/tools/console.c
$(DEVICES:%=$(BUILD)/%): c/tools/program.c c/tools/counts.c c/tools/program.h c/tools/counts.h $(BUILD)/libcovretin.a
	$(COMPILE) $(LDFLAGS) -pthread -o $@ $(filter c/tools/%.c,$^) $(BUILD)/libcovretin.a $(LIBRARIES)

# (vhost-daemon tells of itself, and refuses nothing)
$(BUILD)/vhost-run: $(BUILD)/vhost_run_about.o $(BUILD)/vhost_run_reasons.o $(BUILD)/line_reasons.o
$(BUILD)/vhost-run: LIBRARIES := -Wl,--wrap=read -Wl,--wrap=write
$(BUILD)/vhost-%: $(GENERATED)/vhost-%.s $(BUILD)/covretin_program.o $(BUILD)/covretin_memory.o
	$(IS_PROVED)
	$(CC) $(OF_MACHINE) -c -o $@.o $<
	$(CC) $(CFLAGS) $(LDFLAGS) -pthread -o $@ $@.o $(filter %.o,$^) $(LIBRARIES)
	rm -f $@.o

check:
	@$(MAKE) $(if $(V),,-s) all
	@CC='$(CC)' AR='$(AR)' ./test c --groups

BACKENDS = $(DATADIR)/qemu/vhost-user
FOLDERS = $(BINDIR) $(LIBDIR)/pkgconfig $(INCLUDEDIR) $(DATADIR)/covretin $(BACKENDS) $(UNITDIR) $(PLUGINDIR) $(DOCDIR)/examples $(MANDIR)/man1 \
    $(MANDIR)/man3 $(MANDIR)/man7 $(COMPLETIONSDIR)
HEADERS := $(wildcard include/*.h)
EXAMPLES := c/frontend.c c/rng.c c/blk.c c/net.c c/covretin_transport.h
DESCRIPTORS := $(notdir $(wildcard c/tools/*.json))
UNITS := $(foreach name,covretin-blk covretin-rng covretin-console,$(name)@.service $(name)@.socket)
TITLE_covretin-blk := Disk
TITLE_covretin-rng := Source of entropy
TITLE_covretin-console := Console
OPTIONS_covretin-blk := --blk-file=/var/lib/covretin-blk/%i/disk.raw
OPTIONS_covretin-console := --console=/var/lib/covretin-console/%i/console.sock

# Units of systemd, of a device each. A network card has none: who may use its other end is for its machine to say.
$(BUILD)/%@.service: c/tools/units/device@.service FORCE
	sed 's,@NAME@,$*,; s,@TITLE@,$(TITLE_$*),; s,@BINDIR@,$(BINDIR),; s,@OPTIONS@,$(OPTIONS_$*),' $< >$@
$(BUILD)/%@.socket: c/tools/units/device@.socket FORCE
	sed 's,@NAME@,$*,; s,@TITLE@,the $(TITLE_$*),' $< >$@

PAGES1 := $(notdir $(wildcard man/*.1))
PAGES7 := $(notdir $(wildcard man/*.7))
# A page for each header, made of it, and one for each of its functions that leads there.
MANUAL = awk -v header=$$(basename $$it .h) -v version=$(VERSION)
pages3: FORCE
	@rm -rf $(BUILD)/man3 && mkdir -p $(BUILD)/man3
	@for it in $(HEADERS); do \
	    $(MANUAL) -f scripts/build/manual.awk $$it >$(BUILD)/man3/$$(basename $$it .h).3 || exit; \
	    for name in $$($(MANUAL) -v list=1 -f scripts/build/manual.awk $$it); do \
	        echo ".so man3/$$(basename $$it .h).3" >$(BUILD)/man3/$$name.3 || exit; \
	    done; \
	done

# (what was built, and cargo's)
INSTALLED = covretin $(PROGRAMS:%=$(BUILD)/%) $(wildcard $(BUILD)/covretin-tap $(BUILD)/covretin-check)

install: all programs pages3 $(UNITS:%=$(BUILD)/%)
	$(INSTALL) -d -m 755 $(FOLDERS:%=$(DESTDIR)%)
	$(INSTALL) -m 644 $(BUILD)/libcovretin.a $(DESTDIR)$(LIBDIR)
	$(INSTALL) -m 755 $(BUILD)/$(SHARED) $(DESTDIR)$(LIBDIR)
	ln -sf $(SHARED) $(DESTDIR)$(LIBDIR)/$(SONAME)
	ln -sf $(SHARED) $(DESTDIR)$(LIBDIR)/libcovretin.so
	$(INSTALL) -m 644 $(BUILD)/covretin.pc $(DESTDIR)$(LIBDIR)/pkgconfig
	$(INSTALL) -m 755 $(INSTALLED) $(DESTDIR)$(BINDIR)
	$(INSTALL) -m 644 $(HEADERS) $(DESTDIR)$(INCLUDEDIR)
	$(INSTALL) -m 644 $(sort $(wildcard $(GENERATED)/covretin*.verdict $(GENERATED)/covretin*.sources)) $(DESTDIR)$(DATADIR)/covretin
	$(INSTALL) -m 644 $(EXAMPLES) $(DESTDIR)$(DOCDIR)/examples
	for name in $(DESCRIPTORS); do sed 's,@BINDIR@,$(BINDIR),' c/tools/$$name >$(BUILD)/$$name || exit; done
	$(INSTALL) -m 644 $(DESCRIPTORS:%=$(BUILD)/%) $(DESTDIR)$(BACKENDS)
	$(INSTALL) -m 644 $(UNITS:%=$(BUILD)/%) $(DESTDIR)$(UNITDIR)
	$(INSTALL) -m 644 protocol/vhost_user.lua $(DESTDIR)$(PLUGINDIR)
	$(INSTALL) -m 644 $(PAGES1:%=man/%) $(DESTDIR)$(MANDIR)/man1
	$(INSTALL) -m 644 $(BUILD)/man3/*.3 $(DESTDIR)$(MANDIR)/man3
	$(INSTALL) -m 644 $(PAGES7:%=man/%) $(DESTDIR)$(MANDIR)/man7
	$(INSTALL) -m 644 man/covretin.bash $(DESTDIR)$(COMPLETIONSDIR)/covretin

uninstall:
	rm -f $(addprefix $(DESTDIR)$(BINDIR)/,covretin covretin-tap covretin-check $(PROGRAMS))
	rm -f $(addprefix $(DESTDIR)$(LIBDIR)/,libcovretin.a $(SHARED) $(SONAME) libcovretin.so pkgconfig/covretin.pc)
	rm -f $(HEADERS:include/%=$(DESTDIR)$(INCLUDEDIR)/%)
	rm -rf $(DESTDIR)$(DATADIR)/covretin $(DESTDIR)$(DOCDIR)
	rm -f $(DESCRIPTORS:%=$(DESTDIR)$(BACKENDS)/%) $(UNITS:%=$(DESTDIR)$(UNITDIR)/%)
	rm -f $(DESTDIR)$(MANDIR)/man3/covretin*.3 $(DESTDIR)$(COMPLETIONSDIR)/covretin
	rm -f $(DESTDIR)$(PLUGINDIR)/vhost_user.lua $(PAGES1:%=$(DESTDIR)$(MANDIR)/man1/%) $(PAGES7:%=$(DESTDIR)$(MANDIR)/man7/%)

# Git says which files; what a tarball was unpacked to has no others. Each has the commit's time.
SOURCE_DATE_EPOCH ?= $(shell if [ -e .git ]; then git log -1 --format=%ct; else stat -c %Y VERSION; fi)
TARBALL := covretin-$(VERSION).tar.xz

dist:
	if [ -e .git ]; then git ls-files; else \
	    find . '(' -type f -o -type l ')' ! -path './$(BUILD)/*' ! -name '*.tar.xz' ! -name SHA256SUMS | cut -c3-; fi | LC_ALL=C sort | \
	    tar --create --no-recursion --files-from=- --transform='s,^,covretin-$(VERSION)/,S' \
	    --sort=name --mtime=@$(SOURCE_DATE_EPOCH) --owner=0 --group=0 --numeric-owner --mode=u+rw,go+r,go-w --format=ustar | \
	    xz -9 -T1 >$(TARBALL)
	sha256sum $(TARBALL) >SHA256SUMS

# Which licence each file has, in the words of SPDX 2.
sbom:
	reuse spdx --output covretin-$(VERSION).spdx

# Cargo packs what lies in the package alone, and the gate takes no links.
CARGO ?= cargo
crate:
	rm -rf rust/generated && cp -r generated rust/generated && cp LICENSE NOTICE rust/
	cd rust && $(CARGO) package --allow-dirty --no-verify; ended=$$?; rm -rf generated LICENSE NOTICE; exit $$ended

clean:
	rm -rf $(BUILD)

FORCE:

.PHONY: all programs check pages3 install uninstall dist sbom crate clean FORCE
