# How the host programs are built, and how they and the library are installed. The Makefile of the
# repository and that of the tarball (host/dist.mk) include it; they set CC, ARCHIVE and HOST_DIR.

HOST    = $(HOST_DIR)/flux_frame $(HOST_DIR)/flux_floor
VERSION := $(shell sed -n 's/^.define LAMPREYCOIL_VERSION "\(.*\)"$$/\1/p' include/lampreycoil.h)

# CPPFLAGS, CFLAGS and LDFLAGS are the user's, from the environment or the command line. What the
# programs always have stands in front of them: their language and its warnings, and the hardening that
# Debian builds with. FORTIFY is for optimized code alone, and a fixed place for what is linked so.
CFLAGS   ?= -O2
HOST_C   = -std=c99 -Wall -Wextra -Wformat -Werror -Werror=format-security -fstack-protector-strong
FORTIFY  = $(if $(filter-out -O0,$(lastword $(filter -O%,$(CFLAGS)))),\
               $(if $(findstring _FORTIFY_SOURCE,$(CPPFLAGS) $(CFLAGS)),,-U_FORTIFY_SOURCE -D_FORTIFY_SOURCE=2))
PIE      = $(if $(filter -static -no-pie,$(CFLAGS) $(LDFLAGS)),,-fPIE -pie)
HOST_LD  = -Wl,-z,relro -Wl,-z,now

C_FILES := $(wildcard host/*.c)
# What only one of the host programs has; the other C files are in both.
FRAME_C := $(wildcard host/flux_frame.c host/write_frame.c host/dump_*.c)
FLOOR_C := $(wildcard host/flux_floor.c host/floor_*.c)
BOTH_C  := $(filter-out $(FRAME_C) $(FLOOR_C), $(C_FILES))
H_FILES := $(wildcard host/*.h) include/lampreycoil.h

$(HOST_DIR)/flux_frame: $(FRAME_C) $(BOTH_C)
$(HOST_DIR)/flux_floor: $(FLOOR_C) $(BOTH_C)
$(HOST): $(H_FILES) $(ARCHIVE)
	@mkdir -p $(@D)
	$(CC) $(strip $(HOST_C) $(FORTIFY) $(PIE) $(HOST_LD) $(CPPFLAGS) $(CFLAGS) $(LDFLAGS)) -Iinclude -o $@ \
	    $(filter %.c,$^) $(ARCHIVE)

# PREFIX is where the files will be used, and DESTDIR stands in front of it while they are put there.
PREFIX     = /usr/local
DESTDIR    =
BINDIR     = $(PREFIX)/bin
LIBDIR     = $(PREFIX)/lib
INCLUDEDIR = $(PREFIX)/include
MANDIR     = $(PREFIX)/share/man
DOCDIR     = $(PREFIX)/share/doc/lampreycoil
INSTALL    = install

# A word of the shell, whatever is in it.
WORD = '$(subst ','\'',$(1))'

# The pkg-config file for these places. There a place stands between double quotes, so that a \ goes
# in front of \ " ` and #; and one more for sed, in front of \ & and |.
hash     := \#
PC_TEXT   = $(subst $(hash),\$(hash),$(subst `,\`,$(subst ",\",$(subst \,\\,$(1)))))
SED_TEXT  = $(subst |,\|,$(subst &,\&,$(subst \,\\,$(1))))
PC_PLACE  = -e $(call WORD,s|@$(1)@|$(call SED_TEXT,$(call PC_TEXT,$(2)))|)
PC        = sed $(call PC_PLACE,PREFIX,$(1)) $(call PC_PLACE,LIBDIR,$(2)) $(call PC_PLACE,INCLUDEDIR,$(3)) \
                -e 's|@VERSION@|$(VERSION)|' lampreycoil.pc.in

# Where `make install` puts files of one kind.
TO      = $(call WORD,$(DESTDIR)$(1))
PC_FILE = $(call TO,$(LIBDIR)/pkgconfig/lampreycoil.pc)

.PHONY: install uninstall
install: $(HOST) $(ARCHIVE)
	$(INSTALL) -d $(call TO,$(BINDIR)) $(call TO,$(LIBDIR)/pkgconfig) $(call TO,$(INCLUDEDIR)) \
	    $(call TO,$(MANDIR)/man1) $(call TO,$(DOCDIR))
	$(INSTALL) -m 755 $(HOST) $(call TO,$(BINDIR))
	$(INSTALL) -m 644 $(ARCHIVE) $(call TO,$(LIBDIR))
	$(INSTALL) -m 644 include/lampreycoil.h $(call TO,$(INCLUDEDIR))
	$(INSTALL) -m 644 man/flux_frame.1 man/flux_floor.1 $(call TO,$(MANDIR)/man1)
	$(INSTALL) -m 644 docs/C-GUIDE.md docs/FORMAT.md host/example.floor $(call TO,$(DOCDIR))
	$(call PC,$(PREFIX),$(LIBDIR),$(INCLUDEDIR)) >$(PC_FILE)
	chmod 644 $(PC_FILE)

# Removes what `make install` with the same PREFIX and DESTDIR put there, and no folder but its own.
uninstall:
	rm -f $(foreach name,$(notdir $(HOST)),$(call TO,$(BINDIR)/$(name)))
	rm -f $(call TO,$(LIBDIR)/$(notdir $(ARCHIVE))) $(PC_FILE)
	rm -f $(call TO,$(INCLUDEDIR)/lampreycoil.h)
	rm -f $(call TO,$(MANDIR)/man1/flux_frame.1) $(call TO,$(MANDIR)/man1/flux_floor.1)
	rm -f $(foreach name,C-GUIDE.md FORMAT.md example.floor,$(call TO,$(DOCDIR)/$(name)))
	if [ -d $(call TO,$(DOCDIR)) ]; then rmdir $(call TO,$(DOCDIR)); fi
