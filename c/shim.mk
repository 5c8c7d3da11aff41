# curses.h and panel.h over huttavel.h: the archive libhuttavel_curses.a, and its headers. Makefile includes this; it
# also works by itself: make -f shim.mk.
#   curses                   makes out/libhuttavel_curses.a
#   check-headers            compiles each header by itself, as C99 and as C++, with every warning an error
#   install-curses           copies archive, headers, manuals and files for pkg-config below PREFIX (and DESTDIR)
#   uninstall-curses         removes them
# A program that wants this <curses.h> is compiled with -I PREFIX/include/huttavel, and linked with
# -lhuttavel_curses -lhuttavel: pkg-config --cflags --libs huttavel_curses. One that asks for -lncurses, -lpanel and so
# on is linked with -L PREFIX/lib/huttavel, where these names stand for both archives.

SHIM := $(dir $(lastword $(MAKEFILE_LIST)))
PREFIX ?= /usr/local
HUTTAVEL_INCLUDE ?= $(SHIM)../include
# The version stands in the header.
HUTTAVEL_VERSION = $(shell sed -n 's/^.define HUTTAVEL_VERSION "\(.*\)"$$/\1/p' $(HUTTAVEL_INCLUDE)/huttavel.h)
CFLAGS ?= -O2
CXX ?= c++
OBJCOPY ?= objcopy
NM ?= nm
SHIM_FLAGS := -std=c99 -Wall -Wextra -pedantic -I $(SHIM) -I $(HUTTAVEL_INCLUDE)
SHIM_HEADERS := $(addprefix $(SHIM),curses.h ncurses.h panel.h term.h termcap.h unctrl.h)
# Parts of curses.h and of term.h.
SHIM_HEADER_PARTS := $(addprefix $(SHIM),curses_codes.h curses_macros.h curses_wide.h term_names.h)
SHIM_PARTS := $(SHIM_HEADER_PARTS) $(SHIM)curses/screens.h $(wildcard $(SHIM)curses/*.c)
SHIM_OUT := $(SHIM)out
SHIM_OBJECTS := $(addprefix $(SHIM_OUT)/,curses.o panel.o)
# Where things go, DESTDIR and all.
TO_HEADERS = $(DESTDIR)$(PREFIX)/include/huttavel
TO_LIBRARIES = $(DESTDIR)$(PREFIX)/lib
# A folder of its own, so that those of another curses stay: man -M PREFIX/share/huttavel/man curses.
TO_MANUALS = $(DESTDIR)$(PREFIX)/share/huttavel/man/man3
SHIM_MANUALS := $(addprefix $(SHIM)../man/,curses.3 term.3)
# Other libraries' names for ours: linker scripts, in a folder below that of the archives that they name. Their files
# for pkg-config tell a version of ncurses.
OTHER_NAMES := ncurses ncursesw curses tinfo panel panelw termcap
OTHER_PACKAGES := ncurses ncursesw panel panelw tinfo
OTHER_VERSION := 6.4
TO_OTHERS = $(TO_LIBRARIES)/huttavel
# Where a program may look for the headers of a curses with wide characters: they are the same here.
OTHER_FOLDER := ncursesw
# Prints a file for pkg-config: a package, its folder of libraries, its version, its libraries.
PACKAGE = printf '%s\n' 'prefix=$(PREFIX)' 'libdir=$${prefix}/$(2)' 'includedir=$${prefix}/include/huttavel' '' \
    "Name: $(1)" 'Description: curses.h over huttavel' 'Version: $(3)' 'Libs: -L$${libdir}'" $(4)" \
    'Cflags: -I$${includedir}'

.PHONY: curses check-headers install-curses uninstall-curses
curses: $(SHIM_OUT)/libhuttavel_curses.a

$(SHIM_OUT)/libhuttavel_curses.a: $(SHIM_OBJECTS)
	rm -f $@
	$(AR) rcs $@ $(SHIM_OBJECTS)

# -fPIC, so that shared libraries can have it in them, as modules of interpreters do. Names are weak, so that a program
# that wants a few of the calls may have functions of its own by the names of others; the calls here that call each
# other never mean those.
$(SHIM_OUT)/%.o: $(SHIM)%.c $(SHIM_PARTS) $(SHIM_HEADERS)
	mkdir -p $(SHIM_OUT)
	$(CC) $(SHIM_FLAGS) $(CFLAGS) -fPIC -fno-semantic-interposition -c $< -o $@
	$(NM) -g --defined-only $@ | sed -n 's/.* [A-Z] //p' > $@.names
	$(OBJCOPY) --weaken-symbols=$@.names $@

# Each header alone, and two together in either order; but term.h is last, since its names are macros.
check-headers:
	mkdir -p $(SHIM_OUT)
	for headers in $(notdir $(SHIM_HEADERS)) huttavel.h 'curses.h huttavel.h' 'huttavel.h curses.h' \
	    'huttavel.h panel.h term.h' 'termcap.h term.h' 'term.h termcap.h' 'term.h curses.h'; do \
	    for header in $$headers; do echo "#include <$$header>"; done > $(SHIM_OUT)/header.c; \
	    echo 'int main(void) { return 0; }' >> $(SHIM_OUT)/header.c; \
	    $(CC) $(SHIM_FLAGS) -Werror -fsyntax-only $(SHIM_OUT)/header.c || exit; \
	    $(CXX) -x c++ -Wall -Wextra -Werror -I $(SHIM) -I $(HUTTAVEL_INCLUDE) -fsyntax-only $(SHIM_OUT)/header.c || exit; \
	done

install-curses: curses
	install -d $(TO_HEADERS)/$(OTHER_FOLDER) $(TO_LIBRARIES)/pkgconfig $(TO_OTHERS)/pkgconfig $(TO_MANUALS)
	install -m 644 $(SHIM_HEADERS) $(SHIM_HEADER_PARTS) $(TO_HEADERS)
	for name in $(notdir $(SHIM_HEADERS)); do \
	    echo "#include \"../$$name\"" > $(TO_HEADERS)/$(OTHER_FOLDER)/$$name || exit; \
	done
	install -m 644 $(SHIM_MANUALS) $(TO_MANUALS)
	install -m 644 $(SHIM_OUT)/libhuttavel_curses.a $(TO_LIBRARIES)
	$(call PACKAGE,huttavel_curses,lib,$(HUTTAVEL_VERSION),-lhuttavel_curses -lhuttavel) \
	    > $(TO_LIBRARIES)/pkgconfig/huttavel_curses.pc
	for name in $(OTHER_NAMES); do \
	    echo 'INPUT(../libhuttavel_curses.a ../libhuttavel.a)' > $(TO_OTHERS)/lib$$name.a || exit; \
	done
	for name in $(OTHER_PACKAGES); do \
	    $(call PACKAGE,$$name,lib/huttavel,$(OTHER_VERSION),-l$$name) > $(TO_OTHERS)/pkgconfig/$$name.pc || exit; \
	done

uninstall-curses:
	rm -f $(addprefix $(TO_HEADERS)/,$(notdir $(SHIM_HEADERS) $(SHIM_HEADER_PARTS)))
	rm -f $(addprefix $(TO_HEADERS)/$(OTHER_FOLDER)/,$(notdir $(SHIM_HEADERS)))
	rm -f $(TO_LIBRARIES)/libhuttavel_curses.a $(TO_LIBRARIES)/pkgconfig/huttavel_curses.pc
	rm -f $(OTHER_NAMES:%=$(TO_OTHERS)/lib%.a) $(OTHER_PACKAGES:%=$(TO_OTHERS)/pkgconfig/%.pc)
	rm -f $(addprefix $(TO_MANUALS)/,$(notdir $(SHIM_MANUALS)))
	-rmdir $(TO_HEADERS)/$(OTHER_FOLDER) $(TO_HEADERS) $(TO_OTHERS)/pkgconfig $(TO_OTHERS) $(TO_MANUALS)
