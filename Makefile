# The C library: the proved core (`tools/staticlib` of lafkuno, lafkuno_why, lafkuno_anew) and the layer for ArrowSchema and ArrowArray
# (bindings/c) in one static and one shared library.
#     make                          builds target/c/liblafkuno.a and target/c/liblafkuno.so
#     make install PREFIX=/usr      headers, libraries, lafkuno.pc, a CMake config; DESTDIR is put in front
VERSION := $(shell sed -n 's/^.define LAFKUNO_VERSION "\(.*\)"/\1/p' include/lafkuno.h)
# the soname: while the first number is 0, the second one changes with the calls
SERIES := $(word 1,$(subst ., ,$(VERSION))).$(word 2,$(subst ., ,$(VERSION)))
LAFKUNO_LIB_DIR ?= target/staticlib
CORE := $(foreach name,lafkuno lafkuno_why lafkuno_anew,$(LAFKUNO_LIB_DIR)/lib$(name).a)
OUT ?= target/c
PREFIX ?= /usr/local
LIBDIR ?= $(PREFIX)/lib
INCLUDEDIR ?= $(PREFIX)/include
CFLAGS ?= -O2
AR ?= ar
OBJCOPY ?= objcopy
ALL_CFLAGS := -std=c11 -Wall -Wextra -Werror -pedantic -fPIC -fvisibility=hidden -Iinclude $(CFLAGS)

HEADERS := $(wildcard include/*.h)
OBJECTS := $(patsubst bindings/c/%.c,$(OUT)/%.o,$(wildcard bindings/c/*.c))
SHARED := liblafkuno.so.$(VERSION)

all: $(OUT)/liblafkuno.a $(OUT)/$(SHARED)

$(CORE):
	@echo "$@ is missing: run 'tools/staticlib $(patsubst lib%.a,%,$(notdir $@))', or set LAFKUNO_LIB_DIR" >&2; exit 1

$(OUT)/%.o: bindings/c/%.c bindings/c/layer.h $(HEADERS)
	@mkdir -p $(OUT)
	$(CC) $(ALL_CFLAGS) -c $< -o $@

# the layer as one object, which shows only what lafkuno_arrow.h declares
$(OUT)/layer/arrow.o: $(OBJECTS)
	@mkdir -p $(OUT)/layer
	$(LD) -r -o $@ $(OBJECTS)
	$(OBJCOPY) --localize-hidden $@

# the core's objects and the layer's in one archive
$(OUT)/liblafkuno.a: $(OUT)/layer/arrow.o $(CORE)
	@rm -rf $@ $(OUT)/core && mkdir -p $(OUT)/core
	cd $(OUT)/core && for core in $(abspath $(CORE)); do $(AR) x $$core; done
	$(AR) rcs $@ $< $(OUT)/core/*.o

# its other names are no symbolic links, which rt allows nowhere in the repository
$(OUT)/$(SHARED): $(OUT)/layer/arrow.o $(CORE)
	$(CC) -shared -Wl,-soname,liblafkuno.so.$(SERIES) -Wl,-z,defs $(CFLAGS) $(LDFLAGS) -o $@ $< \
	    -Wl,--whole-archive $(CORE) -Wl,--no-whole-archive
	ln -f $@ $(OUT)/liblafkuno.so.$(SERIES)
	ln -f $@ $(OUT)/liblafkuno.so

# what names the places of an installation
$(OUT)/package/%: bindings/c/%.in include/lafkuno.h FORCE
	@mkdir -p $(OUT)/package
	sed -e 's|@VERSION@|$(VERSION)|g' -e 's|@PREFIX@|$(PREFIX)|g' -e 's|@LIBDIR@|$(LIBDIR)|g' -e 's|@INCLUDEDIR@|$(INCLUDEDIR)|g' \
	    -e 's|@SERIES@|$(SERIES)|g' $< >$@

PACKAGE := lafkuno.pc lafkunoConfig.cmake lafkunoConfigVersion.cmake

install: all $(addprefix $(OUT)/package/,$(PACKAGE))
	install -d $(DESTDIR)$(INCLUDEDIR) $(DESTDIR)$(LIBDIR)/pkgconfig $(DESTDIR)$(LIBDIR)/cmake/lafkuno
	install -m 644 $(HEADERS) $(DESTDIR)$(INCLUDEDIR)
	install -m 644 $(OUT)/liblafkuno.a $(DESTDIR)$(LIBDIR)
	install -m 755 $(OUT)/$(SHARED) $(DESTDIR)$(LIBDIR)
	ln -sf $(SHARED) $(DESTDIR)$(LIBDIR)/liblafkuno.so.$(SERIES)
	ln -sf liblafkuno.so.$(SERIES) $(DESTDIR)$(LIBDIR)/liblafkuno.so
	install -m 644 $(OUT)/package/lafkuno.pc $(DESTDIR)$(LIBDIR)/pkgconfig
	install -m 644 $(OUT)/package/lafkunoConfig.cmake $(OUT)/package/lafkunoConfigVersion.cmake $(DESTDIR)$(LIBDIR)/cmake/lafkuno

clean:
	rm -rf $(OUT)

FORCE:
.PHONY: all install clean FORCE
