# Builds the programs: each folder programs/NAME with a main.c, and programs/common beside it, gives target/tac-NAME. For GNU make.
# `make clean` removes what was built so, and leaves the library. CC, CFLAGS and the folder `out` can be set: make CFLAGS=-g out=target/debug
CFLAGS ?= -std=c99 -O2 -Wall -Wextra
out = target
library = target/staticlib/libtac.a
headers = $(wildcard include/*.h programs/*/*.h)
programs = $(patsubst programs/%/main.c,$(out)/tac-%,$(wildcard programs/*/main.c))
# The objects of a folder.
objects = $(patsubst %.c,$(out)/%.o,$(wildcard programs/$(1)/*.c))

all: $(programs)

.SECONDEXPANSION:
$(programs): $(out)/tac-%: $$(call objects,$$*) $(call objects,common) $(library)
	$(CC) $(CFLAGS) $(LDFLAGS) -o $@ $^ $(LDLIBS)

$(out)/programs/%.o: programs/%.c $(headers) Makefile
	@mkdir -p $(@D)
	$(CC) $(CPPFLAGS) $(CFLAGS) -I include -I programs/common -c -o $@ $<

# It is proved first, which takes minutes.
$(library): $(shell find crates crates.txt -name out -prune -o -type f -print)
	tools/library

clean:
	rm -rf $(out)/programs $(programs)

.DELETE_ON_ERROR:
.PHONY: all clean
