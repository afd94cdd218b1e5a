# Makes the C library from its proved archive. `build/library.sh` calls it from the top of the repository, and sets
# ARCHIVE, OUT, CC and AR for the processor. HEAP is heap or arena.
CC = cc
AR = ar
HEAP = heap
CFLAGS = -O2
VERSION := $(shell cat VERSION)
warnings = -std=c99 -Wall -Wextra -pedantic

all: $(OUT)/libtalft.a $(OUT)/libtalft.so $(OUT)/talft.pc $(OUT)/talft.py

# heap.o is always rebuilt, since HEAP may have changed.
.PHONY: all $(OUT)/heap.o
$(OUT)/heap.o: embed/$(HEAP).c embed/rattle.h include/talft.h
	$(CC) $(warnings) $(CFLAGS) -fPIC -Iinclude -c embed/$(HEAP).c -o $@

$(OUT)/libtalft.a: $(ARCHIVE) $(OUT)/heap.o
	rm -f $@
	cd $(OUT) && $(AR) x $(abspath $(ARCHIVE)) && $(AR) rcsD libtalft.a *.o && ls *.o | grep -vx heap.o | xargs rm -f

$(OUT)/libtalft.so: $(OUT)/libtalft.a embed/talft.map
	$(CC) -shared -Wl,--whole-archive $(OUT)/libtalft.a -Wl,--no-whole-archive -Wl,--version-script=embed/talft.map \
	  -Wl,--gc-sections -Wl,-soname,libtalft.so.0 -Wl,-z,defs -s -o $@

$(OUT)/talft.pc: embed/talft.pc.in VERSION
	sed 's|@VERSION@|$(VERSION)|' embed/talft.pc.in >$@

$(OUT)/talft.py: embed/talft.py
	cp embed/talft.py $@
