# guest.mk - the rules that build a guest. In the folder of my.c or my.S:
#   make -f PATH/TO/guests/kit/guest.mk my.elf
# clang 14 with lld builds all guests here but stale:
#   make -C guests -B CC='clang --target=riscv32-unknown-elf -mno-relax -fuse-ld=lld' \
#     TARGET='-march=$(MARCH) -mabi=ilp32' \
#     LIBS="$(riscv64-unknown-elf-gcc -march=rv32i -mabi=ilp32 -print-libgcc-file-name)"
KIT   := $(dir $(lastword $(MAKEFILE_LIST)))
CROSS ?= riscv64-unknown-elf-
CC    := $(CROSS)gcc

# Where there is nothing to build, no compiler is asked for.
NEED_CC = @command -v $(firstword $(CC)) >/dev/null || { echo "$(firstword $(CC)) is missing: \
install the Debian package gcc-riscv64-unknown-elf, or give another prefix by CROSS=" >&2; exit 1; }

# With rv32im products and quotients are instructions. MARCH=rv32i leaves them to functions of
# libgcc, which take more turns.
MARCH   ?= rv32im
# -mstrict-align: an access at no multiple of its width is fault 6.
TARGET   = -march=$(MARCH) -mabi=ilp32 -mcmodel=medlow -mstrict-align
CFLAGS  ?= -O2
LIBS    ?= -lgcc
# DEBUG=-g leaves debug data in the file, by which ./workbench explain names lines of the source. The
# code is the same.
DEBUG   ?= -g0
STRIP_-g0 := -Wl,--strip-debug
COMPILE  = $(TARGET) -std=gnu11 -Wall -Wextra -Werror $(DEBUG) -ffreestanding \
           -fno-pic -fno-common -fno-asynchronous-unwind-tables \
           -fno-stack-protector -ffunction-sections -fdata-sections -I$(KIT)
# max-page-size: ranges are not rounded to pages, so the file can be small.
LINK    := -static -nostdlib -Wl,--gc-sections -Wl,-z,max-page-size=4 \
           -Wl,--build-id=none $(STRIP_$(DEBUG)) -Wl,--fatal-warnings \
           -T $(KIT)tclocks.ld

%.elf: %.c $(KIT)tclocks.h $(KIT)tclocks.ld $(KIT)runtime.c
	$(NEED_CC)
	$(CC) $(COMPILE) $(CFLAGS) $(LINK) -o $@ $< $(KIT)runtime.c $(LIBS)
	@chmod -x $@

%.elf: %.S $(KIT)tclocks.inc $(KIT)tclocks.ld
	$(NEED_CC)
	$(CC) $(COMPILE) $(LINK) -o $@ $<
	@chmod -x $@
