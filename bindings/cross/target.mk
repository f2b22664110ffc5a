# make TARGET=.. and make quick TARGET=.. build the library for another processor into out/TARGET and out/quick/TARGET: docs/FIRMWARE.md.
#
# aarch64-linux-gnu has all calls, and is built by the kit's own target. The others have the device that survives power cuts, for firmware: the core is
# compiled from the LLVM module that the proved build hands to the kit's clang, and plain C by Debian's clang. What they ask for: malloc, calloc, realloc,
# free, memcpy, memmove, memset, memcmp, and the compiler's own library (libgcc).
TARGETS := aarch64-linux-gnu aarch64-none-elf riscv64 riscv32 thumbv7em thumbv6m wasm32
$(if $(filter $(TARGET),$(TARGETS)),,$(error TARGET is one of $(TARGETS)))
BARE_CC ?= clang
KIT_CLANG := $(KIT)toolchain/bin/clang
KIT_AR := $(KIT)toolchain/bin/llvm-ar
OPTIMIZE ?= -Os
# A module that names no processor. Both compilers take its target from their words.
PLAIN_MODULE := sed -E 's/ "(target-cpu|tune-cpu|target-features|probe-stack|stack-probe-size)"="[^"]*"//g'
BUILT := $(if $(filter aarch64-linux-gnu,$(TARGET)),libmintlintel.so.0,libmintlintel.a)

.SECONDARY:

all: out/$(TARGET)/$(BUILT)

quick: $(QUICK)/$(TARGET)/$(BUILT)
	@echo "the library in $(abspath $(QUICK))/$(TARGET) is not proved"

# The modules of the proved build, and of the other one.
out/module/%.ll: ../crates/%/src cross/proved $(SOURCES)
	cross/proved $* $(@D)

$(CRATES:%=$(QUICK)/module/%.ll): $(QUICK)/unproved ;

ifeq ($(TARGET),aarch64-linux-gnu)
CC := aarch64-linux-gnu-gcc
COMPILE := $(CC) $(wordlist 2,99,$(COMPILE))
KIT_TARGET := aarch64-unknown-linux-gnu

out/$(TARGET)/%.o: ../crates/%/src cross/proved $(SOURCES)
	cross/proved $* out/module/$(TARGET) $(KIT_TARGET)
	mkdir -p $(@D) && cp out/module/$(TARGET)/$*.o $@

$(QUICK)/$(TARGET)/%.o: $(QUICK)/module/%.ll
	mkdir -p $(@D)
	$(PLAIN_MODULE) $< > $(@D)/$*.ll
	$(KIT_CLANG) --target=$(KIT_TARGET) -O2 -fPIC -ffunction-sections -Wno-override-module -c $(@D)/$*.ll -o $@

$(QUICK)/$(TARGET)/libmintlintel.a: SUFFIX := '-DMINTLINTEL_SUFFIX=", not proved"'
%/$(TARGET)/libmintlintel.a: $(CRATES:%=\%/$(TARGET)/%.o) $(PLAIN) $(HEADERS) cross/memory.c cross/target.mk
	rm -rf $(@D)/objects && mkdir -p $(@D)/objects
	cd $(@D)/objects && $(COMPILE) $(SUFFIX) $(abspath $(PLAIN)) && $(COMPILE) -std=c11 -I$(abspath src) -Dmalloc=mtl_malloc -Drealloc=mtl_realloc -Dfree=mtl_free $(abspath cross/memory.c) -o heap.o
	rm -f $@ && $(KIT_AR) rcsD $@ $(filter %.o,$^) $(@D)/objects/*.o
else
# The name of a target to which the module is narrowed, and the words of both compilers.
NARROW_riscv32 := riscv32-unknown-unknown-elf
NARROW_thumbv7em := thumbv7em-none-unknown-eabi
NARROW_thumbv6m := thumbv6m-none-unknown-eabi
NARROW_wasm32 := wasm32-unknown-unknown
NARROW := $(NARROW_$(TARGET))
WORDS_aarch64-none-elf := --target=aarch64-none-elf -mstrict-align -mgeneral-regs-only
WORDS_riscv64 := --target=riscv64-unknown-elf -march=rv64imac -mabi=lp64 -mcmodel=medany
WORDS_riscv32 := --target=riscv32-unknown-elf -march=rv32imac -mabi=ilp32
WORDS_thumbv7em := --target=thumbv7em-none-eabi -mcpu=cortex-m4 -mfloat-abi=soft
WORDS_thumbv6m := --target=thumbv6m-none-eabi -mcpu=cortex-m0 -mfloat-abi=soft
WORDS_wasm32 := --target=wasm32-unknown-unknown
# A Cortex-M0 has no atomic instructions beside its loads and stores of a word.
ATOMIC_thumbv6m := '-D__atomic_load_n(at,order)=(*(at))'
# Enumerations are as large as in objects of arm-none-eabi-gcc. No struct or call of a header has one.
ENUMS := $(if $(filter thumb%,$(TARGET)),-fshort-enums)
WORDS := $(WORDS_$(TARGET)) $(OPTIMIZE) -ffunction-sections -fdata-sections
BARE := $(addprefix src/,durable.c opening.c given.c room.c torn.c stamp.c crc.c limits.c) cross/memory.c
BARE_COMPILE := $(BARE_CC) $(WORDS) -std=c11 -ffreestanding -fno-builtin $(ENUMS) $(ATOMIC_$(TARGET)) -g $(ANYWHERE) -Wall -Wextra -Werror -Icross/include -Iinclude -Isrc -c

%/$(TARGET)/core.o: %/module/durable_exports.ll cross/narrow cross/narrow.ll cross/target.mk
	mkdir -p $(@D)
	$(if $(NARROW),cross/narrow $< $(NARROW) $(@D)/core.ll,$(PLAIN_MODULE) $< > $(@D)/core.ll)
	$(KIT_CLANG) $(WORDS) -Wno-override-module -c $(@D)/core.ll -o $@

%/$(TARGET)/libmintlintel.a: %/$(TARGET)/core.o $(BARE) $(HEADERS) $(wildcard cross/include/*.h) cross/target.mk
	for file in $(BARE); do $(BARE_COMPILE) $$file -o $(@D)/$$(basename $$file .c).o || exit 1; done
	rm -f $@ && $(KIT_AR) rcsD $@ $(@D)/core.o $(patsubst %.c,$(@D)/%.o,$(notdir $(BARE)))
endif
