# Included by the makefiles of the examples, with ROOT set: of TARGET the library (ARCHIVE), the compiler (COMPILE), and what runs a program
# (RUN). BARE has flags and files for a compiler without a C library. Assumes a release, which has the libraries in lib/, or the kit's `rt`;
# and examples/targets.
TARGET := x86_64-linux
ROW := $(shell awk '$$1 == "$(TARGET)"' $(ROOT)/examples/targets)
$(if $(ROW),,$(error examples/targets has no $(TARGET)))
ARCHIVE := $(or $(wildcard $(ROOT)/lib/$(TARGET)/liboatcastle.a),$(ROOT)/$(word 2,$(ROW))/liboatcastle.a)
RUN := $(filter-out -,$(word 3,$(ROW)))
COMPILE := $(if $(filter cc,$(word 4,$(ROW))),$(CC),$(wordlist 4,99,$(ROW)))
NO_LIBRARY := -ffreestanding -fno-builtin -fno-tree-loop-distribute-patterns -nostdlib -static -Wl,-z,noexecstack \
    -I$(ROOT)/examples/c/bare $(ROOT)/examples/c/bare/bare.c $(ROOT)/examples/firmware/memory.c
BARE := $(if $(filter qemu-arm qemu-riscv32,$(RUN)),$(NO_LIBRARY))
BARE_END := $(if $(BARE),-lgcc)

$(ROOT)/crates/oatcastle/out/liboatcastle.a:
	cd $(ROOT)/crates/oatcastle && rt lib --cpu x86-64

$(ROOT)/target/cross/%/liboatcastle.a:
	$(ROOT)/cross/build $*
