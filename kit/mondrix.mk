# Builds modules of the machine Mondrix. A Makefile sets these and then includes this file:
#
#   MANIFEST        NAME.in.toml, a description of the modules: make writes the manifest NAME.toml and build/modules.h,
#                   and the next eight follow from it, so that nobody computes an address; where a module has an input
#                   the Makefile may say, behind the line that includes this, how that file is made
#
# or, beside a manifest that is written by hand,
#
#   MODULES         their names; each gives NAME.elf
#   NAME.text       the address of its code, gates first
#   NAME.rodata     the address of its read-only data; without it, right after the code
#   NAME.data       the address of its data; without it, right after the read-only data
#   NAME.calls      the modules whose gates it calls; two may call one another
#   NAME.input      the address of its input area, where it has one
#   NAME.input_name the name by which files.c has its input, beside /dev/stdin
#   NAME.symbols    further addresses, as gate=0x80010020
#
# and of each module, in both cases,
#
#   NAME.sources    its files in C (.c) and assembly (.S, with the preprocessor, and .s); without it NAME.c
#   NAME.malloc     the bytes that malloc has in it, where it uses malloc; without it MALLOC
#   NAME.cflags     further words for the compiler, after CFLAGS
#   NAME.ldflags    further words for the linker itself, as --defsym=a=1
#   NAME.libs       libraries and objects that it is linked with, as -lm or a path
#   CFLAGS          further words for the compiler, for all modules
#   OPTIMIZE        -O2 where it isn't set
#   MALLOC          16384 where it isn't set
#   COMPILER        gcc, or clang with ld.lld
#   CROSS           what the tools' names begin with
#
# `make V=1` shows the commands; `make clean` takes away what was made.

MONDRIX_KIT := $(patsubst %/,%,$(dir $(abspath $(lastword $(MAKEFILE_LIST)))))
COMPILER ?= gcc
CROSS ?= riscv64-unknown-elf-
OPTIMIZE ?= -O2
MALLOC ?= 16384
BUILD ?= build
comma := ,
space := $(subst ,, )
quote := '
mondrix.at := $(if $(V),,@)
mondrix.say = $(if $(V)$(findstring s,$(firstword -$(MAKEFLAGS))),,@echo "  $(1)")

mondrix.machine := -march=rv32im -mabi=ilp32
mondrix.gcc := $(CROSS)gcc --specs=picolibc.specs $(mondrix.machine)
mondrix.flags := $(mondrix.machine) -mno-relax -mstrict-align -fno-pic $(OPTIMIZE) -gdwarf-4 -ffunction-sections \
    -fdata-sections -fno-asynchronous-unwind-tables -fno-omit-frame-pointer -ftls-model=local-exec -Wmain \
    $(foreach map,debug macro,'-f$(map)-prefix-map=$(CURDIR)=.' -f$(map)-prefix-map=$(MONDRIX_KIT)=kit)
# A section of the module's own goes with the __start_ and __stop_ of its name.
mondrix.link := -z max-page-size=4 -z nostart-stop-gc --no-relax --build-id=none --gc-sections

# The words for the compiler of a module, and those of its link: first what stands before the objects, then these.
mondrix.words = $(mondrix.cc) $(CFLAGS) $($(1).cflags)
ifeq ($(COMPILER),clang)
# Headers and libraries are those of gcc and picolibc.
mondrix.headers := $(shell $(mondrix.gcc) -E -v -x c /dev/null 2>&1 | sed -n 's|^ \(/.*picolibc.*/include\)$$|\1|p')
mondrix.libgcc := $(shell $(mondrix.gcc) -print-libgcc-file-name)
mondrix.libraries := $(mondrix.headers)/../lib/$(shell $(mondrix.gcc) -print-multi-directory)
mondrix.cc := clang --target=riscv32-unknown-elf $(filter-out -mstrict-align,$(mondrix.flags)) \
    -isystem $(mondrix.headers)
mondrix.ld = ld.lld $(mondrix.link) -T $(MONDRIX_KIT)/module.ld -L $(mondrix.libraries) $(2) -o $@ $(3) \
    --start-group $($(1).libs) -lc $(mondrix.libgcc) --end-group
else
mondrix.cc := $(mondrix.gcc) $(mondrix.flags)
mondrix.ld = $(mondrix.words) -nostdlib -static -T $(MONDRIX_KIT)/module.ld \
    -Wl$(comma)$(subst $(space),$(comma),$(strip $(mondrix.link) $(2))) -o $@ $(3) \
    -Wl,--start-group $($(1).libs) -lc -lgcc -Wl,--end-group
endif

.PHONY: all clean mondrix.changed
.DELETE_ON_ERROR:
all:
ifdef MANIFEST
include $(MONDRIX_KIT)/place.mk
endif
all: $(MODULES:%=%.elf)

# mondrix.remember FILE EXPRESSION: a file that is written anew where the words are other than the last time.
define mondrix.remember
ifneq ($$(file <$(1)),$$(strip $(2)))
$(1): mondrix.changed
endif
$(1):
	@mkdir -p $$(@D)
	@printf '%s\n' '$$(subst $$(quote),'\'',$$(strip $(2)))' >$$@
endef

# What a module doesn't use of these the linker drops. Of each module are the start, with its name, the heap and the
# input.
mondrix.objects := $(patsubst %,$(BUILD)/kit/%.o,begin enter guard foreign names leave console lock memory files clock)
$(eval $(call mondrix.remember,$(BUILD)/kit/words,$$(mondrix.cc)))
$(BUILD)/kit/%.o: $(MONDRIX_KIT)/%.c $(MONDRIX_KIT)/mondrix.h $(MONDRIX_KIT)/input.h $(BUILD)/kit/words
	$(mondrix.at)$(mondrix.cc) $(mondrix.$*) -c -o $@ $<
# (without lines, so that a debugger's `step` goes from a gate into what it calls)
$(BUILD)/kit/enter.o: $(MONDRIX_KIT)/enter.S $(BUILD)/kit/words
	$(mondrix.at)$(mondrix.cc) -g0 -c -o $@ $<
mondrix.memory := -O2 -fno-builtin $(if $(filter gcc,$(COMPILER)),-fno-tree-loop-distribute-patterns)

# The addresses of a module's gates, for the links of those that call them. They follow from the module's own objects:
# a trial links them without any other module.
$(BUILD)/%.gates.ld: $(BUILD)/%.trial
	$(mondrix.at)$(CROSS)objdump -t -j .gates $< | awk '$$2 == "g" && $$3 == "F" { print $$6 " = 0x" $$1 ";" }' >$@

# mondrix.compile MODULE SOURCE OBJECT
define mondrix.compile
$(3): $(2) $(BUILD)/$(1)/words $(if $(MANIFEST),| $(BUILD)/modules.h)
	$$(call mondrix.say,compile $(2))
	@mkdir -p $$(@D)
	$$(mondrix.at)$$(call mondrix.words,$(1)) $$(mondrix.fat) -I $$(MONDRIX_KIT) $(if $(MANIFEST),-I $(BUILD)) \
	    -MMD -MP -c -o $$@ $$<
-include $(3:.o=.d)
endef
mondrix.object = $(BUILD)/$(1)/$(subst ../,__/,$(2)).o
# The gates stand in the object too.
mondrix.fat = $(if $(filter gcc,$(COMPILER)),$(if $(filter -flto%,$(mondrix.words)),-ffat-lto-objects))

define mondrix.module
$(1).all := $$(or $$($(1).sources),$(1).c)
$$(foreach other,$$(filter-out %.c %.S %.s,$$($(1).all)),$$(error $$(other) in $(1).sources is no file in C (.c) or \
    assembly (.S, .s)))
$(1).objects := $$(foreach source,$$($(1).all),$$(call mondrix.object,$(1),$$(source)))
$(1).own := $$(patsubst %,$$(BUILD)/$(1)/%.o,start malloc input)
$(1).gates := $$(if $$(MANIFEST),,$$($(1).calls:%=$$(BUILD)/%.gates.ld))
$(1).pins := $$(if $$($(1).rodata),--defsym=RODATA=$$($(1).rodata)) $$(if $$($(1).data),--defsym=DATA=$$($(1).data)) \
    $$($(1).input:%=--defsym=__module_input=%) $$($(1).symbols:%=--defsym=%)
$(1).place := $$(if $$(MANIFEST),$$(BUILD)/$(1).place)
$$(eval $$(call mondrix.remember,$$(BUILD)/$(1)/words,$$$$(call mondrix.words,$(1))))
$$(eval $$(call mondrix.remember,$$(BUILD)/$(1)/heap,$$$$(or $$$$($(1).malloc),$$$$(MALLOC))))
$$(eval $$(call mondrix.remember,$$(BUILD)/$(1)/input_name,$$$$($(1).input_name)))
$$(eval $$(call mondrix.remember,$$(BUILD)/$(1)/libs,$$$$($(1).ldflags) $$$$($(1).libs)))
$$(foreach source,$$($(1).all),$$(eval $$(call mondrix.compile,$(1),$$(source),$$(call \
    mondrix.object,$(1),$$(source)))))
$$(BUILD)/$(1)/start.o: $$(MONDRIX_KIT)/start.S $$(BUILD)/kit/words
	@mkdir -p $$(@D)
	$$(mondrix.at)$$(mondrix.cc) '-DMONDRIX_NAME="$(1)"' -c -o $$@ $$<
$$(BUILD)/$(1)/malloc.o: $$(MONDRIX_KIT)/malloc.c $$(MONDRIX_KIT)/mondrix.h $$(BUILD)/kit/words $$(BUILD)/$(1)/heap
	$$(mondrix.at)$$(mondrix.cc) -DMONDRIX_MALLOC=$$(or $$($(1).malloc),$$(MALLOC)) -c -o $$@ $$<
$$(BUILD)/$(1)/input.o: $$(MONDRIX_KIT)/input.c $$(MONDRIX_KIT)/input.h $$(MONDRIX_KIT)/mondrix.h $$(BUILD)/kit/words \
    $$(BUILD)/$(1)/input_name
	$$(mondrix.at)$$(mondrix.cc) $$($(1).input_name:%='-DMONDRIX_INPUT_NAME="%"') -c -o $$@ $$<
$(1).linked := $$($(1).own) $$(mondrix.objects) $$($(1).objects)
$(1).needs := $$($(1).linked) $$(filter-out -%,$$($(1).libs)) $$(BUILD)/$(1)/libs $$(MONDRIX_KIT)/module.ld \
    $$(firstword $$(MAKEFILE_LIST))
$$(BUILD)/$(1).trial: $$($(1).needs)
	$$(mondrix.at)$$(call mondrix.ld,$(1),--defsym=TEXT=$$(or $$($(1).text),0x80000000) $$($(1).pins) \
	    --unresolved-symbols=ignore-all $$($(1).ldflags),$$($(1).linked))
$(1).elf: $$($(1).needs) $$($(1).gates) $$($(1).place)
	$$(call mondrix.say,link $$@)
	$$(mondrix.at)$$(call mondrix.ld,$(1),$$(if $$(MANIFEST),@$$($(1).place),--defsym=TEXT=$$(or $$($(1).text),$$(error \
	    $(1).text isn't set))) $$($(1).pins) $$($(1).ldflags),$$($(1).linked) $$($(1).gates)) $$(call mondrix.why,$(1))
endef
$(foreach name,$(MODULES),$(eval $(call mondrix.module,$(name))))

clean:
	rm -rf $(BUILD) $(MODULES:%=%.elf) $(MANIFEST.made)
